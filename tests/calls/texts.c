/* The calls that take texts and nothing else, and those of paths: a line to a call. Of a call that writes a text, the number of its refusal,
 * 0 where it is accepted, its length, and its lines one behind the other, with a blank for each LF; of one that reads, the number of its
 * refusal, the line, and some of what was read.
 *
 * What is expected of the printed lines comes from 01, "Texts and the program", from 02, T-01, for those of a plan, and from T-04 for those of
 * a JSON action: the register's refusal comes first, then the clock's, then the action's, then the gate's. A clock that is not one line `now=`
 * is a 19, a moment above the last one a 2. The texts are those of case R, as examples/case-r, examples/json and examples/plan have them. */
#include "calls.h"

static const char case_r_text[] =
    "register=1\nactors=2\nactor=1\nkind=human\nowner=0\nactor=2\nkind=machine\nowner=1\n"
    "resources=1\nresource=10\npublic=0\nkeeper=1\nscope=site/a\n"
    "claims=2\nclaim=1\nparent=0\ngrantor=1\nholder=1\nresource=10\nrights=19\nweight=1000\nexpiry=0\n"
    "claim=2\nparent=1\ngrantor=1\nholder=2\nresource=10\nrights=1\nweight=600\nexpiry=2000\n";

#define READS "now=1999\nactor=2\nflags=0\nuses=1\nuse=10\nright=0\ngoverns=0\n"
#define WRITES "now=1999\nactor=2\nflags=0\nuses=2\nuse=10\nright=0\nuse=10\nright=1\ngoverns=0\n"
#define COERCES "now=1999\nactor=2\nflags=64\nuses=0\ngoverns=0\n"
#define ABSENT "now=1999\nactor=9\nflags=0\nuses=0\ngoverns=0\n"
#define JSON_FLAGS                                                                                                                        \
    "\"increases_machine_sovereignty\":false,\"resists_human_correction\":false,\"bypasses_verifier\":false,\"weakens_verifier\":false,"   \
    "\"disables_corrigibility\":false,\"machine_coalition_dominion\":false,\"coerces\":false,\"deceives\":false,"                         \
    "\"self_modification_weakens_verifier\":false,\"machine_coalition_reduces_freedom\":false"
#define JSON_ACTION                                                                                                                       \
    "{\"id\":\"r-1\",\"actor\":\"2\",\"capability_kind\":\"WRITE\",\"resources_read\":[\"10\"],\"resources_write\":[\"10\"],"             \
    "\"resources_execute\":[],\"flags\":{" JSON_FLAGS "},\"trust_domain\":\"default\",\"delegation_depth\":0}"

static const uint8_t *bytes(const char *text) {
    return (const uint8_t *)text;
}

/* Prints a text in one line, and whether the buffer keeps its bytes behind it. */
static void shown(const char *label, guvrendik_written w, const uint8_t *buffer, size_t len) {
    size_t kept = w.length;
    printf("%s: %u length=%zu ", label, (unsigned)w.refusal, w.length);
    for (size_t i = 0; i < w.length; i++) putchar(buffer[i] == '\n' ? ' ' : buffer[i]);
    while (kept < len && buffer[kept] == '#') kept++;
    printf("%s\n", kept == len ? "kept" : "written past its end");
}

static uint8_t page[GUVRENDIK_TEXT_REGISTER];

static uint8_t *fresh(size_t len) {
    memset(page, '#', len);
    return page;
}

static void action_line(const char *label, const char *r, const char *a, size_t len) {
    uint8_t *buffer = fresh(len);
    shown(label, guvrendik_verdict_text(bytes(r), strlen(r), bytes(a), strlen(a), buffer, len), buffer, len);
}

static void json_line(const char *label, const char *r, const char *clock, const char *a, size_t len) {
    uint8_t *buffer = fresh(len);
    shown(label, guvrendik_json_verdict_text(bytes(r), strlen(r), bytes(clock), strlen(clock), bytes(a), strlen(a), buffer, len), buffer, len);
}

static void plan_line(const char *label, const char *r, const char *p, size_t len) {
    uint8_t *buffer = fresh(len);
    shown(label, guvrendik_plan_verdict_text(bytes(r), strlen(r), bytes(p), strlen(p), buffer, len), buffer, len);
}

static void printed(void) {
    size_t room = GUVRENDIK_TEXT_VERDICT;
    action_line("verdict on case R", case_r_text, WRITES, room);
    action_line("verdict on a read", case_r_text, READS, room);
    action_line("verdict on a flag", case_r_text, COERCES, room);
    action_line("verdict on an actor that is absent", case_r_text, ABSENT, room);
    action_line("verdict on no register", "", WRITES, room);
    action_line("verdict on no action", case_r_text, "", room);
    action_line("verdict in 31 bytes", case_r_text, READS, 31);
    action_line("verdict in 30 bytes", case_r_text, READS, 30);
    json_line("verdict on a JSON action", case_r_text, "now=1999\n", JSON_ACTION, room);
    json_line("verdict on a JSON action at 2000", case_r_text, "now=2000\n", JSON_ACTION, room);
    json_line("verdict on no clock", case_r_text, "", JSON_ACTION, room);
    json_line("verdict on a clock of two lines", case_r_text, "now=1999\nnow=1999\n", JSON_ACTION, room);
    json_line("verdict on a clock of milliseconds", case_r_text, "now=1700000000000\n", JSON_ACTION, room);
    json_line("verdict on no JSON action", case_r_text, "now=1999\n", "", room);
    json_line("19 of the register before 19 of the clock", "", "", "", room);
    json_line("19 of the clock before 24", case_r_text, "", "", room);
    json_line("JSON verdict in 46 bytes", case_r_text, "now=1999\n", JSON_ACTION, 46);
    json_line("JSON verdict in 45 bytes", case_r_text, "now=1999\n", JSON_ACTION, 45);
    room = GUVRENDIK_TEXT_PLAN_VERDICT;
    plan_line("verdicts on a plan", case_r_text, "plan=4\nstep=action\n" READS "step=plan\nplan=1\nstep=action\n" WRITES
              "step=action\n" COERCES "step=action\n" READS, room);
    plan_line("verdicts on an empty plan", case_r_text, "plan=0\n", room);
    plan_line("plan with an actor that is absent", case_r_text, "plan=2\nstep=action\n" READS "step=action\n" ABSENT, room);
    plan_line("plan that ends early", case_r_text, "plan=2\nstep=action\n" READS, room);
    plan_line("plan of 65 steps", case_r_text, "plan=65\n", room);
    plan_line("plan without a register", "", "plan=0\n", room);
    plan_line("plan verdict in 23 bytes", case_r_text, "plan=0\n", 23);
    plan_line("plan verdict in 22 bytes", case_r_text, "plan=0\n", 22);
}

static void action_read(const char *label, const char *text) {
    guvrendik_action_read y = guvrendik_read_action(bytes(text), strlen(text));
    printf("%s: %u line=%zu actor=%u flags=%u now=%llu used=%zu\n", label, (unsigned)y.refusal, y.line, (unsigned)y.action.actor,
           (unsigned)y.action.flags, (unsigned long long)y.action.now, y.action.used);
}

static void json_read(const char *label, const char *text, uint64_t moment) {
    guvrendik_json_read y = guvrendik_read_json(bytes(text), strlen(text), moment);
    printf("%s: %u kind=%u id=%.*s used=%zu now=%llu\n", label, (unsigned)y.refusal, (unsigned)y.kind, (int)y.id_len, (const char *)y.id,
           y.action.used, (unsigned long long)y.action.now);
}

static void json_written(const char *label, Action a, const char *id, uint32_t kind, size_t len) {
    uint8_t *buffer = fresh(len);
    shown(label, guvrendik_write_json(a, bytes(id), strlen(id), kind, buffer, len), buffer, len);
}

static void read_and_written(void) {
    Action a = guvrendik_make_action(2, guvrendik_make_usage(10, GUVRENDIK_RIGHT_READ), 1999);
    action_read("action read", WRITES);
    action_read("action at the last moment", "now=4294967295\nactor=2\nflags=0\nuses=0\ngoverns=0\n");
    action_read("action in milliseconds", "now=1700000000000\nactor=2\nflags=0\nuses=0\ngoverns=0\n");
    action_read("action of 33 uses", "now=0\nactor=2\nflags=0\nuses=33\n");
    json_read("JSON read", JSON_ACTION, 1999);
    json_read("JSON read at the last moment", JSON_ACTION, GUVRENDIK_MAX_MOMENT);
    json_read("JSON read in milliseconds", JSON_ACTION, UINT64_C(1700000000000));
    json_read("no JSON read", "{}", 1999);
    json_written("JSON written", a, "r-1", GUVRENDIK_RIGHT_READ, GUVRENDIK_TEXT_JSON);
    json_written("JSON of a delete", guvrendik_make_action(2, guvrendik_make_usage(10, GUVRENDIK_RIGHT_DELETE), 0), "", 0, GUVRENDIK_TEXT_JSON);
    json_written("JSON of kind 17", a, "", GUVRENDIK_LIMIT_RIGHTS, GUVRENDIK_TEXT_JSON);
    json_written("JSON in one byte", a, "", 0, 1);
}

static void contained(const char *outer, const char *inner) {
    guvrendik_containment y = guvrendik_contains(bytes(outer), strlen(outer), bytes(inner), strlen(inner));
    printf("'%s' in '%s': %u length=%zu\n", inner, outer, (unsigned)y.contained, y.length);
}

/* The header's functions that build a use, an action of one use and a claim, and those that answer the part of a number. */
static void made(void) {
    Action a = guvrendik_make_action(2, guvrendik_make_usage(10, GUVRENDIK_RIGHT_WRITE), 1999), same = using(action(2, 1999), 10, 1);
    Claim c = guvrendik_make_claim(2, 1, 1, 2, 10, GUVRENDIK_CAN_READ | GUVRENDIK_CAN_DELEGATE, 600, 3, 2000);
    Claim by_hand = expiring(2000, weighing(600, claim(2, 1, 1, 2, 17)));
    by_hand.left = 3;
    printf("made: action=%d claim=%d\n", memcmp(&a, &same, sizeof a) == 0, memcmp(&c, &by_hand, sizeof c) == 0);
    printf("parts of rights:");
    for (uint32_t right = 0; right <= GUVRENDIK_LIMIT_RIGHTS; right++) printf(" %u", (unsigned)guvrendik_right_part(right));
    printf(" %u %u\nparts of flags:", (unsigned)guvrendik_right_part(32), (unsigned)guvrendik_right_part(UINT32_MAX));
    for (uint32_t flag = 0; flag <= GUVRENDIK_LIMIT_FLAGS; flag++) printf(" %u", (unsigned)guvrendik_flag_part(flag));
    printf(" %u %u\n", (unsigned)guvrendik_flag_part(32), (unsigned)guvrendik_flag_part(UINT32_MAX));
}

void text_lines(void) {
    printed();
    read_and_written();
    contained("site/a//", "site/a/b");
    contained("site/a", "site/ab");
    contained("", "x");
    contained("", "");
    made();
}
