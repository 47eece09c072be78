/* The C side of the comparison: reads requests from standard input, calls the library that it is linked with, and writes the
 * whole answers to standard output. src/driver.rs has the other end.
 *
 * A request is an operation's number, the number of bytes that follow, and those bytes; an answer is a word of marks, 0 where
 * nothing was noticed, and the answer's own bytes. Structs cross as they lie in memory: no byte of them is outside a field.
 *
 * Each slice that a call is lent ends at a page that cannot be touched; then the call is made again with each slice beginning
 * at such a page, an empty one as NULL, and both answers must be the same. */
#define _GNU_SOURCE
#include "guvrendik.h"

#include <errno.h>
#include <fcntl.h>
#include <pthread.h>
#include <stdbool.h>
#include <stdio.h>
#include <stdlib.h>
#include <string.h>
#include <sys/mman.h>
#include <ucontext.h>
#include <unistd.h>

#define SIZE(name, bytes) _Static_assert(sizeof(guvrendik_##name) == (bytes), "size of guvrendik_" #name);
#define FIELD(name, field, offset) _Static_assert(offsetof(guvrendik_##name, field) == (offset), #name "." #field);
#include "layout.h"
#undef SIZE
#undef FIELD

/* The same numbers as in src/requests.rs. */
enum {
    LOAD = 1,
    SOUND,
    GRANT,
    REVOKE,
    GATE,
    PLAN,
    CONTAINS,
    READ_REGISTER,
    WRITE_REGISTER,
    READ_ACTION,
    VERDICT_TEXT,
    READ_JSON,
    WRITE_JSON,
    CLEAR_RESOURCE,
    CLEAR_EXPIRED,
    PLAN_TEXT,
    SOUND_TABLE,
    ATTACH,
    FETCH,
    PROPOSE,
    CHECK_PROPOSAL,
    WHO,
    WHY_USE,
    BOUNDARY,
    THREADS,
    STACK,
    LENT_STACK,
    WORDS,
    WORD_STACK,
};

/* Marks: what was noticed beside an answer. */
enum {
    INPUT_CHANGED = 1,  /* bytes lent for reading are not as they were */
    WROTE_OUTSIDE = 2,  /* a byte beside the lent buffer changed */
    PLACES_DIFFER = 4,  /* the answers at the two placements are not the same */
    ERRNO_TOUCHED = 8,
    PLAIN_DIFFERS = 16, /* the plain gate's answer is not the gate's */
    LENT_DIFFERS = 32,  /* the answer of the register lent is not that by value */
};

static void fail(const char *what) {
    perror(what);
    exit(1);
}

/* ---- Pipes ---- */

enum { CHUNK = 1 << 20 };

static uint8_t incoming[CHUNK], outgoing[CHUNK];
static size_t incoming_at, incoming_end, outgoing_end;

static void flush_answers(void) {
    size_t at = 0;
    while (at < outgoing_end) {
        ssize_t wrote = write(STDOUT_FILENO, outgoing + at, outgoing_end - at);
        if (wrote < 0) {
            fail("write");
        }
        at += (size_t)wrote;
    }
    outgoing_end = 0;
}

static void answer(const void *bytes, size_t size) {
    const uint8_t *from = bytes;
    while (size > 0) {
        if (outgoing_end == CHUNK) {
            flush_answers();
        }
        size_t part = size < CHUNK - outgoing_end ? size : CHUNK - outgoing_end;
        memcpy(outgoing + outgoing_end, from, part);
        outgoing_end += part;
        from += part;
        size -= part;
    }
}

/* Whether that many bytes came before the input ended. Answers go out before a wait. */
static bool receive(void *bytes, size_t size) {
    uint8_t *to = bytes;
    while (size > 0) {
        if (incoming_at == incoming_end) {
            flush_answers();
            ssize_t got = read(STDIN_FILENO, incoming, CHUNK);
            if (got < 0) {
                fail("read");
            }
            if (got == 0) {
                return false;
            }
            incoming_at = 0;
            incoming_end = (size_t)got;
        }
        size_t part = size < incoming_end - incoming_at ? size : incoming_end - incoming_at;
        memcpy(to, incoming + incoming_at, part);
        incoming_at += part;
        to += part;
        size -= part;
    }
    return true;
}

/* The bytes of a request that are not yet taken. */
typedef struct {
    const uint8_t *at;
    size_t left;
} payload;

static const uint8_t *take_bytes(payload *p, size_t size) {
    if (size > p->left) {
        fprintf(stderr, "driver: request too short\n");
        exit(1);
    }
    const uint8_t *bytes = p->at;
    p->at += size;
    p->left -= size;
    return bytes;
}

static void take(payload *p, void *value, size_t size) { memcpy(value, take_bytes(p, size), size); }

static uint32_t take32(payload *p) {
    uint32_t number;
    take(p, &number, sizeof number);
    return number;
}

static uint64_t take64(payload *p) {
    uint64_t number;
    take(p, &number, sizeof number);
    return number;
}

/* ---- Lent memory ---- */

enum { ROOM = 1 << 18, BESIDE = 64, BESIDE_FILL = 0xC3 };

/* Memory with a page on each side that cannot be touched. */
typedef struct {
    uint8_t *start;
} arena;

static arena make_arena(void) {
    size_t page = (size_t)sysconf(_SC_PAGESIZE);
    uint8_t *start = mmap(NULL, ROOM + 2 * page, PROT_NONE, MAP_PRIVATE | MAP_ANONYMOUS, -1, 0);
    if (start == MAP_FAILED || mprotect(start + page, ROOM, PROT_READ | PROT_WRITE) != 0) {
        fail("arena");
    }
    return (arena){start + page};
}

typedef enum { AT_END, AT_START } placement;

static uint8_t *place(arena a, size_t size, placement where) {
    if (size + BESIDE > ROOM) {
        fprintf(stderr, "driver: slice too long\n");
        exit(1);
    }
    return where == AT_END ? a.start + ROOM - size : size == 0 ? NULL : a.start;
}

/* Bytes lent for reading. */
static const uint8_t *lend(arena a, const uint8_t *bytes, size_t size, placement where) {
    uint8_t *to = place(a, size, where);
    if (size > 0) {
        memcpy(to, bytes, size);
    }
    return to;
}

static uint32_t input_mark(const uint8_t *lent, const uint8_t *bytes, size_t size) {
    return size == 0 || memcmp(lent, bytes, size) == 0 ? 0 : INPUT_CHANGED;
}

/* A buffer lent for writing, filled, with known bytes on the side that has no guard. */
static uint8_t *lend_buffer(arena a, size_t size, uint8_t fill, placement where) {
    uint8_t *buffer = place(a, size, where);
    if (size > 0) {
        memset(buffer, fill, size);
    }
    memset(where == AT_END ? buffer - BESIDE : a.start + size, BESIDE_FILL, BESIDE);
    return buffer;
}

static uint32_t buffer_mark(arena a, const uint8_t *buffer, size_t size, placement where) {
    const uint8_t *beside = where == AT_END ? buffer - BESIDE : a.start + size;
    for (size_t i = 0; i < BESIDE; i++) {
        if (beside[i] != BESIDE_FILL) {
            return WROTE_OUTSIDE;
        }
    }
    return 0;
}

static arena arena_one, arena_two, arena_three;

/* ---- Answers ---- */

static void answer_marked(uint32_t marks, const void *bytes, size_t size) {
    answer(&marks, sizeof marks);
    answer(bytes, size);
}

static uint32_t errno_mark(void) {
    uint32_t mark = errno == 0 ? 0 : ERRNO_TOUCHED;
    errno = 0;
    return mark;
}

/* The register that the calls are about. */
static guvrendik_register current;

/* What is lent stands in memory that cannot be written for as long as the call takes. */
static void protect(arena a, int how) {
    if (mprotect(a.start, ROOM, how) != 0) {
        fail("protect");
    }
}

/* The register, lent at either end of a page, gets the answer that it gets by value; `lent_call` stores it at `answer`. */
static uint32_t lent_mark(void (*lent_call)(const uint8_t *bytes, void *answer), void *answer, const void *expected, size_t size) {
    uint32_t marks = 0;
    for (placement where = AT_END; where <= AT_START; where++) {
        const uint8_t *lent = lend(arena_one, (const uint8_t *)&current, sizeof current, where);
        protect(arena_one, PROT_READ);
        lent_call(lent, answer);
        protect(arena_one, PROT_READ | PROT_WRITE);
        marks |= memcmp(answer, expected, size) == 0 ? 0 : LENT_DIFFERS;
    }
    return marks;
}

static void sound_lent(const uint8_t *bytes, void *answer) {
    *(guvrendik_soundness *)answer = guvrendik_sound_lent(bytes, sizeof current);
}

static void do_sound(void) {
    struct {
        guvrendik_soundness sound;
        uint8_t fault[sizeof(guvrendik_fault)];
        guvrendik_soundness lent;
    } got = {.sound = guvrendik_sound(current)};
    guvrendik_fault fault = guvrendik_why_unsound(current);
    uint32_t marks = lent_mark(sound_lent, &got.lent, &got.sound, sizeof got.lent);
    memcpy(got.fault, &fault, sizeof fault);
    answer_marked(marks | errno_mark(), &got, sizeof got);
}

static void do_sound_table(payload *p) {
    guvrendik_soundness got[2];
    size_t size = p->left, count = size / sizeof(guvrendik_claim);
    const uint8_t *records = take_bytes(p, size);
    uint32_t marks = 0;
    for (placement where = AT_END; where <= AT_START; where++) {
        const uint8_t *lent = lend(arena_one, records, size, where);
        protect(arena_one, PROT_READ);
        got[where] = guvrendik_sound_table((const guvrendik_claim *)lent, count, current.version, current.actors, current.resources);
        protect(arena_one, PROT_READ | PROT_WRITE);
        marks |= input_mark(lent, records, size);
    }
    marks |= memcmp(&got[0], &got[1], sizeof *got) == 0 ? 0 : PLACES_DIFFER;
    answer_marked(marks | errno_mark(), got, sizeof *got);
}

static void do_grant(payload *p) {
    bool keep = take32(p);
    guvrendik_claim claim;
    take(p, &claim, sizeof claim);
    uint64_t now = take64(p);
    guvrendik_granted got = guvrendik_grant(current, claim, now);
    answer_marked(errno_mark(), &got, sizeof got);
    if (keep) {
        current = got.state;
    }
}

/* Answers what a withdrawal came to, and keeps the register where it is asked to. */
static void answer_withdrawn(bool keep, guvrendik_revoked got) {
    answer_marked(errno_mark(), &got, sizeof got);
    if (keep) {
        current = got.state;
    }
}

static void do_revoke(payload *p) {
    bool keep = take32(p);
    uint32_t revoker = take32(p), claim = take32(p);
    answer_withdrawn(keep, guvrendik_revoke(current, revoker, claim));
}

static void do_clear_resource(payload *p) {
    bool keep = take32(p);
    uint32_t caller = take32(p), resource = take32(p);
    answer_withdrawn(keep, guvrendik_clear_resource(current, caller, resource));
}

static void do_clear_expired(payload *p) {
    bool keep = take32(p);
    uint32_t caller = take32(p);
    answer_withdrawn(keep, guvrendik_clear_expired(current, caller, take64(p)));
}

static guvrendik_action lent_action;
static guvrendik_plan lent_plan;

static void gate_lent(const uint8_t *bytes, void *answer) {
    *(guvrendik_verdict *)answer = guvrendik_gate_lent(bytes, sizeof current, lent_action);
}

static void plan_lent(const uint8_t *bytes, void *answer) {
    *(guvrendik_plan_verdict *)answer = guvrendik_judge_plan_lent(bytes, sizeof current, lent_plan);
}

static void do_gate(payload *p) {
    guvrendik_action action;
    take(p, &action, sizeof action);
    struct {
        guvrendik_verdict verdicts[3];
        guvrendik_table table;
        uint32_t behind;
    } got = {{guvrendik_gate(current, action), guvrendik_plain_gate(current, action)}, guvrendik_cover_table(current, action.actor, action.now), 0};
    uint32_t marks = memcmp(&got.verdicts[0], &got.verdicts[1], sizeof *got.verdicts) == 0 ? 0 : PLAIN_DIFFERS;
    lent_action = action;
    marks |= lent_mark(gate_lent, &got.verdicts[2], &got.verdicts[0], sizeof *got.verdicts);
    answer_marked(marks | errno_mark(), &got, sizeof got.verdicts + sizeof got.table);
}

static void do_plan(payload *p) {
    guvrendik_plan plan;
    take(p, &plan, sizeof plan);
    guvrendik_plan_verdict got[3] = {guvrendik_judge_plan(current, plan), guvrendik_plain_plan(current, plan)};
    uint32_t marks = memcmp(&got[0], &got[1], sizeof *got) == 0 ? 0 : PLAIN_DIFFERS;
    lent_plan = plan;
    marks |= lent_mark(plan_lent, &got[2], &got[0], sizeof *got);
    answer_marked(marks | errno_mark(), got, sizeof got);
}

static void do_attach(payload *p) {
    guvrendik_book book;
    guvrendik_fingerprint fingerprint;
    take(p, &book, sizeof book);
    uint32_t actor = take32(p), resource = take32(p);
    uint64_t now = take64(p);
    take(p, &fingerprint, sizeof fingerprint);
    guvrendik_attached got = guvrendik_attach(book, current, actor, resource, now, fingerprint);
    answer_marked(errno_mark(), &got, sizeof got);
}

static void do_fetch(payload *p) {
    guvrendik_book book;
    take(p, &book, sizeof book);
    uint32_t actor = take32(p), resource = take32(p);
    guvrendik_fetched got = guvrendik_fetch(book, current, actor, resource, take64(p));
    answer_marked(errno_mark(), &got, sizeof got);
}

/* A question: whose signature is missing. */
typedef struct {
    uint32_t actor;
    guvrendik_usage usage;
    uint64_t moment;
    guvrendik_signers signers;
} question;

static question take_question(payload *p) {
    question q;
    q.actor = take32(p);
    take(p, &q.usage, sizeof q.usage);
    q.moment = take64(p);
    take(p, &q.signers, sizeof q.signers);
    return q;
}

static void do_propose(payload *p) {
    question q = take_question(p);
    guvrendik_proposed got = guvrendik_propose(current, q.actor, q.usage, q.moment, q.signers);
    answer_marked(errno_mark(), &got, sizeof got);
}

static void do_check_proposal(payload *p) {
    question q = take_question(p);
    guvrendik_proposal proposal;
    take(p, &proposal, sizeof proposal);
    guvrendik_checked got = guvrendik_check_proposal(current, q.actor, q.usage, q.moment, q.signers, proposal);
    answer_marked(errno_mark(), &got, sizeof got);
}

static void do_who(payload *p) {
    guvrendik_usage usage;
    take(p, &usage, sizeof usage);
    guvrendik_holders got = guvrendik_who(current, usage, take64(p));
    answer_marked(errno_mark(), &got, sizeof got);
}

static void do_why_use(payload *p) {
    guvrendik_usage usage;
    uint32_t actor = take32(p);
    take(p, &usage, sizeof usage);
    guvrendik_use_reason got = guvrendik_why_use(current, actor, usage, take64(p));
    answer_marked(errno_mark(), &got, sizeof got);
}

static void do_plan_text(payload *p) {
    guvrendik_plan_text_verdict got[2];
    size_t size = p->left;
    const uint8_t *text = take_bytes(p, size);
    uint32_t marks = 0;
    for (placement where = AT_END; where <= AT_START; where++) {
        const uint8_t *lent = lend(arena_one, text, size, where);
        got[where] = guvrendik_judge_plan_text(current, lent, size);
        marks |= input_mark(lent, text, size);
    }
    marks |= memcmp(&got[0], &got[1], sizeof *got) == 0 ? 0 : PLACES_DIFFER;
    answer_marked(marks | errno_mark(), got, sizeof *got);
}

static void do_contains(payload *p) {
    size_t outer_len = take64(p), inner_len = take64(p);
    const uint8_t *outer = take_bytes(p, outer_len), *inner = take_bytes(p, inner_len);
    guvrendik_containment got[2];
    uint32_t marks = 0;
    for (placement where = AT_END; where <= AT_START; where++) {
        const uint8_t *lent_outer = lend(arena_one, outer, outer_len, where);
        const uint8_t *lent_inner = lend(arena_two, inner, inner_len, where);
        got[where] = guvrendik_contains(lent_outer, outer_len, lent_inner, inner_len);
        marks |= input_mark(lent_outer, outer, outer_len) | input_mark(lent_inner, inner, inner_len);
    }
    marks |= memcmp(&got[0], &got[1], sizeof *got) == 0 ? 0 : PLACES_DIFFER;
    answer_marked(marks | errno_mark(), got, sizeof *got);
}

static void do_read_register(payload *p) {
    static struct {
        guvrendik_register_read read;
        guvrendik_fault fault;
    } got[2];
    size_t size = p->left;
    const uint8_t *text = take_bytes(p, size);
    uint32_t marks = 0;
    for (placement where = AT_END; where <= AT_START; where++) {
        const uint8_t *lent = lend(arena_one, text, size, where);
        got[where].read = guvrendik_read_register(lent, size);
        got[where].fault = guvrendik_why_unread(lent, size);
        marks |= input_mark(lent, text, size);
    }
    marks |= memcmp(&got[0], &got[1], sizeof *got) == 0 ? 0 : PLACES_DIFFER;
    answer_marked(marks | errno_mark(), got, sizeof *got);
}

static void do_read_action(payload *p) {
    guvrendik_action_read got[2];
    size_t size = p->left;
    const uint8_t *text = take_bytes(p, size);
    uint32_t marks = 0;
    for (placement where = AT_END; where <= AT_START; where++) {
        const uint8_t *lent = lend(arena_one, text, size, where);
        got[where] = guvrendik_read_action(lent, size);
        marks |= input_mark(lent, text, size);
    }
    marks |= memcmp(&got[0], &got[1], sizeof *got) == 0 ? 0 : PLACES_DIFFER;
    answer_marked(marks | errno_mark(), got, sizeof *got);
}

static void do_read_json(payload *p) {
    guvrendik_json_read got[2];
    uint64_t now = take64(p);
    size_t size = p->left;
    const uint8_t *text = take_bytes(p, size);
    uint32_t marks = 0;
    for (placement where = AT_END; where <= AT_START; where++) {
        const uint8_t *lent = lend(arena_one, text, size, where);
        got[where] = guvrendik_read_json(lent, size, now);
        marks |= input_mark(lent, text, size);
    }
    marks |= memcmp(&got[0], &got[1], sizeof *got) == 0 ? 0 : PLACES_DIFFER;
    answer_marked(marks | errno_mark(), got, sizeof *got);
}

/* Keeps what a call wrote at the first placement, and marks where it wrote something else at the second. */
static uint32_t written_mark(uint8_t *first, const uint8_t *buffer, size_t room, placement where) {
    if (where == AT_END) {
        memcpy(first, buffer, room);
        return 0;
    }
    return room > 0 && memcmp(first, buffer, room) != 0 ? PLACES_DIFFER : 0;
}

static void answer_written(uint32_t marks, const guvrendik_written got[2], const uint8_t *first, size_t room) {
    marks |= memcmp(&got[0], &got[1], sizeof *got) == 0 ? 0 : PLACES_DIFFER;
    answer_marked(marks | errno_mark(), got, sizeof *got);
    answer(first, room);
}

static void do_write_register(payload *p) {
    static uint8_t first[ROOM];
    size_t room = take64(p);
    uint8_t fill = (uint8_t)take32(p);
    guvrendik_written got[2];
    uint32_t marks = 0;
    for (placement where = AT_END; where <= AT_START; where++) {
        uint8_t *buffer = lend_buffer(arena_one, room, fill, where);
        got[where] = guvrendik_write_register(current, buffer, room);
        marks |= buffer_mark(arena_one, buffer, room, where);
        marks |= written_mark(first, buffer, room, where);
    }
    answer_written(marks, got, first, room);
}

static void do_verdict_text(payload *p) {
    static uint8_t first[ROOM];
    size_t register_len = take64(p), action_len = take64(p), room = take64(p);
    uint8_t fill = (uint8_t)take32(p);
    const uint8_t *register_text = take_bytes(p, register_len), *action_text = take_bytes(p, action_len);
    guvrendik_written got[2];
    uint32_t marks = 0;
    for (placement where = AT_END; where <= AT_START; where++) {
        const uint8_t *one = lend(arena_one, register_text, register_len, where);
        const uint8_t *two = lend(arena_two, action_text, action_len, where);
        uint8_t *buffer = lend_buffer(arena_three, room, fill, where);
        got[where] = guvrendik_verdict_text(one, register_len, two, action_len, buffer, room);
        marks |= input_mark(one, register_text, register_len) | input_mark(two, action_text, action_len);
        marks |= buffer_mark(arena_three, buffer, room, where);
        marks |= written_mark(first, buffer, room, where);
    }
    answer_written(marks, got, first, room);
}

static void do_write_json(payload *p) {
    static uint8_t first[ROOM];
    guvrendik_action action;
    take(p, &action, sizeof action);
    uint32_t kind = take32(p);
    uint8_t fill = (uint8_t)take32(p);
    size_t id_len = take64(p), room = take64(p);
    const uint8_t *id = take_bytes(p, id_len);
    guvrendik_written got[2];
    uint32_t marks = 0;
    for (placement where = AT_END; where <= AT_START; where++) {
        const uint8_t *lent = lend(arena_one, id, id_len, where);
        uint8_t *buffer = lend_buffer(arena_two, room, fill, where);
        got[where] = guvrendik_write_json(action, lent, id_len, kind, buffer, room);
        marks |= input_mark(lent, id, id_len) | buffer_mark(arena_two, buffer, room, where);
        marks |= written_mark(first, buffer, room, where);
    }
    answer_written(marks, got, first, room);
}

/* ---- Structs passed through and back ---- */

static uint32_t passed, failed;

static void expect(bool held, const char *what) {
    if (held) {
        passed++;
    } else {
        failed++;
        fprintf(stderr, "failed: %s\n", what);
    }
}

/* Visits fields in one fixed order, each with a number of its own: writes the numbers, or counts the fields that differ. */
typedef struct {
    bool writes;
    uint64_t next;
    unsigned wrong;
} visitor;

static void visit32(visitor *v, uint32_t *field) {
    uint32_t number = (uint32_t)++v->next * UINT32_C(0x9E3779B1); /* odd: no two are the same */
    if (v->writes) {
        *field = number;
    } else if (*field != number) {
        v->wrong++;
    }
}

static void visit64(visitor *v, uint64_t *field) {
    uint64_t number = ++v->next * UINT64_C(0x9E3779B97F4A7C15);
    if (v->writes) {
        *field = number;
    } else if (*field != number) {
        v->wrong++;
    }
}

static void visit_size(visitor *v, size_t *field) {
    uint64_t number = *field;
    visit64(v, &number);
    *field = (size_t)number;
}

static void visit_register(visitor *v, guvrendik_register *r) {
    for (size_t i = 0; i < GUVRENDIK_LIMIT_ACTORS; i++) {
        guvrendik_actor *actor = &r->actors.list[i];
        visit32(v, &actor->id);
        visit32(v, &actor->kind);
        visit32(v, &actor->owner);
    }
    visit_size(v, &r->actors.count);
    for (size_t i = 0; i < GUVRENDIK_LIMIT_RESOURCES; i++) {
        guvrendik_resource *resource = &r->resources.list[i];
        visit32(v, &resource->id);
        visit32(v, &resource->is_public);
        visit32(v, &resource->keeper);
        visit32(v, &resource->len);
        for (size_t j = 0; j < GUVRENDIK_LIMIT_PATH; j++) {
            uint8_t byte = (uint8_t)(++v->next % 251); /* a prime: no pattern of the sizes */
            if (v->writes) {
                resource->path[j] = byte;
            } else if (resource->path[j] != byte) {
                v->wrong++;
            }
        }
    }
    visit_size(v, &r->resources.count);
    for (size_t i = 0; i < GUVRENDIK_LIMIT_CLAIMS; i++) {
        guvrendik_claim *claim = &r->claims.list[i];
        visit32(v, &claim->id);
        visit32(v, &claim->parent);
        visit32(v, &claim->grantor);
        visit32(v, &claim->holder);
        visit32(v, &claim->resource);
        visit32(v, &claim->rights);
        visit32(v, &claim->weight);
        visit32(v, &claim->left);
        visit64(v, &claim->expiry);
    }
    visit_size(v, &r->claims.count);
    visit64(v, &r->version);
}

/* A register with a number of its own in every field is not sound, and comes back from a refused change as it went. */
static void pass_registers(void) {
    for (uint64_t first = 0; first < 4; first++) {
        visitor writing = {true, first << 20, 0};
        guvrendik_register r;
        visit_register(&writing, &r);
        guvrendik_claim claim = {.id = 1, .grantor = 1, .holder = 1, .resource = 1, .rights = 1, .weight = 1};
        guvrendik_granted granted = guvrendik_grant(r, claim, 0);
        visitor reading = {false, first << 20, 0};
        visit_register(&reading, &granted.state);
        expect(reading.wrong == 0 && granted.accepted == 0 && granted.refusal == GUVRENDIK_REFUSAL_UNSOUND,
               "a register with distinct numbers through a refused grant");
        guvrendik_revoked revoked = guvrendik_revoke(r, 1, 1);
        reading = (visitor){false, first << 20, 0};
        visit_register(&reading, &revoked.state);
        expect(reading.wrong == 0 && revoked.accepted == 0 && revoked.refusal == GUVRENDIK_REFUSAL_UNSOUND && revoked.removed == 0,
               "a register with distinct numbers through a refused revocation");
        guvrendik_revoked cleared = guvrendik_clear_resource(r, 1, 1);
        reading = (visitor){false, first << 20, 0};
        visit_register(&reading, &cleared.state);
        expect(reading.wrong == 0 && cleared.accepted == 0 && cleared.refusal == GUVRENDIK_REFUSAL_UNSOUND && cleared.removed == 0,
               "a register with distinct numbers through a refused clearing of a resource");
        cleared = guvrendik_clear_expired(r, 1, 1);
        reading = (visitor){false, first << 20, 0};
        visit_register(&reading, &cleared.state);
        expect(reading.wrong == 0 && cleared.accepted == 0 && cleared.refusal == GUVRENDIK_REFUSAL_UNSOUND && cleared.removed == 0,
               "a register with distinct numbers through a refused clearing of old claims");
    }
}

/* The value on the next line of a text, and its length: an own reading, by position alone. */
static const char *next_value(const char **at, size_t *length) {
    const char *value = strchr(*at, '=');
    const char *end = value == NULL ? NULL : strchr(value, '\n');
    if (end == NULL) {
        fprintf(stderr, "driver: the text to pass through ended early\n");
        exit(1);
    }
    *at = end + 1;
    *length = (size_t)(end - value - 1);
    return value + 1;
}

static uint64_t next_number(const char **at) {
    size_t length;
    return strtoull(next_value(at, &length), NULL, 10);
}

/* How many fields of the register are not what the text says. */
static unsigned register_wrong(const guvrendik_register *r, const char *text) {
    unsigned wrong = r->version != next_number(&text);
    size_t length;
    wrong += r->actors.count != next_number(&text);
    for (size_t i = 0; i < r->actors.count; i++) {
        const guvrendik_actor *actor = &r->actors.list[i];
        wrong += actor->id != next_number(&text);
        wrong += actor->kind != (*next_value(&text, &length) == 'h' ? GUVRENDIK_ACTOR_HUMAN : GUVRENDIK_ACTOR_MACHINE);
        wrong += actor->owner != next_number(&text);
    }
    wrong += r->resources.count != next_number(&text);
    for (size_t i = 0; i < r->resources.count; i++) {
        const guvrendik_resource *resource = &r->resources.list[i];
        wrong += resource->id != next_number(&text);
        wrong += resource->is_public != next_number(&text);
        wrong += resource->keeper != next_number(&text);
        const char *path = next_value(&text, &length);
        wrong += resource->len != length || memcmp(resource->path, path, length) != 0;
    }
    wrong += r->claims.count != next_number(&text);
    for (size_t i = 0; i < r->claims.count; i++) {
        const guvrendik_claim *claim = &r->claims.list[i];
        wrong += claim->id != next_number(&text);
        wrong += claim->parent != next_number(&text);
        wrong += claim->grantor != next_number(&text);
        wrong += claim->holder != next_number(&text);
        wrong += claim->resource != next_number(&text);
        wrong += claim->rights != next_number(&text);
        wrong += claim->weight != next_number(&text);
        wrong += r->version == GUVRENDIK_REGISTER_2 && claim->left != next_number(&text);
        wrong += claim->expiry != next_number(&text);
    }
    return wrong;
}

static unsigned action_wrong(const guvrendik_action *a, const char *text) {
    unsigned wrong = a->now != next_number(&text);
    wrong += a->actor != next_number(&text);
    wrong += a->flags != next_number(&text);
    wrong += a->used != next_number(&text);
    for (size_t i = 0; i < a->used; i++) {
        wrong += a->uses[i].resource != next_number(&text);
        wrong += a->uses[i].right != next_number(&text);
    }
    wrong += a->governed != next_number(&text);
    for (size_t i = 0; i < a->governed; i++) {
        wrong += a->governs[i] != next_number(&text);
    }
    return wrong;
}

/* A full register's text and a full action's, each with a NUL after it. */
static void pass_texts(const char *register_text, const char *action_text) {
    static uint8_t written[GUVRENDIK_TEXT_REGISTER];
    size_t register_len = strlen(register_text), action_len = strlen(action_text);
    guvrendik_register_read read = guvrendik_read_register((const uint8_t *)register_text, register_len);
    expect(read.accepted == 1 && read.refusal == 0 && read.line == 0, "a full register is read");
    expect(register_wrong(&read.state, register_text) == 0, "a read register has the text's numbers");
    guvrendik_written wrote = guvrendik_write_register(read.state, written, sizeof written);
    expect(wrote.accepted == 1 && wrote.length == register_len && memcmp(written, register_text, register_len) == 0,
           "a read register is written as it was");
    guvrendik_action_read action = guvrendik_read_action((const uint8_t *)action_text, action_len);
    expect(action.accepted == 1 && action.refusal == 0 && action.line == 0, "a full action is read");
    expect(action_wrong(&action.action, action_text) == 0, "a read action has the text's numbers");
}

static guvrendik_register small_register(void) {
    guvrendik_register r;
    guvrendik_begin(&r, GUVRENDIK_REGISTER_1);
    r.actors.list[0] = (guvrendik_actor){1, GUVRENDIK_ACTOR_HUMAN, 0};
    r.actors.count = 1;
    r.resources.list[0].id = 10;
    r.resources.list[0].is_public = 1;
    r.resources.list[0].keeper = 1;
    r.resources.count = 1;
    return r;
}

/* A permitted action with every place filled. */
static guvrendik_action full_action(void) {
    guvrendik_action a = {.actor = 1, .now = 5, .used = GUVRENDIK_LIMIT_USES, .governed = GUVRENDIK_LIMIT_GOVERNS};
    for (size_t i = 0; i < GUVRENDIK_LIMIT_USES; i++) {
        a.uses[i] = (guvrendik_usage){10, GUVRENDIK_RIGHT_READ};
    }
    for (size_t i = 0; i < GUVRENDIK_LIMIT_GOVERNS; i++) {
        a.governs[i] = 60000 + (uint32_t)i;
    }
    return a;
}

enum { ACTION_FIELDS = 5 + 2 * GUVRENDIK_LIMIT_USES + GUVRENDIK_LIMIT_GOVERNS };

/* Puts a number out of range into the field with this number. */
static void spoil(guvrendik_action *a, size_t field) {
    switch (field) {
    case 0: a->actor = 65536 + 1; return;
    case 1: a->flags = 1024; return;
    case 2: a->now = UINT64_C(1) << 32; return;
    case 3: a->used = GUVRENDIK_LIMIT_USES + 1; return;
    case 4: a->governed = GUVRENDIK_LIMIT_GOVERNS + 1; return;
    }
    field -= 5;
    if (field < GUVRENDIK_LIMIT_USES) {
        a->uses[field].resource = 65536 + 10;
    } else if (field < 2 * GUVRENDIK_LIMIT_USES) {
        a->uses[field - GUVRENDIK_LIMIT_USES].right = GUVRENDIK_LIMIT_RIGHTS;
    } else {
        a->governs[field - 2 * GUVRENDIK_LIMIT_USES] = 65536;
    }
}

/* No call gives an action or a plan back, so each field is shown to arrive by what it alone changes. */
static void pass_actions(void) {
    guvrendik_register r = small_register();
    guvrendik_verdict permitted = guvrendik_gate(r, full_action());
    expect(permitted.decision == GUVRENDIK_DECISION_PERMITTED && permitted.count == 0, "a full action is permitted");
    for (size_t field = 0; field < ACTION_FIELDS; field++) {
        guvrendik_action a = full_action();
        spoil(&a, field);
        guvrendik_verdict stopped = guvrendik_gate(r, a);
        expect(stopped.decision == GUVRENDIK_DECISION_STOPPED && stopped.refusal == GUVRENDIK_REFUSAL_RANGE, "each field of an action is tested");
    }
    for (size_t i = 0; i < GUVRENDIK_LIMIT_USES; i++) {
        guvrendik_action a = full_action();
        a.uses[i].right = GUVRENDIK_RIGHT_WRITE;
        guvrendik_verdict got = guvrendik_gate(r, a);
        expect(got.decision == GUVRENDIK_DECISION_REFUSED && got.count == 1 && got.violations[0].kind == GUVRENDIK_VIOLATION_NOT_COVERED &&
                   got.violations[0].value == i && got.violations[1].kind == 0,
               "a use is named by its position");
    }
    for (size_t i = 0; i < GUVRENDIK_LIMIT_FLAGS; i++) {
        guvrendik_action a = full_action();
        a.flags = guvrendik_flag_part((uint32_t)i);
        guvrendik_verdict got = guvrendik_gate(r, a);
        expect(got.decision == GUVRENDIK_DECISION_REFUSED && got.count == 1 && got.violations[0].kind == GUVRENDIK_VIOLATION_FLAG &&
                   got.violations[0].value == i,
               "a flag is named");
    }
    guvrendik_action ignored = full_action();
    ignored.used = ignored.governed = 0;
    for (size_t field = 5; field < ACTION_FIELDS; field++) {
        spoil(&ignored, field);
    }
    expect(guvrendik_gate(r, ignored).decision == GUVRENDIK_DECISION_PERMITTED, "entries past an action's counts are ignored");
}

static void pass_plans(void) {
    guvrendik_register r = small_register();
    guvrendik_plan full = {.count = GUVRENDIK_LIMIT_ACTIONS};
    for (size_t i = 0; i < GUVRENDIK_LIMIT_ACTIONS; i++) {
        full.actions[i] = full_action();
    }
    guvrendik_plan_verdict permitted = guvrendik_judge_plan(r, full);
    expect(permitted.accepted == 1 && permitted.count == GUVRENDIK_LIMIT_ACTIONS, "a full plan is judged");
    for (size_t i = 0; i < GUVRENDIK_LIMIT_ACTIONS; i++) {
        expect(permitted.list[i].decision == GUVRENDIK_DECISION_PERMITTED && permitted.list[i].violations == 0,
               "each action of a full plan is permitted");
        for (size_t field = 0; field < ACTION_FIELDS; field++) {
            guvrendik_plan p = full;
            spoil(&p.actions[i], field);
            guvrendik_plan_verdict stopped = guvrendik_judge_plan(r, p);
            expect(stopped.accepted == 0 && stopped.refusal == GUVRENDIK_REFUSAL_RANGE && stopped.position == i && stopped.count == 0,
                   "each field of each action of a plan is tested");
        }
        guvrendik_plan p = full;
        for (size_t use = 0; use <= i; use++) {
            p.actions[i].uses[use].right = GUVRENDIK_RIGHT_WRITE;
        }
        guvrendik_plan_verdict got = guvrendik_judge_plan(r, p);
        expect(got.accepted == 1 && got.list[i].decision == GUVRENDIK_DECISION_REFUSED && got.list[i].violations == i + 1,
               "an action of a plan is judged at its place");
    }
}

/* A plan's text that is being written. */
static char plan_page[1 << 16];
static size_t plan_page_len;

static void page_line(const char *key, unsigned number) {
    plan_page_len += (size_t)snprintf(plan_page + plan_page_len, sizeof plan_page - plan_page_len, "%s=%u\n", key, number);
}

static void page_word(const char *word) {
    plan_page_len += (size_t)snprintf(plan_page + plan_page_len, sizeof plan_page - plan_page_len, "step=%s\n", word);
}

/* An action of actor 1 that writes the public resource as often as is said: a violation each time. */
static void page_action(uint32_t actor, size_t writes) {
    page_word("action");
    page_line("now", 5);
    page_line("actor", actor);
    page_line("flags", 0);
    page_line("uses", (unsigned)writes);
    for (size_t i = 0; i < writes; i++) {
        page_line("use", 10);
        page_line("right", GUVRENDIK_RIGHT_WRITE);
    }
    page_line("governs", 0);
}

/* Eight plans in each other, eight actions to each, in reading order behind the plan in it: the nth action has n violations, up to 32. The
 * action at one position is of another actor. */
static guvrendik_plan_text_verdict judge_page(size_t other_at, uint32_t other) {
    size_t position = 0;
    plan_page_len = 0;
    for (size_t level = 1; level <= GUVRENDIK_LIMIT_LEVELS; level++) {
        page_line("plan", level < GUVRENDIK_LIMIT_LEVELS ? 9 : 8);
        if (level < GUVRENDIK_LIMIT_LEVELS) page_word("plan");
    }
    for (; position < GUVRENDIK_LIMIT_TEXT_ACTIONS; position++) {
        page_action(position == other_at ? other : 1, position % (GUVRENDIK_LIMIT_USES + 1));
    }
    return guvrendik_judge_plan_text(small_register(), (const uint8_t *)plan_page, plan_page_len);
}

/* Each verdict of a plan's text stands at its place, and each place names its action. */
static void pass_plan_texts(void) {
    guvrendik_plan_text_verdict judged = judge_page(0, 1);
    expect(judged.accepted == 1 && judged.refusal == 0 && judged.line == 0 && judged.position == 0 &&
               judged.count == GUVRENDIK_LIMIT_TEXT_ACTIONS,
           "a full plan's text is judged");
    for (size_t i = 0; i < GUVRENDIK_LIMIT_TEXT_ACTIONS; i++) {
        size_t writes = i % (GUVRENDIK_LIMIT_USES + 1);
        expect(judged.list[i].decision == (writes == 0 ? GUVRENDIK_DECISION_PERMITTED : GUVRENDIK_DECISION_REFUSED) && judged.list[i].violations == writes,
               "each verdict of a plan's text stands at its place");
        guvrendik_plan_text_verdict stopped = judge_page(i, 2);
        expect(stopped.accepted == 0 && stopped.refusal == GUVRENDIK_REFUSAL_ABSENT && stopped.line == 0 && stopped.position == i &&
                   stopped.count == 0 && stopped.list[0].decision == 0 && stopped.list[GUVRENDIK_LIMIT_TEXT_ACTIONS - 1].decision == 0,
               "each action of a plan's text is named by its position");
    }
}

/* An action that JSON has a place for, with a number of its own in every field, uses ordered by right. */
static guvrendik_action json_action(void) {
    guvrendik_action a = {.actor = 60001, .flags = 0x2AA, .now = GUVRENDIK_MAX_MOMENT, .used = GUVRENDIK_LIMIT_USES};
    for (size_t i = 0; i < GUVRENDIK_LIMIT_USES; i++) {
        a.uses[i] = (guvrendik_usage){61000 + (uint32_t)i, (uint32_t)(i / 11)};
    }
    return a;
}

/* Written and read back each field is as it went, and each field of an action that is out of range is noticed. */
static void pass_json(void) {
    static uint8_t text[GUVRENDIK_TEXT_JSON];
    uint8_t id[GUVRENDIK_LIMIT_JSON_ID + 1];
    for (size_t i = 0; i < sizeof id; i++) {
        id[i] = (uint8_t)('#' + i);
    }
    id['\\' - '#'] = '~';
    guvrendik_action a = json_action();
    guvrendik_written wrote = guvrendik_write_json(a, id, GUVRENDIK_LIMIT_JSON_ID, GUVRENDIK_RIGHT_POLICY_MODIFY, text, sizeof text);
    expect(wrote.accepted == 1 && wrote.refusal == 0 && wrote.length > 0, "a full action is written as JSON");
    guvrendik_json_read read = guvrendik_read_json(text, wrote.length, a.now);
    expect(read.accepted == 1 && read.refusal == 0, "what was written as JSON is read");
    expect(memcmp(&read.action, &a, sizeof a) == 0, "a JSON action is read as it was written");
    expect(read.kind == GUVRENDIK_RIGHT_POLICY_MODIFY, "so is its kind");
    expect(read.id_len == GUVRENDIK_LIMIT_JSON_ID && memcmp(read.id, id, GUVRENDIK_LIMIT_JSON_ID) == 0, "so is its id");
    expect(guvrendik_write_json(a, id, sizeof id, 0, text, sizeof text).refusal == GUVRENDIK_REFUSAL_RANGE, "an id too long is noticed");
    expect(guvrendik_write_json(a, id, 0, GUVRENDIK_LIMIT_RIGHTS, text, sizeof text).refusal == GUVRENDIK_REFUSAL_RANGE, "a kind too large is noticed");
    a.governed = GUVRENDIK_LIMIT_GOVERNS;
    expect(guvrendik_write_json(a, id, 0, 0, text, sizeof text).refusal == GUVRENDIK_REFUSAL_JSON_LACKS, "a governed entry has no place in JSON");
    for (size_t field = 0; field < ACTION_FIELDS; field++) {
        guvrendik_action spoiled = a;
        spoil(&spoiled, field);
        expect(guvrendik_write_json(spoiled, id, 0, 0, text, sizeof text).refusal == GUVRENDIK_REFUSAL_RANGE,
               "each field of an action is tested before it is written as JSON");
    }
}

/* A register of whatever bytes stand in it gets one answer by value and lent. */
static bool same_lent(const guvrendik_register *r, const guvrendik_action *a, const guvrendik_plan *p) {
    const uint8_t *bytes = (const uint8_t *)r;
    guvrendik_verdict one = guvrendik_gate(*r, *a), two = guvrendik_gate_lent(bytes, sizeof *r, *a);
    guvrendik_plan_verdict first = guvrendik_judge_plan(*r, *p), second = guvrendik_judge_plan_lent(bytes, sizeof *r, *p);
    return guvrendik_sound(*r).sound == guvrendik_sound_lent(bytes, sizeof *r).sound && memcmp(&one, &two, sizeof one) == 0 &&
           memcmp(&first, &second, sizeof first) == 0;
}

/* 45,000 images of random bytes, and 5,000 of a sound register with up to four bytes changed, of which some stay sound. */
static void pass_images(void) {
    static guvrendik_register image;
    guvrendik_action action = guvrendik_make_action(1, guvrendik_make_usage(1, GUVRENDIK_RIGHT_READ), 5);
    guvrendik_plan plan = {.actions = {action, action}, .count = 2};
    uint64_t state = 0x9E3779B97F4A7C15;
    size_t differ = 0, sound = 0, unsound = 0;
    for (size_t i = 0; i < 50000; i++) {
        uint8_t *bytes = (uint8_t *)&image;
        bool changed = i % 10 == 0;
        if (changed) image = small_register();
        for (size_t k = 0; k < (changed ? i / 10 % 5 : sizeof image / 8); k++) {
            state ^= state << 13, state ^= state >> 7, state ^= state << 17;
            if (changed) {
                bytes[state % sizeof image] = (uint8_t)(state >> 32);
            } else {
                memcpy(bytes + 8 * k, &state, 8);
            }
        }
        differ += !same_lent(&image, &action, &plan);
        *(guvrendik_sound(image).sound ? &sound : &unsound) += 1;
    }
    expect(differ == 0, "an image lent is answered otherwise than by value");
    expect(sound > 500 && unsound > 45000, "images that are sound, and such that are not");
}

static void pass_nulls(void) {
    guvrendik_register some = small_register();
    expect(guvrendik_sound_lent(NULL, 0).sound == 0, "no register at all");
    expect(guvrendik_sound_lent((const uint8_t *)&some, sizeof some).sound == 1, "a register lent");
    expect(guvrendik_sound_lent((const uint8_t *)&some, sizeof some - 1).sound == 0, "one byte less than a register");
    expect(guvrendik_sound_table(NULL, 0, some.version, some.actors, some.resources).sound == 1, "no table at all");
    guvrendik_register_read r = guvrendik_read_register(NULL, 0);
    expect(r.accepted == 0 && r.refusal == GUVRENDIK_REFUSAL_FORM && r.line == 1, "no register text at all");
    guvrendik_action_read a = guvrendik_read_action(NULL, 0);
    expect(a.accepted == 0 && a.refusal == GUVRENDIK_REFUSAL_FORM && a.line == 1, "no action text at all");
    guvrendik_plan_text_verdict p = guvrendik_judge_plan_text(small_register(), NULL, 0);
    expect(p.accepted == 0 && p.refusal == GUVRENDIK_REFUSAL_FORM && p.line == 1 && p.count == 0, "no plan text at all");
    guvrendik_written w = guvrendik_write_register(small_register(), NULL, 0);
    expect(w.accepted == 0 && w.refusal == GUVRENDIK_REFUSAL_BUFFER && w.length == 0, "no buffer for a register");
    guvrendik_written v = guvrendik_verdict_text(NULL, 0, NULL, 0, NULL, 0);
    expect(v.accepted == 0 && v.refusal == GUVRENDIK_REFUSAL_BUFFER && v.length == 0, "no buffer for a verdict");
    guvrendik_json_read j = guvrendik_read_json(NULL, 0, GUVRENDIK_MAX_MOMENT);
    expect(j.accepted == 0 && j.refusal == GUVRENDIK_REFUSAL_JSON_FORM, "no JSON text at all");
    j = guvrendik_read_json(NULL, 0, GUVRENDIK_MAX_MOMENT + 1);
    expect(j.accepted == 0 && j.refusal == GUVRENDIK_REFUSAL_RANGE, "no JSON text, and a moment out of range");
    guvrendik_written n = guvrendik_write_json(json_action(), NULL, 0, 0, NULL, 0);
    expect(n.accepted == 0 && n.refusal == GUVRENDIK_REFUSAL_BUFFER && n.length == 0, "no id, and no buffer for a JSON action");
    guvrendik_containment empty = guvrendik_contains(NULL, 0, NULL, 0);
    expect(empty.contained == 1 && empty.length == 0, "the empty path in itself");
    guvrendik_written t = guvrendik_refusal_text(1, NULL, 0);
    expect(t.accepted == 0 && t.refusal == GUVRENDIK_REFUSAL_BUFFER && t.length == 0, "no buffer for a refusal's words");
    guvrendik_version_numbers of = guvrendik_version();
    expect(of.major == GUVRENDIK_VERSION_MAJOR && of.minor == GUVRENDIK_VERSION_MINOR && of.patch == GUVRENDIK_VERSION_PATCH,
           "the library has the header's version");
}

static char *text_of(payload *p, size_t length) {
    char *text = malloc(length + 1);
    if (text == NULL) {
        fail("text");
    }
    take(p, text, length);
    text[length] = 0;
    return text;
}

static void answer_counts(void) {
    uint32_t counts[2] = {passed, failed};
    answer_marked(0, counts, sizeof counts);
}

static void do_boundary(payload *p) {
    size_t register_len = take64(p), action_len = take64(p);
    char *register_text = text_of(p, register_len), *action_text = text_of(p, action_len);
    passed = failed = 0;
    pass_registers();
    pass_texts(register_text, action_text);
    pass_actions();
    pass_plans();
    pass_plan_texts();
    pass_json();
    pass_nulls();
    pass_images();
    free(register_text);
    free(action_text);
    answer_counts();
    errno = 0;
}

/* ---- Threads ---- */

enum { THREAD_COUNT = 8, ACTION_TEXT = 4096, PLAN_TEXT_MOST = 1 << 16, JSON_NOW = 1999 };

/* What all calls are asked about. */
typedef struct {
    guvrendik_register r;
    guvrendik_action a;
    guvrendik_plan p;
    guvrendik_claim c;
    guvrendik_book book;
    guvrendik_signers signers;
    guvrendik_proposal proposal;
    guvrendik_register broken;
    guvrendik_usage usage;
    uint64_t now;
    uint32_t revoker, claim;
    uint32_t keeper, resource;
    uint32_t caller;
    uint64_t moment;
    char action_text[ACTION_TEXT];
    size_t action_len;
    uint8_t json_text[ACTION_TEXT];
    size_t json_len;
    uint8_t plan_text[PLAN_TEXT_MOST];
    size_t plan_len;
} input;

typedef struct {
    guvrendik_soundness sound;
    guvrendik_containment contained;
    guvrendik_granted granted;
    guvrendik_revoked revoked;
    guvrendik_verdict verdict;
    guvrendik_plan_verdict judged;
    guvrendik_written written;
    guvrendik_register_read read;
    guvrendik_action_read action;
    guvrendik_written printed;
    guvrendik_json_read json;
    guvrendik_written json_written;
    guvrendik_revoked cleared;
    guvrendik_revoked renewed;
    guvrendik_plan_text_verdict plan_judged;
    guvrendik_verdict plain;
    guvrendik_plan_verdict plainly;
    guvrendik_soundness table;
    guvrendik_table covers;
    guvrendik_attached attached;
    guvrendik_fetched fetched;
    guvrendik_proposed proposed;
    guvrendik_checked checked;
    guvrendik_fault unsound;
    guvrendik_fault unread;
    guvrendik_holders holders;
    guvrendik_use_reason use_reason;
    uint8_t text[GUVRENDIK_TEXT_REGISTER];
    uint8_t lines[GUVRENDIK_TEXT_VERDICT];
    uint8_t page[GUVRENDIK_TEXT_JSON];
} answers;

/* A text with its length before it, into so much room. */
static size_t take_text(payload *p, void *text, size_t room) {
    size_t size = take64(p);
    if (size > room) {
        fprintf(stderr, "driver: text too long\n");
        exit(1);
    }
    take(p, text, size);
    return size;
}

static void take_input(payload *p, input *in) {
    take(p, &in->r, sizeof in->r);
    take(p, &in->a, sizeof in->a);
    take(p, &in->p, sizeof in->p);
    take(p, &in->c, sizeof in->c);
    in->now = take64(p);
    in->revoker = take32(p);
    in->claim = take32(p);
    in->keeper = take32(p);
    in->resource = take32(p);
    in->caller = take32(p);
    in->moment = take64(p);
    in->action_len = take_text(p, in->action_text, sizeof in->action_text);
    in->json_len = take_text(p, in->json_text, sizeof in->json_text);
    in->plan_len = take_text(p, in->plan_text, sizeof in->plan_text);
    /* A full book, with an entry of what the action first uses as its last. */
    memset(&in->book, 0xA7, sizeof in->book);
    in->book.count = GUVRENDIK_LIMIT_ENTRIES;
    for (uint32_t i = 0; i < GUVRENDIK_LIMIT_ENTRIES; i++) in->book.entries[i].resource = 70000 + i;
    in->book.entries[GUVRENDIK_LIMIT_ENTRIES - 1].resource = in->a.uses[0].resource;
    /* The last of eight signers is who signs the claim, which is proposed. */
    memset(&in->signers, 0, sizeof in->signers);
    in->signers.count = GUVRENDIK_LIMIT_SIGNERS;
    for (size_t i = 0; i < GUVRENDIK_LIMIT_SIGNERS; i++) in->signers.list[i] = in->r.actors.list[i].id;
    in->signers.list[GUVRENDIK_LIMIT_SIGNERS - 1] = in->c.grantor;
    in->proposal = (guvrendik_proposal){.kind = GUVRENDIK_PROPOSES_GRANT, .claim = in->c};
    in->usage = (guvrendik_usage){.resource = in->c.resource, .right = 0};
    while (in->usage.right < GUVRENDIK_LIMIT_RIGHTS - 1 && (in->c.rights >> in->usage.right & 1) == 0) in->usage.right++;
    in->proposal.claim.rights = UINT32_C(1) << in->usage.right;
    /* The register with a last claim that names nobody. */
    in->broken = in->r;
    if (in->broken.claims.count - 1 < GUVRENDIK_LIMIT_CLAIMS) in->broken.claims.list[in->broken.claims.count - 1].holder = 0;
}

enum { CALLS = 27 };

/* Where each call leaves its answer: a struct, and a text where it writes one. */
static const struct {
    size_t at, size, text_at, text_size;
} parts[CALLS] = {
#define PART(field) offsetof(answers, field), sizeof(((answers *)0)->field)
    {PART(sound), 0, 0},        {PART(contained), 0, 0},
    {PART(granted), 0, 0},      {PART(revoked), 0, 0},
    {PART(verdict), 0, 0},      {PART(judged), 0, 0},
    {PART(written), PART(text)}, {PART(read), 0, 0},
    {PART(action), 0, 0},       {PART(printed), PART(lines)},
    {PART(json), 0, 0},         {PART(json_written), PART(page)},
    {PART(cleared), 0, 0},      {PART(renewed), 0, 0},
    {PART(plan_judged), 0, 0},  {PART(table), 0, 0},
    {PART(plain), 0, 0},        {PART(plainly), 0, 0},
    {PART(attached), 0, 0},     {PART(fetched), 0, 0},
    {PART(proposed), 0, 0},     {PART(checked), 0, 0},
    {PART(unsound), 0, 0},      {PART(unread), 0, 0},
    {PART(holders), 0, 0},      {PART(use_reason), 0, 0},
    {PART(covers), 0, 0},
#undef PART
};

/* Makes one call. The register's text, and what is written as JSON, is what `known` has. */
static void make_call(size_t call, const input *in, const answers *known, answers *out) {
    const guvrendik_resource *one = &in->r.resources.list[0], *two = &in->r.resources.list[1];
    const uint8_t *action_text = (const uint8_t *)in->action_text;
    memset((uint8_t *)out + parts[call].text_at, 0, parts[call].text_size);
    switch (call) {
    case 0: out->sound = guvrendik_sound(in->r); break;
    case 1:
        out->contained = guvrendik_contains(one->path, one->len, two->path, two->len);
        break;
    case 2:
        out->granted = guvrendik_grant(in->r, in->c, in->now);
        break;
    case 3:
        out->revoked = guvrendik_revoke(in->r, in->revoker, in->claim);
        break;
    case 4: out->verdict = guvrendik_gate(in->r, in->a); break;
    case 5:
        out->judged = guvrendik_judge_plan(in->r, in->p);
        break;
    case 6: out->written = guvrendik_write_register(in->r, out->text, sizeof out->text); break;
    case 7:
        out->read = guvrendik_read_register(known->text, known->written.length);
        break;
    case 8: out->action = guvrendik_read_action(action_text, in->action_len); break;
    case 9:
        out->printed = guvrendik_verdict_text(known->text, known->written.length, action_text, in->action_len, out->lines,
                                              sizeof out->lines);
        break;
    case 10:
        out->json = guvrendik_read_json(in->json_text, in->json_len, JSON_NOW);
        break;
    case 11:
        out->json_written = guvrendik_write_json(known->json.action, known->json.id, known->json.id_len, known->json.kind,
                                                 out->page, sizeof out->page);
        break;
    case 12:
        out->cleared = guvrendik_clear_resource(in->r, in->keeper, in->resource);
        break;
    case 13:
        out->renewed = guvrendik_clear_expired(in->r, in->caller, in->moment);
        break;
    case 14:
        out->plan_judged = guvrendik_judge_plan_text(in->r, in->plan_text, in->plan_len);
        break;
    case 15:
        out->table = guvrendik_sound_table(in->r.claims.list, in->r.claims.count, in->r.version, in->r.actors, in->r.resources);
        break;
    case 16: out->plain = guvrendik_plain_gate(in->r, in->a); break;
    case 17:
        out->plainly = guvrendik_plain_plan(in->r, in->p);
        break;
    case 18:
        out->attached = guvrendik_attach(in->book, in->r, in->a.actor, in->a.uses[0].resource, in->a.now, in->book.entries[0].fingerprint);
        break;
    case 19:
        out->fetched = guvrendik_fetch(in->book, in->r, in->a.actor, in->a.uses[0].resource, in->a.now);
        break;
    case 20:
        out->proposed = guvrendik_propose(in->r, in->c.holder, in->usage, in->now, in->signers);
        break;
    case 21:
        out->checked = guvrendik_check_proposal(in->r, in->c.holder, in->usage, in->now, in->signers, in->proposal);
        break;
    case 22: out->unsound = guvrendik_why_unsound(in->broken); break;
    case 23:
        out->unread = guvrendik_why_unread(known->text, known->written.length);
        break;
    case 24: out->holders = guvrendik_who(in->r, in->usage, in->now); break;
    case 26:
        out->covers = guvrendik_cover_table(in->r, in->a.actor, in->a.now);
        break;
    case 25: out->use_reason = guvrendik_why_use(in->r, in->c.holder, in->usage, in->now); break;
    }
}

static bool same_answer(size_t call, const answers *one, const answers *two) {
    const uint8_t *first = (const uint8_t *)one, *second = (const uint8_t *)two;
    return memcmp(first + parts[call].at, second + parts[call].at, parts[call].size) == 0 &&
           memcmp(first + parts[call].text_at, second + parts[call].text_at, parts[call].text_size) == 0;
}

static const input *thread_inputs;
static const answers *thread_expected;
static uint32_t thread_input_count, thread_rounds;
static pthread_barrier_t thread_barrier;

typedef struct {
    pthread_t thread;
    uint32_t number, passed, failed;
} worker;

/* Call by call, all threads at once: in even rounds all begin at the same input, in odd ones each at another. */
static void *work(void *given) {
    worker *w = given;
    answers *got = calloc(1, sizeof *got);
    if (got == NULL) {
        fail("answers");
    }
    for (size_t call = 0; call < CALLS; call++) {
        for (uint32_t round = 0; round < thread_rounds; round++) {
            pthread_barrier_wait(&thread_barrier);
            for (uint32_t i = 0; i < thread_input_count; i++) {
                uint32_t at = (i + (round % 2 == 0 ? 0 : w->number)) % thread_input_count;
                make_call(call, &thread_inputs[at], &thread_expected[at], got);
                if (same_answer(call, got, &thread_expected[at])) {
                    w->passed++;
                } else {
                    w->failed++;
                }
            }
        }
    }
    free(got);
    return NULL;
}

static void do_threads(payload *p) {
    thread_rounds = take32(p);
    thread_input_count = take32(p);
    input *inputs = malloc(thread_input_count * sizeof *inputs);
    answers *expected = calloc(thread_input_count, sizeof *expected);
    if (inputs == NULL || expected == NULL) {
        fail("inputs");
    }
    for (uint32_t i = 0; i < thread_input_count; i++) {
        take_input(p, &inputs[i]);
        for (size_t call = 0; call < CALLS; call++) {
            make_call(call, &inputs[i], &expected[i], &expected[i]);
        }
    }
    thread_inputs = inputs;
    thread_expected = expected;
    passed = failed = 0;
    worker workers[THREAD_COUNT] = {0};
    pthread_barrier_init(&thread_barrier, NULL, THREAD_COUNT);
    for (uint32_t i = 0; i < THREAD_COUNT; i++) {
        workers[i].number = i;
        if (pthread_create(&workers[i].thread, NULL, work, &workers[i]) != 0) {
            fail("thread");
        }
    }
    for (uint32_t i = 0; i < THREAD_COUNT; i++) {
        pthread_join(workers[i].thread, NULL);
        passed += workers[i].passed;
        failed += workers[i].failed;
    }
    pthread_barrier_destroy(&thread_barrier);
    free(inputs);
    free(expected);
    answer_counts();
    errno = 0;
}

/* ---- Stack ---- */

static input stack_input;
static answers stack_answers;

static void no_call(void) {}
static void stack_sound(void) { stack_answers.sound = guvrendik_sound(stack_input.r); }
static void stack_sound_table(void) {
    const guvrendik_register *r = &stack_input.r;
    stack_answers.table = guvrendik_sound_table(r->claims.list, r->claims.count, r->version, r->actors, r->resources);
}
static void stack_grant(void) { stack_answers.granted = guvrendik_grant(stack_input.r, stack_input.c, stack_input.now); }
static void stack_revoke(void) {
    stack_answers.revoked = guvrendik_revoke(stack_input.r, stack_input.revoker, stack_input.claim);
}
static void stack_clear_resource(void) {
    stack_answers.cleared = guvrendik_clear_resource(stack_input.r, stack_input.keeper, stack_input.resource);
}
static void stack_clear_expired(void) {
    stack_answers.renewed = guvrendik_clear_expired(stack_input.r, stack_input.caller, stack_input.moment);
}
static void stack_gate(void) { stack_answers.verdict = guvrendik_gate(stack_input.r, stack_input.a); }
static void stack_judge_plan(void) { stack_answers.judged = guvrendik_judge_plan(stack_input.r, stack_input.p); }
static void stack_judge_plan_text(void) {
    stack_answers.plan_judged = guvrendik_judge_plan_text(stack_input.r, stack_input.plan_text, stack_input.plan_len);
}
static void stack_plain_gate(void) { stack_answers.plain = guvrendik_plain_gate(stack_input.r, stack_input.a); }
static void stack_plain_plan(void) { stack_answers.plainly = guvrendik_plain_plan(stack_input.r, stack_input.p); }
static void stack_attach(void) {
    const guvrendik_action *a = &stack_input.a;
    stack_answers.attached = guvrendik_attach(stack_input.book, stack_input.r, a->actor, a->uses[0].resource, a->now,
                                              stack_input.book.entries[0].fingerprint);
}
static void stack_fetch(void) {
    const guvrendik_action *a = &stack_input.a;
    stack_answers.fetched = guvrendik_fetch(stack_input.book, stack_input.r, a->actor, a->uses[0].resource, a->now);
}
static void stack_propose(void) {
    const input *in = &stack_input;
    stack_answers.proposed = guvrendik_propose(in->r, in->c.holder, in->usage, in->now, in->signers);
}
static void stack_check_proposal(void) {
    const input *in = &stack_input;
    stack_answers.checked = guvrendik_check_proposal(in->r, in->c.holder, in->usage, in->now, in->signers, in->proposal);
}
static void stack_why_unsound(void) { stack_answers.unsound = guvrendik_why_unsound(stack_input.broken); }
static void stack_why_unread(void) {
    stack_answers.unread = guvrendik_why_unread(stack_answers.text, stack_answers.written.length);
}
static void stack_who(void) { stack_answers.holders = guvrendik_who(stack_input.r, stack_input.usage, stack_input.now); }
static void stack_cover_table(void) {
    stack_answers.covers = guvrendik_cover_table(stack_input.r, stack_input.a.actor, stack_input.a.now);
}
static void stack_why_use(void) {
    const input *in = &stack_input;
    stack_answers.use_reason = guvrendik_why_use(in->r, in->c.holder, in->usage, in->now);
}
static void stack_contains(void) {
    const guvrendik_resource *one = &stack_input.r.resources.list[0], *two = &stack_input.r.resources.list[1];
    stack_answers.contained = guvrendik_contains(one->path, one->len, two->path, two->len);
}
static void stack_write_register(void) {
    stack_answers.written = guvrendik_write_register(stack_input.r, stack_answers.text, sizeof stack_answers.text);
}
static void stack_read_register(void) {
    stack_answers.read = guvrendik_read_register(stack_answers.text, stack_answers.written.length);
}
static void stack_read_action(void) {
    stack_answers.action = guvrendik_read_action((const uint8_t *)stack_input.action_text, stack_input.action_len);
}
static void stack_verdict_text(void) {
    stack_answers.printed = guvrendik_verdict_text(stack_answers.text, stack_answers.written.length,
                                                   (const uint8_t *)stack_input.action_text, stack_input.action_len,
                                                   stack_answers.lines, sizeof stack_answers.lines);
}

static void stack_read_json(void) {
    stack_answers.json = guvrendik_read_json(stack_input.json_text, stack_input.json_len, JSON_NOW);
}
static void stack_write_json(void) {
    const guvrendik_json_read *read = &stack_answers.json;
    stack_answers.json_written = guvrendik_write_json(read->action, read->id, read->id_len, read->kind, stack_answers.page,
                                                      sizeof stack_answers.page);
}

/* How far below the top of a fresh stack a function wrote. It runs in a context of its own and not in a thread, whose start and
 * end take more stack than some calls and would hide it. */
static uint64_t stack_of(void (*body)(void)) {
    enum { STACK_SIZE = 4 << 20, PAINT = 0xA5 };
    static uint8_t stack[STACK_SIZE] __attribute__((aligned(4096)));
    static ucontext_t here, there;
    memset(stack, PAINT, STACK_SIZE);
    if (getcontext(&there) != 0) {
        fail("context");
    }
    there.uc_stack.ss_sp = stack;
    there.uc_stack.ss_size = STACK_SIZE;
    there.uc_link = &here;
    makecontext(&there, body, 0);
    if (swapcontext(&here, &there) != 0) {
        fail("context");
    }
    size_t untouched = 0;
    while (untouched < STACK_SIZE && stack[untouched] == PAINT) {
        untouched++;
    }
    return STACK_SIZE - untouched;
}

/* The stack of each call, in the order of src/requests.rs. The register is written before it is read, a JSON action read before it
 * is written. */
static void do_stack(payload *p) {
    static void (*const bodies[CALLS])(void) = {
        stack_sound,    stack_grant,          stack_revoke,        stack_gate,        stack_judge_plan,
        stack_contains, stack_write_register, stack_read_register, stack_read_action, stack_verdict_text,
        stack_read_json, stack_write_json,    stack_clear_resource, stack_clear_expired, stack_judge_plan_text,
        stack_sound_table, stack_plain_gate, stack_plain_plan, stack_attach, stack_fetch,
        stack_propose, stack_check_proposal, stack_why_unsound, stack_why_unread, stack_who, stack_cover_table, stack_why_use,
    };
    take_input(p, &stack_input);
    uint64_t idle = stack_of(no_call), used[CALLS];
    for (size_t i = 0; i < CALLS; i++) {
        used[i] = stack_of(bodies[i]) - idle;
    }
    answer_marked(0, used, sizeof used);
    errno = 0;
}

/* ---- Stack of containment ---- */

static const uint8_t *lent_outer, *lent_inner;
static size_t lent_outer_len, lent_inner_len;

static void stack_lent(void) {
    stack_answers.contained = guvrendik_contains(lent_outer, lent_outer_len, lent_inner, lent_inner_len);
}

/* What the measure has to see: the outer path copied without the slashes at its end, and the library asked with the copy. */
static void stack_copied(void) {
    uint8_t copy[GUVRENDIK_LIMIT_PATH];
    size_t length = lent_outer_len < sizeof copy ? lent_outer_len : sizeof copy;
    while (length > 0 && lent_outer[length - 1] == '/') {
        length--;
    }
    for (size_t i = 0; i < length; i++) {
        copy[i] = lent_outer[i];
    }
    stack_answers.contained = guvrendik_contains(copy, length, lent_inner, lent_inner_len);
}

/* The stack of one call on two lent paths, or of a caller that copies the outer one first; and the answer. */
static void do_lent_stack(payload *p) {
    void (*body)(void) = take32(p) ? stack_copied : stack_lent;
    lent_outer_len = take64(p);
    lent_inner_len = take64(p);
    lent_outer = lend(arena_one, take_bytes(p, lent_outer_len), lent_outer_len, AT_END);
    lent_inner = lend(arena_two, take_bytes(p, lent_inner_len), lent_inner_len, AT_END);
    uint64_t used = stack_of(body) - stack_of(no_call), told[2] = {used, stack_answers.contained.contained};
    answer_marked(0, told, sizeof told);
    errno = 0;
}

/* ---- Words ---- */

enum { WORD_CALLS = 4 };

/* The calls, in the order of src/model/words.rs. */
static guvrendik_written (*const word_calls[WORD_CALLS])(uint32_t, uint8_t *, size_t) = {
    guvrendik_refusal_text,
    guvrendik_violation_text,
    guvrendik_right_name,
    guvrendik_flag_name,
};

/* The words for each of so many numbers from the first on, into a buffer of that room: for each the marks, the answer and the buffer. */
static void do_words(payload *p) {
    static uint8_t first[ROOM];
    uint32_t call = take32(p), number = take32(p), count = take32(p), room = take32(p);
    uint8_t fill = (uint8_t)take32(p);
    for (; count > 0; count--, number++) {
        guvrendik_written got[2];
        uint32_t marks = 0;
        for (placement where = AT_END; where <= AT_START; where++) {
            uint8_t *buffer = lend_buffer(arena_one, room, fill, where);
            got[where] = word_calls[call](number, buffer, room);
            marks |= buffer_mark(arena_one, buffer, room, where) | written_mark(first, buffer, room, where);
        }
        answer_written(marks, got, first, room);
    }
}

static size_t word_call;

static void stack_words(void) {
    stack_answers.json_written = word_calls[word_call](UINT32_MAX, stack_answers.page, sizeof stack_answers.page);
}

/* The stack of each of the calls on a number that the whole table is walked through for. */
static void do_word_stack(void) {
    uint64_t idle = stack_of(no_call), used[WORD_CALLS];
    for (word_call = 0; word_call < WORD_CALLS; word_call++) {
        used[word_call] = stack_of(stack_words) - idle;
    }
    answer_marked(0, used, sizeof used);
    errno = 0;
}

int main(void) {
    /* Larger pipes save waits; smaller ones do as well. */
    fcntl(STDIN_FILENO, F_SETPIPE_SZ, CHUNK);
    fcntl(STDOUT_FILENO, F_SETPIPE_SZ, CHUNK);
    arena_one = make_arena();
    arena_two = make_arena();
    arena_three = make_arena();
    uint8_t *bytes = NULL;
    size_t room = 0;
    uint32_t header[2];
    errno = 0;
    while (receive(header, sizeof header)) {
        if (header[1] > room) {
            room = header[1];
            bytes = realloc(bytes, room);
            if (bytes == NULL) {
                fail("request");
            }
        }
        if (!receive(bytes, header[1])) {
            break;
        }
        errno = 0;
        payload p = {bytes, header[1]};
        switch (header[0]) {
        case LOAD: take(&p, &current, sizeof current); break;
        case SOUND: do_sound(); break;
        case GRANT: do_grant(&p); break;
        case REVOKE: do_revoke(&p); break;
        case GATE: do_gate(&p); break;
        case PLAN: do_plan(&p); break;
        case CONTAINS: do_contains(&p); break;
        case READ_REGISTER: do_read_register(&p); break;
        case WRITE_REGISTER: do_write_register(&p); break;
        case READ_ACTION: do_read_action(&p); break;
        case VERDICT_TEXT: do_verdict_text(&p); break;
        case READ_JSON: do_read_json(&p); break;
        case WRITE_JSON: do_write_json(&p); break;
        case CLEAR_RESOURCE: do_clear_resource(&p); break;
        case CLEAR_EXPIRED: do_clear_expired(&p); break;
        case PLAN_TEXT: do_plan_text(&p); break;
        case SOUND_TABLE: do_sound_table(&p); break;
        case ATTACH: do_attach(&p); break;
        case FETCH: do_fetch(&p); break;
        case PROPOSE: do_propose(&p); break;
        case CHECK_PROPOSAL: do_check_proposal(&p); break;
        case WHO: do_who(&p); break;
        case WHY_USE: do_why_use(&p); break;
        case BOUNDARY: do_boundary(&p); break;
        case THREADS: do_threads(&p); break;
        case STACK: do_stack(&p); break;
        case LENT_STACK: do_lent_stack(&p); break;
        case WORDS: do_words(&p); break;
        case WORD_STACK: do_word_stack(); break;
        default: fprintf(stderr, "driver: unknown request %u\n", (unsigned)header[0]); return 1;
        }
    }
    flush_answers();
    free(bytes);
    return 0;
}
