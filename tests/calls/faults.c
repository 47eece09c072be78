/* The first fault of registers and of texts: a line to a call, with sound, why, list, place, id and line.
 *
 * What is expected comes from 01's rules of soundness and its order of a grant's tests: the version, the counts of actors, resources and
 * claims, then each list by place; of an actor 2, 32, 31, of a resource 2, 33, 31, of a claim what a grant of it behind the earlier ones
 * would be refused with, were they live. The lines of case R's text are counted in versions.c: of the first claim `weight` is line 21. What
 * a folder of tests/cases is named for is what is told of it; two of them fail at a line. */
#include "calls.h"

static void told(const char *label, guvrendik_fault f) {
    printf("fault %s: %u %u list=%u place=%zu id=%u line=%zu\n", label, (unsigned)f.sound, (unsigned)f.why, (unsigned)f.list, f.place,
           (unsigned)f.id, f.line);
}

static void fault(const char *label, Register r) {
    told(label, guvrendik_why_unsound(r));
}

static Register of_version(uint64_t version, Register r) {
    r.version = version;
    return r;
}

/* The base with an actor, a resource more. */
static Register and_actor(guvrendik_actor a) {
    return with_actor(base(), 5, a);
}

static Register and_resource(guvrendik_resource o) {
    return with_resource(base(), 2, o);
}

/* The base as version 2, its first two claims with this left. */
static Register two(uint32_t first, uint32_t second) {
    const uint32_t lefts[] = {first, second, 1, 0, 16};
    Register r = of_version(2, base());
    for (size_t i = 0; i < r.claims.count; i++) r.claims.list[i].left = lefts[i];
    return r;
}

/* The base with 256 roots of its keeper in place of its claims, the last of which has this id. */
static Register filled(uint32_t last) {
    Register r = base();
    for (uint32_t i = 0; i < GUVRENDIK_LIMIT_CLAIMS; i++) r = with_claim(r, i, claim(i + 1, 0, 1, 1, 1));
    return with_claim(r, GUVRENDIK_LIMIT_CLAIMS - 1, claim(last, 0, 1, 1, 1));
}

static void counted(void) {
    fault("of none", empty());
    fault("of the base", base());
    fault("version 0", of_version(0, base()));
    fault("version 3 before the counts", of_version(3, with_counts(base(), 65, 65, 257)));
    fault("65 actors before 65 resources", with_counts(base(), 65, 65, 257));
    fault("65 resources before 257 claims", with_counts(base(), 5, 65, 257));
    fault("257 claims", with_counts(base(), 5, 2, 257));
    fault("a count of 2^64 - 1", with_counts(and_actor(human(0)), 6, 2, SIZE_MAX));
}

static void actors(void) {
    fault("actor id 0", and_actor(human(0)));
    fault("actor id 65536", and_actor(human(65536)));
    fault("kind 3", and_actor((guvrendik_actor){.id = 6, .kind = 3}));
    fault("owner 65537", and_actor(machine(6, 65537)));
    fault("owner absent", and_actor(machine(6, 9)));
    fault("owner a machine", and_actor(machine(6, 2)));
    fault("human with an owner", and_actor((guvrendik_actor){.id = 6, .kind = GUVRENDIK_ACTOR_HUMAN, .owner = 1}));
    fault("actor id doubled", and_actor(human(1)));
    fault("2 before 32 and 31 of an actor", and_actor((guvrendik_actor){.id = 1, .kind = 3, .owner = 9}));
    fault("32 before 31", and_actor(machine(1, 9)));
    fault("owner who stands later", with_actor(and_actor(machine(6, 7)), 6, human(7)));
    fault("the first of two actors", with_actor(and_actor(human(3)), 6, human(0)));
    fault("an actor before a resource", with_resource(and_actor(human(1)), 0, resource(0, 0, 1)));
}

static void resources(void) {
    fault("resource id 0", and_resource(resource(0, 0, 1)));
    fault("public 2", and_resource(resource(12, 2, 1)));
    fault("keeper 0", and_resource(resource(12, 0, 0)));
    fault("keeper 65536", and_resource(resource(12, 0, 65536)));
    fault("path byte 0x20", and_resource(resource_at(12, 0, 1, "site a")));
    fault("keeper absent", and_resource(resource(12, 0, 9)));
    fault("keeper a machine", and_resource(resource(12, 0, 2)));
    fault("resource id doubled", and_resource(resource(10, 0, 1)));
    fault("2 before 33", and_resource(resource(12, 2, 9)));
    fault("33 before 31", and_resource(resource(10, 0, 9)));
    fault("a resource before a claim", with_claim(and_resource(resource(10, 0, 1)), 0, claim(0, 0, 1, 1, 1)));
}

static void claims_alone(void) {
    fault("claim id 0", base_and(claim(0, 2, 2, 5, 1)));
    fault("rights 0", base_and(claim(6, 2, 2, 5, 0)));
    fault("weight 1001", with_claim(base(), 0, weighing(1001, claim(1, 0, 1, 1, 131071))));
    fault("expiry 2^32", base_and(expiring(GUVRENDIK_MAX_MOMENT + 1, claim(6, 2, 2, 5, 1))));
    fault("holder absent", base_and(claim(6, 2, 2, 9, 1)));
    fault("resource absent", base_and(on(12, claim(6, 0, 1, 5, 1))));
    fault("claim id doubled", base_and(claim(3, 2, 2, 5, 1)));
    fault("root by another than the keeper", base_and(claim(6, 0, 3, 5, 1)));
    fault("grant by a machine without owner", with_claim(base_and(claim(6, 2, 2, 4, 17)), 6, claim(7, 6, 4, 5, 1)));
    fault("AUDIT_WRITE by a machine", base_and(claim(6, 2, 2, 5, 8192)));
    fault("2 before 3 of a claim", base_and(claim(6, 2, 2, 9, 0)));
    fault("3 before 4", base_and(claim(3, 2, 2, 9, 1)));
    fault("4 before 6", base_and(claim(3, 0, 3, 5, 1)));
    fault("8 before 9", base_and(claim(6, 99, 2, 5, 8192)));
}

static void claims_over(void) {
    fault("parent absent", base_and(claim(6, 99, 2, 5, 1)));
    fault("parent stands later", with_claim(base_and(claim(6, 7, 1, 5, 1)), 6, claim(7, 0, 1, 1, 17)));
    fault("claim that is its own parent", base_and(claim(6, 6, 1, 1, 17)));
    fault("parent held by another", base_and(claim(6, 2, 1, 5, 1)));
    fault("parent on another resource", base_and(claim(6, 5, 2, 5, 1)));
    fault("parent without DELEGATE", base_and(weighing(600, claim(6, 4, 5, 4, 1))));
    fault("a right the parent lacks", base_and(weighing(600, claim(6, 3, 3, 5, 3))));
    fault("weight above the parent's", base_and(weighing(601, claim(6, 3, 3, 5, 1))));
    fault("16 hops", tower(17));
    fault("17 hops", tower(18));
    fault("holder holds the parent", base_and(claim(6, 2, 2, 2, 1)));
    fault("holder is the root's grantor", base_and(on(11, claim(6, 5, 2, 3, 1))));
    fault("13 before 14", base_and(weighing(601, claim(6, 3, 3, 5, 3))));
    fault("14 before 16", base_and(weighing(601, claim(6, 3, 3, 2, 1))));
    fault("15 before 16", with_claim(tower(18), 17, claim(18, 17, 18, 2, 17)));
    fault("a parent that has expired", with_claim(base(), 0, expiring(1, claim(1, 0, 1, 1, 131071))));
    fault("the first of two claims", with_claim(base_and(claim(6, 99, 2, 5, 1)), 6, claim(0, 0, 1, 1, 1)));
    fault("under a claim that lost DELEGATE", with_claim(base(), 1, claim(2, 1, 1, 2, 2)));
    fault("the last of 256", filled(1));
    fault("none of 256", filled(256));
    fault("the first of 256", with_claim(filled(1), 0, claim(1, 0, 3, 1, 1)));
    fault("version 2", two(4, 3));
    fault("left 17", two(17, 3));
    fault("left of the parent's", two(3, 3));
}

#define HEAD "register=1\nactors=2\nactor=1\nkind=human\nowner=0\nactor=2\nkind=machine\n"
#define REPORT "resources=1\nresource=10\npublic=0\n"
#define ROOT "scope=site/a\nclaims=2\nclaim=1\nparent=0\ngrantor=1\nholder=1\nresource=10\nrights=19\n"
#define BEHIND "expiry=0\nclaim=2\nparent=1\ngrantor=1\n"
#define LAST "resource=10\nrights=1\nweight=600\nexpiry=2000\n"

static void unread(const char *label, const char *text) {
    told(label, guvrendik_why_unread((const uint8_t *)text, strlen(text)));
}

static void texts(void) {
    unread("text of case R", HEAD "owner=1\n" REPORT "keeper=1\n" ROOT "weight=1000\n" BEHIND "holder=2\n" LAST);
    unread("text of nothing", "");
    unread("text of version 3", "register=3\n");
    unread("text of 65 actors", "register=1\nactors=65\n");
    unread("text with weight 1001", HEAD "owner=1\n" REPORT "keeper=1\n" ROOT "weight=1001\n" BEHIND "holder=2\n" LAST);
    unread("text with a line more", HEAD "owner=1\n" REPORT "keeper=1\n" ROOT "weight=1000\n" BEHIND "holder=2\n" LAST "x");
    unread("text with an absent owner", HEAD "owner=9\n" REPORT "keeper=1\n" ROOT "weight=1000\n" BEHIND "holder=2\n" LAST);
    unread("text with a machine as keeper", HEAD "owner=1\n" REPORT "keeper=2\n" ROOT "weight=1000\n" BEHIND "holder=2\n" LAST);
    unread("text with an absent holder", HEAD "owner=1\n" REPORT "keeper=1\n" ROOT "weight=1000\n" BEHIND "holder=9\n" LAST);
    unread("text with a lighter root", HEAD "owner=1\n" REPORT "keeper=1\n" ROOT "weight=500\n" BEHIND "holder=2\n" LAST);
    unread("text whose line fails behind an absent owner", HEAD "owner=9\n" REPORT "keeper=1\n" ROOT "weight=1001\n" BEHIND "holder=2\n" LAST);
    told("text of length 0 at NULL", guvrendik_why_unread(NULL, 0));
}

/* The folders of tests/cases whose name begins with unsound_, without that. */
static const char *const folders[] = {
    "17_hops",
    "actor_ids_doubled",
    "actor_ids_doubled_two_kinds",
    "and_action_count_above_limit",
    "and_action_file_missing",
    "and_action_not_of_the_form",
    "and_actor_absent",
    "and_count_above_limit",
    "and_last_line_not_of_the_form",
    "circle_among_machines",
    "circle_at_hop_16",
    "circle_at_hop_16_by_root_holder",
    "circle_by_holder",
    "circle_by_own_claim",
    "circle_by_root_grantor",
    "circle_by_root_grantor_deeper",
    "circle_by_root_grantor_holding_root",
    "claim_ids_doubled",
    "claim_ids_doubled_whole",
    "claim_resource_absent",
    "claim_resource_is_an_actor_number",
    "dead_claim",
    "delegate_from_another_claim",
    "grantor_absent",
    "grantor_of_child_absent",
    "holder_absent",
    "human_owned_by_itself",
    "human_with_owner",
    "human_with_owner_absent",
    "keeper_absent",
    "keeper_machine",
    "keeper_machine_of_public_resource",
    "machine_grantor_without_owner",
    "machine_grants_audit_write",
    "machine_grants_audit_write_deeper",
    "machine_grants_policy_modify",
    "machine_grants_registry_modify",
    "machine_owned_by_itself",
    "machine_owned_by_machine",
    "machine_owner_absent",
    "machine_owner_is_a_resource_number",
    "parent_absent",
    "parent_itself",
    "parent_lacks_a_right",
    "parent_lacks_read_of_smaller_number",
    "parent_lacks_right_16",
    "parent_later",
    "parent_not_held_by_grantor",
    "parent_on_another_resource",
    "parent_on_another_resource_of_same_path",
    "parent_on_outer_path",
    "parent_without_delegate",
    "parents_of_each_other",
    "resource_ids_doubled",
    "rights_joined_from_two_parents",
    "root_by_holder_with_delegate",
    "root_by_human_not_keeper",
    "root_by_keeper_of_another_resource",
    "root_by_machine",
    "weight_1_under_weight_0",
    "weight_above_parent",
    "weight_above_parent_not_above_root",
};

/* Of each, its register's text, from the repository's root. */
static void cases(void) {
    static uint8_t text[GUVRENDIK_TEXT_REGISTER];
    for (size_t i = 0; i < sizeof folders / sizeof *folders; i++) {
        char path[128];
        snprintf(path, sizeof path, "tests/cases/unsound_%s/register.txt", folders[i]);
        FILE *file = fopen(path, "rb");
        if (file == NULL) abort();
        size_t length = fread(text, 1, sizeof text, file);
        fclose(file);
        told(folders[i], guvrendik_why_unread(text, length));
    }
}

void fault_lines(void) {
    counted();
    actors();
    resources();
    claims_alone();
    claims_over();
    texts();
    cases();
}
