/* Grants, revocations and clearings: a line to a call, with 01's number of the refusal, 0 where it is accepted, and how many claims stand
 * behind it; for a revocation and a clearing instead how many went, and the ids of those that are left.
 *
 * What is expected comes from 01, "Numbers a call can refuse with": "Grant tests 1 to 8 in order .. and, with a parent, 9 to 16; it is refused
 * for no other cause", "Revocation tests 1, 3, 17, 18; a number out of range there fails 3 or 17", and from 02, T-09, of the clearings: "1,
 * for the second call 2 for the moment, 3 for the caller, for the first call 3 for the resource, then 18". By T-03, 11 asks every claim from the parent up. A line's name begins with the
 * number that is given, and a line `n before m` has both faults. 9 and 10 cannot meet, nor can 8 and a root: an absent parent has no holder, and a root by
 * a machine is 6. Of the four faults that a tester will try, three are here: rights of two claims joined, direct children alone revoked, an
 * old child bound to a new claim under a reused id; the fourth is the gate's. */
#include "calls.h"

static void grant(const char *label, Register r, Claim c, uint64_t now) {
    guvrendik_granted g = guvrendik_grant(r, c, now);
    printf("%s: %u claims=%zu\n", label, (unsigned)g.refusal, g.state.claims.count);
}

void claim_ids(Register r) {
    for (size_t i = 0; i < r.claims.count; i++) printf(" %u", (unsigned)r.claims.list[i].id);
}

static void withdrawn(const char *label, guvrendik_revoked y) {
    printf("%s: %u removed=%zu left=", label, (unsigned)y.refusal, y.removed);
    claim_ids(y.state);
    printf("\n");
}

static void revoke(const char *label, Register r, uint32_t who, uint32_t id) {
    withdrawn(label, guvrendik_revoke(r, who, id));
}

static void clear_resource(const char *label, Register r, uint32_t who, uint32_t id) {
    withdrawn(label, guvrendik_clear_resource(r, who, id));
}

static void clear_expired(const char *label, Register r, uint32_t who, uint64_t now) {
    withdrawn(label, guvrendik_clear_expired(r, who, now));
}

/* The base, where the machine without owner holds a claim that it could pass on. */
static Register unowned(void) {
    return base_and(claim(6, 2, 2, 4, 17));
}

/* The base's actors and resources, and so many roots that the keeper 1 granted itself. */
static Register filled(uint32_t claims) {
    Register r = with_counts(base(), 5, 2, 0);
    for (uint32_t i = 0; i < claims; i++) r = with_claim(r, i, claim(i + 1, 0, 1, 1, 17));
    return r;
}

/* The base, where machine 5 could pass on its claim, which never runs out: the one above it does, at 2000. */
static Register passed_on(void) {
    return with_claim(base(), 3, weighing(600, claim(4, 3, 3, 5, 17)));
}

static void accepted_grants(void) {
    Register r = base();
    grant("0 root by the keeper", r, claim(6, 0, 1, 5, 1), 0);
    grant("0 drawn by a machine", r, claim(6, 2, 2, 5, 1), 0);
    grant("0 weight 0 on arrival", r, weighing(0, claim(6, 2, 2, 5, 1)), 0);
    grant("0 run out on arrival", r, expiring(5, claim(6, 2, 2, 5, 1)), 10);
    grant("0 parent live at 1999", r, weighing(600, claim(6, 3, 3, 5, 1)), 1999);
    grant("0 expiry later than the parent's", r, expiring(3000, weighing(600, claim(6, 3, 3, 5, 1))), 1999);
    grant("0 grandparent live at 1999", passed_on(), weighing(600, claim(6, 4, 5, 4, 1)), 1999);
    grant("0 root of 15 hops live at 1999", tower_until(16, 2000), claim(17, 16, 17, 18, 17), 1999);
    grant("0 hop 16", tower(16), claim(17, 16, 17, 18, 17), 0);
}

static void first_refusals(void) {
    Register r = base();
    Claim c = claim(6, 2, 2, 5, 1);
    grant("1 register not sound", with_counts(r, 65, 2, 5), c, 0);
    grant("2 claim id 0", r, claim(0, 2, 2, 5, 1), 0);
    grant("2 holder 65541 is not 5", r, claim(6, 2, 2, 65541, 1), 0);
    grant("2 rights 0", r, claim(6, 2, 2, 5, 0), 0);
    grant("2 moment 2^32", r, c, UINT64_C(4294967296));
    grant("3 grantor", r, claim(6, 2, 9, 5, 1), 0);
    grant("3 holder", r, claim(6, 2, 2, 9, 1), 0);
    grant("3 resource", r, on(12, c), 0);
    grant("4 id stands", r, claim(3, 2, 2, 5, 1), 0);
    grant("6 root by another", r, claim(6, 0, 3, 5, 1), 0);
    grant("6 root by a machine", r, claim(6, 0, 2, 5, 8192), 0);
    grant("7 machine without owner", unowned(), claim(7, 6, 4, 5, 1), 0);
    grant("8 AUDIT_WRITE by a machine", r, claim(6, 2, 2, 5, 8192), 0);
}

static void parent_refusals(void) {
    Register r = base();
    grant("9 parent absent", r, claim(6, 99, 2, 5, 1), 0);
    grant("9 its own parent", r, claim(6, 6, 1, 5, 1), 0);
    grant("10 parent of another", r, claim(6, 2, 1, 5, 1), 0);
    grant("10 parent on another resource", r, claim(6, 5, 2, 5, 1), 0);
    grant("11 parent run out at 2000", r, weighing(600, claim(6, 3, 3, 5, 1)), 2000);
    grant("11 grandparent run out at 2000", passed_on(), weighing(600, claim(6, 4, 5, 4, 1)), 2000);
    grant("11 root of 15 hops run out at 2000", tower_until(16, 2000), claim(17, 16, 17, 18, 17), 2000);
    grant("12 parent without DELEGATE", r, weighing(600, claim(6, 4, 5, 4, 1)), 0);
    grant("13 a right the parent lacks", r, weighing(600, claim(6, 3, 3, 5, 3)), 0);
    /* Human 3 also holds WRITE and DELEGATE by a second claim. */
    grant("13 rights of two claims joined", base_and(weighing(600, claim(6, 2, 2, 3, 18))), weighing(600, claim(7, 3, 3, 5, 3)), 0);
    grant("14 weight above the parent's", r, weighing(601, claim(6, 3, 3, 5, 1)), 0);
    grant("15 hop 17", tower(17), claim(18, 17, 18, 19, 17), 0);
    grant("16 holder higher on the chain", r, weighing(600, claim(6, 3, 3, 2, 1)), 0);
    grant("16 holder is the root's grantor", r, on(11, claim(6, 5, 2, 3, 1)), 0);
}

static void pairs(void) {
    Register r = base();
    grant("1 before 2", with_counts(r, 65, 2, 5), claim(0, 2, 2, 5, 1), 0);
    grant("2 before 3", r, claim(6, 2, 2, 9, 0), 0);
    grant("3 before 4", r, claim(3, 2, 2, 9, 1), 0);
    grant("4 before 5", filled(256), claim(7, 0, 1, 1, 1), 0);
    grant("5 before 6", filled(256), claim(300, 0, 3, 1, 1), 0);
    grant("6 before 7", r, claim(6, 0, 4, 5, 1), 0);
    grant("7 before 8", unowned(), claim(7, 6, 4, 5, 8192), 0);
    grant("8 before 9", r, claim(6, 99, 2, 5, 8192), 0);
    grant("10 before 11", r, claim(6, 3, 1, 5, 1), 2000);
    grant("10 before 11 of the grandparent", r, weighing(600, claim(6, 4, 1, 4, 1)), 2000);
    Register spent = with_claim(r, 3, weighing(0, claim(4, 3, 3, 5, 1)));
    grant("11 before 12", spent, weighing(0, claim(6, 4, 5, 4, 1)), 0);
    grant("11 of the grandparent before 12", r, weighing(600, claim(6, 4, 5, 4, 1)), 2000);
    grant("12 before 13", r, weighing(600, claim(6, 4, 5, 4, 2)), 0);
    grant("13 before 14", r, weighing(601, claim(6, 3, 3, 5, 3)), 0);
    Register light_top = with_claim(tower(17), 16, weighing(500, claim(17, 16, 17, 18, 17)));
    grant("14 before 15", light_top, claim(18, 17, 18, 19, 17), 0);
    grant("15 before 16", tower(17), claim(18, 17, 18, 2, 17), 0);
}

static void full_register(void) {
    Claim c = claim(257, 0, 1, 1, 1);
    grant("0 claim 256", filled(255), c, 0);
    grant("5 claim 257", filled(256), c, 0);
    grant("0 place of a revoked claim", guvrendik_revoke(filled(256), 1, 7).state, c, 0);
}

static void revocations(void) {
    Register r = base(), unsound = with_counts(r, 65, 2, 5);
    revoke("0 with all drawn from it", r, 1, 2);
    revoke("0 the root", r, 1, 1);
    revoke("0 by a machine that granted it", r, 2, 3);
    revoke("0 by a grantor higher up", r, 1, 4);
    revoke("0 on the other resource", r, 3, 5);
    revoke("1 register not sound", unsound, 1, 1);
    revoke("1 before 3", unsound, 9, 1);
    revoke("3 revoker absent", r, 9, 1);
    revoke("3 revoker 0", r, 0, 1);
    revoke("3 revoker 65537 is not 1", r, 65537, 1);
    revoke("3 before 17", r, 9, 99);
    revoke("17 claim absent", r, 1, 99);
    revoke("17 claim 0", r, 1, 0);
    revoke("17 claim 65537 is not 1", r, 1, 65537);
    revoke("17 before 18", r, 5, 99);
    revoke("18 holder and no grantor", r, 3, 3);
    revoke("18 grantor below the claim", r, 2, 2);
    revoke("18 grantor on another chain", r, 3, 2);
}

static void resource_clearings(void) {
    Register r = base(), unsound = with_counts(r, 65, 2, 5);
    clear_resource("0 report by its keeper", r, 1, 10);
    clear_resource("0 the other report", r, 3, 11);
    clear_resource("0 report without claims", with_resource(r, 2, resource(12, 0, 1)), 1, 12);
    clear_resource("0 report of case R", case_r(), 1, 10);
    clear_resource("1 clearing in a register not sound", unsound, 1, 10);
    clear_resource("1 before 3", unsound, 9, 10);
    clear_resource("1 before 18", unsound, 3, 10);
    clear_resource("3 caller absent", r, 9, 10);
    clear_resource("3 caller 0", r, 0, 10);
    clear_resource("3 caller 65537 is not 1", r, 65537, 10);
    clear_resource("3 report absent", r, 1, 12);
    clear_resource("3 report 0", r, 1, 0);
    clear_resource("3 report 65546 is not 10", r, 1, 65546);
    clear_resource("3 caller and report absent", r, 9, 12);
    clear_resource("3 before 18", r, 2, 12);
    clear_resource("18 the keeper's machine", r, 2, 10);
    clear_resource("18 keeper of another report", r, 3, 10);
    clear_resource("18 machine of case R", case_r(), 2, 10);
}

static void expired_clearings(void) {
    Register r = base(), unsound = with_counts(r, 65, 2, 5);
    clear_expired("0 old claims at 0", r, 1, 0);
    clear_expired("0 old claims at 1999", r, 1, 1999);
    clear_expired("0 old claims at 2000, with what is drawn", r, 1, 2000);
    clear_expired("0 old claims at 2^32 - 1", r, 3, UINT64_C(4294967295));
    clear_expired("0 by a human who keeps nothing", with_actor(r, 5, human(6)), 6, 2000);
    clear_expired("0 expiry 2001 stays at 2000", base_and(expiring(2001, claim(6, 2, 2, 5, 1))), 1, 2000);
    clear_expired("0 weight 0 without expiry stays", base_and(weighing(0, claim(6, 2, 2, 5, 1))), 1, 2000);
    clear_expired("0 weight 0 with an expiry goes", base_and(expiring(2000, weighing(0, claim(6, 2, 2, 5, 1)))), 1, 2000);
    clear_expired("0 old root with all drawn from it", with_claim(r, 0, expiring(2000, claim(1, 0, 1, 1, 131071))), 1, 2000);
    clear_expired("0 old claims of case R", case_r(), 1, 2000);
    clear_expired("1 clearing in a register not sound", unsound, 1, 2000);
    clear_expired("1 before 2", unsound, 1, UINT64_C(4294967296));
    clear_expired("1 before 3", unsound, 9, 2000);
    clear_expired("1 before 18", unsound, 2, 2000);
    clear_expired("2 moment 2^32", r, 1, UINT64_C(4294967296));
    clear_expired("2 moment 2^32 + 2000 is not 2000", r, 1, UINT64_C(4294969296));
    clear_expired("2 before 3", r, 9, UINT64_C(4294967296));
    clear_expired("2 before 18", r, 2, UINT64_C(4294967296));
    clear_expired("3 caller absent", r, 9, 2000);
    clear_expired("3 caller 0", r, 0, 2000);
    clear_expired("3 caller 65537 is not 1", r, 65537, 2000);
    clear_expired("18 machine", r, 2, 2000);
    clear_expired("18 machine without owner", r, 4, 2000);
    clear_expired("18 machine of case R", case_r(), 2, 2000);
}

/* Claim 2 goes with 3 and 4 drawn from it; another claim 2 comes, to another holder: claim 3 is not bound to it, and a new claim 3 can be. */
static void used_again(void) {
    Register again = guvrendik_grant(guvrendik_revoke(base(), 1, 2).state, claim(2, 1, 1, 3, 17), 0).state;
    revoke("17 old child of a reused id", again, 1, 3);
    grant("10 old holder of a reused id", again, claim(3, 2, 2, 5, 1), 0);
    grant("0 new child of a reused id", again, claim(3, 2, 3, 5, 1), 0);
    revoke("0 reused id", guvrendik_grant(again, claim(3, 2, 3, 5, 1), 0).state, 1, 2);
    /* Claim 3 is cleared with 4 drawn from it, and another claim 3 comes. */
    Register cleared = guvrendik_grant(guvrendik_clear_expired(base(), 1, 2000).state, claim(3, 2, 2, 5, 17), 0).state;
    revoke("17 old child of a cleared and reused id", cleared, 1, 4);
    revoke("0 cleared and reused id", cleared, 1, 3);
}

void change_lines(void) {
    accepted_grants();
    first_refusals();
    parent_refusals();
    pairs();
    full_register();
    revocations();
    resource_clearings();
    expired_clearings();
    used_again();
}
