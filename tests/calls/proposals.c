/* The check of a proposal: a line to a proposal, with the answer and, where a test stopped the call, its number. Then the planner: a line to
 * a question, with what is proposed.
 *
 * What is expected comes from 02, T-10: the check accepts "exactly when it is no grant and the one-use action (flags 0, nothing governed) is
 * permitted, or it is a grant of that form that would be accepted at that moment and the action would then be permitted". The form is a grant
 * "to that actor of that single right on that resource, by one of the signers". "Refusals, of both calls: 1, 2 for more than 8 signers or a
 * field of the use or moment out of range, 3 for the actor". Case R is asked at 1999, actor 2, WRITE on 10, unless a line says otherwise. */
#include "calls.h"

typedef guvrendik_signers Signers;
typedef guvrendik_proposal Proposal;

static void told(const char *label, guvrendik_checked c) {
    static const char *const answers[] = {"", "passes", "fails", "stopped"};
    printf("%s: %s", label, c.answer <= GUVRENDIK_DECISION_STOPPED ? answers[c.answer] : "");
    if (c.answer == GUVRENDIK_DECISION_STOPPED) printf(" %u", (unsigned)c.refusal);
    printf("\n");
}

static void ask(const char *label, Register r, uint32_t actor, uint32_t right, uint64_t moment, uint32_t signer, Proposal p) {
    guvrendik_usage u = {.resource = 10, .right = right};
    Signers s = {.list = {signer}, .count = 1};
    told(label, guvrendik_check_proposal(r, actor, u, moment, s, p));
}

static const Proposal no_grant = {.kind = GUVRENDIK_PROPOSES_NONE};

static Proposal grant(Claim c) {
    return (Proposal){.kind = GUVRENDIK_PROPOSES_GRANT, .claim = c};
}

static Proposal of_kind(uint64_t kind, Claim c) {
    return (Proposal){.kind = kind, .claim = c};
}

/* The root by which the keeper lets machine 2 of case R write. */
static Claim root(void) {
    return claim(3, 0, 1, 2, 2);
}

static void forms(void) {
    Register r = case_r();
    Signers behind = {.list = {2, 1}, .count = 1};
    ask("no grant, READ", r, 2, 0, 1999, 2, no_grant);
    ask("no grant, WRITE", r, 2, 1, 1999, 1, no_grant);
    ask("no grant, READ at 2000", r, 2, 0, 2000, 2, no_grant);
    ask("no grant, whatever claim is beside it", r, 2, 0, 1999, 2, of_kind(1, on(65536, root())));
    ask("the keeper's root", r, 2, 1, 1999, 1, grant(root()));
    ask("kind 0", r, 2, 1, 1999, 1, of_kind(0, root()));
    ask("kind 3", r, 2, 1, 1999, 1, of_kind(3, root()));
    ask("kind 2 and more", r, 2, 1, 1999, 1, of_kind(UINT64_C(1) << 32 | 2, root()));
    ask("a root by no signer", r, 2, 1, 1999, 2, grant(root()));
    told("a signer past the count",
         guvrendik_check_proposal(r, 2, (guvrendik_usage){.resource = 10, .right = 1}, 1999, behind, grant(root())));
    ask("to another", r, 2, 1, 1999, 1, grant(claim(3, 0, 1, 1, 2)));
    ask("on another report", r, 2, 1, 1999, 1, grant(on(11, root())));
    ask("of another right", r, 2, 1, 1999, 1, grant(claim(3, 0, 1, 2, 1)));
    ask("of two rights", r, 2, 1, 1999, 1, grant(claim(3, 0, 1, 2, 3)));
}

static void grants(void) {
    Register r = case_r();
    ask("an id that stands", r, 2, 1, 1999, 1, grant(claim(2, 0, 1, 2, 2)));
    ask("any free id", r, 2, 1, 1999, 1, grant(claim(65535, 0, 1, 2, 2)));
    ask("an id out of range", r, 2, 1, 1999, 1, grant(claim(65536, 0, 1, 2, 2)));
    ask("weight 0", r, 2, 1, 1999, 1, grant(weighing(0, root())));
    ask("weight 1", r, 2, 1, 1999, 1, grant(weighing(1, root())));
    ask("weight 1001", r, 2, 1, 1999, 1, grant(weighing(1001, root())));
    ask("expired then", r, 2, 1, 1999, 1, grant(expiring(1999, root())));
    ask("expired one later", r, 2, 1, 1999, 1, grant(expiring(2000, root())));
    ask("READ already, weight 0", r, 2, 0, 1999, 1, grant(weighing(0, claim(3, 0, 1, 2, 1))));
    ask("below the owner's claim", r, 2, 1, 1999, 1, grant(claim(3, 1, 1, 2, 2)));
    ask("below an absent claim", r, 2, 1, 1999, 1, grant(claim(3, 9, 1, 2, 2)));
    ask("by the machine itself", r, 2, 1, 1999, 2, grant(claim(3, 2, 2, 2, 2)));
    ask("to a machine without owner", base(), 4, 0, 0, 1, grant(claim(9, 0, 1, 4, 1)));
    ask("to one whose owner lacks it", base(), 5, 1, 0, 1, grant(claim(9, 0, 1, 5, 2)));
    ask("by a machine", base(), 3, 1, 0, 2, grant(claim(9, 2, 2, 3, 2)));
    ask("right 13 by a machine", base(), 3, 13, 0, 2, grant(claim(9, 2, 2, 3, 1 << 13)));
    ask("a path with ..", with_resource(case_r(), 0, resource_at(10, 0, 1, "a/../b")), 1, 2, 1999, 1, grant(claim(3, 0, 1, 1, 4)));
    ask("under 15 hops", tower(16), 18, 0, 0, 17, grant(claim(99, 16, 17, 18, 1)));
    ask("under 16 hops", tower(17), 19, 0, 0, 18, grant(claim(99, 17, 18, 19, 1)));
    ask("a dead source", tower_until(3, 100), 6, 0, 100, 4, grant(claim(99, 3, 4, 6, 1)));
    ask("a live source", tower_until(3, 100), 6, 0, 99, 4, grant(claim(99, 3, 4, 6, 1)));
}

/* Case R with so many claims, all roots but the second. */
static Register many(size_t claims) {
    Register r = case_r();
    for (size_t i = 2; i < claims; i++) r = with_claim(r, i, claim((uint32_t)i + 1, 0, 1, 1, 1));
    return r;
}

/* Human 3 holds a claim of version 2 that says so many hands, beside the owner's. */
static Register lending(uint32_t hands) {
    Register r = with_actor(case_r(), 2, human(3));
    Claim c = claim(7, 0, 1, 3, 19);
    c.left = hands;
    r.version = GUVRENDIK_REGISTER_2;
    r.claims.count = 1;
    return with_claim(r, 1, c);
}

static Proposal handing(uint32_t hands) {
    Claim c = claim(9, 7, 3, 2, 2);
    c.left = hands;
    return grant(c);
}

static void limits(void) {
    ask("the last claim", many(255), 2, 1, 1999, 1, grant(claim(300, 0, 1, 2, 2)));
    ask("no room", many(256), 2, 1, 1999, 1, grant(claim(300, 0, 1, 2, 2)));
    ask("left 0 below 1", lending(1), 2, 1, 0, 3, handing(0));
    ask("left 1 below 1", lending(1), 2, 1, 0, 3, handing(1));
    ask("left 0 below 0", lending(0), 2, 1, 0, 3, handing(0));
    ask("left 16 below 16", lending(16), 2, 1, 0, 3, handing(16));
    ask("left 17", lending(16), 2, 1, 0, 3, handing(17));
}

static void stops(void) {
    Register r = case_r(), spoilt = with_claim(case_r(), 0, claim(1, 0, 2, 1, 19));
    guvrendik_usage write = {.resource = 10, .right = 1}, far = {.resource = 65536, .right = 1}, absent = {.resource = 65535, .right = 1};
    Signers none = {.count = 0}, all = {.list = {0, 1, 1, 2, 9, 65536, UINT32_MAX, 3}, .count = 8}, nine = {.list = {1}, .count = 9};
    told("a register that is not sound, nine signers", guvrendik_check_proposal(spoilt, 2, write, 1999, nine, no_grant));
    told("nine signers, an absent actor", guvrendik_check_proposal(r, 9, write, 1999, nine, no_grant));
    told("a resource out of range", guvrendik_check_proposal(r, 2, far, 1999, none, no_grant));
    told("a resource that is absent", guvrendik_check_proposal(r, 2, absent, 1999, all, grant(on(65535, root()))));
    ask("right 17", r, 2, 17, 1999, 1, no_grant);
    ask("moment 2^32", r, 2, 1, UINT64_C(4294967296), 1, no_grant);
    ask("actor 0", r, 0, 1, 1999, 1, no_grant);
    ask("actor 9", r, 9, 1, 1999, 1, no_grant);
    ask("actor 65536", r, 65536, 1, 1999, 1, no_grant);
    told("no signers, no grant", guvrendik_check_proposal(r, 2, (guvrendik_usage){.resource = 10}, 1999, none, no_grant));
    told("any eight signers", guvrendik_check_proposal(r, 2, write, 1999, all, grant(root())));
}

/* ---- the planner */

/* What is proposed to the actor for that right on 10. */
static void plan(const char *label, Register r, uint32_t actor, uint32_t right, uint64_t moment, Signers s) {
    guvrendik_proposed p = guvrendik_propose(r, actor, (guvrendik_usage){.resource = 10, .right = right}, moment, s);
    Claim c = p.proposal.claim;
    printf("planner, %s: ", label);
    if (p.accepted != 1)
        printf("refused %u, kind %u\n", (unsigned)p.refusal, (unsigned)p.proposal.kind);
    else if (p.proposal.kind == GUVRENDIK_PROPOSES_NONE)
        printf("no grant\n");
    else
        printf("%u below %u by %u to %u, rights %u, weight %u, left %u, expiry %u\n", (unsigned)c.id, (unsigned)c.parent, (unsigned)c.grantor,
               (unsigned)c.holder, (unsigned)c.rights, (unsigned)c.weight, (unsigned)c.left, (unsigned)c.expiry);
}

static Signers by(uint32_t signer) {
    return (Signers){.list = {signer}, .count = 1};
}

static void planner(void) {
    Register r = case_r(), spoilt = with_claim(case_r(), 0, claim(1, 0, 2, 1, 19));
    Signers none = {.count = 0}, late = {.list = {0, 9, 2, 1}, .count = 4}, nine = {.list = {1}, .count = 9};
    Signers fourth = {.list = {4, 1}, .count = 2};
    plan("READ", r, 2, 0, 1999, by(2));
    plan("READ at 2000", r, 2, 0, 2000, by(2));
    plan("WRITE by the keeper", r, 2, 1, 1999, by(1));
    plan("WRITE by the machine itself", r, 2, 1, 1999, by(2));
    plan("the keeper behind others", r, 2, 1, 1999, late);
    plan("no signers", r, 2, 1, 1999, none);
    plan("a machine without owner", base(), 4, 0, 0, by(1));
    plan("one whose owner lacks it", base(), 5, 1, 0, by(1));
    plan("by a machine", base(), 3, 1, 0, by(2));
    plan("right 13 by a machine", base(), 3, 13, 0, by(2));
    plan("a path with ..", with_resource(case_r(), 0, resource_at(10, 0, 1, "a/../b")), 1, 2, 1999, by(1));
    plan("under 15 hops", tower(16), 18, 0, 0, by(17));
    plan("under 16 hops", tower(17), 19, 0, 0, by(18));
    plan("a dead source", tower_until(3, 100), 6, 0, 100, by(4));
    plan("a live source", tower_until(3, 100), 6, 0, 99, by(4));
    plan("a circle", tower(3), 1, 0, 0, by(4));
    plan("a circle, then the keeper", tower(3), 1, 0, 0, fourth);
    plan("the last claim", many(255), 2, 1, 1999, by(1));
    plan("no room", many(256), 2, 1, 1999, by(1));
    plan("one hand left", lending(1), 2, 1, 0, by(3));
    plan("no hand left", lending(0), 2, 1, 0, by(3));
    plan("a register that is not sound, nine signers", spoilt, 2, 1, 1999, nine);
    plan("nine signers, an absent actor", r, 9, 1, 1999, nine);
    plan("right 17", r, 2, 17, 1999, by(1));
    plan("moment 2^32", r, 2, 1, UINT64_C(4294967296), by(1));
    plan("actor 65536", r, 65536, 1, 1999, by(1));
}

void proposal_lines(void) {
    forms();
    grants();
    limits();
    stops();
    planner();
}
