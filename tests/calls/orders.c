/* Pairs of withdrawals: a line to a pair, first in the order given and then, behind the bar, in the other. In each order the numbers that
 * the two calls are told, 0 where one is accepted, how many claims went in all, the ids of those that are left, and the id in the first
 * place behind them.
 *
 * What is expected comes from 01's rules of a revocation and from 02, T-08: the same register in either order, "though the call that comes
 * second may be told 17", and T-09: "T-08's result is wanted for any two of the three withdrawing calls". Where a call is told 17, the
 * other took its claim; a clearing never is. */
#include "calls.h"

/* Who revokes which claim, clears which report, or clears old claims at which moment. */
typedef struct withdrawal {
    enum { REVOKE, CLEAR_RESOURCE, CLEAR_EXPIRED } kind;
    uint32_t caller;
    uint64_t what;
} Withdrawal;

static Withdrawal by(uint32_t revoker, uint32_t claim) {
    return (Withdrawal){.kind = REVOKE, .caller = revoker, .what = claim};
}

static Withdrawal report(uint32_t caller, uint32_t resource) {
    return (Withdrawal){.kind = CLEAR_RESOURCE, .caller = caller, .what = resource};
}

static Withdrawal old(uint32_t caller, uint64_t now) {
    return (Withdrawal){.kind = CLEAR_EXPIRED, .caller = caller, .what = now};
}

static guvrendik_revoked made(Register r, Withdrawal w) {
    switch (w.kind) {
    case REVOKE: return guvrendik_revoke(r, w.caller, (uint32_t)w.what);
    case CLEAR_RESOURCE: return guvrendik_clear_resource(r, w.caller, (uint32_t)w.what);
    default: return guvrendik_clear_expired(r, w.caller, w.what);
    }
}

/* The id in the first place behind the claims, 0 where all places are taken. */
static uint32_t behind(Register r) {
    return r.claims.count < GUVRENDIK_LIMIT_CLAIMS ? r.claims.list[r.claims.count].id : 0;
}

static void in_turn(Register r, Withdrawal first, Withdrawal second) {
    guvrendik_revoked one = made(r, first);
    guvrendik_revoked two = made(one.state, second);
    printf(" %u %u removed=%zu left=", (unsigned)one.refusal, (unsigned)two.refusal, one.removed + two.removed);
    claim_ids(two.state);
    printf(" behind=%u", (unsigned)behind(two.state));
}

static void pair(const char *label, Register r, Withdrawal one, Withdrawal other) {
    printf("%s:", label);
    in_turn(r, one, other);
    printf(" |");
    in_turn(r, other, one);
    printf("\n");
}

/* The base with a second claim drawn from claim 2. */
static Register forked(void) {
    return base_and(claim(6, 2, 2, 5, 1));
}

static void chains(void) {
    Register r = forked();
    pair("the same call twice", r, by(2, 3), by(2, 3));
    pair("two callers, one claim", r, by(1, 4), by(3, 4));
    pair("a claim, and one drawn from it", r, by(1, 3), by(3, 4));
    pair("two claims drawn from one", r, by(2, 3), by(2, 6));
    pair("claims on two resources", r, by(3, 5), by(1, 1));
}

static void refusals(void) {
    Register r = forked();
    pair("no grantor, and the claim above", r, by(5, 4), by(2, 3));
    pair("no grantor, and a claim beside", r, by(5, 4), by(2, 6));
    pair("revoker absent, and the claim above", r, by(9, 4), by(2, 3));
    pair("claim 0, and one that stands", r, by(1, 0), by(2, 3));
    pair("claim 65536, and one that stands", r, by(1, 65536), by(2, 3));
    pair("register not sound", with_counts(r, 65, 2, 6), by(2, 3), by(3, 4));
}

static void clearings(void) {
    Register r = forked();
    pair("a claim, and its report", r, by(2, 3), report(1, 10));
    pair("a claim, and the other report", r, by(2, 3), report(3, 11));
    pair("a claim, and old claims", r, by(3, 4), old(3, 2000));
    pair("no grantor, and old claims", r, by(5, 4), old(3, 2000));
    pair("two reports", r, report(1, 10), report(3, 11));
    pair("a report twice", r, report(1, 10), report(1, 10));
    pair("a report, and old claims", r, report(1, 10), old(3, 2000));
    pair("old claims at two moments", r, old(1, 1999), old(3, 2000));
    pair("neither keeper nor human", r, report(3, 10), old(2, 2000));
    pair("moment 2^32, and a claim", r, old(1, UINT64_C(4294967296)), by(2, 3));
    pair("clearings in a register not sound", with_counts(r, 65, 2, 6), report(1, 10), old(1, 2000));
}

/* Claim 6 past the count. */
static void past_the_count(void) {
    Register r = with_counts(forked(), 5, 2, 5);
    pair("past the count, one accepted", r, by(5, 4), by(2, 3));
    pair("past the count, none accepted", r, by(5, 4), by(9, 3));
    pair("past the count, a clearing of nothing", r, old(1, 0), by(5, 4));
}

void order_lines(void) {
    chains();
    refusals();
    clearings();
    past_the_count();
}
