/* Whose signature is missing: for the machine of case R the planner is asked for WRITE, which its owner and keeper can sign, then with a signer
 * who cannot, then for READ, which needs no grant. What is proposed is checked and granted, and the gate is asked. Every result is checked;
 * the first that is not as it must be ends the program. */
#include "guvrendik.h"

#include <stdio.h>
#include <stdlib.h>
#include <string.h>

static const char register_text[] =
    "register=1\n"
    "actors=2\n"
    "actor=1\nkind=human\nowner=0\n"
    "actor=2\nkind=machine\nowner=1\n"
    "resources=1\n"
    "resource=10\npublic=0\nkeeper=1\nscope=site/a\n"
    "claims=2\n"
    "claim=1\nparent=0\ngrantor=1\nholder=1\nresource=10\nrights=19\nweight=1000\nexpiry=0\n"
    "claim=2\nparent=1\ngrantor=1\nholder=2\nresource=10\nrights=1\nweight=600\nexpiry=2000\n";

static const uint64_t now = 1999;

static void demand(int holds, const char *what) {
    if (!holds) {
        fprintf(stderr, "signature: %s\n", what);
        exit(1);
    }
}

static void print_refusal(uint32_t number) {
    uint8_t words[GUVRENDIK_TEXT_WORDS];
    guvrendik_written w = guvrendik_refusal_text(number, words, sizeof words);
    demand(w.accepted == 1, "the words for a refusal fit");
    printf("refused with %u: %.*s\n", (unsigned)number, (int)w.length, (const char *)words);
}

static void ask_gate(guvrendik_register r, guvrendik_usage use) {
    guvrendik_verdict v = guvrendik_gate(r, guvrendik_make_action(2, use, now));
    demand(v.decision != GUVRENDIK_DECISION_STOPPED, "the gate answers");
    printf("  the gate: %s\n", v.decision == GUVRENDIK_DECISION_PERMITTED ? "permitted" : "refused");
}

/* Asks for one grant that would let actor 2 use report 10, and prints it. Where there is one it is granted: the register handed back has it. */
static guvrendik_register sign(guvrendik_register r, guvrendik_right right, uint32_t signer) {
    guvrendik_usage use = guvrendik_make_usage(10, right);
    guvrendik_signers signers;
    memset(&signers, 0, sizeof signers);
    signers.list[0] = signer;
    signers.count = 1;
    uint8_t name[GUVRENDIK_TEXT_WORDS];
    guvrendik_written w = guvrendik_right_name((uint32_t)right, name, sizeof name);
    demand(w.accepted == 1, "the name of a right fits");
    printf("%.*s on 10 for actor 2, signer %u: ", (int)w.length, (const char *)name, (unsigned)signer);
    guvrendik_proposed p = guvrendik_propose(r, 2, use, now, signers);
    if (p.accepted != 1) {
        print_refusal(p.refusal);
        ask_gate(r, use);
        return r;
    }
    guvrendik_checked c = guvrendik_check_proposal(r, 2, use, now, signers, p.proposal);
    demand(c.answer == GUVRENDIK_CHECK_PASSES, "what is proposed passes the check");
    if (p.proposal.kind == GUVRENDIK_PROPOSES_NONE) {
        printf("no grant is needed\n");
    } else {
        guvrendik_claim claim = p.proposal.claim;
        printf("grant claim %u, %s, rights %u, weight %u\n", (unsigned)claim.id, claim.parent == 0 ? "a root" : "below another",
               (unsigned)claim.rights, (unsigned)claim.weight);
        ask_gate(r, use);
        guvrendik_granted g = guvrendik_grant(r, claim, now);
        demand(g.accepted == 1, "what is proposed is granted");
        printf("  granted\n");
        r = g.state;
    }
    ask_gate(r, use);
    return r;
}

int main(void) {
    guvrendik_register_read read = guvrendik_read_register((const uint8_t *)register_text, strlen(register_text));
    demand(read.accepted == 1, "the register is read");
    guvrendik_register r = read.state;
    sign(r, GUVRENDIK_RIGHT_WRITE, 2);
    r = sign(r, GUVRENDIK_RIGHT_WRITE, 1);
    sign(r, GUVRENDIK_RIGHT_WRITE, 2);
    sign(r, GUVRENDIK_RIGHT_READ, 2);
    return 0;
}
