/* Who may make a use and why: of 01's case R, who reads report 10 before its claim runs out and from then on, and why machine 2 may read it and may
 * not write it. Every result is checked; the first that is not as it must be ends the program. */
#include "guvrendik.h"

#include <stdio.h>
#include <stdlib.h>
#include <string.h>

static const char register_text[] =
    "register=1\n"
    "actors=2\n"
    "actor=1\nkind=human\nowner=0\n"
    "actor=2\nkind=machine\nowner=1\n"
    "resources=1\n"
    "resource=10\npublic=0\nkeeper=1\nscope=site/a\n"
    "claims=2\n"
    "claim=1\nparent=0\ngrantor=1\nholder=1\nresource=10\nrights=19\nweight=1000\nexpiry=0\n"
    "claim=2\nparent=1\ngrantor=1\nholder=2\nresource=10\nrights=1\nweight=600\nexpiry=2000\n";

static void demand(int holds, const char *what) {
    if (!holds) {
        fprintf(stderr, "why: %s\n", what);
        exit(1);
    }
}

static void who(guvrendik_register r, uint32_t right, uint64_t moment) {
    guvrendik_holders h = guvrendik_who(r, (guvrendik_usage){.resource = 10, .right = right}, moment);
    demand(h.accepted == 1, "the register is sound, and the numbers are in range");
    printf("who %s 10 at %u:", right == GUVRENDIK_RIGHT_READ ? "reads" : "writes", (unsigned)moment);
    for (size_t at = 0; at < h.count; at++) printf(" %u", (unsigned)h.ids[at]);
    printf("\n");
}

static void print_reason(const char *whose, uint32_t id, guvrendik_reason n) {
    static const char *const kinds[] = {"was not asked", "relies on claim", "reads what is public", "has a claim that is not live, claim",
                                        "lacks the right in claim", "holds nothing that contains it"};
    demand(n.kind < sizeof kinds / sizeof *kinds, "the kind is known");
    printf("  %s %u %s", whose, (unsigned)id, kinds[n.kind]);
    for (size_t at = 0; at < n.count; at++) printf("%s %u", at == 0 ? "" : " drawn from", (unsigned)n.chain[at]);
    if (n.count != 0) printf(", kept by %u", (unsigned)n.keeper);
    if (n.ended != 0) printf(", over at claim %u", (unsigned)n.ended);
    printf("\n");
}

static void why(guvrendik_register r, uint32_t right, uint64_t moment) {
    guvrendik_use_reason n = guvrendik_why_use(r, 2, (guvrendik_usage){.resource = 10, .right = right}, moment);
    demand(n.accepted == 1, "machine 2 stands in the register");
    printf("why machine 2 %s 10 at %u\n", right == GUVRENDIK_RIGHT_READ ? "reads" : "writes", (unsigned)moment);
    print_reason("machine", 2, n.actor);
    if (n.owner != 0) print_reason("owner", n.owner, n.owners);
}

int main(void) {
    guvrendik_register_read read = guvrendik_read_register((const uint8_t *)register_text, strlen(register_text));
    demand(read.accepted == 1, "the register is read");
    who(read.state, GUVRENDIK_RIGHT_READ, 1999);
    who(read.state, GUVRENDIK_RIGHT_READ, 2000);
    who(read.state, GUVRENDIK_RIGHT_WRITE, 1999);
    why(read.state, GUVRENDIK_RIGHT_READ, 1999);
    why(read.state, GUVRENDIK_RIGHT_READ, 2000);
    why(read.state, GUVRENDIK_RIGHT_WRITE, 1999);
    return 0;
}
