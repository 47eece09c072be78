/* Why a register is not sound: case R with a root of weight 1001, and what else may be wrong in a register; of its text, the line. Every result
 * is checked; the first that is not as it must be ends the program. */
#include "guvrendik.h"

#include <stdio.h>
#include <stdlib.h>
#include <string.h>

static const char register_text[] =
    "register=1\n"
    "actors=2\n"
    "actor=1\nkind=human\nowner=0\n"
    "actor=2\nkind=machine\nowner=1\n"
    "resources=1\n"
    "resource=10\npublic=0\nkeeper=1\nscope=site/a\n"
    "claims=2\n"
    "claim=1\nparent=0\ngrantor=1\nholder=1\nresource=10\nrights=19\nweight=1000\nexpiry=0\n"
    "claim=2\nparent=1\ngrantor=1\nholder=2\nresource=10\nrights=1\nweight=600\nexpiry=2000\n";

static void demand(int holds, const char *what) {
    if (!holds) {
        fprintf(stderr, "faults: %s\n", what);
        exit(1);
    }
}

/* Prints where a fault is, and its rule in words. */
static void print_fault(const char *label, guvrendik_fault f) {
    static const char *const lists[] = {"register", "actors", "resources", "claims"};
    uint8_t words[GUVRENDIK_TEXT_WORDS];
    printf("%s: ", label);
    if (f.sound == 1) {
        printf("sound\n");
        return;
    }
    guvrendik_written w = guvrendik_refusal_text(f.why, words, sizeof words);
    demand(w.accepted == 1, "the words for a rule fit");
    if (f.line != 0)
        printf("line %zu", f.line);
    else
        printf("%s, place %zu, id %u", lists[f.list], f.place, (unsigned)f.id);
    printf(": %u, %.*s\n", (unsigned)f.why, (int)w.length, (const char *)words);
}

int main(void) {
    guvrendik_register_read read = guvrendik_read_register((const uint8_t *)register_text, strlen(register_text));
    demand(read.accepted == 1, "the register is read");
    guvrendik_register r = read.state, heavy = r, unkept = r, absent = r, crowded = r;
    print_fault("case R", guvrendik_why_unsound(r));
    heavy.claims.list[0].weight = 1001;
    print_fault("weight 1001", guvrendik_why_unsound(heavy));
    unkept.resources.list[0].keeper = 2;
    print_fault("kept by a machine", guvrendik_why_unsound(unkept));
    absent.claims.list[1].holder = 3;
    print_fault("held by nobody", guvrendik_why_unsound(absent));
    crowded.actors.count = GUVRENDIK_LIMIT_ACTORS + 1;
    print_fault("65 actors", guvrendik_why_unsound(crowded));
    demand(guvrendik_sound(heavy).sound == 0, "guvrendik_sound says no more than that");
    char text[sizeof register_text];
    memcpy(text, register_text, sizeof text);
    char *weight = strstr(text, "weight=1000");
    demand(weight != NULL, "the root has its weight");
    memcpy(weight, "weight=1001", strlen("weight=1001"));
    print_fault("text, weight 1001", guvrendik_why_unread((const uint8_t *)text, strlen(text)));
    memcpy(text, register_text, sizeof text);
    char *holder = strstr(text, "holder=2");
    demand(holder != NULL, "machine 2 holds a claim");
    memcpy(holder, "holder=3", strlen("holder=3"));
    print_fault("text, held by nobody", guvrendik_why_unread((const uint8_t *)text, strlen(text)));
    print_fault("text", guvrendik_why_unread((const uint8_t *)register_text, strlen(register_text)));
    return 0;
}
