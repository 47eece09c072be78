/* A caller that keeps its claims in a table of its own, in memory that is never written: judged where it lies; with one record's holder
 * changed; mended; and with more records than a register has claims. Every result is checked; the first that is not as it must be ends the
 * program. */
#include "guvrendik.h"

#include <stdio.h>
#include <stdlib.h>

/* Human 1 keeps report 10 and grants itself a root on it; its machine 2 draws READ until 2000, and human 3 draws READ from the machine. */
static const guvrendik_claim table[] = {
    /* id, parent, grantor, holder, resource, rights, weight, left, expiry */
    {1, 0, 1, 1, 10, 19, 1000, 0, 0},
    {2, 1, 1, 2, 10, 17, 600, 0, 2000},
    {3, 2, 2, 3, 10, 1, 600, 0, 2000},
};

enum { RECORDS = sizeof table / sizeof *table, MANY = GUVRENDIK_LIMIT_CLAIMS + 1 };

static guvrendik_register world;

/* Asks and prints the answer, which must be this one. */
static void ask(const char *what, const guvrendik_claim *claims, size_t count, uint32_t due) {
    uint32_t sound = guvrendik_sound_table(claims, count, world.version, world.actors, world.resources).sound;
    printf("%s: %s\n", what, sound == 1 ? "sound" : "not sound");
    if (sound != due) {
        fprintf(stderr, "table: %s\n", what);
        exit(1);
    }
}

int main(void) {
    static guvrendik_claim own[RECORDS], many[MANY];
    guvrendik_begin(&world, GUVRENDIK_REGISTER_1);
    if (!guvrendik_put_actor(&world, 1, GUVRENDIK_ACTOR_HUMAN, 0) || !guvrendik_put_actor(&world, 2, GUVRENDIK_ACTOR_MACHINE, 1) ||
        !guvrendik_put_actor(&world, 3, GUVRENDIK_ACTOR_HUMAN, 0) || !guvrendik_put_resource(&world, 10, 0, 1, "site/a", 6)) {
        fprintf(stderr, "table: no room\n");
        return 1;
    }
    ask("the table as it lies", table, RECORDS, 1);

    /* The machine is handed the last claim too: it holds one higher on the chain. */
    for (size_t i = 0; i < RECORDS; i++) own[i] = table[i];
    own[2].holder = 2;
    ask("claim 3 held by machine 2", own, RECORDS, 0);
    own[2].holder = 3;
    ask("mended", own, RECORDS, 1);

    for (size_t i = 0; i < MANY; i++) {
        many[i] = table[0];
        many[i].id = (uint32_t)i + 1;
    }
    ask("256 roots", many, GUVRENDIK_LIMIT_CLAIMS, 1);
    ask("257 roots", many, MANY, 0);
    return 0;
}
