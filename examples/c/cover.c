/* The cover table: what machine 2 of case R and its owner cover, a line to each claim and to each cell that holds something. Every result is
 * checked; the first that is not as it must be ends the program. */
#include "guvrendik.h"

#include <stdio.h>
#include <stdlib.h>
#include <string.h>

static const char register_text[] =
    "register=1\n"
    "actors=2\n"
    "actor=1\nkind=human\nowner=0\n"
    "actor=2\nkind=machine\nowner=1\n"
    "resources=1\n"
    "resource=10\npublic=0\nkeeper=1\nscope=site/a\n"
    "claims=2\n"
    "claim=1\nparent=0\ngrantor=1\nholder=1\nresource=10\nrights=19\nweight=1000\nexpiry=0\n"
    "claim=2\nparent=1\ngrantor=1\nholder=2\nresource=10\nrights=1\nweight=600\nexpiry=2000\n";

static guvrendik_table table;

static void demand(int holds, const char *what) {
    if (!holds) {
        fprintf(stderr, "cover: %s\n", what);
        exit(1);
    }
}

static void print_cells(const guvrendik_register *r, const char *whose, const uint32_t *cells) {
    for (size_t place = 0; place < r->resources.count; place++) {
        for (uint32_t right = 0; right < GUVRENDIK_LIMIT_RIGHTS; right++) {
            uint32_t cell = cells[place * GUVRENDIK_LIMIT_RIGHTS + right];
            uint8_t name[GUVRENDIK_TEXT_WORDS];
            guvrendik_written w = guvrendik_right_name(right, name, sizeof name);
            demand(w.accepted == 1, "the name of a right fits");
            if (cell == GUVRENDIK_CELL_NOTHING) continue;
            printf("%s: %.*s on %u by ", whose, (int)w.length, (const char *)name, (unsigned)r->resources.list[place].id);
            if (cell == GUVRENDIK_CELL_PUBLIC)
                printf("all\n");
            else
                printf("claim %u, %u hops\n", (unsigned)r->claims.list[cell].id, (unsigned)table.hops[cell]);
        }
    }
}

static void show(const guvrendik_register *r, uint32_t actor, uint64_t moment) {
    guvrendik_cover_table_at(&table, r, actor, moment);
    printf("actor %u at %u: accepted=%u refusal=%u owner=%u\n", (unsigned)actor, (unsigned)moment, (unsigned)table.accepted,
           (unsigned)table.refusal, (unsigned)table.owner);
    if (table.accepted != 1) return;
    for (size_t place = 0; place < r->claims.count; place++) {
        printf("claim %u: %s\n", (unsigned)r->claims.list[place].id, table.states[place] == GUVRENDIK_REMARK_LIVES ? "lives" : "does not live");
    }
    print_cells(r, "actor", table.own);
    print_cells(r, "owner", table.owners);
}

int main(void) {
    guvrendik_register_read read = guvrendik_read_register((const uint8_t *)register_text, strlen(register_text));
    demand(read.accepted == 1, "the register is read");
    show(&read.state, 2, 1999);
    show(&read.state, 2, 2000);
    show(&read.state, 3, 1999);
    return 0;
}
