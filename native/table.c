/* Prints the cover table of register.txt and action.txt of the working folder, as one would fill it in by hand, and then what the program
 * `verdict` prints of them; after a refusal that alone. Called by ./run --table. Nothing is judged here: hop counts, states and cells are
 * those of guvrendik_cover_table, violations those of guvrendik_gate, names those of guvrendik_right_name. docs/TABLE.md has the steps by hand. */
#include "guvrendik.h"
#include "system.h"

enum { MOST = 65536 };
typedef struct {
    uint8_t bytes[MOST];
    size_t length;
} text;

static text texts[2];
static guvrendik_register_read read;
static guvrendik_action_read asked;
static guvrendik_verdict verdict;
static guvrendik_table table;
/* More than the longest table: 256 claims, and 64 resources with 17 rights of two actors. */
static uint8_t said[1 << 19];
static size_t said_length;

static void say_bytes(const uint8_t *bytes, size_t length) {
    for (size_t i = 0; i < length && said_length < sizeof said; i++) said[said_length++] = bytes[i];
}

static void say(const char *words) {
    while (*words != 0) say_bytes((const uint8_t *)words++, 1);
}

static void say_number(uint64_t number) {
    uint8_t digit = (uint8_t)('0' + number % 10);
    if (number >= 10) say_number(number / 10);
    say_bytes(&digit, 1);
}

static void say_field(const char *name, uint64_t number) {
    say(name);
    say_number(number);
}

static void say_right(uint32_t right) {
    uint8_t name[GUVRENDIK_TEXT_WORDS];
    say(" ");
    say_bytes(name, guvrendik_right_name(right, name, sizeof name).length);
}

static void say_actor(void) {
    const guvrendik_actors *k = &read.state.actors;
    for (size_t at = 0; at < k->count; at++) {
        if (k->list[at].id != asked.action.actor) continue;
        say_field("actor=", k->list[at].id);
        say(k->list[at].kind == GUVRENDIK_ACTOR_MACHINE ? " kind=machine" : " kind=human");
        say_field(" owner=", k->list[at].owner);
        say_field(" now=", asked.action.now);
        say("\n");
    }
}

static void say_path(uint32_t resource) {
    const guvrendik_resources *k = &read.state.resources;
    say(" path=");
    for (size_t at = 0; at < k->count; at++) {
        if (k->list[at].id == resource) say_bytes(k->list[at].path, k->list[at].len);
    }
}

static void say_claim(size_t at) {
    static const char *const states[] = {"", " live", " weightless", " expired", " source-dead"};
    const guvrendik_claim *c = &read.state.claims.list[at];
    say_field("claim=", c->id);
    say_field(" parent=", c->parent);
    say_field(" holder=", c->holder);
    say_path(c->resource);
    say_field(" weight=", c->weight);
    say_field(" expiry=", c->expiry);
    say_field(" hops=", table.hops[at]);
    say(states[table.states[at]]);
    for (uint32_t right = 0; right < GUVRENDIK_LIMIT_RIGHTS; right++) {
        if ((c->rights >> right & 1) != 0) say_right(right);
    }
    say("\n");
}

/* The rights of a row whose cells hold the same, in one line; nothing where there are none. */
static void say_cells(const char *whose, const uint32_t *row, uint32_t held) {
    int begun = 0;
    for (uint32_t right = 0; right < GUVRENDIK_LIMIT_RIGHTS; right++) {
        if (row[right] != held) continue;
        if (!begun) {
            say(whose);
            if (held == GUVRENDIK_CELL_PUBLIC) {
                say(" public");
            } else {
                say_field(" claim=", read.state.claims.list[held].id);
                say_field(" hops=", table.hops[held]);
            }
        }
        begun = 1;
        say_right(right);
    }
    if (begun) say("\n");
}

/* Who covers what in a row: the claims in register order, then what is public. */
static void say_row(const char *whose, const uint32_t *row) {
    for (uint32_t at = 0; at < read.state.claims.count; at++) say_cells(whose, row, at);
    say_cells(whose, row, GUVRENDIK_CELL_PUBLIC);
}

static void say_resource(size_t at) {
    const guvrendik_resource *o = &read.state.resources.list[at];
    say_field("resource=", o->id);
    say_path(o->id);
    say("\n");
    say_row("  actor", table.own + at * GUVRENDIK_LIMIT_RIGHTS);
    say_row("  owner", table.owners + at * GUVRENDIK_LIMIT_RIGHTS);
}

/* What stands in the cell of a use; nothing where its resource does not stand. */
static uint32_t cell_of(const uint32_t *cells, guvrendik_usage usage) {
    const guvrendik_resources *k = &read.state.resources;
    for (size_t at = 0; at < k->count; at++) {
        if (k->list[at].id == usage.resource) return cells[at * GUVRENDIK_LIMIT_RIGHTS + usage.right];
    }
    return GUVRENDIK_CELL_NOTHING;
}

/* A cell of a use: of the actor's the hop count too. */
static void say_cell(const char *before, uint32_t held, int hops) {
    say(before);
    if (held == GUVRENDIK_CELL_NOTHING) {
        say("nothing");
    } else if (held == GUVRENDIK_CELL_PUBLIC) {
        say("public");
    } else {
        say_field("claim=", read.state.claims.list[held].id);
        if (hops) say_field(" hops=", table.hops[held]);
    }
}

static void say_use(uint32_t position) {
    guvrendik_usage usage = asked.action.uses[position];
    uint32_t own = cell_of(table.own, usage);
    say_field("use=", position);
    say_field(" resource=", usage.resource);
    say_right(usage.right);
    say_cell(" ", own, 1);
    if (table.owner != 0 && own != GUVRENDIK_CELL_NOTHING) say_cell(" owner-", cell_of(table.owners, usage), 0);
    for (size_t at = 0; at < verdict.count; at++) {
        const guvrendik_violation *v = &verdict.violations[at];
        if ((v->kind == GUVRENDIK_VIOLATION_NOT_COVERED || v->kind == GUVRENDIK_VIOLATION_OWNER_NOT_COVERED) && v->value == position)
            say_field(" violation=", v->kind);
    }
    say("\n");
}

static void say_table(void) {
    say_actor();
    for (size_t at = 0; at < read.state.claims.count; at++) say_claim(at);
    for (size_t at = 0; at < read.state.resources.count; at++) say_resource(at);
    for (uint32_t position = 0; position < asked.action.used; position++) say_use(position);
}

int program(int words, char **word) {
    static const char *const names[] = {"register.txt", "action.txt"};
    static uint8_t lines[GUVRENDIK_TEXT_VERDICT];
    guvrendik_written written;
    (void)words, (void)word;
    for (size_t at = 0; at < 2; at++) {
        if (load(names[at], texts[at].bytes, MOST, &texts[at].length) < 0) texts[at].length = 0;
    }
    guvrendik_read_register_at(&read, texts[0].bytes, texts[0].length);
    guvrendik_read_action_at(&asked, texts[1].bytes, texts[1].length);
    if (read.accepted == 1 && asked.accepted == 1) {
        guvrendik_gate_at(&verdict, &read.state, &asked.action);
        guvrendik_cover_table_at(&table, &read.state, asked.action.actor, asked.action.now);
        if (verdict.decision != GUVRENDIK_DECISION_STOPPED && table.accepted == 1) say_table();
    }
    guvrendik_verdict_text_at(&written, texts[0].bytes, texts[0].length, texts[1].bytes, texts[1].length, lines, sizeof lines);
    say_bytes(lines, written.length);
    return written.accepted == 1 && said_length < sizeof said && put(1, said, said_length) ? 0 : 127;
}
