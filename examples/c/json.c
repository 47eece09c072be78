/* A caller that takes the portal builder's JSON: loads the rule book's case R from its text and its action from JSON, asks the gate,
 * prints the verdict and writes the action back. Every result is checked; the first that is not as it must be ends the program. */
#include "guvrendik.h"

#include <stdio.h>
#include <stdlib.h>
#include <string.h>

static const char register_text[] =
    "register=1\n"
    "actors=2\n"
    "actor=1\nkind=human\nowner=0\n"
    "actor=2\nkind=machine\nowner=1\n"
    "resources=1\n"
    "resource=10\npublic=0\nkeeper=1\nscope=site/a\n"
    "claims=2\n"
    "claim=1\nparent=0\ngrantor=1\nholder=1\nresource=10\nrights=19\nweight=1000\nexpiry=0\n"
    "claim=2\nparent=1\ngrantor=1\nholder=2\nresource=10\nrights=1\nweight=600\nexpiry=2000\n";

/* Machine 2 writes and reads report 10, in the builder's own order of keys. */
static const char json_text[] =
    "{\n"
    "  \"actor\": \"2\",\n"
    "  \"resources_write\": [\"10\"],\n"
    "  \"resources_read\": [\"10\"],\n"
    "  \"resources_execute\": [],\n"
    "  \"flags\": {\n"
    "    \"coerces\": false,\n"
    "    \"deceives\": false,\n"
    "    \"bypasses_verifier\": false,\n"
    "    \"weakens_verifier\": false,\n"
    "    \"self_modification_weakens_verifier\": false,\n"
    "    \"disables_corrigibility\": false,\n"
    "    \"resists_human_correction\": false,\n"
    "    \"increases_machine_sovereignty\": false,\n"
    "    \"machine_coalition_dominion\": false,\n"
    "    \"machine_coalition_reduces_freedom\": false\n"
    "  },\n"
    "  \"capability_kind\": \"WRITE\",\n"
    "  \"id\": \"a-1\"\n"
    "}\n";

static void demand(int holds, const char *what) {
    if (!holds) {
        fprintf(stderr, "json: %s\n", what);
        exit(1);
    }
}

static guvrendik_json_read read_json(const char *text, uint64_t now) {
    return guvrendik_read_json((const uint8_t *)text, strlen(text), now);
}

/* Asks the gate and prints the verdict in the lines of the printing program. */
static guvrendik_verdict ask(guvrendik_register r, guvrendik_action a) {
    guvrendik_verdict verdict = guvrendik_gate(r, a);
    demand(verdict.decision == GUVRENDIK_DECISION_PERMITTED || verdict.decision == GUVRENDIK_DECISION_REFUSED, "the gate judges the action");
    printf("verdict=%s\n", verdict.decision == GUVRENDIK_DECISION_PERMITTED ? "permitted" : "refused");
    printf("violations=%zu\n", verdict.count);
    for (size_t i = 0; i < verdict.count; i++) {
        printf("violation=%u\nat=%u\n", (unsigned)verdict.violations[i].kind, (unsigned)verdict.violations[i].value);
    }
    return verdict;
}

/* Writes the action as JSON, prints it on a line, and reads it back to the same action. */
static void print_json(const guvrendik_json_read *read) {
    uint8_t text[GUVRENDIK_TEXT_JSON];
    guvrendik_written written = guvrendik_write_json(read->action, read->id, read->id_len, read->kind, text, sizeof text);
    demand(written.accepted == 1 && written.refusal == 0, "what was read is written");
    guvrendik_json_read again = guvrendik_read_json(text, written.length, read->action.now);
    demand(again.accepted == 1 && again.kind == read->kind && again.id_len == read->id_len &&
               memcmp(again.id, read->id, sizeof again.id) == 0 && memcmp(&again.action, &read->action, sizeof again.action) == 0,
           "what was written is read as it was");
    demand(fwrite(text, 1, written.length, stdout) == written.length, "output");
    printf("\n");
}

int main(void) {
    guvrendik_register_read loaded = guvrendik_read_register((const uint8_t *)register_text, strlen(register_text));
    demand(loaded.accepted == 1, "case R is read");
    guvrendik_json_read read = read_json(json_text, 1999);
    demand(read.accepted == 1 && read.refusal == 0, "the JSON action is read");

    printf("-- the action\n");
    printf("id=%.*s kind=%u actor=%u\n", (int)read.id_len, (const char *)read.id, (unsigned)read.kind, (unsigned)read.action.actor);
    for (size_t i = 0; i < read.action.used; i++) {
        printf("use=%u right=%u\n", (unsigned)read.action.uses[i].resource, (unsigned)read.action.uses[i].right);
    }

    printf("-- the gate\n");
    guvrendik_verdict verdict = ask(loaded.state, read.action);
    demand(verdict.decision == GUVRENDIK_DECISION_REFUSED && verdict.count == 1, "case R is refused for one violation");

    printf("-- the action written back\n");
    print_json(&read);

    printf("-- a moment that is none\n");
    guvrendik_json_read late = read_json(json_text, GUVRENDIK_MAX_MOMENT + 1);
    demand(late.accepted == 0 && late.action.used == 0, "nothing is read");
    printf("refusal=%u\n", (unsigned)late.refusal);

    printf("-- half of the text\n");
    guvrendik_json_read half = guvrendik_read_json((const uint8_t *)json_text, strlen(json_text) / 2, 1999);
    demand(half.accepted == 0 && half.id_len == 0, "nothing is read");
    printf("refusal=%u\n", (unsigned)half.refusal);

    printf("-- a use of DELETE, which JSON has no place for\n");
    guvrendik_action deleting = read.action;
    deleting.uses[0].right = GUVRENDIK_RIGHT_DELETE;
    uint8_t text[GUVRENDIK_TEXT_JSON];
    guvrendik_written lacking = guvrendik_write_json(deleting, read.id, read.id_len, read.kind, text, sizeof text);
    demand(lacking.accepted == 0 && lacking.length == 0, "nothing is written");
    printf("refusal=%u\n", (unsigned)lacking.refusal);
    demand(fflush(stdout) == 0, "output");
    return 0;
}
