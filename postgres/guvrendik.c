/* The calls of the library as functions of PostgreSQL, over a register's text. Nothing is decided here: a function reads the text, makes the
 * call, and shows its answer as rows, as a text or as an error.
 *
 * Numbers come as bigint. One that a field of the library cannot hold becomes the largest that it can, which is out of range in every
 * call: the library refuses it, and nothing wraps. A refusal is an error with SQLSTATE GV0nn, nn its number, and the library's words.
 *
 * A function keeps the last register that it read, beside the text, for as long as its query runs: the same text again is compared and not
 * read. So a policy over many rows reads a register once. */
#include "postgres.h"

#include "catalog/pg_type.h"
#include "fmgr.h"
#include "funcapi.h"
#include "mb/pg_wchar.h"
#include "utils/array.h"
#include "utils/builtins.h"

#include "guvrendik.h"

PG_MODULE_MAGIC;

/* ---- Numbers ---- */

static uint32 narrow(int64 number) {
    return number < 0 || number > PG_UINT32_MAX ? PG_UINT32_MAX : (uint32) number;
}

static uint64 unsign(int64 number) {
    return number < 0 ? PG_UINT64_MAX : (uint64) number;
}

#define GETARG_NUMBER(n) narrow(PG_GETARG_INT64(n))
#define GETARG_MOMENT(n) unsign(PG_GETARG_INT64(n))

/* A list of numbers that a function is given; an entry is never NULL. */
typedef struct numbers {
    const int64 *list;
    size_t count;
} numbers;

/* The numbers of an array, in rows of `width`: a list has width 1. The empty array has no row. */
static numbers numbers_of(ArrayType *array, int width, const char *what) {
    bool flat = ARR_NDIM(array) == 1 && width == 1;
    bool rows = ARR_NDIM(array) == 2 && ARR_DIMS(array)[1] == width && width > 1;
    numbers n = {(const int64 *) ARR_DATA_PTR(array), 0};

    if (array_contains_nulls(array))
        ereport(ERROR, (errcode(ERRCODE_NULL_VALUE_NOT_ALLOWED), errmsg("%s: no NULL can be among them", what)));
    if (ARR_NDIM(array) == 0)
        return n;
    if (!flat && !rows)
        ereport(ERROR, (errcode(ERRCODE_ARRAY_SUBSCRIPT_ERROR), errmsg("%s: an array of another form", what),
                        errhint(width == 1 ? "A list is due: {1,3}" : "Rows of resource and right are due: {{10,0},{10,1}}")));
    n.count = ARR_DIMS(array)[0];
    return n;
}

/* ---- Words and refusals ---- */

typedef void (*words_call)(guvrendik_written *answer, uint32_t number, uint8_t *buffer, size_t buffer_len);

static char *words_of(words_call call, uint32 number) {
    char *words = palloc(GUVRENDIK_TEXT_WORDS + 1);
    guvrendik_written written;

    call(&written, number, (uint8_t *) words, GUVRENDIK_TEXT_WORDS);
    words[written.length] = '\0';
    return words;
}

_Noreturn static void refuse(uint32 refusal, const char *detail, const char *hint) {
    ereport(ERROR, (errcode(MAKE_SQLSTATE('G', 'V', '0', '0' + refusal / 10 % 10, '0' + refusal % 10)),
                    errmsg("%s", words_of(guvrendik_refusal_text_at, refusal)),
                    detail ? errdetail("%s", detail) : 0, hint ? errhint("%s", hint) : 0));
}

static void accept(uint32 accepted, uint32 refusal) {
    if (accepted != 1)
        refuse(refusal, NULL, NULL);
}

/* ---- Texts ---- */

typedef struct bytes {
    const uint8_t *start;
    size_t length;
} bytes;

static bytes bytes_of(const struct varlena *value) {
    bytes b = {(const uint8_t *) VARDATA_ANY(value), VARSIZE_ANY_EXHDR(value)};

    return b;
}

#define GETARG_BYTES(n) bytes_of(PG_GETARG_VARLENA_PP(n))

enum { SHOWN = 60 };

/* What cannot be seen in a line: a byte order mark before it, a carriage return in it, or that its line feed is missing. */
static const char *unseen(const uint8_t *start, size_t length, bool feed) {
    if (length >= 3 && memcmp(start, "\xEF\xBB\xBF", 3) == 0)
        return "The text begins with a byte order mark; an editor may have put it there.";
    if (memchr(start, '\r', length))
        return "The line has a carriage return; a line ends with a line feed alone.";
    if (length > 0 && !feed)
        return "The last line of the text has no line feed at its end; an editor may have dropped it.";
    return NULL;
}

/* Refuses a text for its line `line`, from 1: with what stands there and, where that does not show the fault, a hint. */
_Noreturn static void refuse_line(uint32 refusal, bytes text, size_t line) {
    const uint8_t *start = text.start, *end = text.start + text.length, *feed;
    size_t length;

    for (size_t i = 1; i < line && start < end; i++) {
        feed = memchr(start, '\n', end - start);
        start = feed ? feed + 1 : end;
    }
    feed = memchr(start, '\n', end - start);
    length = (feed ? feed : end) - start;
    refuse(refusal,
           start == end ? psprintf("Line %zu: the text ends before it.", line)
                        : psprintf("Line %zu: %.*s", line, pg_mbcliplen((const char *) start, length, SHOWN), start),
           unseen(start, length, feed != NULL));
}

/* Refuses a register's text: with the line, or with the record that breaks a rule. */
_Noreturn static void refuse_register(const guvrendik_register_read *read, bytes body) {
    static const char *const lists[] = {"register", "actors", "resources", "claims"};
    guvrendik_fault fault;

    if (read->line != 0)
        refuse_line(read->refusal, body, read->line);
    guvrendik_why_unread_at(&fault, body.start, body.length);
    refuse(read->refusal,
           psprintf("%s, place %zu, id %u: %s.", fault.list < lengthof(lists) ? lists[fault.list] : "list", fault.place, fault.id,
                    words_of(guvrendik_refusal_text_at, fault.why)),
           NULL);
}

/* The last register that a function read, and its text. */
typedef struct opened {
    guvrendik_register_read read;
    size_t length;
    uint8_t body[GUVRENDIK_TEXT_REGISTER];
} opened;

static const guvrendik_register *opened_register(FunctionCallInfo fcinfo) {
    bytes body = GETARG_BYTES(0);
    opened *kept = fcinfo->flinfo->fn_extra;

    if (kept == NULL) {
        kept = fcinfo->flinfo->fn_extra = MemoryContextAlloc(fcinfo->flinfo->fn_mcxt, sizeof *kept);
        kept->length = 0;
    }
    if (kept->length == 0 || kept->length != body.length || memcmp(kept->body, body.start, body.length) != 0) {
        kept->length = 0;
        guvrendik_read_register_at(&kept->read, body.start, body.length);
        if (kept->read.accepted != 1)
            refuse_register(&kept->read, body);
        /* No text that is read is longer than that. */
        if (body.length <= sizeof kept->body) {
            memcpy(kept->body, body.start, body.length);
            kept->length = body.length;
        }
    }
    return &kept->read.state;
}

static Datum written_register(const guvrendik_register *state) {
    text *out = palloc(VARHDRSZ + GUVRENDIK_TEXT_REGISTER);
    guvrendik_written written;

    guvrendik_write_register_at(&written, state, (uint8_t *) VARDATA(out), GUVRENDIK_TEXT_REGISTER);
    accept(written.accepted, written.refusal);
    SET_VARSIZE(out, VARHDRSZ + written.length);
    return PointerGetDatum(out);
}

/* ---- Rows ---- */

enum { MOST_COLUMNS = 10 };

/* One row: a column that is not set is NULL. */
typedef struct row {
    Datum values[MOST_COLUMNS];
    bool nulls[MOST_COLUMNS];
} row;

static row empty_row(void) {
    row r;

    memset(r.values, 0, sizeof r.values);
    memset(r.nulls, true, sizeof r.nulls);
    return r;
}

static void set(row *r, int column, Datum value) {
    r->values[column] = value;
    r->nulls[column] = false;
}

static void set_number(row *r, int column, int64 value) {
    set(r, column, Int64GetDatum(value));
}

static void set_words(row *r, int column, const char *words) {
    set(r, column, CStringGetTextDatum(words));
}

static void give(FunctionCallInfo fcinfo, row *r) {
    ReturnSetInfo *result = (ReturnSetInfo *) fcinfo->resultinfo;

    tuplestore_putvalues(result->setResult, result->setDesc, r->values, r->nulls);
}

static const char *decision_name(uint32 decision) {
    switch (decision) {
    case GUVRENDIK_DECISION_PERMITTED: return "permitted";
    case GUVRENDIK_DECISION_REFUSED: return "refused";
    case GUVRENDIK_DECISION_CANCELLED: return "cancelled";
    default: return "stopped";
    }
}

/* ---- Soundness ---- */

/* demand_sound(body): true; a text that is no sound register's is refused. */
PG_FUNCTION_INFO_V1(store_demand_sound);
Datum store_demand_sound(PG_FUNCTION_ARGS) {
    opened_register(fcinfo);
    PG_RETURN_BOOL(true);
}

/* ---- The gate ---- */

/* gate(body, actor, uses, moment, flags, governs): a row of the decision, or one to each violation. */
PG_FUNCTION_INFO_V1(store_gate);
Datum store_gate(PG_FUNCTION_ARGS) {
    const guvrendik_register *state = opened_register(fcinfo);
    numbers uses = numbers_of(PG_GETARG_ARRAYTYPE_P(2), 2, "uses"), governs = numbers_of(PG_GETARG_ARRAYTYPE_P(5), 1, "governs");
    guvrendik_action action = {0};
    guvrendik_verdict verdict;

    action.actor = GETARG_NUMBER(1);
    action.now = GETARG_MOMENT(3);
    action.flags = GETARG_NUMBER(4);
    action.used = uses.count;
    for (size_t i = 0; i < Min(uses.count, GUVRENDIK_LIMIT_USES); i++) {
        action.uses[i].resource = narrow(uses.list[2 * i]);
        action.uses[i].right = narrow(uses.list[2 * i + 1]);
    }
    action.governed = governs.count;
    for (size_t i = 0; i < Min(governs.count, GUVRENDIK_LIMIT_GOVERNS); i++)
        action.governs[i] = narrow(governs.list[i]);
    guvrendik_gate_at(&verdict, state, &action);
    accept(verdict.decision != GUVRENDIK_DECISION_STOPPED, verdict.refusal);
    InitMaterializedSRF(fcinfo, 0);
    for (size_t i = 0; i == 0 || i < verdict.count; i++) {
        row r = empty_row();

        set_words(&r, 0, decision_name(verdict.decision));
        if (i < verdict.count) {
            set_number(&r, 1, verdict.violations[i].kind);
            set_number(&r, 2, verdict.violations[i].value);
            set_words(&r, 3, words_of(guvrendik_violation_text_at, verdict.violations[i].kind));
        }
        give(fcinfo, &r);
    }
    return (Datum) 0;
}

static guvrendik_usage usage_of(FunctionCallInfo fcinfo, int resource) {
    guvrendik_usage usage = {GETARG_NUMBER(resource), GETARG_NUMBER(resource + 1)};

    return usage;
}

/* may(body, actor, resource, right, moment): whether the gate permits the one use. */
PG_FUNCTION_INFO_V1(store_may);
Datum store_may(PG_FUNCTION_ARGS) {
    const guvrendik_register *state = opened_register(fcinfo);
    guvrendik_action action = guvrendik_make_action(GETARG_NUMBER(1), usage_of(fcinfo, 2), GETARG_MOMENT(4));
    guvrendik_verdict verdict;

    guvrendik_gate_at(&verdict, state, &action);
    accept(verdict.decision != GUVRENDIK_DECISION_STOPPED, verdict.refusal);
    PG_RETURN_BOOL(verdict.decision == GUVRENDIK_DECISION_PERMITTED);
}

/* plan(body, plan): a row to each action of the plan's text. */
PG_FUNCTION_INFO_V1(store_plan);
Datum store_plan(PG_FUNCTION_ARGS) {
    const guvrendik_register *state = opened_register(fcinfo);
    bytes plan = GETARG_BYTES(1);
    guvrendik_plan_text_verdict answer;

    guvrendik_judge_plan_text_at(&answer, state, plan.start, plan.length);
    if (answer.accepted != 1 && answer.line != 0)
        refuse_line(answer.refusal, plan, answer.line);
    if (answer.accepted != 1)
        refuse(answer.refusal, psprintf("Action %zu of the plan, counted from 0.", answer.position), NULL);
    InitMaterializedSRF(fcinfo, 0);
    for (size_t i = 0; i < answer.count; i++) {
        row r = empty_row();

        set_number(&r, 0, i);
        set_words(&r, 1, decision_name(answer.list[i].decision));
        set_number(&r, 2, answer.list[i].violations);
        give(fcinfo, &r);
    }
    return (Datum) 0;
}

/* ---- The lines of the printing programs ---- */

static Datum lines_of(const uint8_t *lines, const guvrendik_written *written) {
    accept(written->accepted, written->refusal);
    return PointerGetDatum(cstring_to_text_with_len((const char *) lines, written->length));
}

/* verdict(body, action) */
PG_FUNCTION_INFO_V1(store_verdict);
Datum store_verdict(PG_FUNCTION_ARGS) {
    bytes body = GETARG_BYTES(0), action = GETARG_BYTES(1);
    uint8_t lines[GUVRENDIK_TEXT_VERDICT];
    guvrendik_written written;

    guvrendik_verdict_text_at(&written, body.start, body.length, action.start, action.length, lines, sizeof lines);
    return lines_of(lines, &written);
}

/* verdict(body, clock, action): of a JSON action */
PG_FUNCTION_INFO_V1(store_json_verdict);
Datum store_json_verdict(PG_FUNCTION_ARGS) {
    bytes body = GETARG_BYTES(0), clock = GETARG_BYTES(1), action = GETARG_BYTES(2);
    uint8_t lines[GUVRENDIK_TEXT_VERDICT];
    guvrendik_written written;

    guvrendik_json_verdict_text_at(&written, body.start, body.length, clock.start, clock.length, action.start, action.length, lines,
                                   sizeof lines);
    return lines_of(lines, &written);
}

/* plan_verdict(body, plan) */
PG_FUNCTION_INFO_V1(store_plan_verdict);
Datum store_plan_verdict(PG_FUNCTION_ARGS) {
    bytes body = GETARG_BYTES(0), plan = GETARG_BYTES(1);
    uint8_t lines[GUVRENDIK_TEXT_PLAN_VERDICT];
    guvrendik_written written;

    guvrendik_plan_verdict_text_at(&written, body.start, body.length, plan.start, plan.length, lines, sizeof lines);
    return lines_of(lines, &written);
}

/* ---- Why, and who may ---- */

static void give_reason(FunctionCallInfo fcinfo, const char *whose, uint32 actor, const guvrendik_reason *reason) {
    static const char *const kinds[] = {"unasked", "relies", "public", "not_live", "lacks", "unheld"};
    Datum chain[GUVRENDIK_LIMIT_CHAIN];
    row r = empty_row();

    for (uint32 i = 0; i < reason->count; i++)
        chain[i] = Int64GetDatum(reason->chain[i]);
    set_words(&r, 0, whose);
    set_number(&r, 1, actor);
    set_words(&r, 2, reason->kind < lengthof(kinds) ? kinds[reason->kind] : "unknown");
    set(&r, 3, PointerGetDatum(construct_array(chain, reason->count, INT8OID, sizeof(int64), FLOAT8PASSBYVAL, TYPALIGN_DOUBLE)));
    set_number(&r, 4, reason->keeper);
    set_number(&r, 5, reason->ended);
    give(fcinfo, &r);
}

/* why(body, actor, resource, right, moment): a row of the actor's reason, and of a machine with an owner one of his. */
PG_FUNCTION_INFO_V1(store_why);
Datum store_why(PG_FUNCTION_ARGS) {
    const guvrendik_register *state = opened_register(fcinfo);
    guvrendik_usage usage = usage_of(fcinfo, 2);
    guvrendik_use_reason answer;

    guvrendik_why_use_at(&answer, state, GETARG_NUMBER(1), &usage, GETARG_MOMENT(4));
    accept(answer.accepted, answer.refusal);
    InitMaterializedSRF(fcinfo, 0);
    give_reason(fcinfo, "actor", GETARG_NUMBER(1), &answer.actor);
    if (answer.owner != 0)
        give_reason(fcinfo, "owner", answer.owner, &answer.owners);
    return (Datum) 0;
}

/* who(body, resource, right, moment): the actors who may, in the register's order. */
PG_FUNCTION_INFO_V1(store_who);
Datum store_who(PG_FUNCTION_ARGS) {
    const guvrendik_register *state = opened_register(fcinfo);
    guvrendik_usage usage = usage_of(fcinfo, 1);
    guvrendik_holders answer;

    guvrendik_who_at(&answer, state, &usage, GETARG_MOMENT(3));
    accept(answer.accepted, answer.refusal);
    InitMaterializedSRF(fcinfo, MAT_SRF_USE_EXPECTED_DESC);
    for (size_t i = 0; i < answer.count; i++) {
        row r = empty_row();

        set_number(&r, 0, answer.ids[i]);
        give(fcinfo, &r);
    }
    return (Datum) 0;
}

/* propose(body, actor, resource, right, moment, signers): one row, the kind and of a grant its claim. */
PG_FUNCTION_INFO_V1(store_propose);
Datum store_propose(PG_FUNCTION_ARGS) {
    const guvrendik_register *state = opened_register(fcinfo);
    guvrendik_usage usage = usage_of(fcinfo, 2);
    numbers named = numbers_of(PG_GETARG_ARRAYTYPE_P(5), 1, "signers");
    guvrendik_signers signers = {{0}, named.count};
    guvrendik_proposed answer;
    const guvrendik_claim *c = &answer.proposal.claim;
    row r = empty_row();

    for (size_t i = 0; i < Min(named.count, GUVRENDIK_LIMIT_SIGNERS); i++)
        signers.list[i] = narrow(named.list[i]);
    guvrendik_propose_at(&answer, state, GETARG_NUMBER(1), &usage, GETARG_MOMENT(4), &signers);
    accept(answer.accepted, answer.refusal);
    set_words(&r, 0, answer.proposal.kind == GUVRENDIK_PROPOSES_GRANT ? "grant" : "none");
    if (answer.proposal.kind == GUVRENDIK_PROPOSES_GRANT) {
        const int64 fields[] = {c->id, c->parent, c->grantor, c->holder, c->resource, c->rights, c->weight, c->left, (int64) c->expiry};

        for (int i = 0; i < lengthof(fields); i++)
            set_number(&r, i + 1, fields[i]);
    }
    InitMaterializedSRF(fcinfo, 0);
    give(fcinfo, &r);
    return (Datum) 0;
}

/* ---- Changes ---- */

/* grant(body, id, parent, grantor, holder, resource, rights, weight, left, expiry, moment) */
PG_FUNCTION_INFO_V1(store_grant);
Datum store_grant(PG_FUNCTION_ARGS) {
    const guvrendik_register *state = opened_register(fcinfo);
    guvrendik_claim claim =
        guvrendik_make_claim(GETARG_NUMBER(1), GETARG_NUMBER(2), GETARG_NUMBER(3), GETARG_NUMBER(4), GETARG_NUMBER(5), GETARG_NUMBER(6),
                             GETARG_NUMBER(7), GETARG_NUMBER(8), GETARG_MOMENT(9));
    guvrendik_granted answer;

    guvrendik_grant_at(&answer, state, &claim, GETARG_MOMENT(10));
    accept(answer.accepted, answer.refusal);
    return written_register(&answer.state);
}

static Datum withdrawn(const guvrendik_revoked *answer) {
    accept(answer->accepted, answer->refusal);
    return written_register(&answer->state);
}

/* revoke(body, revoker, claim) */
PG_FUNCTION_INFO_V1(store_revoke);
Datum store_revoke(PG_FUNCTION_ARGS) {
    const guvrendik_register *state = opened_register(fcinfo);
    guvrendik_revoked answer;

    guvrendik_revoke_at(&answer, state, GETARG_NUMBER(1), GETARG_NUMBER(2));
    return withdrawn(&answer);
}

/* clear_resource(body, caller, resource) */
PG_FUNCTION_INFO_V1(store_clear_resource);
Datum store_clear_resource(PG_FUNCTION_ARGS) {
    const guvrendik_register *state = opened_register(fcinfo);
    guvrendik_revoked answer;

    guvrendik_clear_resource_at(&answer, state, GETARG_NUMBER(1), GETARG_NUMBER(2));
    return withdrawn(&answer);
}

/* clear_expired(body, caller, moment) */
PG_FUNCTION_INFO_V1(store_clear_expired);
Datum store_clear_expired(PG_FUNCTION_ARGS) {
    const guvrendik_register *state = opened_register(fcinfo);
    guvrendik_revoked answer;

    guvrendik_clear_expired_at(&answer, state, GETARG_NUMBER(1), GETARG_MOMENT(2));
    return withdrawn(&answer);
}
