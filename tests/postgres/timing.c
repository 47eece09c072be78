/* Times, in one process of the server: reading a register's text and asking the gate by the library, and the function guvrendik.may. */
#include "postgres.h"

#include "fmgr.h"
#include "parser/parse_func.h"
#include "catalog/pg_type.h"
#include "portability/instr_time.h"
#include "utils/builtins.h"
#include "utils/memutils.h"

#include "guvrendik.h"

PG_MODULE_MAGIC;

enum { TURNS = 100, CALLS = 4 };

static bool by_library(text *body, int64 actor, int64 resource) {
    guvrendik_register_read read;
    guvrendik_verdict verdict;
    guvrendik_action action = guvrendik_make_action(actor, guvrendik_make_usage(resource, GUVRENDIK_RIGHT_READ), 0);

    guvrendik_read_register_at(&read, (const uint8_t *) VARDATA_ANY(body), VARSIZE_ANY_EXHDR(body));
    guvrendik_gate_at(&verdict, &read.state, &action);
    return verdict.decision == GUVRENDIK_DECISION_PERMITTED;
}

/* times(body, actor, resource): the microseconds of a call by the library and by may, the least of so many turns; an error where they differ.
 * Each call of may is a query's first: nothing is kept from the one before. */
PG_FUNCTION_INFO_V1(times);
Datum times(PG_FUNCTION_ARGS) {
    Oid types[] = {TEXTOID, INT8OID, INT8OID, INT8OID, INT8OID};
    Oid may = LookupFuncName(list_make2(makeString("guvrendik"), makeString("may")), 5, types, false);
    text *body = PG_GETARG_TEXT_P(0);
    int64 actor = PG_GETARG_INT64(1), resource = PG_GETARG_INT64(2);
    double least[2] = {1e9, 1e9};
    MemoryContext turns = AllocSetContextCreate(CurrentMemoryContext, "turns", ALLOCSET_DEFAULT_SIZES), own = MemoryContextSwitchTo(turns);

    for (int turn = 0; turn < 2 * TURNS; turn++) {
        instr_time before, after;
        int yes = 0;

        INSTR_TIME_SET_CURRENT(before);
        for (int i = 0; i < CALLS; i++)
            yes += turn % 2 == 0 ? by_library(body, actor, resource)
                                 : DatumGetBool(OidFunctionCall5(may, PointerGetDatum(body), Int64GetDatum(actor), Int64GetDatum(resource),
                                                                 Int64GetDatum(0), Int64GetDatum(0)));
        INSTR_TIME_SET_CURRENT(after);
        INSTR_TIME_SUBTRACT(after, before);
        least[turn % 2] = Min(least[turn % 2], INSTR_TIME_GET_DOUBLE(after) * 1e6 / CALLS);
        MemoryContextReset(turns);
        if (yes != CALLS)
            elog(ERROR, "a permitted use is refused");
    }
    MemoryContextSwitchTo(own);
    PG_RETURN_TEXT_P(cstring_to_text(psprintf("%.1f %.1f", least[0], least[1])));
}
