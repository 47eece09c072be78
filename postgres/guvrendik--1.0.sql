-- The calls of Guvrendik over a register's text. Each is a function of what it is given: immutable, safe in parallel. NULL in, NULL or no row out: no
-- permission. A refusal is an error with SQLSTATE GV0nn, nn the refusal's number.
\echo Use "CREATE EXTENSION guvrendik" to load this file. \quit

-- True; a text that is no sound register's is refused with GV019, GV020 or GV001.
CREATE FUNCTION guvrendik.demand_sound(body text) RETURNS boolean
    AS 'MODULE_PATHNAME', 'store_demand_sound' LANGUAGE C IMMUTABLE STRICT PARALLEL SAFE;

-- A register, as its text. No other text can be stored in such a column.
CREATE DOMAIN guvrendik.guvrendik_register AS text COLLATE "C" CHECK (guvrendik.demand_sound(VALUE));

-- Judges an action. uses: rows of resource and right, ARRAY[[10, 0], [10, 1]]. One row with the decision permitted; or refused, a row to each violation.
CREATE FUNCTION guvrendik.gate(body text, actor bigint, uses bigint[], moment bigint, flags bigint DEFAULT 0, governs bigint[] DEFAULT '{}')
    RETURNS TABLE (decision text, kind bigint, value bigint, words text)
    AS 'MODULE_PATHNAME', 'store_gate' LANGUAGE C IMMUTABLE STRICT PARALLEL SAFE ROWS 4;

-- Whether the gate permits the action of this use alone.
CREATE FUNCTION guvrendik.may(body text, actor bigint, resource bigint, right bigint, moment bigint) RETURNS boolean
    AS 'MODULE_PATHNAME', 'store_may' LANGUAGE C IMMUTABLE STRICT PARALLEL SAFE COST 1000;

-- The lines that the printing programs print: of an action's text, of a JSON action with its clock, and of a plan's text. Of bytes, too.
CREATE FUNCTION guvrendik.verdict(body text, action text) RETURNS text
    AS 'MODULE_PATHNAME', 'store_verdict' LANGUAGE C IMMUTABLE STRICT PARALLEL SAFE;
CREATE FUNCTION guvrendik.verdict(body bytea, action bytea) RETURNS text
    AS 'MODULE_PATHNAME', 'store_verdict' LANGUAGE C IMMUTABLE STRICT PARALLEL SAFE;
CREATE FUNCTION guvrendik.verdict(body text, clock text, action text) RETURNS text
    AS 'MODULE_PATHNAME', 'store_json_verdict' LANGUAGE C IMMUTABLE STRICT PARALLEL SAFE;
CREATE FUNCTION guvrendik.verdict(body bytea, clock bytea, action bytea) RETURNS text
    AS 'MODULE_PATHNAME', 'store_json_verdict' LANGUAGE C IMMUTABLE STRICT PARALLEL SAFE;
CREATE FUNCTION guvrendik.plan_verdict(body text, plan text) RETURNS text
    AS 'MODULE_PATHNAME', 'store_plan_verdict' LANGUAGE C IMMUTABLE STRICT PARALLEL SAFE;
CREATE FUNCTION guvrendik.plan_verdict(body bytea, plan bytea) RETURNS text
    AS 'MODULE_PATHNAME', 'store_plan_verdict' LANGUAGE C IMMUTABLE STRICT PARALLEL SAFE;

-- Judges a plan's text: a row to each action, in the order of the text, counted from 0.
CREATE FUNCTION guvrendik.plan(body text, plan text) RETURNS TABLE (place bigint, decision text, violations bigint)
    AS 'MODULE_PATHNAME', 'store_plan' LANGUAGE C IMMUTABLE STRICT PARALLEL SAFE ROWS 16;

-- Why the actor may make the use or may not, and of a machine with an owner a second row: why he may or may not.
CREATE FUNCTION guvrendik.why(body text, actor bigint, resource bigint, right bigint, moment bigint)
    RETURNS TABLE (whose text, id bigint, kind text, chain bigint[], keeper bigint, ended bigint)
    AS 'MODULE_PATHNAME', 'store_why' LANGUAGE C IMMUTABLE STRICT PARALLEL SAFE ROWS 2;

-- The actors who may make the use, in the register's order.
CREATE FUNCTION guvrendik.who(body text, resource bigint, right bigint, moment bigint) RETURNS TABLE (actor bigint)
    AS 'MODULE_PATHNAME', 'store_who' LANGUAGE C IMMUTABLE STRICT PARALLEL SAFE ROWS 16;

-- One row: none, or the one grant by one of the signers that would permit the use.
CREATE FUNCTION guvrendik.propose(body text, actor bigint, resource bigint, right bigint, moment bigint, signers bigint[])
    RETURNS TABLE (kind text, id bigint, parent bigint, grantor bigint, holder bigint, on_resource bigint, rights bigint, weight bigint,
        "left" bigint, expiry bigint)
    AS 'MODULE_PATHNAME', 'store_propose' LANGUAGE C IMMUTABLE STRICT PARALLEL SAFE ROWS 1;

-- The changes: each answers the register after it.
CREATE FUNCTION guvrendik.grant(body text, id bigint, parent bigint, grantor bigint, holder bigint, resource bigint, rights bigint, weight bigint,
        "left" bigint, expiry bigint, moment bigint) RETURNS guvrendik.guvrendik_register
    AS 'MODULE_PATHNAME', 'store_grant' LANGUAGE C IMMUTABLE STRICT PARALLEL SAFE;
CREATE FUNCTION guvrendik.revoke(body text, revoker bigint, claim bigint) RETURNS guvrendik.guvrendik_register
    AS 'MODULE_PATHNAME', 'store_revoke' LANGUAGE C IMMUTABLE STRICT PARALLEL SAFE;
CREATE FUNCTION guvrendik.clear_resource(body text, caller bigint, resource bigint) RETURNS guvrendik.guvrendik_register
    AS 'MODULE_PATHNAME', 'store_clear_resource' LANGUAGE C IMMUTABLE STRICT PARALLEL SAFE;
CREATE FUNCTION guvrendik.clear_expired(body text, caller bigint, moment bigint) RETURNS guvrendik.guvrendik_register
    AS 'MODULE_PATHNAME', 'store_clear_expired' LANGUAGE C IMMUTABLE STRICT PARALLEL SAFE;

-- A change by its name and its numbers, in the order of the call's parameters without body and moment.
CREATE FUNCTION guvrendik.apply(body text, call text, numbers bigint[], moment bigint) RETURNS guvrendik.guvrendik_register
    LANGUAGE plpgsql IMMUTABLE STRICT PARALLEL SAFE AS $$
DECLARE
    due constant text[] := CASE call WHEN 'grant' THEN '{id,parent,grantor,holder,resource,rights,weight,left,expiry}' WHEN 'revoke' THEN '{revoker,claim}'
        WHEN 'clear_resource' THEN '{caller,resource}' WHEN 'clear_expired' THEN '{caller}' END;
BEGIN
    IF due IS NULL THEN
        RAISE invalid_parameter_value USING MESSAGE = format('no change is called %s', call),
            HINT = 'The changes are grant, revoke, clear_resource and clear_expired.';
    ELSIF array_dims(numbers) IS DISTINCT FROM array_dims(due) THEN
        RAISE invalid_parameter_value USING MESSAGE = format('%s has %s numbers: %s', call, cardinality(due), array_to_string(due, ', ')),
            DETAIL = format('Given: %s', numbers);
    END IF;
    CASE call
        WHEN 'grant' THEN
            RETURN guvrendik.grant(body, numbers[1], numbers[2], numbers[3], numbers[4], numbers[5], numbers[6], numbers[7], numbers[8],
                numbers[9], moment);
        WHEN 'revoke' THEN RETURN guvrendik.revoke(body, numbers[1], numbers[2]);
        WHEN 'clear_resource' THEN RETURN guvrendik.clear_resource(body, numbers[1], numbers[2]);
        WHEN 'clear_expired' THEN RETURN guvrendik.clear_expired(body, numbers[1], moment);
    END CASE;
END $$;
