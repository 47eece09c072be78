-- A portal's store: a table of registers, one to a client, and an audit of their changes. A template: copy it, and change names as you need.
-- psql -f store.sql, as one who may create extensions.
\set ON_ERROR_STOP on
CREATE EXTENSION IF NOT EXISTS guvrendik;

-- revision counts the changes of a register. What a register's text calls its version is something else.
CREATE TABLE guvrendik.registers (
    client text PRIMARY KEY,
    body guvrendik.guvrendik_register NOT NULL,
    revision bigint NOT NULL DEFAULT 0
);

-- A row to each change, by the register's revision after it. Of a call its numbers; where a text was stored as it is, that text. who is the caller's word,
-- session the role that was logged in.
CREATE TABLE guvrendik.audit (
    client text NOT NULL,
    before bigint,
    after bigint NOT NULL,
    call text NOT NULL,
    numbers bigint[],
    moment bigint,
    body guvrendik.guvrendik_register,
    who text NOT NULL,
    session text NOT NULL DEFAULT session_user,
    written timestamptz NOT NULL DEFAULT clock_timestamp(),
    PRIMARY KEY (client, after),
    CHECK ((call IN ('begin', 'store')) = (body IS NOT NULL) AND (body IS NULL) = (numbers IS NOT NULL AND moment IS NOT NULL))
);

CREATE FUNCTION guvrendik.refuse() RETURNS trigger LANGUAGE plpgsql AS $$
BEGIN
    RAISE insufficient_privilege USING MESSAGE = format('%s: %s is refused, what is written stays', TG_TABLE_NAME, TG_OP);
END $$;
CREATE TRIGGER written_stays BEFORE UPDATE OR DELETE OR TRUNCATE ON guvrendik.audit EXECUTE FUNCTION guvrendik.refuse();
CREATE TRIGGER written_stays BEFORE DELETE OR TRUNCATE ON guvrendik.registers EXECUTE FUNCTION guvrendik.refuse();
CREATE TRIGGER client_stays BEFORE UPDATE OF client ON guvrendik.registers EXECUTE FUNCTION guvrendik.refuse();

CREATE FUNCTION guvrendik.count_revision() RETURNS trigger LANGUAGE plpgsql AS $$
BEGIN
    NEW.revision := OLD.revision + 1;
    RETURN NEW;
END $$;
CREATE TRIGGER count_revision BEFORE UPDATE ON guvrendik.registers FOR EACH ROW EXECUTE FUNCTION guvrendik.count_revision();

-- The text after what an audit row tells, of the text before it.
CREATE FUNCTION guvrendik.told(entry guvrendik.audit, body text) RETURNS text LANGUAGE sql IMMUTABLE AS $$
    SELECT coalesce(entry.body, guvrendik.apply(told.body, entry.call, entry.numbers, entry.moment)) $$;

-- The accepted calls of a client's audit, made again one after the other, each by the library: the stored text.
CREATE FUNCTION guvrendik.replayed(client text) RETURNS text LANGUAGE plpgsql STABLE AS $$
DECLARE
    entry guvrendik.audit;
    body text;
BEGIN
    FOR entry IN SELECT * FROM guvrendik.audit a WHERE a.client = replayed.client ORDER BY a.after LOOP
        body := guvrendik.told(entry, body);
    END LOOP;
    RETURN body;
END $$;

-- Where no call has told this revision, the text is kept: a register that begins, and an UPDATE that did not come by guvrendik.change. Where the audit has
-- its row already, that row tells this change; of a row that comes by a restore, the whole audit ends in it.
CREATE FUNCTION guvrendik.keep_audit() RETURNS trigger LANGUAGE plpgsql SECURITY DEFINER SET search_path = pg_catalog, pg_temp AS $$
DECLARE
    entry guvrendik.audit;
BEGIN
    SELECT * INTO entry FROM guvrendik.audit a WHERE a.client = NEW.client ORDER BY a.after DESC LIMIT 1;
    IF entry.after IS NOT DISTINCT FROM OLD.revision AND NEW.revision = coalesce(OLD.revision + 1, 0) THEN
        INSERT INTO guvrendik.audit (client, before, after, call, body, who)
        VALUES (NEW.client, OLD.revision, NEW.revision, CASE TG_OP WHEN 'INSERT' THEN 'begin' ELSE 'store' END, NEW.body, session_user);
    ELSIF entry.after IS DISTINCT FROM NEW.revision
        OR (CASE TG_OP WHEN 'INSERT' THEN guvrendik.replayed(NEW.client) ELSE guvrendik.told(entry, OLD.body) END) IS DISTINCT FROM NEW.body THEN
        RAISE integrity_constraint_violation USING MESSAGE = format('client %L, revision %s: the audit tells another change', NEW.client, NEW.revision),
            DETAIL = format('Its last revision in the audit: %s.', coalesce(entry.after::text, 'none')),
            HINT = 'Of a dump, the audit is restored before the registers; a register that begins has revision 0.';
    END IF;
    RETURN NULL;
END $$;
REVOKE EXECUTE ON FUNCTION guvrendik.keep_audit FROM PUBLIC;
CREATE TRIGGER keep_audit AFTER INSERT OR UPDATE ON guvrendik.registers FOR EACH ROW EXECUTE FUNCTION guvrendik.keep_audit();

-- Makes a change under the lock of the client's row, with its audit row, and answers the revision after it.
CREATE FUNCTION guvrendik.change(client text, call text, numbers bigint[], moment bigint, who text DEFAULT session_user) RETURNS bigint
    LANGUAGE plpgsql SECURITY DEFINER SET search_path = pg_catalog, pg_temp AS $$
#variable_conflict use_column
DECLARE
    stored guvrendik.registers;
    changed guvrendik.guvrendik_register;
BEGIN
    SELECT * INTO stored FROM guvrendik.registers r WHERE r.client = change.client FOR UPDATE;
    IF NOT FOUND THEN
        RAISE no_data_found USING MESSAGE = format('no client is called %L', change.client);
    END IF;
    changed := guvrendik.apply(stored.body, change.call, change.numbers, change.moment);
    IF changed IS NULL THEN
        RAISE null_value_not_allowed USING MESSAGE = 'NULL is no call, no number and no moment of a change',
            DETAIL = format('Given: call %L, numbers %L, moment %L.', change.call, change.numbers, change.moment);
    END IF;
    INSERT INTO guvrendik.audit (client, before, after, call, numbers, moment, who)
    VALUES (change.client, stored.revision, stored.revision + 1, change.call, change.numbers, change.moment, change.who);
    UPDATE guvrendik.registers r SET body = changed WHERE r.client = change.client;
    RETURN stored.revision + 1;
END $$;
REVOKE EXECUTE ON FUNCTION guvrendik.change FROM PUBLIC;

-- The client's register, brought whole into memory. In a policy as (SELECT guvrendik.stored(..)): then a query reads it once.
CREATE FUNCTION guvrendik.stored(client text) RETURNS text LANGUAGE sql STABLE SECURITY DEFINER SET search_path = pg_catalog, pg_temp AS $$
    SELECT r.body || '' FROM guvrendik.registers r WHERE r.client = stored.client $$;
REVOKE EXECUTE ON FUNCTION guvrendik.stored FROM PUBLIC;
