-- The lost update of docs/PORTAL.md, by two connections of a portal's desks: psql -XqAt -f examples/postgres/lost_update.sql, where postgres/store.sql stands. One
-- desk revokes machine 2's claim, the other grants human 3 a claim. Both have read the register before either stores.
CREATE EXTENSION IF NOT EXISTS dblink;
SELECT dblink_connect(desk, format('host=%s port=%s user=%s dbname=%s', :'HOST', :'PORT', :'USER', :'DBNAME')) FROM unnest('{one, other}'::text[]) desk \g /dev/null
\set begin 'register=1\nactors=3\nactor=1\nkind=human\nowner=0\nactor=2\nkind=machine\nowner=1\nactor=3\nkind=human\nowner=0\nresources=1\nresource=10\npublic=0\nkeeper=1\nscope=site/a\nclaims=2\nclaim=1\nparent=0\ngrantor=1\nholder=1\nresource=10\nrights=17\nweight=1000\nexpiry=0\nclaim=2\nparent=1\ngrantor=1\nholder=2\nresource=10\nrights=1\nweight=1000\nexpiry=0\n'
INSERT INTO guvrendik.registers (client, body) SELECT 'lost' || n, :'begin' FROM generate_series(1, 4) n;
CREATE TEMP VIEW shown AS SELECT client, 'claims ' || (SELECT string_agg(id[1], ' ') FROM regexp_matches(body, '^claim=(\d+)$', 'gn') id)
    || ', machine 2 ' || CASE WHEN guvrendik.may(body, 2, 10, 0, 0) THEN 'may read' ELSE 'may not read' END AS line FROM guvrendik.registers;
SELECT 'at first: ' || line FROM shown WHERE client = 'lost1';

-- Each stores what it computed on a copy of its own.
SELECT body AS one, body AS other FROM guvrendik.registers WHERE client = 'lost1' \gset
SELECT dblink_exec('one', format('UPDATE guvrendik.registers SET body = guvrendik.revoke(%L, 1, 2) WHERE client = ''lost1''', :'one')) \g /dev/null
SELECT dblink_exec('other', format('UPDATE guvrendik.registers SET body = guvrendik.grant(%L, 3, 1, 1, 3, 10, 1, 1000, 0, 0, 0) WHERE client = ''lost1''', :'other')) \g /dev/null
SELECT 'each on a copy of its own: ' || line FROM shown WHERE client = 'lost1';

-- The change under the row's lock. The first has not yet committed when the second asks: that one waits.
SELECT dblink_exec('one', 'BEGIN') \g /dev/null
SELECT * FROM dblink('one', $$SELECT guvrendik.change('lost2', 'revoke', '{1, 2}', 0)$$) AS t (revision bigint) \g /dev/null
SELECT dblink_send_query('other', $$SELECT guvrendik.change('lost2', 'grant', '{3, 1, 1, 3, 10, 1, 1000, 0, 0}', 0)$$) \g /dev/null
SELECT dblink_exec('one', 'COMMIT') \g /dev/null
SELECT 'by guvrendik.change, revision ' || revision FROM dblink_get_result('other') AS t (revision bigint);
SELECT * FROM dblink_get_result('other') AS t (revision bigint);
SELECT 'by guvrendik.change: ' || line FROM shown WHERE client = 'lost2';

-- An UPDATE that computes on the row it stores. The second waits, and takes the row that the first has left.
SELECT dblink_exec('one', 'BEGIN') \g /dev/null
SELECT dblink_exec('one', $$UPDATE guvrendik.registers SET body = guvrendik.revoke(body, 1, 2) WHERE client = 'lost3'$$) \g /dev/null
SELECT dblink_send_query('other', $$UPDATE guvrendik.registers SET body = guvrendik.grant(body, 3, 1, 1, 3, 10, 1, 1000, 0, 0, 0) WHERE client = 'lost3'$$) \g /dev/null
SELECT dblink_exec('one', 'COMMIT') \g /dev/null
SELECT 'by an UPDATE alone, ' || told FROM dblink_get_result('other') AS t (told text);
SELECT * FROM dblink_get_result('other') AS t (told text);
SELECT 'by an UPDATE alone: ' || line FROM shown WHERE client = 'lost3';

-- Compare and set by revision: two statements, the change computed between them by whom you like. The second desk is told UPDATE 0, and begins anew.
SELECT body, revision FROM guvrendik.registers WHERE client = 'lost4' \gset
SELECT 'one: ' || dblink_exec('one', format('UPDATE guvrendik.registers SET body = %L, revision = %s + 1 WHERE client = ''lost4'' AND revision = %2$s', guvrendik.revoke(:'body', 1, 2), :revision));
SELECT 'other: ' || dblink_exec('other', format('UPDATE guvrendik.registers SET body = %L, revision = %s + 1 WHERE client = ''lost4'' AND revision = %2$s', guvrendik.grant(:'body', 3, 1, 1, 3, 10, 1, 1000, 0, 0, 0), :revision));
SELECT body, revision FROM guvrendik.registers WHERE client = 'lost4' \gset
SELECT 'other, anew: ' || dblink_exec('other', format('UPDATE guvrendik.registers SET body = %L, revision = %s + 1 WHERE client = ''lost4'' AND revision = %2$s', guvrendik.grant(:'body', 3, 1, 1, 3, 10, 1, 1000, 0, 0, 0), :revision));
SELECT 'by compare and set: ' || line FROM shown WHERE client = 'lost4';
