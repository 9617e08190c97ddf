-- Questions to tezqulom_ask, run by the sqlite3 command in the repository's root after the extension is loaded. `answers` has what is printed.
PRAGMA encoding = 'UTF-16le';
CREATE TABLE inputs AS SELECT readfile('crates/askvalue/data/table') AS tab, readfile('crates/askvalue/data/value') AS record;
CREATE TABLE filters (id INTEGER PRIMARY KEY, filter TEXT);
INSERT INTO filters (filter) VALUES
    ('item:{component "parts.*.copies",rule integerMatch,value 3}'),
    ('item:{component "event",rule caseExactMatch,value "e1"}'),
    ('item:{component "event",rule caseExactMatch,value "é1"}'),
    ('item:{component "event",rule integerMatch,value 3}'),
    ('and:{}'),
    ('item:'),
    ('');
SELECT id, tezqulom_ask(tab, record, filter), typeof(tezqulom_ask(tab, record, filter)) FROM inputs, filters ORDER BY id;

SELECT 'a record that is not of the type', tezqulom_ask(tab, x'3000', 'and:{}') FROM inputs;
SELECT 'an empty record', tezqulom_ask(tab, x'', 'and:{}') FROM inputs;
SELECT 'zeros for a record', tezqulom_ask(tab, zeroblob(4096), 'and:{}'), tezqulom_ask(tab, zeroblob(4097), 'and:{}') FROM inputs;
SELECT 'a table that is not admitted', tezqulom_ask(x'00', record, 'and:{}') FROM inputs;
SELECT 'an empty table', tezqulom_ask(x'', record, 'and:{}') FROM inputs;
SELECT 'the longest filter, and a longer one', tezqulom_ask(tab, record, printf('and:{%2042s}', '')), tezqulom_ask(tab, record, printf('and:{%2043s}', ''))
FROM inputs;

-- A deterministic function may stand in an index.
CREATE TABLE records (id INTEGER PRIMARY KEY, record BLOB);
CREATE INDEX fives ON records (tezqulom_ask(x'02', record, 'item:{rule integerMatch,value 5}'));
INSERT INTO records (record) VALUES (x'020105'), (x'020106'), (x'0201'), (x'020105');
SELECT 'by an index', group_concat(id) FROM records WHERE tezqulom_ask(x'02', record, 'item:{rule integerMatch,value 5}') = 'TRUE 1';
SELECT 'refused', id FROM records WHERE tezqulom_ask(x'02', record, 'and:{}') LIKE 'REFUSED %';

-- Each answer of 40,000 records.
WITH RECURSIVE numbers(n) AS (SELECT 0 UNION ALL SELECT n + 1 FROM numbers WHERE n < 39999),
made AS (SELECT CASE n % 4 WHEN 3 THEN x'0200' WHEN 0 THEN x'020105' ELSE x'020106' END AS record FROM numbers)
SELECT tezqulom_ask(x'02', record, 'item:{rule integerMatch,value 5}') AS answer, count(*) FROM made GROUP BY answer;
