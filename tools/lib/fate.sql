-- Reads the tables run, entry and option of the database of lib/history, and creates the others.
BEGIN;
CREATE INDEX entry_name ON entry (name, n);
CREATE TABLE shown AS SELECT row_number() OVER (ORDER BY n) AS at, * FROM run WHERE state IN ('whole', 'unfinished');
CREATE TABLE before AS SELECT min(at) AS at FROM shown WHERE at > 1 AND (state = 'whole' OR (SELECT any FROM option));
CREATE TABLE fate AS
    SELECT name,
        max(letter) FILTER (WHERE at = 1) AS now,
        max(place) FILTER (WHERE at = 1) AS place,
        max(reason) FILTER (WHERE at = 1) AS reason,
        max(millis) FILTER (WHERE at = 1) AS millis,
        max(letter) FILTER (WHERE at = (SELECT at FROM before)) AS was,
        max(place) FILTER (WHERE at = (SELECT at FROM before)) AS was_place,
        max(reason) FILTER (WHERE at = (SELECT at FROM before)) AS was_reason,
        max(millis) FILTER (WHERE at = (SELECT at FROM before)) AS was_millis,
        count(*) FILTER (WHERE letter IN ('F', 'B')) AS bad,
        min(at) AS seen,
        ifnull(min(at) FILTER (WHERE letter NOT IN ('F', 'B')), 1000000) AS good
    FROM entry JOIN shown USING (n) GROUP BY name;
-- A case that is bad now: the first run since which it is, how many runs these are, and whether it was good or missing before.
ALTER TABLE fate ADD COLUMN since;
ALTER TABLE fate ADD COLUMN streak;
ALTER TABLE fate ADD COLUMN fresh DEFAULT 0;
UPDATE fate SET (since, streak) = (SELECT max(at), count(*) FROM entry JOIN shown USING (n) WHERE entry.name = fate.name AND at < good)
    WHERE now IN ('F', 'B');
UPDATE fate SET fresh = 1 WHERE now IN ('F', 'B') AND (SELECT at FROM before) AND ifnull(was, '-') NOT IN ('F', 'B');
-- Cases of the last run and the whole run before it that differ in another way.
CREATE TABLE change AS
    SELECT 1 AS rank, 'Gone' AS kind, name, CASE was WHEN '.' THEN 'passed' WHEN 's' THEN 'skipped'
            WHEN 'x' THEN 'expected failure' WHEN 'F' THEN 'failed' ELSE 'broken' END || ' before' AS text
        FROM fate WHERE now IS NULL AND was IS NOT NULL AND (SELECT state FROM shown WHERE at = 1) = 'whole'
    UNION ALL SELECT 2, 'Gone earlier', name, 'last seen ' || (SELECT date(started / 1000, 'unixepoch') FROM shown WHERE at = seen)
        FROM fate WHERE now IS NULL AND was IS NULL AND (SELECT state FROM shown WHERE at = 1) = 'whole'
    UNION ALL SELECT 3, 'Slower', name, printf('%.3f s, was %.3f s', millis / 1000.0, was_millis / 1000.0)
        FROM fate WHERE now <> 's' AND was <> 's' AND millis - was_millis >= 1000 AND millis >= 2 * was_millis
    UNION ALL SELECT 4, 'Newly skipped', name, reason || iif(was IN ('F', 'B'), ' (it was bad)', '')
        FROM fate WHERE now = 's' AND was <> 's'
    UNION ALL SELECT 5, 'Newly good', name, '' FROM fate WHERE now IN ('.', 'x') AND was IN ('F', 'B')
    UNION ALL SELECT 6, 'Appeared', name, ''
        FROM fate WHERE now NOT IN ('F', 'B') AND was IS NULL AND (SELECT at FROM before);
-- The commits between which a test case became bad that is bad in the run bad_at and good in the run good_at, if both notes name commits.
CREATE TABLE bisection AS SELECT bad.at AS bad_at, good.at AS good_at, 'git bisect start ' || bad.note || ' ' || good.note AS commits
    FROM shown AS bad JOIN shown AS good ON good.at > bad.at
    WHERE bad.note NOT GLOB '*[^A-Za-z0-9._/+-]*' AND bad.note NOT GLOB '-*' AND bad.note NOT GLOB '*-dirty' AND bad.note <> ''
        AND good.note NOT GLOB '*[^A-Za-z0-9._/+-]*' AND good.note NOT GLOB '-*' AND good.note NOT GLOB '*-dirty' AND good.note <> ''
        AND bad.note <> good.note;
CREATE TABLE fault AS
    SELECT n AS rank, replace(file, '.db', '') || ': NO TEST HAS RUN. The night could not begin'
            || iif(note = '', ', and its log says why.', ': ' || note) AS text
        FROM run WHERE state = 'none' AND n < ifnull((SELECT n FROM shown WHERE at = 1), 1000000)
    UNION ALL SELECT n, file || ' can''t be read, so its results are missing here.' FROM run WHERE state = 'lost'
    UNION ALL SELECT 0, 'NO NIGHT HAS BEGUN FOR ' || hours || ' HOURS.'
        FROM (SELECT (strftime('%s', 'now') - started / 1000) / 3600 AS hours FROM shown WHERE at = 1), option WHERE every AND hours >= every
    UNION ALL SELECT n, 'This run is ' || iif(in_use, 'in progress', 'unfinished, since its runner was killed or could not go on')
            || ': ' || (SELECT count(*) FROM entry WHERE entry.n = shown.n) || ' of ' || total || ' test cases are recorded.'
        FROM shown WHERE at = 1 AND state = 'unfinished'
    UNION ALL SELECT n, 'This run has no test case.' FROM shown WHERE at = 1 AND total = 0;
COMMIT;
