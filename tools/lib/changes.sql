-- Prints how the last run differs from the run that it is compared with, by the tables of fate.sql.
BEGIN;
CREATE TABLE section (part INTEGER PRIMARY KEY, title, counted);
INSERT INTO section VALUES (1, 'Newly bad', 1), (2, 'Bisect', NULL), (3, 'Gone', 2), (4, 'Newly skipped', 4), (5, 'Slower', 5),
    (6, 'Newly good', 6), (7, 'Appeared', 7), (8, 'Still bad', 3);
CREATE TABLE word AS SELECT column1 AS letter, column2 AS begins, column3 AS rank
    FROM (VALUES ('.', 'passed', 1), ('s', 'skipped: ', 2), ('x', 'expected_failure: ', 3), ('B', 'broken: ', 4), ('F', 'failed: ', 5));
-- A line of a section. Lines are in the order of a report: by results, and then as in the tree.
CREATE TABLE line (part, rank, place, text);
INSERT INTO line SELECT CASE WHEN fresh THEN 1 WHEN now IN ('F', 'B') THEN 8 WHEN was IN ('F', 'B') THEN 6 WHEN was IS NULL THEN 7 ELSE 4 END,
        rank, place, name || '  ->  ' || begins || reason || printf('  [%.3fs]', millis / 1000.0)
    FROM fate JOIN word ON now = letter
    WHERE now IN ('F', 'B') OR was IN ('F', 'B') OR was IS NULL OR (now = 's' AND was <> 's');
INSERT INTO line SELECT 3, word.rank, was_place, name || '  ->  ' || begins || was_reason || printf('  [%.3fs]', was_millis / 1000.0)
    FROM change JOIN fate USING (name) JOIN word ON was = letter WHERE kind = 'Gone';
INSERT INTO line SELECT 5, word.rank, place, printf('%s: %.3f s, was %.3f s', name, millis / 1000.0, was_millis / 1000.0)
    FROM change JOIN fate USING (name) JOIN word ON now = letter WHERE kind = 'Slower';
INSERT INTO line SELECT 2, 0, 0, commits FROM bisection WHERE bad_at = 1 AND good_at = (SELECT at FROM before)
    AND EXISTS (SELECT * FROM fate WHERE fresh AND was IS NOT NULL);
COMMIT;

SELECT iif(row_number() OVER (PARTITION BY part ORDER BY rank, place) = 1, '===> ' || title || char(10), '') || text
    FROM line JOIN section USING (part) ORDER BY part, rank, place;
SELECT '===> Summary';
SELECT iif(at = 1, 'Run ', 'Compared with run ') || number || ' of ' || file || ', started '
        || strftime('%Y-%m-%dT%H:%M:%fZ', started / 1000.0, 'unixepoch') || iif(state = 'whole', '', ', unfinished') || iif(note = '', '', ', tested ' || note)
    FROM shown WHERE at IN (1, (SELECT at FROM before)) ORDER BY at;
SELECT 'Test cases: ' || group_concat(text, ', ') FROM (SELECT printf('%d %s', count(line.part), lower(title)) AS text
    FROM section LEFT JOIN line USING (part) WHERE counted GROUP BY part ORDER BY counted);
