-- Prints the test cases that changed between good and bad in the runs of the table whole, with a letter for each run.
BEGIN;
CREATE INDEX entry_name ON entry (name, n);
CREATE TABLE step AS SELECT name, is_bad, is_bad <> lag(is_bad) OVER (PARTITION BY name ORDER BY n) AS changed
    FROM (SELECT name, n, letter IN ('F', 'B') AS is_bad FROM entry JOIN whole USING (n));
CREATE TABLE flaky AS SELECT name, total(changed) AS changes, total(is_bad) AS bad FROM step GROUP BY name HAVING total(changed) > 0;
COMMIT;

SELECT iif(row_number() OVER (PARTITION BY changes = 1 ORDER BY changes DESC, bad DESC, name) = 1,
            iif(changes = 1, '===> Changed once', '===> Flaky') || char(10), '')
        || (SELECT group_concat(letter, '') FROM
            (SELECT ifnull((SELECT letter FROM entry WHERE entry.name = flaky.name AND entry.n = whole.n), '-') AS letter FROM whole ORDER BY n DESC))
        || ' ' || name
    FROM flaky ORDER BY changes DESC, bad DESC, name;
