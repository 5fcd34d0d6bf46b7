-- Prints Markdown with tables, as GitHub has them.
BEGIN;
CREATE TABLE section (part INTEGER PRIMARY KEY, title);
INSERT INTO section VALUES (1, 'Gone'), (2, 'Newly bad'), (3, 'Still bad'), (4, 'Slower and newly skipped');
CREATE TABLE cell (part, row, name, text);
INSERT INTO cell SELECT -1, 1, project, ifnull((SELECT note FROM shown WHERE at = 1), '') FROM option;
INSERT INTO cell SELECT 0, row_number() OVER (ORDER BY rank), '', text FROM fault;
INSERT INTO cell SELECT 1, row_number() OVER (ORDER BY name), name, text FROM change WHERE kind = 'Gone';
INSERT INTO cell SELECT 3 - fresh, row_number() OVER (PARTITION BY fresh ORDER BY streak, fate.place), name, reason || ifnull(char(10) || line, '')
        || iif(fresh OR (SELECT count(*) FROM shown) = 1, '', char(10) || 'bad for ' || streak || iif(streak = 1, ' run', ' runs'))
    FROM fate LEFT JOIN said USING (place) WHERE now IN ('F', 'B');
INSERT INTO cell SELECT 4, row_number() OVER (ORDER BY rank, name), name, kind || ': ' || text FROM change WHERE kind IN ('Slower', 'Newly skipped');
CREATE TABLE remaining AS SELECT part, count(*) - 100 AS count FROM cell GROUP BY part HAVING count(*) > 100;
DELETE FROM cell WHERE row > 100;

-- Each character that Markdown may interpret becomes a reference, which it takes literally.
CREATE TABLE reference (step INTEGER PRIMARY KEY, char, text);
INSERT INTO reference (char, text) VALUES ('&', '&amp;'), ('#', '&#35;'), ('<', '&lt;'), ('>', '&gt;'), ('www.', 'www&#46;'), (char(13), ' '),
    ('|', '&#124;'), ('`', '&#96;'), ('*', '&#42;'), ('_', '&#95;'), ('[', '&#91;'), (']', '&#93;'), ('\', '&#92;'), ('~', '&#126;'),
    ('@', '&#64;'), (':', '&#58;'), ('!', '&#33;'), ('$', '&#36;'), (char(10), '<br>');
UPDATE cell SET
    name = (WITH RECURSIVE done (step, result) AS (SELECT 1, name
        UNION ALL SELECT step + 1, replace(result, char, reference.text) FROM done JOIN reference USING (step))
        SELECT result FROM done ORDER BY step DESC LIMIT 1),
    text = (WITH RECURSIVE done (step, result) AS (SELECT 1, cell.text
        UNION ALL SELECT step + 1, replace(result, char, reference.text) FROM done JOIN reference USING (step))
        SELECT result FROM done ORDER BY step DESC LIMIT 1);
COMMIT;

SELECT '## ' || name || char(10) FROM cell WHERE part = -1;
SELECT '**' || text || '**' || char(10) FROM cell WHERE part = 0 ORDER BY row;
SELECT printf('%d of %d bad, %d of them new; %d gone; passed: %d, skipped: %d, expected failures: %d', total(now IN ('F', 'B')), count(now),
        total(fresh), (SELECT count(*) FROM change WHERE kind = 'Gone'), total(now = '.'), total(now = 's'), total(now = 'x'))
        || (SELECT ifnull(printf('; %.1f s', wall / 1000.0), '') FROM shown WHERE at = 1)
        || (SELECT iif(text = '', '', '; tested: <code>' || text || '</code>') FROM cell WHERE part = -1)
    FROM fate WHERE EXISTS (SELECT * FROM shown);
SELECT line FROM (
    SELECT part, 0 AS row, char(10) || '### ' || title || char(10) || char(10) || '| Test case | |' || char(10) || '|---|---|' AS line
        FROM section WHERE part IN (SELECT part FROM cell)
    UNION ALL SELECT part, row, '| <code>' || name || '</code> | ' || text || ' |' FROM cell WHERE part > 0
    UNION ALL SELECT part, 101, '| and ' || count || ' more | |' FROM remaining WHERE part > 0)
    ORDER BY part, row;
