-- Prints workflow commands of GitHub: at most ten, the last of which counts the others.
CREATE TABLE annotation AS SELECT row_number() OVER (ORDER BY part, rank, streak, place) AS row, title, text FROM (
    SELECT 1 AS part, rank, 0 AS streak, 0 AS place, 'Test run' AS title, text FROM fault
    UNION ALL SELECT 2, 0, 0, 0, name, 'This test case is gone, ' || text FROM change WHERE kind = 'Gone'
    UNION ALL SELECT 3, NOT fresh, streak, place, name,
        reason || ifnull(char(10) || line, '') || iif(fresh, char(10) || 'New since the run before.', '')
        FROM fate LEFT JOIN said USING (place) WHERE now IN ('F', 'B'));
INSERT INTO annotation SELECT 10.5, 'More', (count(*) - 9) || ' more: see the summary' FROM annotation HAVING count(*) > 10;
SELECT '::error title=' || replace(replace(replace(replace(replace(title, '%', '%25'), char(13), '%0D'), char(10), '%0A'), ':', '%3A'), ',', '%2C')
        || '::' || replace(replace(replace(text, '%', '%25'), char(13), '%0D'), char(10), '%0A')
    FROM annotation WHERE row < 10 OR row = 10.5 OR (SELECT max(row) FROM annotation) <= 10 ORDER BY row;
