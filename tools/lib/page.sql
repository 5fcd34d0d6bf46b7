-- Prints the elements that page.xsl reads, but for the page itself and the outputs of test cases.
BEGIN;
-- The identifier of a case in the page: its name, in which a character that a URL can't have is %XX.
ALTER TABLE fate ADD COLUMN id;
CREATE TABLE percent (step INTEGER PRIMARY KEY, char);
INSERT INTO percent (char) VALUES ('%'), (' '), ('"'), ('#'), ('<'), ('>'), ('['), ('\'), (']'), ('^'), ('`'), ('{'), ('|'), ('}'),
    (char(9)), (char(10)), (char(13));
UPDATE fate SET id = (WITH RECURSIVE done (step, result) AS (SELECT 1, name
    UNION ALL SELECT step + 1, replace(result, char, '%' || hex(char)) FROM done JOIN percent USING (step))
    SELECT result FROM done ORDER BY step DESC LIMIT 1);
-- Texts become attributes.
UPDATE fate SET id = replace(replace(id, '&', '&amp;'), '"', '&quot;'),
    reason = replace(replace(replace(reason, '&', '&amp;'), '<', '&lt;'), '"', '&quot;');
UPDATE said SET line = replace(replace(replace(line, '&', '&amp;'), '<', '&lt;'), '"', '&quot;');
UPDATE change SET text = replace(replace(replace(text, '&', '&amp;'), '<', '&lt;'), '"', '&quot;');
UPDATE fault SET text = replace(replace(replace(text, '&', '&amp;'), '<', '&lt;'), '"', '&quot;');
UPDATE shown SET note = replace(replace(replace(note, '&', '&amp;'), '<', '&lt;'), '"', '&quot;'),
    file = replace(replace(replace(file, '&', '&amp;'), '<', '&lt;'), '"', '&quot;');
UPDATE option SET project = replace(replace(replace(project, '&', '&amp;'), '<', '&lt;'), '"', '&quot;');
CREATE TABLE past AS SELECT name, row_number() OVER (ORDER BY now IN ('F', 'B') DESC, fresh DESC, bad DESC, name) AS row
    FROM fate WHERE bad ORDER BY row LIMIT 1000;
CREATE UNIQUE INDEX past_name ON past (name);
CREATE TABLE slow AS SELECT name FROM fate WHERE now IS NOT NULL ORDER BY millis DESC, place LIMIT 10;
-- The list that has the identifier of a case. The others link to it.
ALTER TABLE fate ADD COLUMN home;
UPDATE fate SET home = CASE WHEN now IN ('F', 'B') THEN 'bad' WHEN name IN (SELECT name FROM past) THEN 'past' WHEN now = 's' THEN 'skipped'
    ELSE ifnull((SELECT kind FROM change WHERE change.name = fate.name ORDER BY rank LIMIT 1), 'slow') END;
CREATE TABLE attribute AS SELECT name, replace(replace(replace(name, '&', '&amp;'), '<', '&lt;'), '"', '&quot;') AS text FROM fate;
CREATE UNIQUE INDEX attribute_name ON attribute (name);
COMMIT;

SELECT printf('<about project="%s" made="%s"/>', project, datetime('now')) FROM option;
SELECT printf('<fault text="%s"/>', text) FROM fault ORDER BY rank;

-- The nights of the chart, and the runs that have results, the oldest first.
SELECT printf('<night day="%s" state="%s" bad="%d"/>', strftime('%m-%d', ifnull(datetime(started / 1000, 'unixepoch'), substr(file, 1, 10))),
        iif(total = 0, 'none', state),
        (SELECT count(*) FROM entry WHERE entry.n = run.n AND letter IN ('F', 'B')))
    FROM run ORDER BY n DESC;
SELECT printf('<run number="%d" file="%s" note="%s" started="%s" state="%s" selected="%d" wall="%s" sum="%.1f"', number, file, note,
        datetime(started / 1000, 'unixepoch'), state, total, CASE WHEN wall IS NULL THEN '' WHEN wall < 60000 THEN printf('%.1f s', wall / 1000.0)
        WHEN wall < 3600000 THEN printf('%d min %d s', wall / 60000, wall / 1000 % 60)
        ELSE printf('%d h %d min', wall / 3600000, wall / 60000 % 60) END, ifnull(sum_millis, 0) / 1000.0)
        || printf(' total="%d" failed="%d" broken="%d" passed="%d" skipped="%d" expected="%d" fresh="%d" gone="%d"/>',
        all_letters, failed, broken, passed, skipped, expected,
        iif(at = 1, (SELECT count(*) FROM fate WHERE fresh), 0), iif(at = 1, (SELECT count(*) FROM change WHERE kind = 'Gone'), 0))
    FROM shown LEFT JOIN (SELECT n, sum(millis) AS sum_millis, count(*) AS all_letters, total(letter = 'F') AS failed,
        total(letter = 'B') AS broken, total(letter = '.') AS passed, total(letter = 's') AS skipped, total(letter = 'x') AS expected
        FROM entry GROUP BY n) USING (n) ORDER BY at DESC;

-- The test cases that are bad now: new ones first, then by the number of runs since they are.
SELECT printf('<bad name="%s" id="%s" letter="%s" place="%d" seconds="%.3f" reason="%s" line="%s"', text, id, now, fate.place, millis / 1000.0,
        reason, ifnull(line, ''))
        || printf(' fresh="%d" streak="%d" since="%s" note="%s" good="%s" good_note="%s" commits="%s"/>', fresh, streak,
        datetime(old.started / 1000, 'unixepoch'), old.note, ifnull(datetime(young.started / 1000, 'unixepoch'), ''), ifnull(young.note, ''), ifnull(commits, ''))
    FROM fate JOIN attribute USING (name) LEFT JOIN said ON said.place = fate.place
    JOIN shown AS old ON old.at = since LEFT JOIN shown AS young ON young.at = good
    LEFT JOIN bisection ON bad_at = since AND good_at = good
    WHERE now IN ('F', 'B') ORDER BY fresh DESC, streak, fate.place;

SELECT printf('<change kind="%s" name="%s" text="%s" %s="%s"/>', kind, attribute.text, change.text, iif(home = kind, 'id', 'href'), id)
    FROM change JOIN fate USING (name) JOIN attribute USING (name) ORDER BY rank, name;
-- A test case that was bad in one of the runs: its letter in each, the oldest first.
SELECT printf('<past name="%s" strip="%s" %s="%s"/>', text, (SELECT group_concat(letter, '') FROM
        (SELECT ifnull((SELECT letter FROM entry WHERE entry.name = past.name AND entry.n = shown.n), '-') AS letter FROM shown ORDER BY at DESC)),
        iif(home = 'past', 'id', 'href'), id)
    FROM past JOIN fate USING (name) JOIN attribute USING (name) ORDER BY row;
SELECT printf('<more count="%d"/>', count(*) - 1000) FROM fate WHERE bad HAVING count(*) > 1000;
SELECT printf('<skipped name="%s" reason="%s" %s="%s"/>', text, reason, iif(home = 'skipped', 'id', 'href'), id)
    FROM fate JOIN attribute USING (name) WHERE now = 's' ORDER BY count(*) OVER (PARTITION BY reason) DESC, reason, place;
SELECT printf('<slow name="%s" seconds="%.3f" %s="%s"/>', text, millis / 1000.0, iif(home = 'slow', 'id', 'href'), id)
    FROM slow JOIN fate USING (name) JOIN attribute USING (name) ORDER BY millis DESC, place;
