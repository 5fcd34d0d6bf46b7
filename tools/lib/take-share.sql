-- Read by merge: adds the last run of part.db, which is the share @share, to the run. Prints what differs from the division.
ATTACH 'plan.db' AS plan;
ATTACH 'part.db' AS part;
CREATE TEMP TABLE last AS SELECT id, started FROM part.runs ORDER BY id DESC LIMIT 1;
CREATE TEMP TABLE found AS
    SELECT position, program || ':' || case_name AS name, row_number() OVER (PARTITION BY program, case_name ORDER BY position) AS nth
    FROM part.entries WHERE run = (SELECT id FROM last);
CREATE TEMP TABLE moves AS
    SELECT found.position AS old, place.position AS new
    FROM found JOIN place ON place.name = found.name AND place.nth = found.nth WHERE share = @share;
SELECT 'has ' || name || ' more often than its share' FROM found WHERE position NOT IN (SELECT old FROM moves) LIMIT 1;
SELECT 'lacks ' || name FROM place WHERE share = @share AND position NOT IN (SELECT new FROM moves) LIMIT 1;
BEGIN;
UPDATE main.runs SET started = min(started, (SELECT started FROM last));
INSERT INTO main.entries
    SELECT 1, new, program, case_name, kind, reason, started, millis, body_out, body_err, clean_out, clean_err
    FROM part.entries JOIN moves ON position = old WHERE run = (SELECT id FROM last);
INSERT INTO main.props
    SELECT 1, new, place, name, value FROM part.props JOIN moves ON position = old WHERE run = (SELECT id FROM last);
COMMIT;
