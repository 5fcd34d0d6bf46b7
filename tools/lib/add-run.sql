-- Read by merge: adds the run of new.db to a results file, and prints its number there.
.timeout 5000
ATTACH 'new.db' AS new;
BEGIN IMMEDIATE;
INSERT INTO main.runs SELECT (SELECT ifnull(max(id), 0) + 1 FROM main.runs), started, total, finished FROM new.runs;
INSERT INTO main.entries
    SELECT (SELECT max(id) FROM main.runs), position, program, case_name, kind, reason, started, millis, body_out, body_err, clean_out, clean_err
    FROM new.entries;
INSERT INTO main.props SELECT (SELECT max(id) FROM main.runs), position, place, name, value FROM new.props;
SELECT max(id) FROM main.runs;
COMMIT;
