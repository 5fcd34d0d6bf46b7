-- Read by merge: a run of all test cases of a division, without entries, and the table of their positions.
ATTACH 'plan.db' AS plan;
CREATE TABLE plan.division (share INTEGER, name TEXT);
.mode ascii
.separator "\t" "\n"
.import --schema plan division division
CREATE TABLE plan.place AS
    SELECT rowid - 1 AS position, share, name, row_number() OVER (PARTITION BY name ORDER BY rowid) AS nth FROM plan.division;
CREATE INDEX plan.by_name ON place (name, nth);
INSERT INTO runs SELECT 1, 253402300799999, count(*), 1 FROM plan.place;
