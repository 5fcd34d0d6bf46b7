-- Prints the test cases of the last run, each as an object of JSON.
SELECT json_object('file', file, 'run', number, 'place', place, 'program', program, 'case', case_name,
        'result', CASE letter WHEN '.' THEN 'passed' WHEN 's' THEN 'skipped' WHEN 'x' THEN 'expected_failure' WHEN 'F' THEN 'failed' ELSE 'broken' END,
        'reason', nullif(reason, ''), 'started', iif(entry.started, strftime('%Y-%m-%dT%H:%M:%fZ', entry.started / 1000.0, 'unixepoch'), NULL),
        'seconds', millis / 1000.0)
    FROM entry JOIN shown USING (n) WHERE at = 1 ORDER BY place;
