-- Prints metrics in the text format of Prometheus.
SELECT '# HELP kyua_run_faults Reasons why the last run is missing, unfinished or empty.
# TYPE kyua_run_faults gauge
kyua_run_faults ' || count(*) FROM fault;
SELECT '# HELP kyua_run_start_time_seconds When the last run started, in seconds since 1970.
# TYPE kyua_run_start_time_seconds gauge
kyua_run_start_time_seconds ' || printf('%.3f', started / 1000.0) || '
# HELP kyua_run_duration_seconds From the start of the last run to the end of its last test case.
# TYPE kyua_run_duration_seconds gauge
kyua_run_duration_seconds ' || printf('%.3f', ifnull(wall, 0) / 1000.0) || '
# HELP kyua_run_selected_cases How many test cases the last run selected.
# TYPE kyua_run_selected_cases gauge
kyua_run_selected_cases ' || total FROM shown WHERE at = 1;
SELECT '# HELP kyua_run_cases Test cases of the last run by result.
# TYPE kyua_run_cases gauge' WHERE EXISTS (SELECT * FROM shown);
SELECT printf('kyua_run_cases{result="%s"} %d', column2, (SELECT count(*) FROM fate WHERE now = column1))
    FROM (VALUES ('.', 'passed'), ('s', 'skipped'), ('x', 'expected_failure'), ('F', 'failed'), ('B', 'broken')) WHERE EXISTS (SELECT * FROM shown);
SELECT '# HELP kyua_run_newly_bad_cases Bad test cases that were good or missing in the run before.
# TYPE kyua_run_newly_bad_cases gauge
kyua_run_newly_bad_cases ' || (SELECT count(*) FROM fate WHERE fresh) || '
# HELP kyua_run_gone_cases Test cases of the run before that the last run does not have.
# TYPE kyua_run_gone_cases gauge
kyua_run_gone_cases ' || (SELECT count(*) FROM change WHERE kind = 'Gone') FROM before WHERE at;
SELECT '# HELP kyua_case_bad_runs For how many runs a test case has been bad.
# TYPE kyua_case_bad_runs gauge' WHERE EXISTS (SELECT * FROM fate WHERE now IN ('F', 'B'));
SELECT printf('kyua_case_bad_runs{name="%s"} %d', replace(replace(replace(name, '\', '\\'), '"', '\"'), char(10), '\n'), streak)
    FROM fate WHERE now IN ('F', 'B') ORDER BY place;
