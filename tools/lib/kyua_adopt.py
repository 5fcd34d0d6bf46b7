"""A plugin of pytest for adopt: it writes the names of the tests, or runs one of them and writes its result.

Its directory, KYUA_ADOPT_ROOM, gets the file `tests`, or `result` if KYUA_ADOPT_TEST names a test.
PYTEST_DONT_REWRITE
"""
import os
import sys

import pytest

# The tests see the environment as it is without the plugin. So do the workers of xdist, where the plugin does nothing.
ROOM = os.environ.pop("KYUA_ADOPT_ROOM", None)
TEST = os.environ.pop("KYUA_ADOPT_TEST", None)
if ROOM is not None:
    sys.path[:] = [path for path in sys.path if path != ROOM]
    PATHS = os.environ.pop("PYTHONPATH", "").split(os.pathsep)
    if PATHS[1:]:
        os.environ["PYTHONPATH"] = os.pathsep.join(PATHS[1:])
skipped = []
reports = []


def write(name, lines):
    """Writes a file of the directory, a line for each item."""
    with open(os.path.join(ROOM, name), "w", encoding="utf-8", errors="surrogateescape") as file:
        file.writelines(line + "\n" for line in lines)


def message(report):
    """Returns the first line of what pytest says of a failed or skipped report."""
    text = report.longrepr
    if isinstance(text, tuple):
        text = text[2]
    elif getattr(text, "reprcrash", None) is not None:
        text = text.reprcrash.message
    elif not isinstance(text, str):
        text = (str(text).strip().splitlines() or [""])[-1]
    lines = text.strip().splitlines() or [""]
    return lines[0][len("Skipped: "):] if lines[0].startswith("Skipped: ") else lines[0]


def verdict():
    """Returns the result of the test and its reason, or None if it did not run."""
    for report in reports:
        if report.failed:
            return "failed", ("" if report.when == "call" else "error at %s: " % report.when) + message(report)
    for report in reports:
        if report.skipped and hasattr(report, "wasxfail"):
            reason = report.wasxfail
            return "expected_failure", reason[len("reason: "):] if reason.startswith("reason: ") else reason
        if report.skipped:
            return "skipped", message(report)
    return ("passed", "") if any(report.when == "call" for report in reports) else None


@pytest.hookimpl(trylast=True)
def pytest_configure(config):
    """Takes the place of the files and directories of the command line by the file of the test."""
    if ROOM is not None and TEST is not None:
        config.args[:] = [os.path.join(str(config.rootpath), TEST)]


@pytest.hookimpl(trylast=True)
def pytest_collection_modifyitems(config, items):
    """Selects the test."""
    if ROOM is not None and TEST is not None:
        others = [item for item in items if item.nodeid != TEST]
        if others:
            items[:] = [item for item in items if item.nodeid == TEST]
            config.hook.pytest_deselected(items=others)


def pytest_collectreport(report):
    """Keeps a file that is skipped as a whole, which is a test case too."""
    if report.skipped and report.nodeid:
        skipped.append(report.nodeid)
        if report.nodeid == TEST:
            report.when = "collect"
            reports.append(report)


def pytest_collection_finish(session):
    """Writes the names of the tests."""
    if ROOM is not None and TEST is None:
        names = [item.nodeid for item in session.items] + skipped
        bad = [name for name in names if "\n" in name]
        if bad:
            raise pytest.UsageError("a name of a test has a newline: %r" % bad[0])
        write("tests", names)


def pytest_runtest_logreport(report):
    """Keeps the reports of the test."""
    if report.nodeid == TEST:
        reports.append(report)


@pytest.hookimpl(trylast=True)
def pytest_sessionfinish():
    """Writes the result of the test."""
    if ROOM is not None and TEST is not None:
        found = verdict()
        if found is not None:
            write("result", found)
