"""A pytest fixture: in a conftest.py, `pytest_plugins = ["resctrl_sim.pytest_plugin"]`."""
import pytest

from .mounting import mounted

TREE = pytest.StashKey()
# What is shown of a failed test, each with its file. Of a long text only the last lines are.
SECTIONS = {"resctrl script": "script", "resctrl report": "report"}
MOST_LINES = 200


@pytest.fixture
def resctrl(request):
    """The path of a mounted tree that is new for each test. `@pytest.mark.resctrl(machine=.., tasks=.., words=[..])` says of what machine."""
    marker = request.node.get_closest_marker("resctrl")
    with mounted(**(marker.kwargs if marker else {})) as tree:
        request.node.stash[TREE] = tree
        yield tree


def pytest_configure(config):
    config.addinivalue_line("markers", "resctrl(machine, tasks, words): the machine and the tasks of the fixture resctrl")


@pytest.hookimpl(hookwrapper=True)
def pytest_runtest_makereport(item):
    """Shows, of a test that failed, what was done on its tree, as a script, and what was answered."""
    outcome = yield
    report = outcome.get_result()
    if report.when == "call" and report.failed and TREE in item.stash:
        report.sections += [(title, told(item.stash[TREE] / ".sim" / name)) for title, name in SECTIONS.items()]


def told(path):
    """The text of a file, or why it cannot be read."""
    try:
        lines = path.read_text().splitlines()
    except OSError as why:
        return f"{path}: {why.strerror}"
    left_out = len(lines) - MOST_LINES
    return "\n".join([f"({left_out} lines before these)", *lines[-MOST_LINES:]] if left_out > 0 else lines)
