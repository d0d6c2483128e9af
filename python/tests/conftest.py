"""What the tests have in common: the repository, and the store, without which its tests are skipped."""
import os
import subprocess
from pathlib import Path

import browsing
import pytest
from rpstore import lots

ROOT = Path(__file__).resolve().parents[2]
PROGRAM = os.environ.get("RPSTORE", str(ROOT / "crates/rp_cli/out/rp_cli"))


@pytest.fixture(scope="session")
def root():
    return ROOT


@pytest.fixture(scope="session")
def store():
    """Runs the store over a text, with words, and gives what it writes."""
    if not os.access(PROGRAM, os.X_OK):
        pytest.skip(f"the store {PROGRAM} is not built")

    def run(text, *words):
        return subprocess.run([PROGRAM, *(words or ["run"])], input=text.encode(), stdout=subprocess.PIPE).stdout

    return run


@pytest.fixture(scope="session")
def seen(store):
    """What a script shows, checked by the store."""
    def load(text, **given):
        return lots.load(text.encode(), lots.Options(**{"store": PROGRAM, **given}))

    return load


@pytest.fixture(scope="session")
def browser():
    """A browser with a window of a usual size, without which its tests are skipped."""
    made = browsing.started()
    yield made
    made.quit()


@pytest.fixture(autouse=True)
def usual_size(request):
    """Each test of the browser begins with a window of one size."""
    if "browser" in request.fixturenames:
        browsing.sized(request.getfixturevalue("browser"), 1200, 800)
