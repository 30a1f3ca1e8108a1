"""What the tests of the door share: a folder for each test, the package over the plain reading of the rules or over the built worker, commands run as programs."""
import contextlib
import os
import re
import shlex
import subprocess
import sys
import tempfile
import unittest

HERE = os.path.dirname(os.path.abspath(__file__))
TOP = os.path.dirname(os.path.dirname(HERE))
TOWN = os.path.join(TOP, "examples", "town")
sys.dont_write_bytecode = True
sys.path[:0] = [os.path.join(TOP, "tests"), os.path.join(TOP, "python"), os.path.join(TOP, "tools")]

import ring
from ring import refusals
from ring.worker import Worker

with open(refusals.HEADER, encoding="utf-8") as header:
    VERSION = re.search(r'^#define RING_VERSION "(.*)"$', header.read(), re.M).group(1)
READING = [sys.executable, os.path.join(HERE, "reading_worker.py")]
BUILT = "RING_DOOR_BUILT"


def built():
    """Whether the tests run over what is built."""
    return bool(os.environ.get(BUILT))


def worker():
    """A worker: the built one, or the reading."""
    return Worker(None if built() else READING)


def surroundings(**more):
    """The environment of a command: over the reading, unless the built worker is tried."""
    kept = {name: value for name, value in os.environ.items() if name != "RING_WORKER" and not name.startswith("PYTHON")}
    kept["PYTHONDONTWRITEBYTECODE"] = "1"
    if not built():
        kept["RING_WORKER"] = " ".join(map(shlex.quote, READING))
    kept.update(more)
    return kept


def read(path):
    with open(path, "rb") as f:
        return f.read()


class Folder(unittest.TestCase):
    def setUp(self):
        folder = tempfile.TemporaryDirectory()
        self.addCleanup(folder.cleanup)
        self.folder = folder.name

    def path(self, name):
        return os.path.join(self.folder, name)

    def file(self, name, content):
        with open(self.path(name), "wb") as f:
            f.write(content if isinstance(content, bytes) else content.encode())
        return self.path(name)


class WithRing(Folder):
    """A test that has the package's calls, on one worker for all of its class."""

    @classmethod
    def setUpClass(cls):
        cls.ring = ring.Ring(worker())
        cls.pumps, cls.chambers = (cls.ring.read(os.path.join(TOWN, name)) for name in ("pumps.sheet", "chambers.sheet"))

    @classmethod
    def tearDownClass(cls):
        cls.ring.close()


def ran(words, given=None, cwd=TOP, **more):
    """A command run as a program: its status, what it prints and what it says."""
    done = subprocess.run(words, input=given, stdin=None if given is not None else subprocess.DEVNULL, stdout=subprocess.PIPE, stderr=subprocess.PIPE, cwd=cwd, env=surroundings(**more),
                          timeout=600)
    return done.returncode, done.stdout, done.stderr.decode()


@contextlib.contextmanager
def within(seconds):
    """Fails a test that hangs."""
    import signal

    def late(*_):
        raise AssertionError("it hangs")
    before = signal.signal(signal.SIGALRM, late)
    signal.alarm(seconds)
    try:
        yield
    finally:
        signal.alarm(0)
        signal.signal(signal.SIGALRM, before)
