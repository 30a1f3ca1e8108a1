"""The list of two sheets made by many workers: ranges of chambers, or leaf runs, as tasks of Dask's distributed scheduler. docs/SCALE.md has what it costs.

A task's pairs are those of the list, done twice they are the same: so the scheduler may repeat a task whose worker is gone, and hand it to another. Here the
answers are put in list order, each once, and their number is held to `count`. Nothing else of the package needs `distributed`.
"""
import bisect
import contextlib
import hashlib
import importlib.util
import os
import pickle
import struct
import subprocess
import sys
import tempfile
import threading
import time
import uuid
from typing import NamedTuple, Optional

from . import door, refusals, sheets
from .api import START, UNDIVIDED, Ring
from .faults import Refused, WorkerFault
from .progress import Progress
from .records import Key, Pair

try:
    import distributed
    MISSING, Plugin, Scheduler, Worker = None, distributed.WorkerPlugin, distributed.Scheduler, distributed.Worker
except ImportError as fault:
    distributed, MISSING, Plugin, Scheduler, Worker = None, fault, object, object, object

WAYS = ("chambers", "leaves")
# how often a task that fails is tried again; where its worker is gone the scheduler has a number of its own
RETRIES = 3
# seconds until a scheduler has to answer, and one on this machine, which may be busy
PATIENCE, HERE = 30, 300
# tasks for each worker, where nobody says how long a task is: enough that the last of them ends soon after the others
TASKS = 4
# what the cluster on this machine logs: errors alone
SILENT = 40
# pairs that a chamber has on average where records stand at random, half of them pump houses; and the fewest that are asked for
EACH, FEW = 2, 16
ONE = struct.Struct("<IIQ")
# set where the command runs again under another Python
AGAIN = "RING_CLUSTER_AGAIN"
PROBE = "import sys, importlib.util as u; sys.exit(sys.version_info < (3, 11) or any(u.find_spec(one) is None for one in sys.argv[1:]))"
HOW = ("`./ring cluster` needs Dask's `distributed`, and no python3 (3.11 or later) here has it: "
       "apt-get install python3-distributed python3-cryptography, or pip install distributed cryptography")
KEYS = ("a cluster on this machine needs `cryptography`, which makes the keys of the run, and %s has none: "
        "apt-get install python3-cryptography, or pip install cryptography")
TLS = ("%s: Dask's configuration has no certificates for TLS: set DASK_DISTRIBUTED__COMM__TLS__CA_FILE, DASK_DISTRIBUTED__COMM__TLS__CLIENT__CERT and "
       "DASK_DISTRIBUTED__COMM__TLS__CLIENT__KEY to their files, as docs/GUIDE.md shows")
OPEN = "%s is without TLS: whoever reaches it sees the sheets and can have its workers run any program; docs/GUIDE.md shows how to use tls://"


# ---------------------------------------------------------------- a Python that has it

def pythons():
    """The Pythons of this machine: this one, those on the path, the system's own."""
    folders = os.environ.get("PATH", os.defpath).split(os.pathsep) + ["/usr/bin", "/usr/local/bin"]
    found = [sys.executable] + [os.path.join(folder, "python3") for folder in folders if folder]
    return [one for one in dict.fromkeys(found) if one and os.access(one, os.X_OK)]


def able():
    """The first of them that has `distributed` and what makes keys, or else `distributed`, or None."""
    if distributed is not None:
        return sys.executable
    for needed in (["distributed", "cryptography"], ["distributed"]):
        for one in pythons():
            if subprocess.run([one, "-c", PROBE] + needed, stdin=subprocess.DEVNULL, stderr=subprocess.DEVNULL).returncode == 0:
                return one
    return None


def here(words):
    """Comes back where this Python has `distributed`; elsewhere the command runs again under the first that has."""
    if distributed is not None:
        return
    python = None if os.environ.get(AGAIN) else able()
    if python is None:
        there = importlib.util.find_spec("distributed") is not None
        raise door.Failed("%s: `distributed` is here, and cannot be imported: %s" % (sys.executable, MISSING) if there else HOW)
    sys.stderr.flush()
    os.execve(python, [python, os.path.join(refusals.TOP, "python", "ring")] + list(words), dict(os.environ, **{AGAIN: "yes"}))


# ---------------------------------------------------------------- what is asked

class Work(NamedTuple):
    """What is sent once to each worker: the bytes of both sheets, what is asked of the list, and the version of the calls."""
    p: bytes
    q: bytes
    terms: dict
    by: str
    version: tuple
    name: str


def work_of(ring, p, q, terms=None, by="chambers"):
    terms = dict(terms or {})
    if terms.get("owners") is not None:
        terms["owners"] = bytes(terms["owners"])
    data, other = p.data, q.data
    return Work(data, other, terms, by, tuple(ring.version()), "ring-%s" % hashlib.sha256(b"%d " % len(data) + data + other).hexdigest()[:12])


def leaves(q):
    """The nodes of a sheet that are leaves."""
    return [v for v in range(q.m) if q.words[5 * q.n + 7 * v] == 0]


def spans(much, batch):
    """So many chambers or leaves, by position, in tasks of so many. Of none there is one task, which is refused as the list is."""
    return [(a, min(a + batch, much)) for a in range(0, much, batch)] or [(0, 0)]


def kept_by(q, terms, keep):
    """The terms of the same list, of the chambers for whose positions `keep` is true alone: as a contractor's who has these. Every record still blocks."""
    contractor = terms.get("contractor", UNDIVIDED)
    if contractor not in (0, 1, UNDIVIDED):
        return terms
    mine = 0 if contractor == UNDIVIDED else contractor
    before = terms["owners"] if contractor != UNDIVIDED else bytes([mine]) * q.n
    return dict(terms, contractor=mine, owners=bytes(mine if keep(k) and owner == mine else 1 - mine for k, owner in enumerate(before)))


# ---------------------------------------------------------------- on a worker

# of each work that was sent here what it is; of each thread its worker program, and of each work and thread both sheets as that has them opened
SENT, CALLS, OPENED = {}, {}, {}


class Sheets(Plugin):
    """Brings a work to each worker once, and to each that joins later before it has a task."""

    def __init__(self, work):
        self.work, self.name = work, work.name

    def setup(self, worker):
        SENT[self.name] = self.work

    def teardown(self, worker):
        SENT.pop(self.name, None)
        # a sheet that nobody has any more its program forgets with its next call
        for key in [key for key in OPENED if key[0] == self.name]:
            del OPENED[key]


def opened(name):
    """The calls and both sheets: opened once by each thread of a worker."""
    thread = threading.get_ident()
    if (name, thread) not in OPENED:
        if name not in SENT:
            raise RuntimeError("the sheets did not come to this worker")
        ring, work = CALLS.setdefault(thread, Ring()), SENT[name]
        if tuple(ring.version()) != work.version:
            raise RuntimeError("this worker's calls are of version %d.%d.%d, where the list is asked of %d.%d.%d" % (*ring.version(), *work.version))
        OPENED[name, thread] = ring.sheet(work.p), ring.sheet(work.q)
    return (CALLS[thread], *OPENED[name, thread])


def ranged(ring, p, q, a, b, terms):
    """The pairs of the chambers at the positions from a on, up to b, in list order."""
    ids = [point.id for point in q.points]
    key, last = START if a == 0 else Key(ids[a] - 1, sheets.ID), ids[b - 1] if b else 0
    if terms.get("threshold") or terms.get("largest") is not None:
        # few chambers may have such pairs: those after the range are not looked at
        terms = kept_by(q, terms, lambda at: a <= at < b)
    contractor = terms.get("contractor", UNDIVIDED)
    while True:
        # as many as such chambers have on average, so that little is asked for that is not of the range
        left = bytes(terms["owners"][a:b]).count(contractor) if contractor in (0, 1) else b - a
        pairs, more = ring.many(p, q, key, EACH * left + FEW, **terms)
        for pair in pairs:
            if pair.q > last:
                return
            yield pair
        if not more:
            return
        key = Key(*pairs[-1][:2])
        a = bisect.bisect_left(ids, key.q)


def run_over(ring, p, q, a, b):
    """The pairs of so many leaves, in no order."""
    for leaf in leaves(q)[a:b]:
        yield from ring.run(p, q, leaf)


class Said(NamedTuple):
    """What a task answers: its pairs as bytes, or a number, or the number of a refusal; which worker it was, and how long its work took there."""
    pairs: bytes = b""
    count: int = 0
    refused: Optional[int] = None
    who: str = ""
    took: float = 0.0


def answered(name, ask):
    """A task's answer. Where the worker program breaks off, the next try has another."""
    begun = time.perf_counter()
    try:
        said = ask(*opened(name))
    except Refused as no:
        said = Said(refused=no.number)
    except WorkerFault as fault:
        OPENED.pop((name, threading.get_ident()), None)
        raise RuntimeError(str(fault))
    return said._replace(who=distributed.get_worker().address, took=time.perf_counter() - begun)


def part(name, a, b):
    """A task: the pairs of a range of chambers, or of leaves."""
    def ask(ring, p, q):
        work = SENT[name]
        found = ranged(ring, p, q, a, b, work.terms) if work.by == "chambers" else run_over(ring, p, q, a, b)
        return Said(pairs=b"".join(ONE.pack(*pair) for pair in found))
    return answered(name, ask)


def number(name, k, parts):
    """A task: how many pairs the list has of every so-manieth chamber, from the k-th on."""
    def ask(ring, p, q):
        terms = SENT[name].terms
        return Said(count=ring.count(p, q, **(terms if parts == 1 else kept_by(q, terms, lambda at: at % parts == k))))
    return answered(name, ask)


# ---------------------------------------------------------------- put together

class Gathered:
    """The answers of the tasks: each once, whatever comes twice."""

    def __init__(self, work, q):
        self.work, self.q, self.parts, self.counts, self.pairs_seen = work, q, {}, {}, 0

    def take(self, of, said):
        """An answer. The same task may be answered again, by the same."""
        if said.refused is not None:
            raise Refused(said.refused)
        kept, told = (self.counts, said.count) if of[0] == "count" else (self.parts, said.pairs)
        if of in kept:
            if kept[of] != told:
                raise WorkerFault("the task %s was answered twice, and otherwise the second time" % (of,))
            return
        kept[of] = told
        self.pairs_seen += len(said.pairs) // ONE.size

    def list(self, much):
        """The pairs in list order. The tasks have to be all of so many chambers or leaves, and no pair may stand twice."""
        at = 0
        for _, a, b in sorted(self.parts):
            if a != at:
                raise WorkerFault("no answer from %d to %d" % (at, a) if a > at else "two tasks of the same: from %d to %d" % (a, at))
            at = b
        if at != much:
            raise WorkerFault("no answer from %d to %d" % (at, much))
        pairs = [Pair(*one) for of in sorted(self.parts) for one in ONE.iter_unpack(self.parts[of])]
        if self.work.by == "leaves":
            pairs.sort()
        for before, after in zip(pairs, pairs[1:]):
            if before[:2] >= after[:2]:
                raise WorkerFault("the pairs of the tasks are in no order: %d %d, then %d %d" % (before[:2] + after[:2]))
        return pairs

    def compared(self, pairs):
        """Holds their number to `count`, where that was asked."""
        if self.counts and len(pairs) != sum(self.counts.values()):
            raise WorkerFault("the tasks gave %d pairs, and `count` says %d" % (len(pairs), sum(self.counts.values())))


def much_of(work, q):
    return q.n if work.by == "chambers" else len(leaves(q))


class Unseen:
    """No web server: that of Dask asks nobody who he is, and a worker's listens on every address."""

    def start_http_server(self, *_, **__):
        pass


class UnseenScheduler(Unseen, Scheduler):
    pass


class UnseenWorker(Unseen, Worker):
    pass


def keys():
    """Keys for one run, in memory alone: who has none of them is turned away by the scheduler, the workers and their nannies."""
    try:
        return distributed.Security.temporary()
    except ImportError:
        raise door.Failed(KEYS % sys.executable)


def started(workers, folder):
    """A cluster on this machine with so many workers: each of its ports is on loopback and asks for a key of this run."""
    around = {"host": "127.0.0.1", "protocol": "tls://", "security": keys()}
    worker = {"cls": distributed.Nanny,
              "options": dict(around, worker_class=UnseenWorker, nthreads=1, memory_limit=1 / workers, local_directory=folder, silence_logs=SILENT, dashboard=False)}
    scheduler = {"cls": UnseenScheduler, "options": dict(around, port=0, dashboard=False)}
    return distributed.SpecCluster(scheduler=scheduler, worker=worker, workers=dict.fromkeys(range(workers), worker), security=around["security"], silence_logs=SILENT)


def certificates(scheduler):
    """What Dask's own configuration has to show to a scheduler of others, and to know it by."""
    security = distributed.Security()
    try:
        context = security.get_connection_args("client")["ssl_context"]
    except (OSError, ValueError) as fault:
        raise door.Failed("%s: the certificates of Dask's configuration cannot be read: %s" % (scheduler, fault))
    if context is None and scheduler.startswith("tls://"):
        raise door.Failed(TLS % scheduler)
    return security


@contextlib.contextmanager
def joined(scheduler=None, workers=None):
    """A client of a scheduler, or of a cluster on this machine with so many workers."""
    if scheduler is not None:
        security = certificates(scheduler)
        try:
            client = distributed.Client(scheduler, timeout=PATIENCE, security=security)
        except (OSError, ValueError, RuntimeError) as fault:
            raise door.Failed("%s: no scheduler answers: %s" % (scheduler, fault))
        with client:
            yield client
        return
    os.environ["PYTHONDONTWRITEBYTECODE"] = "1"
    with tempfile.TemporaryDirectory(ignore_cleanup_errors=True) as folder:
        local = started(workers or os.cpu_count() or 1, folder)
        try:
            client = distributed.Client(local, timeout=HERE)
            try:
                yield client
            finally:
                # what was asked is answered, or is not: how the workers end changes nothing
                with contextlib.suppress(Exception):
                    client.close()
        finally:
            with contextlib.suppress(Exception):
                local.close()


def dashboard(client):
    """Where a scheduler's web pages are, or nothing where it has none."""
    try:
        return client.dashboard_link
    except KeyError:
        return None


class Heard:
    """What the scheduler tells meanwhile: workers that go, with the tasks that they held, and workers that come."""

    def __init__(self, client, name, bytes_, say):
        self.name, self.bytes, self.say, self.on = name, bytes_, say, True
        self.workers = set(client.nthreads())
        self.gone, self.come = [], []

    def __call__(self, event):
        told = event[1]
        if not self.on or not isinstance(told, dict):
            return
        who = told.get("worker")
        if told.get("action") == "remove-worker":
            held = sorted(key for key in told.get("processing-tasks", ()) if str(key).startswith(self.name))
            self.workers.discard(who)
            self.gone.append((who, held))
            self.say("the worker %s is gone; tasks that it held, handed out again: %d" % (who, len(held)))
        elif told.get("action") == "add-worker" and who not in self.workers:
            self.workers.add(who)
            self.come.append(who)
            self.say("the worker %s came, and has the sheets: %s bytes" % (who, format(self.bytes, ",")))


def forgotten(client, name):
    """The scheduler and its workers forget a work. Where they are gone there is nothing to forget, and where a worker cannot, it never had it."""
    with contextlib.suppress(Exception):
        client.unregister_worker_plugin(name)


def sent(client, plugin):
    """Sends a work to each worker, and has the scheduler send it to each that joins later; how many bytes it has."""
    # the call has another name in later versions
    register = getattr(client, "register_plugin", None) or client.register_worker_plugin
    try:
        register(plugin, plugin.name)
    except Exception as fault:
        forgotten(client, plugin.name)
        raise door.Failed("a worker cannot take the sheets: %s. It has to be started in a clone of this repository, with PYTHONPATH=python" % fault)
    return len(pickle.dumps(plugin))


class Spread(NamedTuple):
    """What came of a work: the answers, what was heard, the time, and the sum of the times on the workers."""
    gathered: Gathered
    heard: Heard
    took: float
    busy: float
    tasks: int
    bytes: int


def spread(client, work, q, asked, counts=0, call=part, say=lambda text: None):
    """Hands the tasks to the scheduler, and gathers what they answer."""
    # a name of its own each time, so that no task is taken for one of another list, or of the same at another time
    work = work._replace(name="%s-%s" % (work.name, uuid.uuid4().hex[:8]))
    gathered, size = Gathered(work, q), sent(client, Sheets(work))
    heard, begun, busy, futures = Heard(client, work.name, size, say), time.perf_counter(), 0.0, {}
    client.subscribe_topic("all", heard)
    try:
        say("workers: %d, and the sheets sent once to each: %s bytes; tasks: %d%s" % (len(heard.workers), format(size, ","), len(asked), ", and to count: %d" % counts if counts else ""))
        for k in range(counts):
            futures[client.submit(number, work.name, k, counts, key="%s-count-%d" % (work.name, k), retries=RETRIES)] = ("count", k, counts)
        for k, (a, b) in enumerate(asked):
            futures[client.submit(call, work.name, a, b, key="%s-%d-%d-%d" % (work.name, a, b, k), retries=RETRIES)] = (work.by, a, b)
        done = 0

        def told():
            return "%d of %d tasks, %d pairs, workers: %d" % (done, len(asked) + counts, gathered.pairs_seen, len(heard.workers))
        with Progress(told):
            try:
                # on the loop of this client: where there are two in a program, it would wait on the other's
                for future, said in distributed.as_completed(list(futures), loop=client.loop, with_results=True):
                    gathered.take(futures.pop(future), said)
                    busy += said.took
                    done += 1
                    future.release()
            except (Refused, WorkerFault):
                raise
            except Exception as fault:
                raise WorkerFault("a task failed on every try: %s" % fault)
        return Spread(gathered, heard, time.perf_counter() - begun, busy, len(asked), size)
    finally:
        heard.on = False
        with contextlib.suppress(Exception):
            client.unsubscribe_topic("all")
        with contextlib.suppress(Exception):
            client.cancel(list(futures))
        forgotten(client, work.name)


def batch_of(much, workers):
    """How many chambers or leaves a task has, where nobody says it."""
    return max(1, -(-much // (TASKS * max(1, workers))))


def listed(ring, p, q, terms=None, by="chambers", scheduler=None, workers=None, batch=None, counted=True, say=lambda text: None):
    """The list of two sheets, made by a cluster."""
    work = work_of(ring, p, q, terms, by)
    much = much_of(work, q)
    if scheduler is not None and not scheduler.startswith("tls://"):
        say(OPEN % scheduler)
    with joined(scheduler, workers) as client:
        pages = dashboard(client)
        if pages:
            say("dashboard %s (its plots need bokeh; %s needs nothing)" % (pages, pages.replace("/status", "/info/main/workers.html")))
        if not client.nthreads():
            say("no worker yet: waiting for one")
            client.wait_for_workers(1)
        there = len(client.nthreads())
        came = spread(client, work, q, spans(much, batch or batch_of(much, there)), there if counted else 0, say=say)
    pairs = came.gathered.list(much)
    came.gathered.compared(pairs)
    return pairs
