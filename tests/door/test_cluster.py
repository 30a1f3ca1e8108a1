"""The cluster: answers put together, a Python that has Dask's `distributed`, the command's list, who is let in, and faults: a worker killed, a worker added, a task run
twice.

Run as a program, under a Python that has `distributed`, it tries one cluster on this machine and prints what it saw as JSON; the tests look at that. What needs
no cluster is tried without.
"""
import functools
import json
import os
import signal
import ssl
import subprocess
import sys
import tempfile
import threading
import time
import unittest

from base import TOP, TOWN, WithRing, built, ran

import ring
from ring import cluster, door
from ring.faults import Refused, WorkerFault

SHEETS = [os.path.join(TOWN, name) for name in ("pumps.sheet", "chambers.sheet")]
COMMAND = os.path.join(TOP, "ring")
# of the town those assets that the faults are tried on, so that the reading is quick; and chambers a task
PUMPS, CHAMBERS, BATCH = 16, 48, 4
# seconds for a cluster to do what it is waited for
LONG = 300


# ---------------------------------------------------------------- one cluster, under a Python that has `distributed`

def held(folder, name, a, b):
    """A task that says which process has it, waits as long as a file stands, and then does the work."""
    with open(os.path.join(folder, "seen"), "a") as f:
        f.write("%d %d %d\n" % (a, b, os.getpid()))
    while os.path.exists(os.path.join(folder, "hold")):
        time.sleep(0.01)
    return cluster.part(name, a, b)


class Tried:
    """A work handed to the cluster while its tasks are held, and what came of it."""

    def __init__(self, client, folder, work, q, asked):
        self.client, self.folder, self.said, self.came, self.fault = client, folder, [], None, None
        for name in ("seen", "hold"):
            open(os.path.join(folder, name), "w").close()
        self.thread = threading.Thread(target=self.run, args=(work, q, asked))
        self.thread.start()

    def run(self, work, q, asked):
        try:
            self.came = cluster.spread(self.client, work, q, asked, call=functools.partial(held, self.folder), say=self.said.append)
        except BaseException as fault:
            self.fault = repr(fault)

    def seen(self):
        with open(os.path.join(self.folder, "seen")) as f:
            return [tuple(map(int, line.split())) for line in f.read().splitlines()]

    def wait(self, what):
        late = time.monotonic() + LONG
        while not what():
            if self.fault or time.monotonic() > late:
                raise SystemExit("it did not come to that: %s, %s, %s" % (self.fault, self.said, self.seen()))
            time.sleep(0.02)

    def free(self):
        os.remove(os.path.join(self.folder, "hold"))
        self.thread.join(LONG)
        if self.came is None:
            raise SystemExit("it did not end: %s" % self.fault)
        return self.came


def rows(pairs):
    return [list(pair) for pair in pairs]


def killed(client, calls, p, q, folder):
    """A worker killed while it holds a task."""
    tried = Tried(client, folder, cluster.work_of(calls, p, q), q, cluster.spans(q.n, BATCH))
    tried.wait(lambda: len(tried.seen()) >= 2)
    a, b, pid = tried.seen()[0]
    os.kill(pid, signal.SIGKILL)
    tried.wait(lambda: any(line.startswith("the worker ") and " is gone" in line for line in tried.said))
    came = tried.free()
    task = [key for _, keys in came.heard.gone for key in keys if key.startswith("%s-%d-%d-" % (came.heard.name, a, b))]
    story = [list(line[1:3]) for line in client.cluster.scheduler.story(*task) if line[0] in task]
    log = [sorted(told["processing-tasks"]) for _, told in client.get_events("all") if told.get("action") == "remove-worker"]
    return {"pairs": rows(came.gathered.list(q.n)), "said": tried.said, "task": task, "story": story, "log": log,
            "runs": len([one for one in tried.seen() if one[:2] == (a, b)]), "processes": len({one[2] for one in tried.seen() if one[:2] == (a, b)})}


def added(client, calls, p, q, folder):
    """A worker added while all others hold a task."""
    there = len(client.nthreads())
    tried = Tried(client, folder, cluster.work_of(calls, p, q), q, cluster.spans(q.n, BATCH))
    tried.wait(lambda: len({one[2] for one in tried.seen()}) >= there)
    client.cluster.scale(there + 1)
    # it has the sheets before it has a task, and takes one from those that wait
    tried.wait(lambda: len({one[2] for one in tried.seen()}) >= there + 1)
    came = tried.free()
    return {"pairs": rows(came.gathered.list(q.n)), "said": tried.said, "before": there, "processes": len({one[2] for one in tried.seen()})}


def twice(client, calls, p, q):
    """Tasks run twice, some of them three times."""
    asked = cluster.spans(q.n, BATCH)
    came = cluster.spread(client, cluster.work_of(calls, p, q), q, asked + asked[2:5] + asked[:3])
    return {"pairs": rows(came.gathered.list(q.n)), "tasks": came.tasks, "kept": len(came.gathered.parts)}


def terms(client, calls, p, q):
    """Lists of all kinds, with their numbers by `count`; ranges of one chamber and of all; leaf runs; a sheet of no chambers; refusals."""
    owners = [int(k % 3 == 0) for k in range(q.n)]
    seen, sizes = [], sorted(pair.size for pair in calls.pairs(p, q))
    far = sizes[len(sizes) // 2]
    empty = calls.pack([], 9)
    for of, given, by, batch in ((q, {}, "chambers", 1), (q, {}, "chambers", 1000), (q, {}, "leaves", 2), (q, {"threshold": 3}, "chambers", 20), (q, {"grid": True}, "chambers", 20),
                                 (q, {"contractor": 0, "owners": owners}, "chambers", 20), (q, {"contractor": 1, "owners": owners, "threshold": 2}, "chambers", 20),
                                 (q, {"largest": far, "threshold": 2}, "chambers", 20), (q, {"largest": far}, "chambers", 20),
                                 (empty, {}, "chambers", 20)):
        work = cluster.work_of(calls, p, of, given, by)
        much = cluster.much_of(work, of)
        came = cluster.spread(client, work, of, cluster.spans(much, batch), counts=2)
        pairs = came.gathered.list(much)
        came.gathered.compared(pairs)
        seen.append([[by, batch, sorted(given)], rows(pairs) == rows(calls.pairs(p, of, **given)), sum(came.gathered.counts.values())])
    refusals = []
    for of, given in ((q, {"threshold": 1 << 31}), (q, {"contractor": 7}), (empty, {"threshold": 1 << 31})):
        try:
            cluster.spread(client, cluster.work_of(calls, p, of, given), of, cluster.spans(of.n, 20), counts=2)
        except Refused as no:
            refusals.append(no.number)
    return {"seen": seen, "refusals": refusals}


# ---------------------------------------------------------------- who is let in

# It knows the ports and nothing else, but where it is handed keys. Each attempt ends with an answer, or with the other end hanging up.
STRANGER = """
import asyncio, json, os, ssl, sys
from distributed import Security
from distributed.comm.tcp import TCPConnector, TLSConnector

async def tried(port, context):
    comm = await (TCPConnector() if context is None else TLSConnector()).connect("127.0.0.1:%d" % port, ssl_context=context)
    try:
        await comm.write(comm.handshake_info())
        await comm.read()
        await comm.write({"op": "identity", "reply": True})
        return "let in: %s" % (await comm.read())["type"]
    finally:
        comm.abort()

async def all_tried(ports, keys):
    nothing = ssl.create_default_context()
    nothing.check_hostname, nothing.verify_mode = False, ssl.CERT_NONE
    own, theirs = Security.temporary(), Security(require_encryption=True, **keys)
    ways = {"plain": None, "no keys": nothing, **{name: one.get_connection_args("client")["ssl_context"] for name, one in (("own keys", own), ("the keys", theirs))}}
    seen = {}
    for port in ports:
        for way, context in ways.items():
            try:
                met = await asyncio.wait_for(tried(port, context), 60)
            except asyncio.TimeoutError:
                met = "no answer"
            except OSError as fault:
                met = "turned away: %s" % type(fault).__name__
            seen["%d %s" % (port, way)] = met
            if way != "the keys" and not met.startswith("turned away"):
                return seen
    return seen

asked = json.load(sys.stdin)
print(json.dumps([os.getuid(), asyncio.run(all_tried(asked["ports"], asked["keys"]))]))
"""
NOBODY = 65534


def family():
    """This process and those below it."""
    parents = {}
    for name in filter(str.isdigit, os.listdir("/proc")):
        try:
            with open("/proc/%s/stat" % name) as f:
                parents[int(name)] = int(f.read().rsplit(")", 1)[1].split()[1])
        except OSError:
            pass
    found, before = {os.getpid()}, set()
    while found != before:
        before = found
        found = before | {pid for pid, parent in parents.items() if parent in before}
    return found


def content(path):
    """What a process shows of itself, or nothing where it has ended."""
    try:
        with open(path, "rb") as f:
            return f.read()
    except OSError:
        return b""


def sockets(pids):
    """The sockets of these processes, by number."""
    found = set()
    for pid in pids:
        try:
            names = ["/proc/%d/fd/%s" % (pid, name) for name in os.listdir("/proc/%d/fd" % pid)]
        except OSError:
            names = []
        for name in names:
            try:
                link = os.readlink(name)
            except OSError:
                continue
            if link.startswith("socket:["):
                found.add(link[8:-1])
    return found


def doors(pids):
    """Where these processes can be reached: kind, address, port or path."""
    ours, found = sockets(pids), []
    for kind in ("tcp", "tcp6", "udp", "udp6"):
        for line in content("/proc/net/" + kind).decode().splitlines()[1:]:
            fields = line.split()
            address, port = fields[1].split(":")
            # 0A: it listens; a socket of udp is reached wherever it is bound
            if fields[9] in ours and (fields[3] == "0A" or kind.startswith("udp")):
                found.append([kind, address, int(port, 16)])
    for line in content("/proc/net/unix").decode().splitlines()[1:]:
        fields = line.split()
        if fields[6] in ours and int(fields[3], 16) & 0x10000:
            found.append(["unix", " ".join(fields[7:]), 0])
    return sorted(found)


def visited(ports, security):
    """What a stranger comes to at each port: another user where this one may become one."""
    keys = {name: getattr(security, name) for name in security.__slots__ if name.startswith("tls_") and isinstance(getattr(security, name), str)}
    other = {"user": NOBODY, "group": NOBODY, "extra_groups": []} if os.getuid() == 0 else {}
    done = subprocess.run([sys.executable, "-c", STRANGER], input=json.dumps({"ports": ports, "keys": keys}).encode(), stdout=subprocess.PIPE, cwd="/",
                          env={"PATH": os.defpath, "HOME": "/"}, timeout=LONG, check=True, **other)
    return json.loads(done.stdout)


def looked_at(client):
    """The doors of the cluster, what a stranger comes to at them, and what each process shows to all others."""
    pids = family()
    found = doors(pids)
    shown = b"".join(content("/proc/%d/%s" % (pid, part)) for pid in pids for part in ("cmdline", "environ"))
    return {"doors": found, "visited": visited([port for kind, _, port in found if kind.startswith("tcp")], client.security), "processes": len(pids), "shown": b"PRIVATE KEY" in shown}


def noted(folders):
    """From now on each folder out of which a key is read is noted, with its mode."""
    read = ssl.SSLContext.load_cert_chain

    def noting(context, cert, key=None, *more):
        folders.append([os.stat(os.path.dirname(key or cert)).st_mode & 0o777, os.stat(os.path.dirname(key or cert)).st_uid])
        return read(context, cert, key, *more)
    ssl.SSLContext.load_cert_chain = noting


def certificates(folder, security):
    """The environment in which Dask's configuration names the certificates of a cluster, as docs/GUIDE.md has it."""
    around = {}
    for name, text in (("CA_FILE", security.tls_ca_file), ("CLIENT__CERT", security.tls_client_cert), ("CLIENT__KEY", security.tls_client_key)):
        around["DASK_DISTRIBUTED__COMM__TLS__" + name] = os.path.join(folder, name)
        with open(os.open(os.path.join(folder, name), os.O_CREAT | os.O_WRONLY, 0o600), "w") as f:
            f.write(text or "")
    return around


def asked(files, scheduler, **around):
    status, printed, said = ran([COMMAND, "cluster", "list", *files, "--scheduler", scheduler, "--batch", "30"], **around)
    return status, printed.decode(), said


def unanswered(calls, p, q):
    """What is said where no scheduler answers."""
    said, cluster.PATIENCE = [], 2
    try:
        cluster.listed(calls, p, q, scheduler="tcp://127.0.0.1:9", say=said.append)
    except door.Failed as fault:
        return said + [str(fault)]


def tried_all(folder):
    seen = {"folders": []}
    noted(seen["folders"])
    with ring.Ring() as calls, cluster.joined(None, 2) as client:
        files = [os.path.join(folder, name) for name in ("p.sheet", "q.sheet")]
        p, q = map(calls.read, files)
        seen["looked"] = looked_at(client)
        address, around = client.cluster.scheduler_address, certificates(folder, client.security)
        seen["address"] = asked(files, address, **around)
        seen["no certificates"] = asked(files, address)
        seen["no such file"] = asked(files, address, **dict(around, DASK_DISTRIBUTED__COMM__TLS__CA_FILE=os.path.join(folder, "none")))
        seen["killed"] = killed(client, calls, p, q, folder)
        seen["added"] = added(client, calls, p, q, folder)
        seen["twice"] = twice(client, calls, p, q)
        seen["terms"] = terms(client, calls, p, q)
        seen["none"] = unanswered(calls, p, q)
    print(json.dumps(seen))


# ---------------------------------------------------------------- what was seen there

PYTHON = cluster.able()
# 127.0.0.1, as the kernel writes it: by the bytes of this machine's words
LOOPBACK = "%08X" % int.from_bytes(bytes([127, 0, 0, 1]), sys.byteorder)


@unittest.skipUnless(PYTHON, "the cluster: no Python here has Dask's distributed")
class Clusters(WithRing):
    @classmethod
    def setUpClass(cls):
        super().setUpClass()
        p, q = cls.ring.pack(cls.pumps.points[:PUMPS], 7), cls.ring.pack(cls.chambers.points[:CHAMBERS], 9)
        with tempfile.TemporaryDirectory() as folder:
            files = [os.path.join(folder, name) for name in ("p.sheet", "q.sheet")]
            for name, sheet in zip(files, (p, q)):
                door.put(name, sheet.data)
            cls.listing = ran([COMMAND, "list", *files])[1]
            status, printed, said = ran([PYTHON, os.path.abspath(__file__), folder])
        if status:
            raise AssertionError("status %d: %s" % (status, said))
        cls.seen = json.loads(printed)
        cls.pairs = rows(cls.ring.pairs(p, q))

    def test_the_commands_list_is_that_of_ring_list(self):
        status, printed, said = ran([COMMAND, "cluster", "list", *SHEETS] + ([] if built() else ["--workers", "1"]))
        self.assertEqual((status, printed), (0, ran([COMMAND, "list", *SHEETS])[1]), said)
        self.assertNotIn("dashboard", said)
        self.assertRegex(said, r"(?m)^ring: workers: \d+, and the sheets sent once to each: [\d,]+ bytes; tasks: \d+, and to count: \d+$")
        if built():
            self.assertEqual(ran([os.path.join(TOP, "list"), *SHEETS])[1], printed)

    def test_by_the_address_of_a_scheduler(self):
        status, printed, said = self.seen["address"]
        self.assertEqual((status, printed.encode()), (0, self.listing), said)
        self.assertIn("workers: 2, and the sheets sent once to each", said)
        self.assertNotIn("without TLS", said)
        said, fault = self.seen["none"]
        self.assertIn("tcp://127.0.0.1:9 is without TLS: whoever reaches it sees the sheets and can have its workers run any program", said)
        self.assertIn("no scheduler answers", fault)

    def test_a_scheduler_with_tls_and_no_certificates(self):
        for which, told in (("no certificates", "Dask's configuration has no certificates for TLS: set DASK_DISTRIBUTED__COMM__TLS__CA_FILE"),
                            ("no such file", "the certificates of Dask's configuration cannot be read: ")):
            status, printed, said = self.seen[which]
            self.assertEqual((status, printed), (3, ""), said)
            self.assertIn(told, said)
            self.assertEqual(len(said.splitlines()), 1, said)

    def test_every_door_is_on_loopback(self):
        # the scheduler's, and of each worker its own and its nanny's; no web server, no socket of another kind
        self.assertEqual([(kind, address) for kind, address, _ in self.seen["looked"]["doors"]], [("tcp", LOOPBACK)] * 5)

    def test_a_stranger_is_turned_away(self):
        user, met = self.seen["looked"]["visited"]
        ports = [port for _, _, port in self.seen["looked"]["doors"]]
        for port in ports:
            for way in ("plain", "no keys", "own keys"):
                self.assertTrue(met.get("%d %s" % (port, way), "").startswith("turned away: "), (port, way, met))
        # who has the keys of the run is let in at the same doors, by the same program, as the same user
        self.assertEqual(sorted(met["%d the keys" % port] for port in ports),
                         ["let in: Nanny"] * 2 + ["let in: UnseenScheduler"] + ["let in: UnseenWorker"] * 2)
        if os.getuid():
            self.skipTest("another user at the doors of a cluster: only root may become one")
        self.assertEqual(user, NOBODY)

    def test_no_other_user_sees_the_keys(self):
        self.assertFalse(self.seen["looked"]["shown"])
        self.assertGreaterEqual(self.seen["looked"]["processes"], 3)
        # they are handed to the library of TLS by way of a folder that is their owner's alone
        self.assertTrue(self.seen["folders"])
        self.assertEqual({tuple(one) for one in self.seen["folders"]}, {(0o700, os.getuid())})

    def test_a_worker_killed_while_it_holds_a_task(self):
        seen = self.seen["killed"]
        self.assertEqual(seen["pairs"], self.pairs)
        # the task was run by two processes; the scheduler's log says that the first was gone while it had it, and its story that it was handed out again
        self.assertEqual((seen["runs"], seen["processes"], len(seen["task"])), (2, 2, 1))
        self.assertTrue(any(seen["task"][0] in held for held in seen["log"]), seen["log"])
        moves = [tuple(move) for move in seen["story"]]
        lost = moves.index(("processing", "released"))
        self.assertIn("processing", [after for _, after in moves[lost + 1:]], moves)
        self.assertTrue(any("is gone; tasks that it held, handed out again: " in line for line in seen["said"]), seen["said"])

    def test_a_worker_added_while_it_runs(self):
        seen = self.seen["added"]
        self.assertEqual(seen["pairs"], self.pairs)
        self.assertGreater(seen["processes"], seen["before"])
        self.assertTrue(any("came, and has the sheets" in line for line in seen["said"]), seen["said"])

    def test_a_task_run_twice(self):
        seen = self.seen["twice"]
        self.assertEqual((seen["pairs"], seen["tasks"], seen["kept"]), (self.pairs, 18, 12))

    def test_lists_of_all_kinds_and_their_numbers(self):
        self.assertEqual([same for _, same, _ in self.seen["terms"]["seen"]], [True] * 10, self.seen["terms"])
        self.assertEqual([number for _, _, number in self.seen["terms"]["seen"]][:3], [len(self.pairs)] * 3)
        self.assertEqual(self.seen["terms"]["refusals"], [21, 27, 21])


# ---------------------------------------------------------------- what needs no cluster

class Together(WithRing):
    def gathered(self, batch=50, by="chambers", of=None):
        """The answers of a work, as a worker gives them."""
        work = cluster.work_of(self.ring, self.pumps, self.chambers, {}, by)
        made, answers = cluster.Gathered(work, self.chambers), []
        for a, b in cluster.spans(self.chambers.n, batch):
            pairs = cluster.ranged(self.ring, self.pumps, self.chambers, a, b, {})
            answers.append(((by, a, b), cluster.Said(pairs=b"".join(cluster.ONE.pack(*pair) for pair in pairs))))
        return made, answers

    def fault(self, told, made, answers, count=None):
        with self.assertRaises(WorkerFault) as raised:
            for of, said in answers:
                made.take(of, said)
            made.compared(made.list(self.chambers.n))
        self.assertIn(told, str(raised.exception))

    def test_ranges_are_the_list(self):
        want = list(self.ring.pairs(self.pumps, self.chambers))
        for batch in (1, 7, 50, 120, 500):
            made, answers = self.gathered(batch)
            for of, said in reversed(answers):
                made.take(of, said)
            self.assertEqual(made.list(self.chambers.n), want, batch)

    def test_leaf_runs_are_the_list(self):
        runs = [self.ring.run(self.pumps, self.chambers, leaf) for leaf in cluster.leaves(self.chambers)]
        self.assertEqual(sorted(pair for one in runs for pair in one), list(self.ring.pairs(self.pumps, self.chambers)))
        with self.assertRaises(Refused) as raised:
            self.ring.run(self.pumps, self.chambers, self.chambers.m)
        self.assertEqual(raised.exception.number, 19)
        # many on one spot: more pairs than the slots that are lent at first
        p, q = (self.ring.pack([(k + 1, at, 0) for k in range(n)], 5) for n, at in ((120, 0), (16, 8)))
        self.assertEqual(len(self.ring.run(p, q, 0)), 120 * 16)

    def test_what_comes_twice_is_taken_once(self):
        made, answers = self.gathered()
        for of, said in answers + answers[1:] + answers[:1]:
            made.take(of, said)
        self.assertEqual(made.list(self.chambers.n), list(self.ring.pairs(self.pumps, self.chambers)))

    def test_wrong_answers_are_told(self):
        made, answers = self.gathered()
        (of, said), *others = answers
        self.fault("answered twice, and otherwise", made, answers + [(of, said._replace(pairs=said.pairs[:-16]))])
        self.fault("no answer from 0 to 50", self.gathered()[0], others)
        self.fault("no answer from 100 to 120", self.gathered()[0], answers[:-1])
        self.fault("two tasks of the same", self.gathered()[0], answers + [(("chambers", 40, 60), said)])
        self.fault("in no order", self.gathered()[0], [(of, others[0][1])] + others)
        self.fault("in no order", self.gathered()[0], [(of, said._replace(pairs=said.pairs + said.pairs[-16:]))] + others)
        short = [(of, said._replace(pairs=said.pairs[:-16]))] + others
        self.fault("and `count` says 104", self.gathered()[0], short + [(("count", 0, 2), cluster.Said(count=60)), (("count", 1, 2), cluster.Said(count=44))])
        with self.assertRaises(Refused) as raised:
            self.gathered()[0].take(of, cluster.Said(refused=29))
        self.assertEqual(raised.exception.number, 29)

    def test_the_numbers_of_the_parts_are_the_number_of_the_list(self):
        owners = [int(k % 3 == 0) for k in range(self.chambers.n)]
        for terms in ({}, {"threshold": 3}, {"largest": 4_000_000}, {"contractor": 0, "owners": owners}, {"contractor": 1, "owners": owners}):
            whole = self.ring.count(self.pumps, self.chambers, **terms)
            for parts in (2, 3):
                kept = [cluster.kept_by(self.chambers, terms, lambda at, k=k: at % parts == k) for k in range(parts)]
                self.assertEqual(sum(self.ring.count(self.pumps, self.chambers, **one) for one in kept), whole)

    def test_wrong_use(self):
        for words in (["--by", "leaves", "--threshold", "2"], ["--by", "leaves", "--largest", "900"], ["--batch", "0"], ["--workers", "0"], ["--by", "boxes"]):
            status, printed, _ = ran([COMMAND, "cluster", "list", *SHEETS, *words])
            self.assertEqual((status, printed), (2, b""), words)


class Python(WithRing):
    def alone(self, words, folders):
        """The command where these folders alone have Pythons."""
        before = cluster.pythons
        cluster.pythons = lambda: folders
        try:
            with self.assertRaises(door.Failed) as raised:
                cluster.here(words)
            return str(raised.exception)
        finally:
            cluster.pythons = before

    @unittest.skipIf(cluster.distributed, "a Python without distributed: this one has it")
    def test_where_none_has_it_that_is_said(self):
        said = self.alone(["cluster", "list", *SHEETS], [])
        self.assertIn("no python3 (3.11 or later) here has it: apt-get install python3-distributed python3-cryptography", said)
        poor = self.file("python3", "#!/bin/sh\nexit 1\n")
        os.chmod(poor, 0o755)
        self.assertEqual(self.alone(["cluster", "list", *SHEETS], [poor]), said)
        # and it does not run again without end
        os.environ[cluster.AGAIN] = "yes"
        try:
            self.assertEqual(self.alone(["cluster", "list", *SHEETS], [sys.executable]), said)
        finally:
            del os.environ[cluster.AGAIN]

    def test_the_rest_needs_none_of_it(self):
        program = "import sys; sys.modules['distributed'] = None; sys.path.insert(0, %r); import ring.command; assert 'ring.cluster' not in sys.modules"
        self.assertEqual(ran([sys.executable, "-c", program % os.path.join(TOP, "python")])[0], 0)


if __name__ == "__main__":
    tried_all(sys.argv[1])
