"""What this repository builds with the Rattle kit, and how it is run: the proved programs, the archive of the proved calls, C programs over it.

What is not built yet, or older than a crate, is proved and built first, by `rt run` of a program and by `rt lib` of the archive: each crate that is done is said on
standard error as `k of n`, and every 15 seconds that work goes on. What the gate (`rt ci`) has built counts. An interrupt ends the build's own processes, and no
others. Programs are for x86-64, and run by the loader and the C library of the kit.
The kit is found by `rt` on the path; where there is none, by the folder that was remembered when something was built last.
"""
import contextlib
import fcntl
import os
import re
import shutil
import signal
import subprocess
import sys
import threading
import time

TOP = os.path.dirname(os.path.dirname(os.path.abspath(__file__)))
TARGET = "x86_64-unknown-linux-gnu"
# how often it is said that work goes on, in seconds
PATIENCE = 15
# the crate whose exports are the calls over C
OVER_C = "ffi_c"
# of a check's lines: a function that is done, the crate that it ends with, and that it is proved; and of `rt all verdict` the crate that is done
FUNCTION = re.compile(r"checked (\w+)::\S+, (\d+) of (\d+)$")
CRATE = re.compile(r"crate (\w+): modules ")
PROVED = re.compile(r"logic=proved ")
DONE = re.compile(r"== (\w+)$")


class Fault(SystemExit):
    """Something that is needed is not there, or not built: a program that does not catch it says so and ends."""


def kept(*parts):
    return os.path.join(TOP, "target", *parts)


def home():
    """The kit's folder."""
    rt = shutil.which("rt")
    if rt:
        return os.path.dirname(os.path.dirname(os.path.realpath(rt)))
    try:
        with open(kept("kit"), encoding="utf-8") as f:
            folder = f.read().rstrip("\n")
    except OSError:
        raise Fault("the Rattle kit is not here: no `rt` on the path, and nothing has been built with one yet")
    if not os.access(os.path.join(folder, "bin", "rt"), os.X_OK):
        raise Fault("the Rattle kit is not here: no `rt` on the path, and %s, which built this, is gone" % folder)
    return folder


def toolchain():
    """The kit's compiler and linker, and the C library that programs run with."""
    return os.path.join(home(), "toolchain")


def linker():
    """The words that link a program, but for its name and its parts."""
    return [os.path.join(home(), "bin", "rattle-link"), "--target", TARGET, "--toolchain", toolchain(), "-o"]


def remember():
    """Keeps the kit's folder for those who come without `rt` on the path."""
    folder = home() + "\n"
    try:
        with open(kept("kit"), encoding="utf-8") as f:
            if f.read() == folder:
                return
    except OSError:
        os.makedirs(kept(), exist_ok=True)
    with open(kept("kit"), "w", encoding="utf-8") as f:
        f.write(folder)


# ---------------------------------------------------------------- proving and building

def needs():
    """What each crate stands on, by crates.txt, its libraries of the kit left out."""
    lines = {}
    with open(os.path.join(TOP, "crates.txt"), encoding="utf-8") as f:
        for line in f:
            name, colon, below = line.split("#")[0].partition(":")
            if colon:
                lines[name.split()[0]] = below.split()
    return {name: [one for one in below if one in lines] for name, below in lines.items()}


def below(name):
    """The crates that a crate reaches, itself among them."""
    known, found, todo = needs(), set(), [name]
    while todo:
        one = todo.pop()
        if one not in found:
            found.add(one)
            todo += known.get(one, [])
    return found


def changed_since(made, crates):
    """Whether a file of these crates is newer than what was made of them, or the list of crates is."""
    at = os.path.getmtime(made)
    parts = (os.path.join(TOP, "crates", crate, part) for crate in crates for part in ("src", "specs", "proofs"))
    files = (os.path.join(folder, name) for part in parts for folder, _, names in os.walk(part) for name in names)
    return os.path.getmtime(os.path.join(TOP, "crates.txt")) > at or any(os.path.getmtime(file) > at for file in files)


def say(text):
    print("%s: %s" % (os.path.splitext(os.path.basename(sys.argv[0]))[0] or "kit", text), file=sys.stderr, flush=True)


def interrupted(*_):
    raise KeyboardInterrupt


@contextlib.contextmanager
def group(words, **more):
    """A process at the head of a group of its own, the whole of which ends with an interrupt, or where this program is told to end."""
    before = {}
    if threading.current_thread() is threading.main_thread():
        before = {one: signal.signal(one, interrupted) for one in (signal.SIGTERM, signal.SIGHUP)}
    work = subprocess.Popen(words, start_new_session=True, **more)
    try:
        yield work
    except BaseException:
        with contextlib.suppress(ProcessLookupError):
            os.killpg(work.pid, signal.SIGTERM)
        try:
            work.wait(5)
        except subprocess.TimeoutExpired:
            with contextlib.suppress(ProcessLookupError):
                os.killpg(work.pid, signal.SIGKILL)
            work.wait()
        raise
    finally:
        for one, handler in before.items():
            signal.signal(one, handler)


class Progress:
    """Says each crate that is done, `k of n`, and now and then that work goes on. What a crate that is done stands on is done."""

    def __init__(self, crates):
        self.crates, self.done, self.at, self.now = set(crates), set(), "", ""
        self.begun = self.since = time.monotonic()

    def line(self, line):
        function, crate = FUNCTION.match(line), CRATE.match(line)
        if function:
            self.now = ", %s of the %s functions to check of %s" % (function.group(2), function.group(3), function.group(1))
        elif crate:
            self.at = crate.group(1)
        elif PROVED.match(line) and self.at in self.crates:
            self.done |= below(self.at)
            say("%d of %d: %s proved (%d s)" % (len(self.done), len(self.crates), self.at, time.monotonic() - self.since))
            self.at, self.now, self.since = "", "", time.monotonic()

    def waits(self):
        say("still proving, %d of %d done%s, %d seconds so far" % (len(self.done), len(self.crates), self.now, time.monotonic() - self.begun))


def worked(words, crate, progress, log):
    """Runs `rt` with these words in the folder of a crate, its lines to the progress and to the log; its status."""
    at = os.path.join(TOP, "crates", crate)
    with group([os.path.join(home(), "bin", "rt")] + words, cwd=at, stdin=subprocess.DEVNULL, stdout=subprocess.PIPE, stderr=subprocess.STDOUT) as work:
        def follow():
            for line in work.stdout:
                log.write(line)
                log.flush()
                progress.line(line.decode("utf-8", "replace").rstrip("\n"))
        reader = threading.Thread(target=follow, daemon=True)
        reader.start()
        while reader.is_alive():
            reader.join(PATIENCE)
            if reader.is_alive():
                progress.waits()
        return work.wait()


@contextlib.contextmanager
def alone():
    """One build at a time in this repository: a second waits, and says so."""
    os.makedirs(kept(), exist_ok=True)
    with open(kept("building"), "w") as f:
        try:
            fcntl.flock(f, fcntl.LOCK_EX | fcntl.LOCK_NB)
        except OSError:
            say("another build is under way here: waiting for it")
            fcntl.flock(f, fcntl.LOCK_EX)
        yield


def proved(crate, name, word):
    """What `rt` makes of a crate by this word in its `out/`, proved and built where it is not there, a crate has changed since, or its build was cut off."""
    home()
    crates, made = below(crate), os.path.join(TOP, "crates", crate, "out", name)
    shown, unfinished = os.path.relpath(made, TOP), kept("unfinished", name)

    def stands():
        return os.path.exists(made) and not os.path.exists(unfinished) and not changed_since(made, crates)
    if stands():
        remember()
        return made
    with alone():
        if stands():
            return made
        # a build that was cut off, by a kill too, may have left half a program
        if os.path.exists(unfinished):
            with contextlib.suppress(FileNotFoundError):
                os.remove(made)
        say("proving again what has changed below %s" % shown if os.path.exists(made) else "proving and building %s: this takes some minutes the first time" % shown)
        remember()
        os.makedirs(os.path.dirname(unfinished), exist_ok=True)
        open(unfinished, "w").close()
        begun, log = time.time(), os.path.join("target", "%s.log" % crate)
        with open(os.path.join(TOP, log), "wb") as said:
            status = worked([word], crate, Progress(crates), said)
        with open(os.path.join(TOP, log), encoding="utf-8", errors="replace") as said:
            lines = said.readlines()
        # the status of `rt run` is that of the program, which is given nothing to read
        ran = word == "run" and any(line.startswith("rt: running out/") for line in lines)
        if (status and not ran) or not os.path.exists(made):
            sys.stderr.write("".join(lines[-20:]))
            raise Fault("%s is not built: see above, and %s for the whole" % (shown, log))
        # it is of the sources as they were when the build began: what was changed meanwhile is newer
        os.utime(made, (begun, begun))
        os.remove(unfinished)
    return made


def built(name):
    """The proved program NAME."""
    return proved(name, name, "run")


def archive():
    """The archive of the proved calls, under the name that its callers link: a copy of what `rt lib` makes of the crate whose exports they are."""
    made, named = proved(OVER_C, "lib%s.a" % OVER_C, "lib"), kept("staticlib", "libffi.a")
    if newer(named, [made]):
        os.makedirs(os.path.dirname(named), exist_ok=True)
        part = "%s.%d" % (named, os.getpid())
        shutil.copyfile(made, part)
        os.replace(part, named)
    return named


def verdicts(folder):
    """Each crate of the repository in a folder with the seconds that it takes from nothing, its tests among them, one after the other; a Fault where one is not proved."""
    last, lines = time.monotonic(), []
    with group([os.path.join(home(), "bin", "rt"), "all", "verdict", "--jobs", "1"], cwd=folder, stdin=subprocess.DEVNULL, stdout=subprocess.PIPE, stderr=subprocess.STDOUT) as work:
        for line in work.stdout:
            lines.append(line.decode("utf-8", "replace"))
            found = DONE.match(lines[-1].rstrip("\n"))
            if found and found.group(1) != "summary":
                yield found.group(1), round(time.monotonic() - last)
                last = time.monotonic()
        if work.wait():
            raise Fault("%s%s is not proved: see above" % ("".join(lines[-20:]), folder))


# ---------------------------------------------------------------- C programs

def newer(made, sources):
    """Whether a source is newer than what was made of them, or that is not there."""
    return not os.path.exists(made) or any(os.path.getmtime(one) > os.path.getmtime(made) for one in sources)


def ran(words, what):
    """Runs a tool of the kit, and says what it said where it fails."""
    done = subprocess.run(words, capture_output=True, text=True)
    if done.returncode:
        raise Fault("%s%s%s" % (done.stdout, done.stderr, what))


def compiler(source):
    """The kit's compiler for a C or C++ source, with the lines of a C library's headers that it comes without."""
    language = ["-x", "c++", "-std=c++11"] if source.endswith(".cpp") else ["-std=c99"]
    place = ["-nostdinc", "-isystem", os.path.join(TOP, "tests", "c", "std"), "-I", os.path.join(TOP, "include")]
    return [os.path.join(toolchain(), "bin", "clang"), "--target=" + TARGET] + language + ["-Wall", "-Wextra", "-Werror", "-O2", "-fPIC"] + place


def compiled(source, words=()):
    """The object of a C or C++ file, given from the top of the repository: made anew where it, or a header, is newer."""
    made = kept("c", os.path.basename(source) + ".o")
    path = os.path.join(TOP, source)
    folders = [os.path.join(TOP, "include"), os.path.join(TOP, "tests", "c"), os.path.join(TOP, "tests", "c", "std"), os.path.dirname(path)]
    if newer(made, [path] + [os.path.join(folder, one) for folder in folders for one in os.listdir(folder) if one.endswith(".h")]):
        os.makedirs(kept("c"), exist_ok=True)
        part = "%s.%d" % (made, os.getpid())
        ran(compiler(source) + list(words) + ["-c", path, "-o", part], "%s is not compiled: see above" % source)
        os.replace(part, made)
    return made


def linked(name, objects):
    """The program NAME of these objects and the archive of the proved calls."""
    made = kept("c", name)
    parts = list(objects) + [archive()]
    if newer(made, parts):
        part = "%s.%d" % (made, os.getpid())
        ran(linker() + [part] + parts, "%s is not linked: see above" % name)
        os.replace(part, made)
    return made


# ---------------------------------------------------------------- running

def command(program):
    """The words that run a program on this machine."""
    lib = os.path.join(toolchain(), "lib")
    return [os.path.join(lib, "ld-linux-x86-64.so.2"), "--library-path", lib, program]


def run(name, given):
    """What the proved program NAME writes on the given bytes."""
    return subprocess.run(command(built(name)), input=given, stdout=subprocess.PIPE, check=True).stdout
