"""`./list` in a house of its own: a copy of the command with a kit whose `rt` only says what it would do, and a listing program that is the plain reading. Where
things are built, the command is tried as it stands as well."""
import os
import pty
import shutil
import signal
import subprocess
import sys
import time
import unittest

from base import TOP, TOWN, Folder, built, ran, read, surroundings

sys.path.insert(0, os.path.join(TOP, "tests"))
import make_listing_cases
import reading

RT = """#!/bin/sh
# a kit that proves nothing: what it is asked is kept
echo "$@ of $(basename "$PWD")" >> "$KIT/asked"
[ ! -e "$KIT/slow" ] || { sh -c 'echo $$ >> "$KIT/pids"; exec sleep 100' & echo $$ >> "$KIT/pids"; wait; }
[ ! -e "$KIT/wait" ] || sleep 1.3
[ ! -e "$KIT/checks" ] || { echo "checked low::first, 1 of 7"; sleep 1.3; }
echo "rt: chose --jobs 2 for low"
echo "checked low::least, 1 of 1"
echo "crate low: modules loaded=0 checked=40"
echo "logic=proved functions=1"
[ ! -e "$KIT/fails" ] || { echo "the prover's own words"; exit 1; }
mkdir -p out
[ ! -e "$KIT/half" ] || { echo "#!/bin/sh" > out/listing; chmod 755 out/listing; kill -9 $PPID; exit 1; }
[ ! -e "$KIT/edits" ] || { rm "$KIT/edits"; sleep 0.05; echo "// changed" > ../low/src/lib.rt; sleep 0.05; }
cp "$KIT/listing" out/listing
echo "crate listing: modules loaded=0 checked=40"
echo "logic=proved functions=1"
echo "rt: running out/listing; to give it other input, run that file yourself"
exit "$(cat "$KIT/status" 2>/dev/null || echo 0)"
"""
LISTING = """#!%s
import sys
sys.dont_write_bytecode = True
sys.path.insert(0, %r)
import make_listing_cases
%s
sys.stdout.write("".join(line + "\\n" for line in make_listing_cases.listing(sys.stdin.buffer.read(62449))))
"""
CRATES = "# a comment\nlow: ground\n\nground:\nlisting: low io  # more\nother:\n"


def alive(pid):
    """Whether a process runs; one that has ended and that nobody has asked for its status does not."""
    for _ in range(20):
        try:
            state = read("/proc/%d/stat" % pid).rsplit(b")", 1)[1].split()[0]
        except (FileNotFoundError, ProcessLookupError):
            return False
        if state == b"Z":
            return False
        time.sleep(0.05)
    return True


class House(Folder):
    def setUp(self):
        super().setUp()
        self.top, self.kit = self.path("house"), self.path("kit")
        for folder in ("tools", "python/ring", "include", "crates/low/src", "crates/listing/src"):
            os.makedirs(os.path.join(self.top, folder))
        for name in ["list", "tools/list.py", "tools/kit.py", "include/ring.h"] + ["python/ring/" + name for name in os.listdir(os.path.join(TOP, "python", "ring")) if name.endswith(".py")]:
            shutil.copy(os.path.join(TOP, name), os.path.join(self.top, name))
        with open(os.path.join(self.top, "crates.txt"), "w") as f:
            f.write(CRATES)
        loader = os.path.join(self.kit, "toolchain", "lib")
        os.makedirs(loader)
        os.makedirs(os.path.join(self.kit, "bin"))
        self.program(os.path.join(loader, "ld-linux-x86-64.so.2"), '#!/bin/sh\nshift 2\nexec "$@"\n')
        self.program(os.path.join(self.kit, "bin", "rt"), RT)
        self.listing("")

    def program(self, path, text):
        with open(path, "w") as f:
            f.write(text)
        os.chmod(path, 0o755)

    def listing(self, first):
        self.program(os.path.join(self.kit, "listing"), LISTING % (sys.executable, os.path.join(TOP, "tests"), first))

    def mark(self, name):
        open(os.path.join(self.kit, name), "w").close()

    def environment(self, kit=True):
        path = os.pathsep.join(([os.path.join(self.kit, "bin")] if kit else []) + [os.path.dirname(sys.executable), "/usr/bin", "/bin"])
        return dict(surroundings(), PATH=path, KIT=self.kit)

    def list(self, *words, given=None, kit=True, command=None, cwd="/", stdout=subprocess.PIPE):
        done = subprocess.run([command or os.path.join(self.top, "list")] + list(words), input=given, stdin=subprocess.DEVNULL if given is None else None, stdout=stdout,
                              stderr=subprocess.PIPE, env=self.environment(kit), cwd=cwd, timeout=300)
        return done.returncode, done.stdout, done.stderr.decode()

    def prove(self):
        """Has the listing program built."""
        self.assertEqual(self.list(*SHEETS)[0], 0)

    def asked(self):
        path = os.path.join(self.kit, "asked")
        return read(path).decode().split("\n")[:-1] if os.path.exists(path) else []


SHEETS = [os.path.join(TOP, "examples", name) for name in ("p.sheet", "q.sheet")]
LISTED = b"5 1 4 0 16\n5 2 14 0 36\n6 2 26 1 37\nend 3\n"


class Status(House):
    def setUp(self):
        super().setUp()
        self.prove()

    def test_a_listing(self):
        self.assertEqual(self.list(*SHEETS), (0, LISTED, ""))
        self.assertEqual(self.list(given=read(SHEETS[0]) + read(SHEETS[1])), (0, LISTED, ""))

    def test_a_refusal_is_1_and_has_its_reason_in_words(self):
        words = make_listing_cases.P
        wide = self.file("wide.sheet", make_listing_cases.packed(reading.pack([(1, 0, 0)], [0], 7, 2)))
        wrong = self.file("wrong.sheet", make_listing_cases.packed(words[:-3] + [2, 7, 1]))
        short = self.file("short", b"abc")
        for files, line, told in [
            ((wide, SHEETS[1]), "refused p 2", "list: the pump houses (P, %s) are refused by 2: the sheet is of form 2, and ./list takes form 1 only: use ./ring list\n" % wide),
            ((SHEETS[0], wide), "refused q 2", "list: the chambers (Q, %s) are refused by 2: the sheet is of form 2, and ./list takes form 1 only: use ./ring list\n" % wide),
            ((SHEETS[0], wrong), "refused q 4", "list: the chambers (Q, %s) are refused by 4: its span, its root word or its length does not fit its numbers of points and nodes\n" % wrong),
            ((short, short), "refused input", "list: the input is refused: 6 bytes, not a number of 4-byte words\n"),
        ]:
            self.assertEqual(self.list(*files), (1, line.encode() + b"\n", told))
        for data, told in ((b"", "0 bytes, under 24"), (bytes(62_452), "over 62,448 bytes, the most that two sheets of form 1 have; for form 2 use ./ring list")):
            self.assertEqual(self.list(given=data), (1, b"refused input\n", "list: the input is refused: %s\n" % told))
        self.assertEqual(self.list(given=make_listing_cases.packed(words[:-1] + [0])), (1, b"refused q 2\n", "list: the chambers (Q) are refused by 2: its form number is "
                                                                                         "not 1 or 2\n"))

    def test_wrong_use_is_2(self):
        for words in (SHEETS[:1], SHEETS + SHEETS[:1], ["--bad"], ["--help", SHEETS[0]]):
            status, printed, said = self.list(*words)
            self.assertEqual((status, printed), (2, b""), words)
            self.assertIn("./list P.sheet Q.sheet", said)

    def test_help(self):
        status, printed, said = self.list("--help")
        self.assertEqual((status, said), (0, ""))
        for part in (b"./list P.sheet Q.sheet", b"Exit status: 0 for a listing, 1 for a refusal, 2 for wrong use, 3"):
            self.assertIn(part, printed)

    def test_no_silent_wait_on_a_terminal(self):
        ours, theirs = pty.openpty()
        try:
            done = subprocess.run([os.path.join(self.top, "list")], stdin=theirs, stdout=subprocess.PIPE, stderr=subprocess.PIPE, env=self.environment(), timeout=120)
        finally:
            os.close(ours)
            os.close(theirs)
        self.assertEqual((done.returncode, done.stdout), (2, b""))
        self.assertIn(b"two sheets, or their bytes on standard input", done.stderr)

    def test_input_that_fails_is_3(self):
        for files, told in (((SHEETS[0], "/none"), "/none: No such file"), ((self.folder, SHEETS[1]), "Is a directory")):
            status, printed, said = self.list(*files)
            self.assertEqual((status, printed), (3, b""))
            self.assertIn(told, said)
        folder = os.open(self.folder, os.O_RDONLY)
        try:
            done = subprocess.run([os.path.join(self.top, "list")], stdin=folder, stdout=subprocess.PIPE, stderr=subprocess.PIPE, env=self.environment(), timeout=120)
        finally:
            os.close(folder)
        self.assertEqual((done.returncode, done.stdout, done.stderr.decode()), (3, b"", "list: standard input: Is a directory\n"))

    def test_output_that_fails_is_3(self):
        for words in (SHEETS, ["--help"]):
            with open("/dev/full", "wb") as full:
                status, _, said = self.list(*words, stdout=full)
            self.assertEqual((status, said), (3, "list: standard output: No space left on device\n"))
        ours, theirs = os.pipe()
        os.close(ours)
        status, _, said = self.list(*SHEETS, stdout=theirs)
        os.close(theirs)
        self.assertEqual((status, said), (3, "list: standard output: Broken pipe\n"))

    def test_a_program_that_breaks_off_is_3(self):
        for first in ("sys.exit(0)", "print('5 1 4 0 16'); sys.exit(0)", "sys.stdout.write('end 0'); sys.exit(0)", "print('end 0'); sys.exit(9)"):
            self.listing(first)
            shutil.copy(os.path.join(self.kit, "listing"), os.path.join(self.top, "crates", "listing", "out", "listing"))
            status, printed, said = self.list(*SHEETS)
            self.assertEqual((status, printed), (3, b""), first)
            self.assertIn("without its last line", said)


class Building(House):
    def test_k_of_n_while_it_builds_and_nothing_after(self):
        status, printed, said = self.list(*SHEETS)
        self.assertEqual((status, printed), (0, LISTED))
        self.assertRegex(said, r"^list: proving and building crates/listing/out/listing: this takes some minutes the first time\nlist: 2 of 3: low proved \(\d+ s\)\n"
                               r"list: 3 of 3: listing proved \(\d+ s\)\n$")
        self.assertEqual(self.list(*SHEETS), (0, LISTED, ""))
        self.assertEqual(self.asked(), ["run of listing"])
        later = time.time() + 5
        os.makedirs(os.path.join(self.top, "crates/low/src"), exist_ok=True)
        path = os.path.join(self.top, "crates", "low", "src", "lib.rt")
        open(path, "w").close()
        os.utime(path, (later, later))
        self.assertIn("proving again what has changed", self.list(*SHEETS)[2])
        self.assertEqual(self.asked(), ["run of listing"] * 2)

    def test_half_a_program_is_not_used(self):
        self.mark("half")
        done = subprocess.run([os.path.join(self.top, "list")] + SHEETS, stdin=subprocess.DEVNULL, stdout=subprocess.PIPE, stderr=subprocess.PIPE, env=self.environment(), timeout=120)
        self.assertEqual((done.returncode, done.stdout), (-signal.SIGKILL, b""))
        self.assertTrue(os.path.exists(os.path.join(self.top, "crates", "listing", "out", "listing")))
        os.remove(os.path.join(self.kit, "half"))
        status, printed, said = self.list(*SHEETS)
        self.assertEqual((status, printed), (0, LISTED))
        self.assertIn("proving and building", said)
        self.assertEqual(self.list(*SHEETS), (0, LISTED, ""))

    def test_a_source_that_changes_while_it_builds_is_built_again(self):
        self.mark("edits")
        self.assertEqual(self.list(*SHEETS)[:2], (0, LISTED))
        self.assertIn("proving again what has changed", self.list(*SHEETS)[2])
        self.assertEqual(self.list(*SHEETS), (0, LISTED, ""))
        self.assertEqual(self.asked(), ["run of listing"] * 2)

    def test_that_it_goes_on_is_said(self):
        path = os.path.join(self.top, "tools", "kit.py")
        text = read(path).decode()
        with open(path, "w") as f:
            f.write(text.replace("PATIENCE = 15\n", "PATIENCE = 0.5\n"))
        self.mark("wait")
        self.assertRegex(self.list(*SHEETS)[2], r"list: still proving, 0 of 3 done, \d+ seconds so far\n")
        self.assertRegex(self.list(*SHEETS)[2], "^$")

    def test_how_far_a_check_is_is_said(self):
        path = os.path.join(self.top, "tools", "kit.py")
        text = read(path).decode()
        with open(path, "w") as f:
            f.write(text.replace("PATIENCE = 15\n", "PATIENCE = 0.5\n"))
        self.mark("checks")
        self.assertRegex(self.list(*SHEETS)[2], r"list: still proving, 0 of 3 done, 1 of the 7 functions to check of low, \d+ seconds so far\n")

    def test_the_status_of_the_program_is_no_fault_of_the_build(self):
        with open(os.path.join(self.kit, "status"), "w") as f:
            f.write("9")
        self.assertEqual(self.list(*SHEETS)[:2], (0, LISTED))

    def test_a_build_that_fails_is_3(self):
        self.mark("fails")
        status, printed, said = self.list(*SHEETS)
        self.assertEqual((status, printed), (3, b""))
        self.assertIn("the prover's own words\n", said)
        self.assertIn("list: crates/listing/out/listing is not built: see above, and target/listing.log for the whole\n", said)

    def test_through_a_link(self):
        link = self.path("listed")
        os.symlink(os.path.join(self.top, "list"), link)
        self.assertEqual(self.list(*SHEETS, command=link)[:2], (0, LISTED))
        self.assertEqual(self.list(*SHEETS, command="./listed", cwd=self.folder), (0, LISTED, ""))

    def test_the_kit_is_remembered(self):
        status, printed, said = self.list(*SHEETS, kit=False)
        self.assertEqual((status, printed), (3, b""))
        self.assertIn("no `rt` on the path, and nothing has been built", said)
        self.prove()
        self.assertEqual(self.list(*SHEETS, kit=False), (0, LISTED, ""))
        shutil.move(self.kit, self.kit + "-gone")
        status, _, said = self.list(*SHEETS, kit=False)
        self.assertEqual(status, 3)
        self.assertIn("is gone", said)

    def interrupted(self, sent):
        self.mark("slow")
        work = subprocess.Popen([os.path.join(self.top, "list")] + SHEETS, stdin=subprocess.DEVNULL, stdout=subprocess.PIPE, stderr=subprocess.PIPE, env=self.environment())
        pids = os.path.join(self.kit, "pids")
        until = time.monotonic() + 120
        while not (os.path.exists(pids) and len(read(pids).split()) == 2):
            self.assertLess(time.monotonic(), until, "the build has not begun")
            time.sleep(0.05)
        work.send_signal(sent)
        printed, said = work.communicate(timeout=120)
        running = [int(pid) for pid in read(pids).split()]
        self.assertEqual(len(running), 2)
        self.assertFalse([pid for pid in running if alive(pid)])
        self.assertEqual((work.returncode, printed), (130, b""))
        self.assertIn(b"list: interrupted\n", said)

    def test_an_interrupt_ends_the_build_and_its_processes(self):
        self.interrupted(signal.SIGINT)

    def test_so_does_a_request_to_end(self):
        self.interrupted(signal.SIGTERM)

    def test_a_second_build_waits(self):
        self.mark("wait")
        one, two = (subprocess.Popen([os.path.join(self.top, "list")] + SHEETS, stdin=subprocess.DEVNULL, stdout=subprocess.PIPE, stderr=subprocess.PIPE, env=self.environment())
                    for _ in range(2))
        said = [work.communicate(timeout=120) for work in (one, two)]
        self.assertEqual([printed for printed, _ in said], [LISTED, LISTED])
        self.assertIn(b"another build is under way here: waiting for it", said[0][1] + said[1][1])
        self.assertEqual(self.asked(), ["run of listing"])


@unittest.skipUnless(built(), "the listing program is not built")
class Built(Folder):
    def test_as_it_stands(self):
        self.assertEqual(ran([os.path.join(TOP, "list")] + SHEETS)[:2], (0, LISTED))
        town = [os.path.join(TOWN, name) for name in ("pumps.sheet", "chambers.sheet")]
        self.assertEqual(ran([os.path.join(TOP, "list")] + town), (0, read(os.path.join(TOWN, "listing.txt")), ""))
        self.assertEqual(ran([os.path.join(TOP, "list")], b"")[:2], (1, b"refused input\n"))


if __name__ == "__main__":
    unittest.main()
