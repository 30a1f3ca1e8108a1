"""tools/library and the kept clients: what the library shows, the header with this machine's own compilers, and each client where the machine can run it.

Without what is built, the header and the layouts are tried alone.
"""
import ctypes
import importlib.util
import os
import platform
import re
import shutil
import struct
import subprocess
import sys
import unittest

from base import TOP, VERSION, Folder, built, ran, read

import kit

EXPECTED = os.path.join(TOP, "clients", "expected.txt")
CALLS = set(re.findall(r"^\w+ (ring_\w+)\(", read(os.path.join(TOP, "include", "ring.h")).decode(), re.M))
MAJOR = VERSION.split(".")[0]
NATIVE = platform.machine() == "x86_64"


def guide_lines(language):
    """The lines of docs/GUIDE.md that compile or run a client, `DIR` standing for the library's folder."""
    text = read(os.path.join(TOP, "docs", "GUIDE.md")).decode()
    found = re.search(r"^    # %s\n((?:    .+\n)+)" % re.escape(language), text, re.M)
    return [line.strip() for line in found.group(1).strip().split("\n")]


def symbols(data, wanted):
    """The symbols of a 64-bit ELF file's table of this type (2 all, 11 the dynamic ones): name, whether it is defined, whether it is global."""
    at, = struct.unpack_from("<Q", data, 40)
    size, count, _ = struct.unpack_from("<3H", data, 58)
    sections = [struct.unpack_from("<2I4Q2I2Q", data, at + size * k) for k in range(count)]
    for _, kind, _, _, start, length, link, _, _, entry in sections:
        if kind == wanted:
            names = sections[link][4]
            for place in range(start, start + length, entry):
                name, info, _, section = struct.unpack_from("<IBBH", data, place)
                text = data[names + name:data.index(b"\0", names + name)].decode()
                if text:
                    yield text, section != 0, info >> 4 != 0


def members(data):
    """The files of an archive, its own tables left out."""
    at = 8
    while at < len(data):
        name, size = data[at:at + 16].decode().strip(), int(data[at + 48:at + 58])
        if name not in ("/", "//", "/SYM64/"):
            yield data[at + 60:at + 60 + size]
        at += 60 + size + size % 2


class Header(Folder):
    def compiled(self, words):
        if not shutil.which(words[0]):
            self.skipTest("no %s on this machine" % words[0])
        done = subprocess.run(words, stdout=subprocess.PIPE, stderr=subprocess.STDOUT, cwd=self.folder)
        self.assertEqual(done.returncode, 0, done.stdout.decode())

    def test_it_compiles_here_without_a_warning(self):
        include = ["-I", os.path.join(TOP, "include")]
        strict = ["-Wall", "-Wextra", "-Wpedantic", "-Werror", "-fsyntax-only"]
        for compiler, standard, source in (("cc", "c99", "client.c"), ("cc", "c11", "client.c"), ("c++", "c++11", "client.cpp"), ("c++", "c++17", "client.cpp")):
            self.compiled([compiler, "-std=" + standard] + strict + include + [os.path.join(TOP, "clients", source)])

    def test_the_numbers_and_reasons_over_c(self):
        """What the header says of the numbers, as a C program has it, is what the package reads."""
        from ring import refusals
        source = self.file("reasons.c", '#include <stdio.h>\n#include "ring.h"\n#define SHOW(n, name, reason) printf("%d " #name " %s\\n", name, ring_reason(n));\n'
                                        'int main(void) { RING_REFUSALS(SHOW) printf("%s, %s, %s\\n", ring_reason(0), ring_reason(23), ring_reason(99)); return 0; }\n')
        self.compiled(["cc", "-std=c99", "-I", os.path.join(TOP, "include"), source, "-o", self.path("reasons")])
        said = subprocess.run([self.path("reasons")], stdout=subprocess.PIPE).stdout.decode()
        want = "".join("%d %s %s\n" % (number, name, reason) for number, (name, reason) in refusals.table().items())
        self.assertEqual(said, want + "served, no number of refusal, no number of refusal\n")

    def test_the_ctypes_client_lays_out_what_c_does(self):
        spec = importlib.util.spec_from_file_location("client_ctypes", os.path.join(TOP, "clients", "client_ctypes.py"))
        client = importlib.util.module_from_spec(spec)
        spec.loader.exec_module(client)
        structs = {name: one for name, one in vars(client).items() if isinstance(one, type) and issubclass(one, ctypes.Structure) and one is not ctypes.Structure}
        self.assertGreater(len(structs), 8)
        shown = "".join('printf("%s %%zu\\n", sizeof(%s));\n' % (name, name) + "".join('printf("%s.%s %%zu\\n", offsetof(%s, %s));\n' % (name, field, name, field) for field, _ in one._fields_)
                        for name, one in structs.items())
        source = self.file("layout.c", '#include <stdio.h>\n#include "ring.h"\nint main(void) {\n%sreturn 0;\n}\n' % shown)
        self.compiled(["cc", "-std=c99", "-I", os.path.join(TOP, "include"), source, "-o", self.path("layout")])
        said = subprocess.run([self.path("layout")], stdout=subprocess.PIPE).stdout.decode()
        self.assertEqual(said, "".join("%s %d\n" % (name, ctypes.sizeof(one)) + "".join("%s.%s %d\n" % (name, field, getattr(one, field).offset) for field, _ in one._fields_)
                                       for name, one in structs.items()))


@unittest.skipUnless(built(), "the archive is not built")
class Library(Folder):
    def setUp(self):
        super().setUp()
        self.dir = self.path("lib")
        status, printed, said = ran([os.path.join(TOP, "tools", "library"), self.dir])
        self.assertEqual((status, said), (0, ""))
        self.assertIn(b"libring.a, libring.so, ring.h and ring.pc of version %s" % VERSION.encode(), printed)

    def lib(self, name):
        return os.path.join(self.dir, name)

    def test_what_it_writes(self):
        self.assertEqual(sorted(os.listdir(self.dir)), ["libring.a", "libring.so", "libring.so.%s" % MAJOR, "ring.h", "ring.pc"])
        self.assertEqual(read(self.lib("ring.h")), read(os.path.join(TOP, "include", "ring.h")))
        # once more over what is there
        self.assertEqual(ran([os.path.join(TOP, "tools", "library"), self.dir])[0], 0)

    def test_wrong_use_and_what_cannot_be_written(self):
        for words, status in (([], 2), (["a", "b"], 2), (["--bad"], 2), (["--help"], 0), (["/dev/null/x"], 3), ([self.file("f", "")], 3)):
            self.assertEqual(ran([os.path.join(TOP, "tools", "library")] + words)[0], status, words)

    def test_only_the_calls_are_visible(self):
        found = list(symbols(read(self.lib("libring.so")), 11))
        self.assertEqual({name for name, defined, _ in found if defined}, CALLS)
        self.assertEqual({name for name, defined, _ in found if not defined}, {"memcpy", "memset"})

    def test_the_archive_needs_memcpy_and_memset_alone(self):
        found = [one for data in members(read(self.lib("libring.a"))) for one in symbols(data, 2)]
        self.assertEqual({name for name, defined, visible in found if not defined and visible}, {"memcpy", "memset"})
        self.assertEqual({name for name, defined, visible in found if defined and visible}, CALLS)

    def test_pkg_config(self):
        if not shutil.which("pkg-config"):
            self.skipTest("no pkg-config on this machine")
        said = subprocess.run(["pkg-config", "--cflags", "--libs", "ring"], env=dict(os.environ, PKG_CONFIG_PATH=self.dir), stdout=subprocess.PIPE, check=True).stdout.decode().split()
        self.assertEqual(sorted(said), sorted(["-I" + self.dir, "-L" + self.dir, "-lring"]))

    def test_clients_on_the_archive(self):
        """C and C++ with the kit's compiler, on libring.a, wherever the kit runs."""
        for source in ("clients/client.c", "clients/client.cpp"):
            made = self.path(os.path.basename(source))
            kit.ran(kit.linker() + [made, kit.compiled(source), self.lib("libring.a")], "")
            done = subprocess.run(kit.command(made), stdout=subprocess.PIPE)
            self.assertEqual((done.returncode, done.stdout), (0, read(EXPECTED)), source)

    def test_a_client_on_the_shared_library(self):
        """C on libring.so, found by its version by the kit's loader."""
        lib, made = os.path.join(kit.toolchain(), "lib"), self.path("client")
        parts = [os.path.join(lib, name) for name in ("Scrt1.o", "crti.o", "crtbeginS.o")]
        kit.ran([os.path.join(kit.toolchain(), "bin", "ld.lld"), "-m", "elf_x86_64", "-pie", "-dynamic-linker", "/lib64/ld-linux-x86-64.so.2", "-o", made] + parts
                + [kit.compiled("clients/client.c"), "-L", self.dir, "-lring", os.path.join(lib, "libc.so.6")] + [os.path.join(lib, name) for name in ("crtendS.o", "crtn.o")], "")
        words = kit.command(made)
        at = words.index("--library-path") + 1
        without = subprocess.run(words, stdout=subprocess.PIPE, stderr=subprocess.PIPE)
        self.assertIn(b"libring.so.%s" % MAJOR.encode(), without.stderr)
        done = subprocess.run(words[:at] + [words[at] + ":" + self.dir] + words[at + 1:], stdout=subprocess.PIPE)
        self.assertEqual((done.returncode, done.stdout), (0, read(EXPECTED)))

    def test_the_guides_lines(self):
        """Each client by the guide's own lines, on x86-64 with the compiler there."""
        needs = {"C": "cc", "C++": "c++", "Go": "go", "Python, by ctypes": "python3"}
        tried = []
        for language, tool in needs.items():
            lines = guide_lines(language)
            self.assertTrue(lines)
            if not NATIVE or not shutil.which(tool):
                continue
            for source in ("client.c", "client.cpp", "client.go", "client_ctypes.py"):
                shutil.copy(os.path.join(TOP, "clients", source), self.folder)
            script = "set -e\n" + "\n".join(lines).replace("DIR", self.dir).replace("clients/", "")
            done = subprocess.run(["sh", "-c", script], cwd=self.folder, stdout=subprocess.PIPE, stderr=subprocess.PIPE, env=dict(os.environ, PKG_CONFIG_PATH=self.dir))
            self.assertEqual((done.returncode, done.stdout), (0, read(EXPECTED)), (language, done.stderr))
            tried.append(language)
        if not tried:
            self.skipTest("no x86-64, or no compiler for it: the lines stand in the guide, and are not run here")


if __name__ == "__main__":
    unittest.main()
