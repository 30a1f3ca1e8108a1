"""Builds C programs of this folder on the archive of the proved calls, with the kit's own compiler and linker, for x86-64; and for the machine at hand, on the proved
calls' own LLVM module."""
import os
import platform
import re
import shutil
import subprocess
import sys
import textwrap

TOP = os.path.dirname(os.path.dirname(os.path.abspath(__file__)))
sys.path.insert(0, os.path.join(TOP, "tools"))
import kit

archive = kit.archive
WORK = os.path.join(TOP, "target", "bench")
NATIVE = "%s-unknown-linux-gnu" % platform.machine()
# as the kit compiles the archive
LEVEL = "-O3"
KEEP = """#!/bin/sh
# the kit's compiler, which keeps the module that it compiles
for word in "$@"; do case $word in *.bc) cp "$word" "%s";; esac; done
exec "%s" "$@"
"""


def compiled(target, source, made, words):
    """The object of a file of this folder."""
    std = os.path.join(TOP, "tests", "c", "std")
    clang = os.path.join(kit.toolchain(), "bin", "clang")
    subprocess.run([clang, "--target=" + target, "-fPIC", "-I", std] + list(words) + ["-c", os.path.join(TOP, "bench", source), "-o", made], check=True)
    return made


def program(name, sources, words=()):
    """The program of these C files, compiled as the archive is, with these words beside, and the archive."""
    os.makedirs(WORK, exist_ok=True)
    objects = [compiled(kit.TARGET, source + ".c", os.path.join(WORK, "%s-%s.o" % (name, source)), [LEVEL] + list(words)) for source in sources]
    made = os.path.join(WORK, name)
    kit.ran(kit.linker() + [made] + objects + [archive()], "%s is not linked: see above" % name)
    return made


# ---------------------------------------------------------------- for the machine at hand

def module():
    """The LLVM module of the proved calls: `rattle build` makes the archive with a compiler that keeps what it is given."""
    made = os.path.join(WORK, "ffi.bc")
    if not kit.newer(made, [archive()]):
        return made
    os.makedirs(WORK, exist_ok=True)
    tools, keeping = kit.toolchain(), os.path.join(WORK, "keeping")
    os.makedirs(os.path.join(keeping, "bin"), exist_ok=True)
    for folder, names in (("", ["lib"]), ("bin", os.listdir(os.path.join(tools, "bin")))):
        for name in names:
            there = os.path.join(keeping, folder, name)
            if name != "clang" and not os.path.lexists(there):
                os.symlink(os.path.join(tools, folder, name), there)
    with open(os.path.join(keeping, "bin", "clang"), "w", encoding="utf-8") as f:
        f.write(KEEP % (made, os.path.join(tools, "bin", "clang")))
    os.chmod(f.name, 0o755)
    words, over = [], kit.OVER_C
    for crate in sorted(kit.below(over) - {over}):
        library = os.path.join(TOP, "crates", crate, "out", "rlib")
        words += ["--extern", "%s=%s" % (crate, os.path.join(library, crate + ".rlib"))] if crate in kit.needs()[over] else ["-L", "dependency=" + library]
    own = kit.home()
    words += ["--extern", "std=" + os.path.join(own, "rlibs", "std.rlib"), "-L", "dependency=" + os.path.join(own, "rlibs")]
    words += ["--antt-project", os.path.join(own, "rattle", "logic", "antt-project.json"), "--logic-built", os.path.join(own, "logic_built"), "--incremental", os.path.join(WORK, "incremental")]
    kit.ran([os.path.join(own, "bin", "rattle"), "build", "--crate-name", over, os.path.join(TOP, "crates", over, "src", "lib.rt")]
            + words + ["--toolchain", keeping, "--crate-type", "staticlib", "-o", os.path.join(WORK, "libffi.a")], "the module is not made: see above")
    return made


def retargeted(text):
    """The module as text for the machine at hand: the processor's name and layout are left out. A struct by value is a pointer to a copy, as C has it on Arm, and where an
    answer is to be written is given in the register for it, where C for x86-64 gives it first and has it back."""
    clang = os.path.join(kit.toolchain(), "bin", "clang")
    subprocess.run([clang, "--target=" + kit.TARGET, "-O0", "-S", "-emit-llvm", "-Xclang", "-disable-llvm-passes", "-x", "ir", module(), "-o", text], check=True)
    with open(text, encoding="utf-8") as f:
        lines = f.read()
    if platform.machine() != "x86_64":
        lines = re.sub(r"^target (datalayout|triple).*\n", "", lines, flags=re.M)
        lines = re.sub(r' "(target-cpu|probe-stack|tune-cpu|target-features)"="[^"]*"', "", lines)
        lines = re.sub(r" byval\((?:[^()]|\([^()]*\))*\)", "", lines)
        lines = re.sub(r"^define noundef ptr (@\w+)\(ptr noundef %a0(.*?)\n  ret ptr %a0\n}", r"define void \1(ptr noundef sret(i8) %a0\2\n  ret void\n}", lines, flags=re.M | re.S)
    with open(text, "w", encoding="utf-8") as f:
        f.write(lines)
    return text


def here():
    """The object of the proved calls for the machine at hand."""
    made = os.path.join(WORK, "native-ffi.o")
    if kit.newer(made, [module()]):
        compiled(NATIVE, retargeted(os.path.join(WORK, "ffi.ll")), made, [LEVEL, "-w", "-x", "ir"])
    return made


def native(name, sources, words=(), objects=(), libraries=()):
    """The program of these C files and the proved calls' own module for the machine at hand, with these objects and libraries beside; nothing where the machine has no C++
    compiler to link it."""
    if not shutil.which("g++"):
        return None
    os.makedirs(WORK, exist_ok=True)
    made = os.path.join(WORK, "native-" + name)
    parts = [here()] + [compiled(NATIVE, source + ".c", "%s-%s.o" % (made, source), [LEVEL, "-w"] + list(words)) for source in sources]
    subprocess.run(["g++"] + parts + list(objects) + ["-o", made] + list(libraries), check=True)
    return made


# ---------------------------------------------------------------- running

def said(words, *arguments):
    """The words of each line that the program prints: the words that run it, or a program for x86-64."""
    done = subprocess.run((kit.command(words) if isinstance(words, str) else words) + list(arguments), check=True, stdout=subprocess.PIPE, text=True)
    return [line.split() for line in done.stdout.splitlines()]


def instructions(command, work, nothing):
    """How many instructions a work takes, in all and by function, by valgrind: those of a run with these words, less those of one that does nothing; None where it is not
    there."""
    if not shutil.which("valgrind"):
        return None

    def counted(words):
        out, parts = os.path.join(WORK, "callgrind.%d" % os.getpid()), {}
        subprocess.run(["valgrind", "--tool=callgrind", "--callgrind-out-file=" + out] + command + words, capture_output=True, check=True)
        said = subprocess.run(["callgrind_annotate", "--threshold=100", out], capture_output=True, text=True, check=True).stdout
        for count, function in re.findall(r"^ *([\d,]+) \([ \d.]+%\)  \S*?:(\S+)", said, flags=re.M):
            short = re.sub(r"'\d+$", "", function).split("::")[-1]
            parts[short] = parts.get(short, 0) + int(count.replace(",", ""))
        return parts

    did, before = counted(work), counted(nothing)
    parts = {short: did[short] - before.get(short, 0) for short in did}
    return sum(parts.values()), sorted(((count, short) for short, count in parts.items() if count > 0), reverse=True)


# ---------------------------------------------------------------- papers

def wrapped(text, indent=""):
    return "\n".join(textwrap.wrap(text, 160, subsequent_indent=indent, break_long_words=False, break_on_hyphens=False))


def filled(text):
    """Paragraphs and points in lines of at most 160; tables, headings and drawings as they are."""
    out = []
    for part in text.split("\n\n"):
        if part.startswith("-"):
            part = "\n".join(wrapped(line, "  ") if len(line) > 160 else line for line in part.split("\n"))
        elif not part.startswith(("|", "#", "!")):
            part = wrapped(" ".join(part.split()))
        out.append(part)
    return "\n\n".join(out).rstrip("\n") + "\n"


def load():
    """What else the machine does, in words."""
    return "the load of its %d processors, this work and any other, was %.1f over the last 15 minutes when this was written" % (os.cpu_count(), os.getloadavg()[2])


def keep(name, text):
    """Keeps a part of docs/BENCHMARKS.md in this folder, and there in place of the part with the same heading; where there is none, `bench/run` puts it in."""
    paper = os.path.join(TOP, "docs", "BENCHMARKS.md")
    with open(paper, encoding="utf-8") as f:
        before = f.read()
    start = before.find(text.split("\n", 1)[0] + "\n")
    if start >= 0:
        end = before.find("\n## ", start)
        before = before[:start] + text + (before[end:] if end >= 0 else "")
    for path, content in ((os.path.join(TOP, "bench", name), text), (paper, before)):
        with open(path, "w", encoding="utf-8") as f:
            f.write(content)
