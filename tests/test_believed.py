#!/usr/bin/env python3
"""Holds docs/BELIEVED.md to the promises, by a second way of following names that shares nothing with tools/believed.

    tests/test_believed.py    says whether each list is right, and exits with 1 where one is not

A promise is taken here as one text: its statement, and the text of every definition whose name stands in it, at any remove. Names are told apart by their letters
alone, in the files that a text imports in any way. Each definition is changed in turn. If it must be believed, the text of some promise changes. If only the design
needs it, none does.
"""
import importlib.machinery
import importlib.util
import os
import re
import sys

TOP = os.path.dirname(os.path.dirname(os.path.abspath(__file__)))
sys.dont_write_bytecode = True
LISTING = ("input", "text", "printout")
APART = re.compile(r"[\s(){}\[\],;.⌜⌝\"λ@:]+")
# definitions that were once left out: behind the alias of a file, in a module line of several lines, of the second roof
ONCE_LOST = {("plane", "Rule", "far"), ("plane", "Rule", "gap"), ("plane", "Rule", "inside"), ("ring", "Blind", "SameSeen"), ("orders", "Deliveries", "OneOrderEach")}


def tool():
    loader = importlib.machinery.SourceFileLoader("believed", os.path.join(TOP, "tools", "believed"))
    module = importlib.util.module_from_spec(importlib.util.spec_from_loader(loader.name, loader))
    loader.exec_module(module)
    return module


def texts():
    """The texts of all definitions and laws, each by its crate, folder and file, with no comment."""
    for crate in sorted(os.listdir(os.path.join(TOP, "crates"))):
        for folder in ("specs", "proofs"):
            place = os.path.join(TOP, "crates", crate, folder)
            for name in sorted(os.listdir(place)) if os.path.isdir(place) else ():
                if name.endswith(".antt") and name not in ("Lib.antt", "Examples.antt", "Case.antt"):
                    with open(os.path.join(place, name), encoding="utf-8") as f:
                        yield (crate, folder, name[:-5]), "\n".join(line for line in f.read().split("\n") if not re.match(r"\s*--", line))


def seen_from(text):
    """The files that a text brings in, by whatever form of import."""
    return {(crate, folder, name) for crate, folder, name in re.findall(r"^(?:ghost )?use Rattle\.(\w+)\.(specs|proofs)\.(\w+)", text, re.M)}


def declarations(text):
    """The paragraphs of a text that declare something, with the names that they declare; the fields of a record are none."""
    for paragraph in re.split(r"\n[ \t]*\n", re.sub(r"^use .*$", "", text, flags=re.M)):
        names = set()
        for line in paragraph.split("\n"):
            found = re.match(r"[ \t]*(?=(?:abbrev|unfoldable|pub|record|data)\b)(?:(?:pub|unfoldable|abbrev|record|data)[ \t]+)+([^\s:(){}=]+)", line)
            if found:
                names.add(found.group(1))
            if re.match(r"[ \t]*(?:pub )?(?:record|data) ", line):
                break
        yield paragraph, names


def statements(text):
    """What a file's open laws state: from the name to the next line that stands no deeper, and the lines of the modules around it."""
    lines = text.split("\n")

    def depth(line):
        return len(line) - len(line.lstrip())

    def whole(k):
        end = k + 1
        while end < len(lines) and (not lines[end].strip() or depth(lines[end]) > depth(lines[k])):
            end += 1
        return "\n".join(lines[k:end])

    for k, line in enumerate(lines):
        if re.match(r"[ \t]*(?:(?:abbrev|unfoldable) )?pub ", line):
            yield whole(k)
            deep = depth(line)
            for up in range(k - 1, -1, -1):
                if lines[up].strip() and depth(lines[up]) < deep:
                    deep = depth(lines[up])
                    if lines[up].lstrip().startswith("module "):
                        yield whole(up).split("where")[0]


def promises(known):
    """The statements of the roofs, module lines among them, and the promises of functions: each as a text, with the files whose names stand in it."""
    for (crate, folder, name), text in known.items():
        if crate in ("demands", "orders", "lines"):
            near = seen_from(text) | {(crate, folder, name)}
            if folder == "specs":
                yield text, near
            else:
                for statement in statements(text):
                    yield statement, near
    with open(os.path.join(TOP, "README.md"), encoding="utf-8") as f:
        rooms = re.findall(r"^\| `(\w+)` \| open \|", f.read(), re.M)
    for crate in rooms + list(LISTING):
        folder = os.path.join(TOP, "crates", crate, "src")
        for name in os.listdir(folder):
            with open(os.path.join(folder, name), encoding="utf-8") as f:
                text = f.read()
            is_open, inside = crate in LISTING, None
            for line in text.split("\n"):
                if re.match(r"\s*(?:pub(?:\(crate\))? )?(?:extern \"C\" )?fn ", line):
                    is_open = crate in LISTING or line.lstrip().startswith("pub ")
                elif re.match(r"\s*ensures\b", line) and is_open:
                    inside = len(line) - len(line.lstrip())
                elif inside is not None and line.strip() and len(line) - len(line.lstrip()) <= inside and not line.lstrip().startswith("}"):
                    inside = None
                if inside is not None:
                    yield line, seen_from(text)


def reached():
    """The declarations, by file and name, that stand in a promise at any remove."""
    known = dict(texts())
    holds = {}
    for where, text in known.items():
        for paragraph, names in declarations(text):
            for name in names:
                defines = where[1] == "specs" or re.match(r"\s*(?:pub )?(?:abbrev|unfoldable|record|data)\b", paragraph)
                holds.setdefault(where, {}).setdefault(name, []).append(paragraph if defines else "")
    left, seen = list(promises(known)), set()
    while left:
        text, near = left.pop()
        words = set(APART.split(text))
        for where in near & holds.keys():
            for name in words & holds[where].keys():
                if where + (name,) not in seen:
                    seen.add(where + (name,))
                    left += [(more, seen_from(known[where]) | {where}) for more in holds[where][name]]
    return seen


def main():
    believed = tool()
    known = believed.read(believed.ROOT)
    must, told = believed.believed(known), reached()
    wrong = ["%s %s: `%s` must be believed, and the paper leaves it out" % one for one in sorted(ONCE_LOST - must)]
    tried = {True: 0, False: 0}
    for (crate, name), file in known.items():
        for part in file.parts if not name.startswith("proofs/") else ():
            is_believed = (crate, name, part) in must
            tried[is_believed] += 1
            if is_believed != ((crate, "specs", name, part) in told):
                wrong.append("%s %s: `%s` is listed as %s" % (crate, name, part, "believed, and no promise changes with it" if is_believed else "the design's, and a promise changes with it"))
    if min(tried.values()) < 50:
        wrong.append("only %d and %d definitions were tried" % (tried[True], tried[False]))
    for line in wrong:
        print(line)
    print("believed: %s" % ("%d wrong" % len(wrong) if wrong else "%d definitions change a promise, %d change none, as the paper says" % (tried[True], tried[False])))
    return 1 if wrong else 0


if __name__ == "__main__":
    sys.exit(main())
