"""What the papers name, held to what is there: links, paths of files, modules and functions, files of definitions and laws.

Papers are README.md, tests/README.md and docs/*.md. Of docs/CHANGES.md, docs/PORT.md and docs/DESIGN-PASS.md only the links are held: they say what was so at each landing, before the port and before the design pass, and names go later.
"""
import os
import re

HISTORY = ("docs/CHANGES.md", "docs/PORT.md", "docs/DESIGN-PASS.md")
LINK = re.compile(r"\[[^\]\n]*\]\(([^)\s]+)\)|^\[[^\]\n]+\]: (\S+)$", re.M)
QUOTED = re.compile(r"`([^`\n]+)`")
# `walk` proofs/WalkLaws, FilterCode
ROOM = re.compile(r"`(\w+)` (specs|proofs)/([A-Z]\w*(?:,\s+[A-Z]\w*)*)")
NAMED = re.compile(r"([a-z_0-9]+)((?:::\w+)+)")
DECLARES = r"^[ \t]*(?:pub(?:\(crate\))?[ \t]+)?(?:extern[ \t]+\"C\"[ \t]+)?(?:struct|enum|impl|fn|const|mod)[ \t]+%s\b|^[ \t]+%s[,(]"


def is_paper(name):
    return name in ("README.md", "tests/README.md") or re.fullmatch(r"docs/\w[\w.-]*\.md", name) is not None


def stands(name, files):
    """Whether a path is a tracked file or a folder of some; `*` is any part of a name."""
    plain = name.rstrip("/")
    pattern = re.compile(re.escape(plain).replace(r"\*", "[^/]*") + r"(?:/.*)?")
    return any(pattern.fullmatch(one) for one in files)


def declared(crate, path, texts):
    """Whether a crate has what a path names: modules first, then a type or a function, of which the last part stands in the file of the module before it."""
    parts = path.strip(":").split("::")
    folder, place = "crates/%s/src/" % crate, None
    while parts and "%s%s.rt" % (folder, parts[0]) in texts:
        place = "%s%s.rt" % (folder, parts.pop(0))
    homes = [place] if place else [name for name in texts if name.startswith(folder)]
    return all(any(re.search(DECLARES % (part, part), texts[home], re.M) for home in homes) for part in parts)


def broken(files, read):
    """Where a paper names what is not there."""
    wrong, crates = [], {name.split("/")[1] for name in files if name.startswith("crates/")}
    tops = {name.split("/")[0] for name in files if "/" in name}
    texts = {name: read(name) for name in files if re.fullmatch(r"crates/\w+/src/\w+\.rt", name)}
    for paper in filter(is_paper, files):
        text = read(paper)

        def line(found):
            return "%s:%d" % (paper, text.count("\n", 0, found.start()) + 1)
        for found in LINK.finditer(text):
            target = (found.group(1) or found.group(2)).split("#")[0]
            if target and "://" not in target and not stands(os.path.normpath(os.path.join(os.path.dirname(paper), target)), files):
                wrong.append("%s: links to %s, which is not there" % (line(found), target))
        if paper in HISTORY:
            continue
        for found in QUOTED.finditer(text):
            word = found.group(1).split()[0].rstrip(",;:.").removeprefix("./")
            if re.fullmatch(r"[\w./*-]+", word) and "/" in word and word.split("/")[0] in tops and not stands(word, files):
                wrong.append("%s: names the path %s, which is not there" % (line(found), word))
            named = NAMED.match(found.group(1))
            if named and named.group(1) in crates and not declared(named.group(1), named.group(2), texts):
                wrong.append("%s: names %s, which is not there" % (line(found), named.group(0)))
            elif named and named.group(1) not in crates:
                wrong.append("%s: names %s, and %s is no crate" % (line(found), named.group(0), named.group(1)))
        for found in ROOM.finditer(text):
            for name in re.split(r",\s+", found.group(3)):
                if not stands("crates/%s/%s/%s.antt" % (found.group(1), found.group(2), name), files):
                    wrong.append("%s: names `%s` %s/%s, which is not there" % (line(found), found.group(1), found.group(2), name))
    return wrong
