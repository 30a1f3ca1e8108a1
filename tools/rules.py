"""The rules (docs/RULES.md), what stands for each of them (docs/promises.txt), and what is written and held to them: docs/PROMISES.md, citations, the audit.

docs/promises.txt has a block for each rule, and one for each call open to callers, apart by empty lines; a line that starts with # is a remark on the file, one that
starts with two spaces goes on with the line before it.

    S8
    definition: sheet Order placeOk, orderOk          a crate, a file of its specs/ (or `src`), and names that it declares
    proved: sheet::open_no                            a function of a crate, for its contract
    proved: sheet order_rank, one_place -- a remark   laws that a file of the crate's proofs/ declares; or a file there: `demands Once`
    tested: try_sheets -- a remark                    a program; a file of the repository, with its arguments or with "words" that stand in it; `plane Examples`
    refused: sheet/loose_box                          a must-fail edit; or a refutation, `refuted NAME`; or `by definition`
    form: words                                       which form a type or a function has, in words
    note: words                                       what else is to be said, in words

    call pack::pack
    tried: words                                      the wrong answers, each edit and refutation between backquotes
    by: words                                         what refuses them
    hands: words                                      of a call that only hands on: to which call, between backquotes
"""
import os
import re
import textwrap

LONGEST = 160
RULES, SOURCE, PAPER = "docs/RULES.md", "docs/promises.txt", "docs/PROMISES.md"
FIELDS = ["definition", "proved", "tested", "refused", "form", "note"]
SHOWN = [("form", "Form"), ("definition", "Definition"), ("proved", "Proved by"), ("tested", "Tested by"), ("refused", "Refused")]
NUMBER = re.compile(r"[A-Z]{1,2}\d+")
RULE = re.compile(r"^- \*\*([A-Z]{1,2}\d+)\.\*\* (.*?)(?=^- |^#|^$|\Z)", re.M | re.S)
CITED = re.compile(r"\[([A-Z]{1,2}\d+(?:, [A-Z]{1,2}\d+)*)\]")
DECLARED = re.compile(r"^[ \t]*((?:(?:pub|unfoldable|abbrev|irrelevant|record|data)[ \t]+)*)([^\s:(){}=]+)(?=[ \t]+[:({]|[ \t]*$|[ \t]+where)", re.M)
IN_CODE = re.compile(r"^[ \t]*(?:pub(?:\(crate\))?[ \t]+)?(?:extern[ \t]+\"C\"[ \t]+)?(?:struct|enum|fn)[ \t]+(\w+)", re.M)

HEAD = """Written by `tools/promises` from [RULES.md](RULES.md) and [promises.txt](promises.txt): change those, not this. One entry for each rule. *Definition*: the
file of a crate's `specs/` that says it, or the code (`src`). *Proved by*: the contract (a function's name) or the law. *Tested by*: the program of the gate, the
computed table, or the test with the words in it. *Refused*: must-fail edits (`crate/label`), wrong programs that the checker refuses, and refutations, theorems
of the crate `refuted`, which tell a wrong reading from the right one; the comment in each says what it tries. The last part goes through the wrong answers tried of each
call."""
CALLS = """## Wrong answers tried, call by call

For each open call wrong answers of our own, besides those of the rules on wrong programs, each in the smallest crate that has the fact.
"""


# ---------------------------------------------------------------- what is read

class Part:
    """A part of the rules: its heading, and its rules by number."""

    def __init__(self, heading, rules):
        self.heading, self.rules = heading, rules


def parts_of(text):
    """The parts of RULES.md that have rules."""
    found = []
    for piece in re.split(r"^## ", text, flags=re.M)[1:]:
        heading, body = piece.split("\n", 1)
        rules = [(number, " ".join(sentence.split())) for number, sentence in RULE.findall(body)]
        if rules:
            found.append(Part(heading.strip(), rules))
    return found


def numbers_of(text):
    return [number for part in parts_of(text) for number, _ in part.rules]


def blocks_of(text):
    """The blocks of promises.txt in their order: what each is of, and its lines as (field, what)."""
    blocks = []
    for piece in re.split(r"\n[ \t]*\n", text):
        whole = re.sub(r"\n  +", " ", "\n".join(line for line in piece.splitlines() if line.strip() and not line.startswith("#")))
        lines = [line.strip() for line in whole.splitlines()]
        if lines:
            blocks.append((lines[0], [tuple(part.strip() for part in line.partition(":")[::2]) for line in lines[1:]]))
    return blocks


def remarked(what):
    """What is named, and the remark on it."""
    named, _, remark = what.partition(" -- ")
    return named.strip(), remark.strip()


class Named:
    """One thing that a line names: its kind, its crate, the file that it is sought in (or none), its name."""

    def __init__(self, kind, crate, where, name):
        self.kind, self.crate, self.where, self.name = kind, crate, where, name

    def said(self):
        """As a line would name it alone."""
        if self.kind == "test":
            return self.where + (' "%s"' % self.name if self.name else "")
        apart = {"contract": "::", "edit": "/"}.get(self.kind, " ")
        return apart.join(part for part in (self.crate, self.where, self.name) if part)


def names_of(field, what):
    """The things that a line names."""
    named, _ = remarked(what)
    words = named.split(None, 2)
    if field == "definition":
        return [Named("definition", words[0], words[1], name.strip()) for name in (words[2] if len(words) > 2 else "").split(",")] if len(words) > 1 else [Named("definition", "", "", named)]
    if field == "proved":
        if "::" in words[0]:
            return [Named("contract", one.strip().split("::")[0], None, one.strip().split("::")[-1]) for one in named.split(",")]
        crate, rest = (named.split(None, 1) + [""])[:2]
        return [Named("file" if name.strip()[:1].isupper() else "law", crate, None, name.strip()) for name in rest.split(",")]
    if field == "tested":
        if "/" in words[0]:
            quoted = re.search(r'"(.*)"', named)
            return [Named("test", None, words[0], quoted.group(1) if quoted else None)]
        return [Named("examples", words[0], None, words[1])] if len(words) == 2 else [Named("program", one.strip(), None, None) for one in named.split(",")]
    if field == "refused":
        found = []
        for one in named.split(","):
            one = one.strip()
            if one.startswith("refuted "):
                found.append(Named("refutation", "refuted", None, one.split(None, 1)[1]))
            elif one != "by definition":
                found.append(Named("edit", one.split("/")[0], None, one.split("/")[-1]))
        return found
    return []


# ---------------------------------------------------------------- what is written

def code(name):
    return "`%s`" % name


class Links:
    """What PROMISES.md links to: each label with its file and line, in the order in which they come."""

    def __init__(self, tree):
        self.tree, self.places = tree, {}

    def to(self, shown, one):
        """A name as the paper shows it, linked to where it stands; unlinked where it stands nowhere."""
        homes = self.tree.homes(one)
        if not homes:
            return shown
        label = re.sub(r"[^\w.:/-]", "-", ".".join(part for part in (one.crate, one.where, one.name) if part))
        self.places[label] = "../%s%s" % (homes[0], self.tree.line(homes[0], one))
        return "[%s][%s]" % (shown, label)

    def definitions(self):
        return "".join("[%s]: %s\n" % place for place in sorted(self.places.items()))


def told(field, what, links):
    """A line of the source as PROMISES.md has it."""
    named, remark = remarked(what)
    words = named.split(None, 2)
    if field in ("form", "note"):
        return what
    ones = names_of(field, what)
    if field == "definition":
        text = "`%s` %s %s" % (words[0], words[1], ", ".join(links.to(code(one.name), one) for one in ones)) if len(words) > 2 else named
    elif field == "proved" and "::" not in words[0]:
        linked = ", ".join(links.to(one.name if one.kind == "file" else code(one.name), one) for one in ones)
        text = "`%s` %s" % (words[0], linked) if ones[0].kind == "file" else "%s of `%s`" % (linked, words[0])
    elif field == "tested" and "/" not in words[0] and len(words) == 2:
        text = "`%s` %s" % (words[0], links.to(words[1], ones[0]))
    elif field == "tested" and '"' in named:
        text = "%s, %s" % (links.to(code(words[0]), ones[0]), named.split(None, 1)[1])
    elif named == "by definition":
        text = named
    else:
        parts = [name.strip() for name in named.split(",")]
        linkable = iter(ones)
        text = ", ".join(name if name == "by definition" else links.to(code(name), next(linkable)) for name in parts)
    return text + (" (%s)" % remark if remark and field == "tested" else ": " + remark if remark else "")


def wrapped(text, **indents):
    """A text in lines of at most so many bytes, which are no more characters."""
    wide = re.sub(r"[^\x00-\x7f]", lambda found: found.group(0) + "\1" * (len(found.group(0).encode()) - 1), text)
    return textwrap.fill(wide, LONGEST, break_long_words=False, break_on_hyphens=False, **indents).replace("\1", "")


def filled(text):
    """An entry in lines; what stands between backquotes, and a title, is in one line."""
    whole = re.sub(r"\[?`[^`]*`(?:\]\[[^\]]*\])?|\*[A-Z][a-z]+ [a-z]+\*", lambda found: found.group(0).replace(" ", "\0"), text)
    return wrapped(whole, initial_indent="- ", subsequent_indent="  ").replace("\0", " ")


def entry(number, sentence, lines, links):
    text = "**%s. %s**" % (number, sentence)
    for field, title in SHOWN:
        of_it = [told(field, what, links) for name, what in lines if name == field]
        if of_it:
            text += " *%s*: %s." % (title, "; ".join(of_it).rstrip("."))
    for name, what in lines:
        if name == "note":
            text += " " + what
    return filled(text)


def linked_calls(text, links):
    """A text in which each refutation and each edit between backquotes is linked."""
    def one(found):
        name = found.group(1)
        named = names_of("refused", name)
        return links.to(found.group(0), named[0]) if named and re.fullmatch(r"refuted [\w-]+|\w+/\w+", name) else found.group(0)
    return re.sub(r"`([^`]*)`", one, text)


def written(tree):
    """PROMISES.md."""
    rules, blocks, links = tree.text(RULES), blocks_of(tree.text(SOURCE)), Links(tree)
    of_rule = dict((of, lines) for of, lines in blocks if NUMBER.fullmatch(of))
    pieces = ["# What is promised, where it is defined, what proves it, what tests it\n", wrapped(HEAD) + "\n"]
    for part in parts_of(rules):
        pieces.append("## %s\n\n%s\n" % (part.heading, "\n".join(entry(number, sentence, of_rule.get(number, []), links) for number, sentence in part.rules)))
    calls = []
    for of, lines in blocks:
        if of.startswith("call "):
            text = "**%s.**" % ", ".join(code(call.strip()) for call in of[5:].split(","))
            for field, title in (("tried", "Wrong answers"), ("by", "Refused by"), ("hands", "Hands on to")):
                of_it = [what for name, what in lines if name == field]
                if of_it:
                    text += " *%s*: %s" % (title, linked_calls(" ".join(of_it), links))
            calls.append(filled(text))
    if calls:
        pieces.append(CALLS + "\n" + "\n".join(calls) + "\n")
    return "\n".join(pieces + [links.definitions()] if links.places else pieces)


# ---------------------------------------------------------------- what there is

class Tree:
    """The files of a repository, and what they declare."""

    def __init__(self, root, files):
        self.root, self.files, self.all, self.texts, self.declares = root, files, set(files), {}, {}

    def text(self, name):
        if name not in self.texts:
            try:
                with open(os.path.join(self.root, name), encoding="utf-8") as f:
                    self.texts[name] = f.read()
            except (UnicodeDecodeError, FileNotFoundError):
                self.texts[name] = ""
        return self.texts[name]

    def under(self, folder, ending):
        return [f for f in self.files if f.startswith(folder + "/") and f.endswith(ending)]

    def declared(self, name):
        """The names that a file declares."""
        if name not in self.declares:
            text = self.text(name)
            self.declares[name] = set(IN_CODE.findall(text)) if name.endswith(".rt") else {found.group(2) for found in DECLARED.finditer(text)}
        return self.declares[name]

    def line(self, name, one):
        """The line at which a named thing stands in a file, as a link has it; empty where it is the file itself."""
        lines = self.text(name).split("\n")
        if one.kind == "test" and one.name:
            return "#L%d" % (1 + self.text(name)[:self.text(name).index(one.name)].count("\n"))
        if one.kind not in ("definition", "contract", "law", "refutation"):
            return ""
        declared = IN_CODE if name.endswith(".rt") else DECLARED
        there = [(not re.match(r"[ \t]*(?:\w+ )*pub ", line), k) for k, line in enumerate(lines, 1) for found in [declared.match(line)] if found and found.groups()[-1] == one.name]
        return "#L%d" % min(there)[1]

    def homes(self, one):
        """The files in which a named thing stands; empty where it does not exist."""
        crate = "crates/%s" % one.crate
        if one.kind == "definition":
            of = self.under(crate + "/src", ".rt") if one.where == "src" else ["%s/specs/%s.antt" % (crate, one.where)]
            return [f for f in of if f in self.all and one.name in self.declared(f)]
        if one.kind == "contract":
            return [f for f in self.under(crate + "/src", ".rt") if one.name in self.declared(f)]
        if one.kind in ("law", "refutation"):
            return [f for f in self.under(crate + "/proofs", ".antt") if one.name in self.declared(f)]
        if one.kind in ("file", "examples"):
            return [f for f in ("%s/proofs/%s.antt" % (crate, one.name), "%s/specs/%s.antt" % (crate, one.name)) if f in self.all]
        if one.kind == "program":
            return [f for f in (crate + "/src/main.rt",) if f in self.all]
        if one.kind == "edit":
            return [f for f in ("%s/must-fail/%s.edit" % (crate, one.name),) if f in self.all]
        return [f for f in (one.where,) if f in self.all and (one.name is None or one.name in self.text(f))]


# ---------------------------------------------------------------- citations

MARKS = {"antt": "--", "rt": "//", "py": "#", "edit": "#"}
MARKED = re.compile(r"^crates/\w+/(?:specs/.*\.antt|src/.*\.rt|must-fail/.*\.edit)$|^crates/(?:demands|refuted)/proofs/.*\.antt$|^tests/\w+\.py$")
WIDEST = {"antt": 178, "rt": 178, "py": 160, "edit": 400}


def mark_of(name):
    return MARKS.get(name.rsplit(".", 1)[-1])


def uncited(line, mark):
    """A comment without the citation at its end; none where it was nothing else."""
    found = re.match(r"^([ \t]*%s.*?)[ \t]*\[[A-Z]{1,2}\d+(?:, [A-Z]{1,2}\d+)*\]$" % re.escape(mark), line)
    if not found:
        return line
    return None if found.group(1).strip() == mark else found.group(1)


def anchors(tree):
    """Where citations belong: of each file, what each stands at (a name, the words of a comment, or the file's first comment) and the numbers."""
    found = {}
    for of, lines in blocks_of(tree.text(SOURCE)):
        for one in (one for field, what in lines for one in names_of(field, what)) if NUMBER.fullmatch(of) else ():
            if one.kind in ("definition", "refutation", "edit") or one.crate == "demands" and one.kind in ("law", "file") or one.kind == "test" and one.name:
                at = (one.kind, None if one.kind in ("edit", "file") else one.name)
                homes = tree.homes(one)
                for home in [h for h in homes if MARKED.match(h)][:None if one.kind == "law" else 1]:
                    found.setdefault(home, {}).setdefault(at, []).append(of)
    return found


def line_of(lines, at, name):
    """The line after the comment that a citation belongs to, or none."""
    kind, what = at
    mark = mark_of(name)
    if kind in ("edit", "file"):
        end = 0
        while kind == "file" and end < len(lines) and lines[end].startswith(mark):
            end += 1
        return end or 1
    if kind == "test":
        for k, line in enumerate(lines):
            if line.strip().startswith(mark) and what in line:
                while k < len(lines) and lines[k].strip().startswith(mark):
                    k += 1
                return k
        return None
    declared = IN_CODE if name.endswith(".rt") else DECLARED
    there = []
    for k, line in enumerate(lines):
        found = declared.match(line)
        if found and found.groups()[-1] == what:
            there.append((not re.match(r"[ \t]*(?:\w+ )*pub ", line), k))
    if not there:
        return None
    k = min(there)[1]
    while k > 0 and lines[k - 1].strip().startswith("#["):
        k -= 1
    # of a refutation the comment may stand above the wrong definition before it
    up = k
    while kind == "refutation" and up > 1 and not re.match(r"(?:pub )?\S+_wrong\b", lines[up - 1]):
        if lines[up - 1].startswith(mark):
            return k if lines[up - 1].startswith(mark + " --") else up
        up -= 1
    return k


def cited(tree):
    """The files whose citations are not as they should be, each as it should be."""
    order = {number: k for k, number in enumerate(numbers_of(tree.text(RULES)))}
    belong, changed = anchors(tree), {}
    for name in tree.files:
        if not MARKED.match(name):
            continue
        mark, text = mark_of(name), tree.text(name)
        lines = [line for line in (uncited(line, mark) for line in text.split("\n")) if line is not None]
        ends = {}
        for at, numbers in belong.get(name, {}).items():
            k = line_of(lines, at, name)
            if k is not None:
                ends.setdefault(k, set()).update(numbers)
        for k in sorted(ends, reverse=True):
            cite = "[%s]" % ", ".join(sorted(ends[k], key=lambda number: order.get(number, len(order))))
            above = lines[k - 1] if k else ""
            if above.strip().startswith(mark) and len(above) + 1 + len(cite) <= WIDEST[name.rsplit(".", 1)[-1]]:
                lines[k - 1] = "%s %s" % (above, cite)
            else:
                before = above if above.strip().startswith(mark) else lines[k] if k < len(lines) else ""
                lines.insert(k, "%s%s %s" % (re.match(r"[ \t]*", before).group(0), mark, cite))
        if "\n".join(lines) != text:
            changed[name] = "\n".join(lines)
    return changed


# ---------------------------------------------------------------- the audit's rules

def commented(name, text):
    """The comments of a file, each with its line."""
    mark = mark_of(name)
    if mark:
        for number, line in enumerate(text.splitlines(), 1):
            if mark in line:
                yield number, line[line.index(mark):]


def broken(root, files):
    """Where the rules on the rules are broken."""
    tree, wrong = Tree(root, files), []
    rules, source = tree.text(RULES), tree.text(SOURCE)
    numbers, seen = numbers_of(rules), {}
    for number in sorted({n for n in numbers if numbers.count(n) > 1}):
        wrong.append("%s: two rules have the number %s" % (RULES, number))
    for part in parts_of(rules):
        for number, sentence in part.rules:
            wrong += ["%s: %s speaks of %s, which is no rule" % (RULES, number, other) for other in re.findall(r"\b[A-Z]{1,2}\d+\b", sentence) if other not in numbers]
    for of, lines in blocks_of(source):
        if of.startswith("call "):
            refuted = [name for _, what in lines for name in re.findall(r"`(refuted [^`]+)`", what)]
            wrong += ["%s: %s names `%s`, and there is none" % (SOURCE, of, name) for name in refuted if not tree.homes(names_of("refused", name)[0])]
            continue
        if of not in numbers:
            wrong.append("%s: %s is no rule" % (SOURCE, of))
        if of in seen:
            wrong.append("%s: two blocks of %s" % (SOURCE, of))
        seen[of] = lines
    for number in numbers:
        defined = held = False
        for field, what in seen.get(number, []):
            if field not in FIELDS:
                wrong.append("%s: %s has a line `%s`, which is no field" % (SOURCE, number, field))
            for one in names_of(field, what):
                if not tree.homes(one):
                    wrong.append("%s: %s names `%s`, and there is none" % (SOURCE, number, one.said()))
                elif one.kind == "definition":
                    defined = True
                else:
                    held = True
        if not defined:
            wrong.append("%s: the rule %s has no definition that exists" % (SOURCE, number))
        if not held:
            wrong.append("%s: the rule %s has no theorem, contract, refutation, edit or test that exists" % (SOURCE, number))
    for f in files:
        if f.split("/")[0] in ("crates", "tests"):
            for line, comment in commented(f, tree.text(f)):
                for cited in CITED.findall(comment):
                    wrong += ["%s:%d: cites %s, which is no rule" % (f, line, number) for number in cited.split(", ") if number not in numbers]
    if tree.text(PAPER) != written(tree):
        wrong.append("%s is not what tools/promises writes" % PAPER)
    return wrong
