"""What stands between the name of a function and its body in a source of Rattle: its parameters, its answer and its clauses."""
import re

FUNCTION = re.compile(r'^[ \t]*(pub(?:\(crate\))?\s+)?(?:const\s+)?(?:extern\s+"C"\s+)?fn\s+(\w+)', re.M)
CLAUSE = re.compile(r"\b(requires|ensures|decreases|invariant|measure)\b[ \t]*([\w']*)\s*$")


def without_comments(text):
    return re.sub(r"//[^\n]*", "", text)


def closed(text, at):
    """The place after the brace that closes the one at this place."""
    depth = 0
    for k in range(at, len(text)):
        depth += {"{": 1, "}": -1}.get(text[k], 0)
        if not depth:
            return k + 1
    return len(text)


class Head:
    """A function: whether it is open to other crates, its name, where it starts and in which line, all that stands between its name and its body, of it
    what stands before the clauses, and these as (kind, name, text)."""

    def __init__(self, text, found):
        self.open, self.name, self.start = (found.group(1) or "").strip() == "pub", found.group(2), found.start()
        self.line = text.count("\n", 0, found.start()) + 1
        at, self.clauses, first = found.end(), [], None
        while True:
            brace, semicolon = text.find("{", at), text.find(";", at)
            clause = CLAUSE.search(text, at, brace) if brace >= 0 else None
            if not clause:
                # a trait's function without a body ends with a semicolon; one in the length of an array is no end
                ends = [place for place in (brace, semicolon if not re.search(r"\[[^\[\]]*$", text[at:max(semicolon, at)]) else -1) if place >= 0]
                self.end = min(ends, default=len(text))
                break
            end = closed(text, brace)
            self.clauses.append((clause.group(1), clause.group(2), text[brace + 1:end - 1]))
            first = clause.start() if first is None else first
            at = end
        self.text, self.before = text[found.end():self.end], text[found.end():self.end if first is None else first]

    def says(self, kind):
        """Whether there is a clause of this kind."""
        return any(one == kind for one, _, _ in self.clauses)


def heads(text):
    """The functions of a text without comments."""
    return [Head(text, found) for found in FUNCTION.finditer(text)]
