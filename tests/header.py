#!/usr/bin/env python3
"""Holds include/ring.h to docs/API.md and to the source.

To the API: the numbers of refusal of each call, in order, taken from the call whose whole path it says it is; in the list at the header's end, each number with the calls that give it; the names of each call's
parameters. To the source: the types of each call's parameters and answer; of each struct the names and types of its fields, in order.

    tests/header.py    says where they differ, and exits with 1 then
"""
import os
import re
import sys

TOP = os.path.dirname(os.path.dirname(os.path.abspath(__file__)))
ENTRY = re.compile(r"^- \*\*`([^`]*)`\*\*\n((?:  .*\n?)*)", re.M)
PART = re.compile(r"^  - ([^:]*): ((?:.*\n?)(?:    .*\n?)*)", re.M)
GROUND = re.compile(r"(?:^|; )(\d+)(?: to (\d+))?\b(?!,\d)")
CALL = re.compile(r"/\*((?:(?!\*/).)*)\*/\n\w+ (ring_\w+)\(", re.S)
GIVEN = re.compile(r"(?:Refused\s+|then |; |, )(\d+)(?: to (\d+))?\b(?!,\d)")
LISTED = re.compile(r"^ \* +(\d+)  ((?:.*\n)(?: \*       .*\n)*)", re.M)
SHEET = "a sheet"
DECLARED = re.compile(r"^(\w+) (ring_\w+)\(([^)]*)\);", re.M)
LAID_OUT = re.compile(r"^typedef struct (\w+) \{\n([^}]*)\}", re.M)
EXPORTED = re.compile(r'^pub extern "C" fn (ring_\w+)(?:<[^>]*>)?\(([^)]*)\)\s*->\s*((?:\w+::)*\w+)', re.M)
STRUCT = re.compile(r"^#\[repr\(C\)\]\n(?:#\[.*\]\n)*pub struct (\w+) \{\n([^}]*)\}", re.M)
FIELD = re.compile(r"^    pub (\w+): (.*),$", re.M)
# what a type of the source is called over C; any other has `Ring` before its name
NAMES = {"u8": "uint8_t", "u32": "uint32_t", "i32": "int32_t", "u64": "uint64_t", "usize": "size_t", "bool": "bool", "f64": "double", "HeadAnswer": "RingHead",
         "PointAnswer": "RingPoint", "WalkAnswer": "RingWalked", "BookAnswer": "RingBegun", "KeyAnswer": "RingNext", "MarkAnswer": "RingMarker",
         "StoreAnswer": "RingStored", "Partnered": "RingPartners", "Question": "RingAsked"}


def read(name):
    with open(os.path.join(TOP, name), encoding="utf-8") as f:
        return f.read()


def numbers(found):
    """The numbers of pairs of texts, the second empty where it is one number."""
    return [n for low, high in found for n in range(int(low), int(high or low) + 1)]


def of_papers(api):
    """The numbers of each C call, in order, as the API has them of the call that it is; and the names of its parameters."""
    refused, over, named = {}, {}, {}
    for call, text in ENTRY.findall(api):
        name = re.match(r"[\w:]*", call).group(0)
        parts = {what: " ".join(said.split()) for what, said in PART.findall(text)}
        if "is" in parts:
            over[name] = parts["is"].strip("`")
            named[name] = re.findall(r"\w+", call)[1:]
        elif "refusals, in order" in parts:
            refused[name] = numbers(GROUND.findall(parts["refusals, in order"]))
    return {name: refused.get(call, "nothing of %s" % call) for name, call in over.items()}, named


def numbers_wrong(papers, header):
    calls, wrong = {}, []
    for comment, name in CALL.findall(header):
        text = " ".join(re.sub(r"^ \*", "", comment, flags=re.M).split())
        calls[name] = numbers(GIVEN.findall(text[text.index("Refused"):] if "Refused" in text else ""))
    for name in sorted(set(papers) | set(calls)):
        if papers.get(name) != calls.get(name):
            wrong.append("%s: the header has %s, the API %s" % (name, calls.get(name), papers.get(name)))
    papers = {name: [] if isinstance(given, str) else given for name, given in papers.items()}
    sheets = {name for name, given in papers.items() if given[:8] == list(range(1, 9))}
    end = header[header.rindex("The numbers of refusal"):]
    listed = {}
    for number, text in LISTED.findall(end):
        named = set(re.findall(r"\bring_\w+", text))
        listed[int(number)] = named | (sheets if SHEET in text else set())
    for number in sorted(set(listed) | {n for given in papers.values() for n in given}):
        giving = {name for name, given in papers.items() if number in given}
        if listed.get(number) != giving:
            wrong.append("%d: the header's list has it of %s, the API of %s" % (number, sorted(listed.get(number, ())) or "no call", sorted(giving) or "no call"))
    return wrong


def split(text):
    """The type and the name of each parameter or field of a C text, an array's length with its type."""
    parts = re.findall(r"((?:const )?\w+ \*?)(\w+)(\[\d+\])?", " ".join(text.split()))
    return [(kind.strip() + size, name) for kind, name, size in parts]


def over_c(kind):
    """The types that a type of the source goes by over C: a slice as a pointer and a number of elements."""
    kind = re.sub(r"\w+::|'\w+ ", "", kind)
    kind, size = re.fullmatch(r"\[(\w+); (\d+)\]", kind).groups() if kind[0] == "[" else (kind, "")
    lent = re.fullmatch(r"&(mut )?\[(\w+)\]", kind)
    if lent:
        return ["%s%s *" % ("" if lent.group(1) else "const ", NAMES.get(lent.group(2), "Ring" + lent.group(2))), "size_t"]
    return [NAMES.get(kind, "Ring" + kind) + ("[%s]" % size if size else "")]


def layout_wrong(named, header, source):
    """Calls and structs of the header that are not those of the API or of the source."""
    wrong = []
    declared = {name: (answer, split(given)) for answer, name, given in DECLARED.findall(header)}
    exported = {}
    for name, given, answer in EXPORTED.findall(source):
        kinds = [kind for one in re.findall(r"\w+: ([^,]+)", given) for kind in over_c(one.strip())]
        exported[name] = (over_c(answer)[0], kinds)
    for name in sorted(set(declared) | set(exported) | set(named)):
        answer, given = declared.get(name, ("", []))
        if [what for _, what in given] != named.get(name):
            wrong.append("%s: the header's parameters are not the API's" % name)
        if (answer, [kind for kind, _ in given]) != exported.get(name):
            wrong.append("%s: the header's types are not the source's" % name)
    made = {over_c(name)[0]: [(over_c(kind)[0], what) for what, kind in FIELD.findall(fields)] for name, fields in STRUCT.findall(source)}
    for name, fields in LAID_OUT.findall(header):
        if split(fields) != made.get(name):
            wrong.append("%s: the header's fields are not the source's" % name)
    return wrong


def differences(api, header, source):
    papers, named = of_papers(api)
    return numbers_wrong(papers, header) + layout_wrong(named, header, source)


def main():
    api, header = read("docs/API.md"), read("include/ring.h")
    source = "\n".join(read("crates/%s/src/lib.rt" % crate) for crate in ("list", "book", "depot", "ring", "runs", "shortest", "nearest", "many", "ranked", "ffi", "ffi_c")
                       if os.path.exists(os.path.join(TOP, "crates", crate)))
    wrong = differences(api, header, source)
    # what is left out or changed must be told: a number of the list, a call of a number, a number of a call, a parameter, its type or name, a field, its type or name
    for lost, put in ((" *   25 ", ""), ("; more pairs than slots (ring_leaf_run)", ""), (", then 21,", ""), (", uint64_t *bits, size_t bits_len)", ")"),
                      ("RingPair *slots", "const RingPair *slots"), ("size_t words_len", "size_t length"), ("    uint32_t form;\n", ""), ("    size_t count;\n", "    uint32_t count;\n"),
                      ("    size_t m;\n", "    size_t nodes;\n")):
        if header.count(lost) < 1 or not differences(api, header.replace(lost, put, 1), source):
            wrong.append("a header with `%s` for `%s` is not told" % (put, lost))
    # so must a path whose module is another's
    if not differences(api.replace("- **`ring::reader::point(", "- **`ring::point::point(", 1), header, source):
        wrong.append("a call of the API under another module's path is not told")
    for line in wrong:
        print(line)
    print("header: %s" % ("%d wrong" % len(wrong) if wrong else "its numbers and names are the API's, its types and fields the source's"))
    return 1 if wrong else 0


if __name__ == "__main__":
    sys.exit(main())
