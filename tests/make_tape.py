#!/usr/bin/env python3
"""The tape of crates/trial, in parts: the checked examples of document 01 first.

    make_tape.py          writes crates/trial/stdin and stdout, after a change of the rules or of a generator
"""
import make_contractors
import make_examples
import make_many
import make_near
import make_pages
import make_ranked
import make_runs
import make_sheets
import make_shortest
import make_views
import make_walks
from stored import Cases

GENERATORS = [make_examples, make_sheets, make_walks, make_pages, make_contractors, make_runs, make_shortest, make_near, make_views, make_many, make_ranked]


def joined(parts):
    """The whole tape, of its parts."""
    tape = Cases("trial")
    for part in parts:
        tape.join(part)
    return tape


if __name__ == "__main__":
    joined([generator.cases() for generator in GENERATORS]).store()
