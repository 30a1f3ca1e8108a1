#!/bin/sh
# Ring pairs from the command line: ./ring --help, and ./ring COMMAND --help for each command with an example. What it does is python/ring/command.py; a directory
# for standard input is told here, since no Python program starts on one.
[ ! -d /dev/stdin ] || { echo "ring: standard input: Is a directory" >&2; exit 3; }
exec python3 "$(dirname "$(readlink -f "$0")")/python/ring" "$@"
