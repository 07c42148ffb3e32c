#!/usr/bin/env python3
"""Makes the packs of the real rules, the lines that document 01 refuses left out.

    tests/real.py FOLDER OUT

FOLDER holds the rule files (oracle/rules fetches them); OUT gets ash.pack, gen.pack and sep.pack. A guessing line with a comment
behind it loses the comment; any other line that is refused is dropped. What was dropped is counted by its code.
"""
import collections
import os
import sys

import second

TYPES = ("ash", "gen", "sep")


def files_of(folder, prefix):
    found = {}
    for name in os.listdir(folder):
        if name.startswith(prefix + "_"):
            with open(os.path.join(folder, name), "rb") as file:
                found[name[:-len(".txt")]] = file.read().split(b"\n")
    guessing = prefix + "_lang"
    found[guessing] = [line if line.startswith(b"//") else line.split(b"//")[0] for line in found[guessing]]
    return found


def pack_of(number, files):
    """The pack, and how many lines were dropped by code."""
    dropped = collections.Counter()
    names = sorted(files, key=str.encode)
    while True:
        answer = second.load(number, second.bundle_bytes({name: b"\n".join(files[name]) for name in names}))
        if answer[0] == 0:
            return answer[1], dropped
        code, line, file = answer
        if line == 0:
            sys.exit("refused as a whole: %d" % code)
        files[names[file]][line - 1] = b""
        dropped[code] += 1


def main(folder, out):
    os.makedirs(out, exist_ok=True)
    for number, prefix in enumerate(TYPES):
        pack, dropped = pack_of(number, files_of(folder, prefix))
        with open(os.path.join(out, prefix + ".pack"), "wb") as file:
            file.write(pack)
        print("%s: %d bytes, dropped %s" % (prefix, len(pack), dict(dropped)))


if __name__ == "__main__":
    if len(sys.argv) != 3:
        sys.exit(__doc__)
    main(*sys.argv[1:])
