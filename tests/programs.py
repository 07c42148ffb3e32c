#!/usr/bin/env python3
"""Holds the programs bundle and load against the second check.

    tests/programs.py [--folders N] [--seed N] [--real]

Tried are edges made by hand (sizes, counts, names, files that are missing or cannot be read), N random folders with includes, and with
--real the real rules (oracle/rules fetches them), as they are and less the lines that document 01 refuses. Every difference is printed,
then how many folders were tried; the exit status is 1 where there is a difference.
"""
import argparse
import os
import random
import subprocess
import sys
import tempfile

HERE = os.path.dirname(os.path.abspath(__file__))
ROOT = os.path.dirname(HERE)
sys.path.insert(0, HERE)
import real  # noqa: E402
import second  # noqa: E402

REAL_RULES = os.path.join(ROOT, "oracle", "made", "rules")
MOST = 1 << 20
OLD = b"as it was"


def program(name, *words):
    """Status, standard output and standard error."""
    ran = subprocess.run([os.path.join(ROOT, "bin", name), *words], capture_output=True)
    return ran.returncode, ran.stdout.decode(), ran.stderr.decode("utf-8", "replace")


# ---- what the programs have to answer

def named_by(content, meaning):
    """What the lines of a file that can be read name."""
    found, lines = [], content.split(b"\n")
    while lines:
        try:
            numbers = list(second.told_lines(b"\n".join(lines)))
        except second.Refusal as refusal:                # an unclosed comment: its line is passed over
            before, lines = lines[:refusal.place - 1], lines[refusal.place:]
            numbers = list(second.told_lines(b"\n".join(before) + b"\n"))
        else:
            lines = []
        for _, text in numbers:
            try:
                found.append(meaning(text))
            except second.Refusal:
                pass
    return found


def included(text):
    match = second.INCLUDE_LINE.fullmatch(text)
    if match is None:
        raise second.Refusal(12)
    return match.group(1)


def needed(prefix, files):
    """The files of a folder that a bundle has."""
    start = prefix.encode()
    languages = named_by(files[start + b"_languages"], second.language_of_line)
    waiting = second.list_names(start, languages)
    taken = {name: files[name] for name in (start + b"_languages", start + b"_lang") if name in files}
    while waiting:
        name = waiting.pop(0)
        if name in files and name not in taken:
            taken[name] = files[name]
            waiting += named_by(files[name], included)
    return taken


# ---- trying

class Trial:
    """What differs, over a way to run the programs."""

    def __init__(self, run=program):
        self.folders = self.wrong = 0
        self.program = run

    def demand(self, holds, *what):
        if not holds:
            self.wrong += 1
            print("DIFFERENCE", *what)

    def folder(self, what, number, files):
        """Bundles and loads a folder of files (name, content), and answers the code of load, or None where no bundle is made."""
        self.folders += 1
        prefix = real.TYPES[number]
        with tempfile.TemporaryDirectory() as here:
            rules, out, pack = (os.path.join(here, name) for name in ("rules", "out", "pack"))
            os.mkdir(rules)
            for name, content in files.items():
                with open(os.path.join(rules.encode(), name + b".txt"), "wb") as file:
                    file.write(content)
            for path in (out, pack):
                with open(path, "wb") as file:
                    file.write(OLD)
            told = self.program("bundle", random.choice((prefix, str(number))), rules, out)
            wanted = second.bundle_bytes(needed(prefix, files))
            made = open(out, "rb").read()
            if len(wanted) > MOST or int.from_bytes(wanted[:2], "big") > 512:
                self.demand(told[:2] == (2, "") and ": too " in told[2] and made == OLD, what, told)
                return None
            self.demand(told[:2] == (0, "") and made == wanted, what, told, len(made), len(wanted))
            answer = second.load(number, wanted, MOST)
            told = self.program("load", prefix, out, pack)
            made = open(pack, "rb").read()
            if answer[0] == 0:
                self.demand(told == (0, "0 %d\n" % len(answer[1]), "") and made == answer[1], what, told, answer[0])
            else:
                self.demand(told == (1, "%d %d %d\n" % answer, "") and made == OLD, what, told, answer)
            return answer[0]


def small(prefix=b"gen", **more):
    """The least folder that loads."""
    files = {prefix + b"_languages": b"any\n", prefix + b"_lang": b""}
    files.update((name, b"") for name in second.list_names(prefix, ["any"]))
    files.update((prefix + b"_" + name.encode(), content) for name, content in more.items())
    return files


def without(name):
    files = small()
    del files[name]
    return files


def sized(size):
    """A folder whose bundle has so many bytes."""
    files = small()
    files[b"gen_rules_any"] = b"\n" * (size - len(second.bundle_bytes(files)))
    return files


def counted(count):
    """A folder of which a bundle takes so many files."""
    files = small()
    names = [b"f%d" % i for i in range(count - len(files))]
    files[b"gen_rules_any"] = b"".join(b"#include %s\n" % name for name in names)
    files.update((name, b"") for name in names)
    return files


def multiplied():
    """A folder whose pack is over 1 MiB: each of 29 lists includes the same 4,096 rules."""
    names = [b"any"] + [b"l%c" % c for c in range(97, 105)]
    files = small(languages=b"\n".join(names))
    files.update((name, b"#include x") for name in second.list_names(b"gen", [name.decode() for name in names]))
    files[b"x"] = b"".join(b'"a%d" "" "" "bcdef"\n' % i for i in range(4096))
    return files


EDGES = {
    "example 13": small(rules_any=b'"a" "" "" "o"\n'),
    "the largest bundle": sized(MOST),
    "a larger one": sized(MOST + 1),
    "a much larger one": sized(2 * MOST),
    "a pack over 1 MiB": multiplied(),
    "512 files": counted(512),
    "513 files": counted(513),
    "no guessing file": without(b"gen_lang"),
    "no common file": without(b"gen_exact_common"),
    "no rule file": without(b"gen_rules_any"),
    "a file that nothing names": small(spare=b"x"),
    "an include that is missing": small(rules_any=b"#include x\n#include x\n"),
    "an include that is elsewhere": small(rules_any=b"#include ../rules/gen_lang\n"),
    "names of 251, 252, 255 and 300 bytes": {b"x" * 251: b"", **small(
        rules_any=b"".join(b"#include " + b"x" * n + b"\n" for n in (251, 252, 255, 256, 300)))},
    "a name with 0": small(rules_any=b"#include a\0b\n"),
    "a name that is not UTF-8": {b"\xff\xfe": b'"a" "" "" "b"', **small(rules_any=b"#include \xff\xfe")},
    "a circle": small(rules_any=b"#include gen_exact_any\n", exact_any=b"#include gen_rules_any\n"),
    "a file that includes itself": small(rules_any=b"#include gen_rules_any"),
    "the list as an include": small(rules_any=b"#include gen_languages\n#include gen_lang\n"),
    "includes in comments": {b"x": b"", **small(rules_any=b"// #include x\n/* \n#include x\n*/\n/* #include x */\n")},
    "an include behind bad lines": {b"x": b"", **small(rules_any=b"bad\n/* a */ b\n/* #include\n#include x\n")},
    "an include in the guessing file": {b"x": b"", **small(lang=b"#include x\n")},
    "CR LF": {b"x": b"", **small(languages=b"any\r\nfrench\r\n", rules_any=b"\t#include \t x \r\n", rules_french=b"",
                                 approx_french=b"", exact_french=b"")},
    "bad names in the list": small(languages=b"Any\nany any\nany\ncommon\n" + b"x" * 25 + b"\nfrench"),
    "names twice": small(languages=b"any\nany\n"),
    "33 languages": small(languages=b"any\n" + b"".join(b"l%c\n" % c for c in range(97, 97 + 26)) + b"a\nb\nc\nd\ne\nf\n"),
    "an empty list": small(languages=b""),
}


def random_folder(rng, prefix):
    """A folder with includes, comments and lines that cannot be read."""
    languages = ["any"] + rng.sample(["french", "german", "greek", "hebrew"], rng.randrange(3))
    names = second.list_names(prefix, languages) + [b"x%d" % i for i in range(6)]
    names += [prefix + b"_languages", prefix + b"_lang"]
    end = rng.choice((b"\n", b"\r\n"))

    def line():
        return rng.choice((
            b'"a" "" "" "o"', b'"b" "" "^c" "(x|y)" // c', b"", b"// #include x0", b"/* #include x1 */", b" \t",
            b"/*" + end + b"#include x2" + end + b"*/", b"#include " + rng.choice(names + [b"x9"]),
            b"#include " + rng.choice(names), rng.choice((b"", b"", b"", b"bad", b"/*", b"#include x1 x2", b'"" "" "" ""'))))

    files = {name: end.join(line() for _ in range(rng.randrange(4))) for name in names if rng.random() < 0.97}
    files[prefix + b"_languages"] = end.join(name.encode() for name in languages)
    files[prefix + b"_lang"] = b"a any true" + end
    return files


def calls(trial):
    """Calls that cannot be answered."""
    with tempfile.TemporaryDirectory() as here:
        def path(name, content=None):
            path = os.path.join(here, name)
            if content is not None:
                with open(path, "wb") as file:
                    file.write(content)
            return path

        bundle = path("bundle", second.bundle_bytes(small()))
        rules, none = path("rules"), path("none")
        os.mkdir(rules)
        for name, content in small().items():
            path("rules/%s.txt" % name.decode(), content)
        os.mkdir(path("folder"))
        path("folder/gen_languages.txt", b"any\n")
        os.mkdir(path("folder/gen_lang.txt"))
        old = path("old", OLD)
        large = path("large", b"\0" * (MOST + 1))
        for call in (("bundle",), ("bundle", "gen", rules), ("bundle", "gen", rules, old, "x"), ("bundle", "3", rules, old),
                     ("bundle", "Gen", rules, old), ("bundle", "", rules, old), ("bundle", "gen", none, old),
                     ("bundle", "ash", rules, old), ("bundle", "gen", path("folder"), old), ("bundle", "gen", "", old),
                     ("bundle", "gen", "x" * 4090, old), ("bundle", "gen", rules, here), ("bundle", "gen", rules, none + "/x"),
                     ("bundle", "gen", rules, ""), ("load",), ("load", "gen", bundle), ("load", "gen", bundle, old, "x"),
                     ("load", "x", bundle, old), ("load", "4294967296", bundle, old), ("load", "gen", none, old),
                     ("load", "gen", here, old), ("load", "gen", large, old), ("load", "gen", bundle, here),
                     ("load", "gen", bundle, none + "/x"), ("load", "gen", "x" * 5000, old)):
            told = program(*call)
            trial.demand(told[:2] == (2, "") and told[2] != "" and open(old, "rb").read() == OLD, call, told)
        trial.demand(program("load", "3", bundle, old) == (1, "4 0 0\n", ""), "an unknown type")
        trial.demand(program("load", "2", bundle, old) == (1, "11 0 0\n", ""), "another type")
        trial.demand(open(old, "rb").read() == OLD, "a pack that was not to be written")


def real_rules(trial):
    for number, prefix in enumerate(real.TYPES):
        files = {}
        for name in os.listdir(REAL_RULES):
            if name.startswith(prefix + "_"):
                with open(os.path.join(REAL_RULES, name), "rb") as file:
                    files[name[:-len(".txt")].encode()] = file.read()
        print(prefix, "as it is:", trial.folder(prefix, number, files))
        kept = real.files_of(REAL_RULES, prefix)
        real.pack_of(number, kept)
        files = {name.encode(): b"\n".join(lines) for name, lines in kept.items()}
        print(prefix, "less lines:", trial.folder(prefix + " less lines", number, files))


def main():
    reader = argparse.ArgumentParser(usage=__doc__)
    reader.add_argument("--folders", type=int, default=100)
    reader.add_argument("--seed", type=int, default=1)
    reader.add_argument("--real", action="store_true")
    told = reader.parse_args()
    trial, rng = Trial(), random.Random(told.seed)
    calls(trial)
    for what, files in EDGES.items():
        trial.folder(what, second.GENERIC, files)
    codes = {}
    for i in range(told.folders):
        number = rng.randrange(3)
        code = trial.folder("folder %d" % i, number, random_folder(rng, second.FILE_PREFIXES[number]))
        codes[code] = codes.get(code, 0) + 1
    if told.real:
        real_rules(trial)
    print("%d folders, %d differences; random ones by code: %s" % (trial.folders, trial.wrong, codes))
    return 1 if trial.wrong else 0


if __name__ == "__main__":
    sys.exit(main())
