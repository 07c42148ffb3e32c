#!/usr/bin/env python3
"""Looks for the pack and the name that take longest.

    tests/slowest.py [--seconds N] [--cap N] [--seed N] [--library PATH] [--keep FOLDER] [--only KIND] [--bytes N] [--against]

By document 01's rules a rule file can be hostile without being refused. A shape (bench/slow.py) says by its numbers which pack and name
are made; for each kind of slowness this script begins with some shapes, changes numbers at random and goes on from whatever took longer.
A try runs in a process of its own and is cut after --cap seconds of processor time; then it counts as "over", and what it would take is
estimated from one like it, but smaller, by the bytes that both have to read. At the end the slowest of each kind that came to an end
are timed on the original too, by rule files of the same rules, which must give the same key. --keep takes packs, names and rule files
of those, with a line of words for each. --seconds is for the whole search (processor time of the tries); --bytes bounds the pack, which
for the program keys is 49152. With --against the search goes by how much longer the port takes than the original, not by its seconds.

The original is built by oracle/build. The program that is timed, bench/bench.rs, is built into target/slowest; needed are python3 and rustc.
"""
import argparse
import os
import random
import shutil
import subprocess
import sys
import tempfile
from collections import namedtuple

HERE = os.path.dirname(os.path.abspath(__file__))
ROOT = os.path.dirname(HERE)
sys.path[:0] = [HERE, os.path.join(ROOT, "bench")]
import second  # noqa: E402
import slow  # noqa: E402

MADE = os.path.join(ROOT, "target", "slowest")
RELEASE = os.path.join(ROOT, "oracle", "made", "target", "release")
MOST_OVER = 2                   # tries of a kind that are cut, after which it is done with
LEAST = 0.05                    # seconds below which --against does not look at a try
APART = 16384                   # bytes of an answer of several parts beyond which the port spells it again

# what a numbered field may be, and the words that the others may be
RANGES = {
    "levels": (0, 47), "words": (1, 48), "apart": (0, 1), "places": (0, 95), "first": (1, 4), "rows": (1, 60), "columns": (1, 22),
    "shared": (3, 122), "wide": (0, 1), "behind": (0, 1), "alike": (0, 253), "free": (0, 1), "finals": (0, 2), "rules": (0, 4000),
    "length": (1, 254), "guesses": (0, 4095), "box": (-1, 60),
}
CHOICES = {"how": tuple(slow.PLACES), "miss": (*slow.MISSES, slow.MISSES_BETWEEN), "end": tuple(slow.ENDS)}

# a kind of slowness: words, the shapes that the search begins with, from small to large, and the fields that it changes
Kind = namedtuple("Kind", "words starts fields")
NAME, SET = ("levels", "words", "apart", "places"), ("first", "rows", "columns", "shared", "wide", "behind", "free")
SMALL = slow.PLAIN._replace(rows=5, columns=5, shared=60, behind=1, alike=60, finals=2)
FULL = slow.PLAIN._replace(rows=14, columns=18, shared=120, behind=1, alike=248, finals=2)
MANY = FULL._replace(how="single", behind=0, rules=4000, length=250, miss="both boxes")
KINDS = {
    "main": Kind("the main pass of a word", [slow.USUAL, slow.USUAL._replace(alike=248, places=93)], SET + ("alike", "places")),
    "finals": Kind("both final passes of a word, alternatives that spell alike",
                   [SMALL, FULL._replace(rows=4, columns=4), FULL], SET + ("alike", "finals")),
    "single": Kind("both final passes of a word, one alternative",
                   [SMALL._replace(how="single"), FULL._replace(how="single")], SET),
    "languages": Kind("alternatives of one text and different languages",
                      [SMALL._replace(how="wide first"), FULL._replace(how="crossing", behind=0)], SET + ("alike", "how")),
    "appends": Kind("final passes in which no rule matches",
                    [SMALL._replace(how="unmatched"), FULL._replace(how="unmatched")], SET),
    "expressions": Kind("long expressions, few texts",
                        [FULL._replace(rows=1, columns=1, alike=253, behind=0)], ("shared", "wide", "behind", "free", "first", "alike", "how")),
    "rules": Kind("rules that do not match",
                  [MANY._replace(rows=1, columns=1), MANY._replace(rows=3, columns=3), MANY], SET + ("rules", "miss", "length")),
    "between": Kind("rules of other letters in between",
                    [MANY._replace(rows=1, columns=1, miss="between"), MANY._replace(miss="between")], SET + ("rules",)),
    "guessing": Kind("guessing patterns that do not match",
                     [slow.PLAIN._replace(guesses=4095, places=93), slow.PLAIN._replace(guesses=4095, levels=47, box=0)],
                     NAME + ("wide", "free", "guesses", "box")),
    "words": Kind("words and prefixes",
                  [SMALL._replace(first=2, rows=6, columns=1, shared=100, behind=0, how="single", levels=24, words=16),
                   FULL._replace(how="single", levels=24, words=12)], NAME + SET),
    "refused 7": Kind("a text over 128 bytes at the end of the last final pass",
                      [SMALL._replace(end="7"), FULL._replace(end="7", how="single")], SET + ("alike", "how")),
    "refused 8": Kind("over 256 texts at the end of the last final pass",
                      [SMALL._replace(end="8"), FULL._replace(end="8", how="single")], SET + ("alike", "how")),
    "together": Kind("everything together", [], tuple(field for field in slow.Shape._fields if field != "end")),
}

# what a try gave: seconds, those of the check (or the load), the code, and length and mark of the answer
Told = namedtuple("Told", "seconds before code length mark")
Found = namedtuple("Found", "shape told score")


# ---- shapes

def tidy(shape):
    """The shape with its numbers within what document 01 permits: a name of 96 bytes, a set below 256 texts of 128 bytes."""
    longest, width = second.LONGEST_STRING - 2, 1 + shape.wide
    shared = min(shape.shared, (second.LONGEST_TEXT - 6) // width)
    first = min(shape.first, max(1, longest // (shared * width + 3 + 3 * shape.behind)))
    rows = min(shape.rows, 255 // first, longest // (2 + 3 * shape.behind))
    columns = max(1, min(shape.columns, (255 - shape.behind) // (first * rows)))
    rules = min(shape.rules, 4000 // len(slow.turn(shape)))
    shape = shape._replace(shared=shared, first=first, rows=rows, columns=columns, rules=rules)
    while len(slow.name_of(shape).encode()) > second.LONGEST_NAME:
        field = max(("words", "levels", "places"), key=lambda field: getattr(shape, field))
        shape = shape._replace(**{field: getattr(shape, field) - 1})
    return shape


def other_value(rng, field, value, near):
    """Another value for a field: near by, or anywhere."""
    if field in CHOICES:
        return rng.choice(CHOICES[field])
    low, high = RANGES[field]
    step = max(1, abs(value) // 8)
    far = (value * 2, value // 2, low, high, rng.randint(low, high))
    return min(high, max(low, rng.choice((value - step, value + step) + (() if near else far))))


def changed(rng, shape, fields, near):
    """The shape with one to three fields changed."""
    some = rng.sample(fields, min(len(fields), rng.choice((1, 1, 2, 3))))
    return tidy(shape._replace(**{field: other_value(rng, field, getattr(shape, field), near) for field in some}))


def smaller(shape):
    """The same with half as many words, texts and places."""
    values = {field: max(RANGES[field][0], getattr(shape, field) // 2) for field in ("levels", "words", "places", "rows", "shared")}
    return tidy(shape._replace(**values))


def size_of(shape):
    """About how many bytes are read and written for the answer."""
    texts = slow.texts_of(shape)
    place = texts * slow.alternatives_of(shape) * (shape.shared + 20) + shape.rules * (shape.length + 10)
    guess = shape.guesses * len(slow.name_of(shape)) * second.LONGEST_STRING
    spelled = shape.words * (shape.levels + 1)
    again = 2 if spelled > 1 and spelled * texts * shape.shared > APART else 1
    return again * spelled * (shape.places * place + shape.finals * texts * shape.shared * place + guess + 1)


def shown(shape):
    """The numbers of a shape that are not the plain ones."""
    plain = slow.PLAIN._asdict()
    return ", ".join("%s %s" % (field, value) for field, value in shape._asdict().items() if value != plain[field])


def shown_name(shape):
    """A name in short."""
    words = slow.name_of(shape)[2 * shape.levels:].split(" ")
    short = words[0] if len(words[0]) < 12 else "%s.. (%d bytes)" % (words[0][:6], len(words[0]))
    many = "%s %s" % (short, slow.times(len(words))) if len(words) > 1 else short
    return "d' %s, %s" % (slow.times(shape.levels), many) if shape.levels else many


# ---- tries

def build(library):
    """bench.rs with the library, as bench/run builds it."""
    rlib = os.path.join(RELEASE, "librphonetic.rlib")
    if not os.path.exists(rlib):
        sys.exit("slowest: the original is not built (oracle/build)")
    if not os.path.exists(library):
        sys.exit("slowest: there is no %s (bin/libbm)" % library)
    os.makedirs(os.path.join(MADE, "library"), exist_ok=True)
    shutil.copy(library, os.path.join(MADE, "library", "libbm.a"))
    program = os.path.join(MADE, "bench")
    subprocess.run(["rustc", "--edition", "2021", "-C", "opt-level=3", "-C", "codegen-units=1", "-o", program, "--extern", "rphonetic=" + rlib,
                    "-L", "dependency=" + os.path.join(RELEASE, "deps"), "-L", "native=" + os.path.join(MADE, "library"), "-l", "static=bm",
                    "--check-cfg", "cfg(before)", os.path.join(ROOT, "bench", "bench.rs")], check=True)
    return program


class Tries:
    """Runs shapes within a time, each in a process of its own."""

    def __init__(self, program, cap, folder):
        self.program, self.cap, self.folder, self.used, self.count = program, cap, folder, 0.0, 0

    def told(self, side, rules, name):
        """What a side took, or None where it was cut."""
        command = [self.program, "one", side, rules, name, "approx", "256", str(self.cap), "1"]
        done = subprocess.run(command, stdout=subprocess.PIPE, stderr=subprocess.PIPE)
        self.count += 1
        if done.returncode < 0:
            self.used += self.cap
            return None
        if done.returncode > 0:
            sys.exit("slowest: %s: %s" % (" ".join(command), done.stderr.decode()))
        seconds, before, code, length, mark = done.stdout.split()
        self.used += float(seconds) + float(before)
        return Told(float(seconds), float(before), int(code), int(length), mark)

    def port(self, shape):
        path = os.path.join(self.folder, "try.pack")
        with open(path, "wb") as file:
            file.write(slow.pack_of(shape))
        return self.told("port", path, slow.name_of(shape))

    def original(self, shape):
        path = os.path.join(self.folder, "try")
        shutil.rmtree(path, ignore_errors=True)
        write(shape, path)
        return self.told("original", path, slow.name_of(shape))


def write(shape, folder):
    """The pack beside a folder of rule files that the original can load."""
    slow.write(shape, folder)
    subprocess.run([sys.executable, os.path.join(ROOT, "oracle", "mkdir-rules.py"), folder], check=True)


class Search:
    """The slowest of each kind so far, and of each kind the first that was cut."""

    def __init__(self, tries, rng, most, against):
        self.tries, self.rng, self.most, self.against = tries, rng, most, against
        self.best, self.over = {}, {}

    def say(self, kind, text):
        print("%6.0f s %5d tries  %-12s %s" % (self.tries.used, self.tries.count, kind, text), file=sys.stderr, flush=True)

    def score(self, shape, told):
        """By what the search goes: the seconds without the check of the pack; or how often the original's time goes into them."""
        if not self.against:
            return told.seconds - told.before
        if told.code or told.seconds < LEAST:
            return 0
        original = self.tries.original(shape)
        return told.seconds / original.seconds if original else 0

    def attempt(self, kind, shape):
        """A try; whether it came to an end."""
        told = self.tries.port(shape)
        if told is None:
            self.over.setdefault(kind, shape)
            self.say(kind, "over %d s: %s" % (self.tries.cap, shown(shape)))
            return False
        score = self.score(shape, told)
        if kind not in self.best or score > self.best[kind].score:
            self.best[kind] = Found(shape, told, score)
            self.say(kind, "%.3f s%s: %s" % (told.seconds, ", %.2f times the original's" % score if self.against else "", shown(shape)))
        return True

    def fields(self, kind):
        """The fields that are changed; against the original those of the name too, so that a small difference can grow."""
        return sorted(set(KINDS[kind].fields + NAME)) if self.against else KINDS[kind].fields

    def climb(self, kind, starts, seconds):
        """The starts as far as they come to an end, and then changes of the slowest, for so long."""
        until, over, tried = self.tries.used + seconds, 0, set()
        for shape in starts:
            if over == 0:
                over += not self.attempt(kind, self.fitted(tidy(shape)))
        while kind in self.best and over < MOST_OVER and self.tries.used < until:
            shape = self.fitted(changed(self.rng, self.best[kind].shape, self.fields(kind), over > 0))
            if shape in tried:
                until -= seconds / 1000         # so that it ends where nothing is left to be tried
                continue
            tried.add(shape)
            over += not self.attempt(kind, shape)

    def fitted(self, shape):
        """The shape with so few rules and guessing patterns that its pack is within its bound."""
        while self.most and len(slow.pack_of(shape)) > self.most and shape.rules + shape.guesses > 0:
            shape = shape._replace(rules=shape.rules * 7 // 8, guesses=shape.guesses * 7 // 8)
        return shape

    def estimate(self, shape):
        """What one that was cut would take, by its size, from a smaller one that comes to an end."""
        small, told = shape, None
        while told is None:
            small = smaller(small)
            told = self.tries.port(small)
        return (told.seconds - told.before) * size_of(shape) / size_of(small)


# ---- what was found

def keep(found, over, folder):
    """Pack, name and rule files of each, and a line of words."""
    os.makedirs(folder, exist_ok=True)
    with open(os.path.join(folder, "list"), "w", encoding="utf-8") as lines:
        for kind, one in [(kind, one.shape) for kind, one in found.items()] + [(kind + " over", shape) for kind, shape in over.items()]:
            path = os.path.join(folder, kind.replace(" ", "-"))
            shutil.rmtree(path, ignore_errors=True)
            write(one, path)
            with open(path + ".name", "w", encoding="utf-8") as file:
                file.write(slow.name_of(one) + "\n")
            lines.write("%s: %s (%s)\n" % (kind, slow.words_of(one), shown(one)))


def compared(tries, found):
    """The original's seconds and its time by the port's; a key must be the same. A refusal has nothing to be held against."""
    if found.told.code:
        return "refused with %d" % found.told.code, ""
    original = tries.original(found.shape)
    if original is None:
        return "over %d" % tries.cap, "over %.2f" % (tries.cap / found.told.seconds)
    if (original.length, original.mark) != (found.told.length, found.told.mark):
        sys.exit("slowest: another key than the original's: %s" % shown(found.shape))
    return "%.3f" % original.seconds, "%.2f" % (original.seconds / found.told.seconds)


def show(search):
    """A table of what was found."""
    print("\n| what | bytes of the pack | name | port, s | of it the check, s | original, s | original / port | numbers |")
    print("|---|---|---|---|---|---|---|---|")
    for kind, found in search.best.items():
        original, times = compared(search.tries, found)
        print("| %s | %d | %s | %.3f | %.4f | %s | %s | %s |" % (
            KINDS[kind].words, len(slow.pack_of(found.shape)), shown_name(found.shape), found.told.seconds, found.told.before, original, times,
            shown(found.shape)), flush=True)
        if kind in search.over:
            over = search.over[kind]
            print("| the same, cut | %d | %s | over %d, by its size about %.0f | | | | %s |" % (
                len(slow.pack_of(over)), shown_name(over), search.tries.cap, search.estimate(over), shown(over)), flush=True)


def arguments():
    parser = argparse.ArgumentParser(description=__doc__, formatter_class=argparse.RawDescriptionHelpFormatter)
    parser.add_argument("--seconds", type=int, default=600, help="processor time of all tries together (600)")
    parser.add_argument("--cap", type=int, default=30, help="processor time of a try, after which it is cut (30)")
    parser.add_argument("--seed", type=int, default=1, help="of what is drawn at random (1)")
    parser.add_argument("--library", default=os.path.join(ROOT, "target", "staticlib", "libbm.a"), help="the port's (target/staticlib/libbm.a)")
    parser.add_argument("--keep", default=os.path.join(MADE, "kept"), help="folder for the slowest of each kind (target/slowest/kept)")
    parser.add_argument("--only", action="append", choices=list(KINDS), help="a kind to look at; all without it")
    parser.add_argument("--bytes", type=int, help="most bytes of a pack (no bound)")
    parser.add_argument("--against", action="store_true", help="go by the port's seconds over the original's")
    return parser.parse_args()


def main():
    given = arguments()
    kinds = given.only or list(KINDS)
    program = build(given.library)
    with tempfile.TemporaryDirectory() as folder:
        search = Search(Tries(program, given.cap, folder), random.Random("slowest %d" % given.seed), given.bytes, given.against)
        for number, kind in enumerate(kinds):
            starts = KINDS[kind].starts or [found.shape for found in sorted(search.best.values(), key=lambda found: found.score)]
            search.climb(kind, starts, (given.seconds - search.tries.used) / (len(kinds) - number))
        keep(search.best, search.over, given.keep)
        show(search)


if __name__ == "__main__":
    main()
