#!/usr/bin/env python3
"""Request 12, run on the port and on the original: the laws of narrowing and merging, and rule files whose lines are moved.

    tests/laws.py [--languages N] [--moves N] [--seed N]

The sets are Any, None and every Some of N languages, the one without bits too. Each law is tried on all pairs and triples of them, on what the program
`ask` and the original's `bm-answers` say; the order of sets on all pairs; and narrowings one after the other in every order, each list of up to four sets of
two languages. The original is asked to `restrict`, which gives empty sets too, and its sets are taken to the letter. The port is asked to `narrow`, which says
`nothing` for an empty set (request 6), so of its sets the empty ones count as one; and every one of its sets is held against the original's.
Then pairs of small rule files are spelled, before and after a move (cases.py), and the real
rules (oracle/rules) of each type N times: with the guessing lines in any order and rules moved past others that can not match where they do, which changes no
key, and with rules moved anywhere, where it is counted how many keys change. Faults are counted, the first of each law printed; the exit status is 1 where there is one.
The original is built by oracle/build.
"""
import argparse
import collections
import itertools
import os
import random
import subprocess
import sys
import tempfile

HERE = os.path.dirname(os.path.abspath(__file__))
ROOT = os.path.dirname(HERE)
sys.path.insert(0, HERE)
import cases  # noqa: E402
import compare  # noqa: E402
import real  # noqa: E402
import second  # noqa: E402

BIN = os.path.join(ROOT, "bin")
ORACLE = os.path.join(ROOT, "oracle", "made", "bin", "bm-oracle")
FILL = os.path.join(ROOT, "oracle", "mkdir-rules.py")
REAL_RULES = os.path.join(ROOT, "oracle", "made", "rules")
LIMIT = "20"
SHOWN = 5               # how many faults of a law are printed


# ---- terms of narrowing and merging

def narrow(x, y):
    return "narrow", x, y


def merge(x, y):
    return "merge", x, y


def both(law):
    """A law of one operation, said of each."""
    return [lambda *sets, op=op: law(op, *sets) for op in (narrow, merge)]


def crossed(law):
    """A law of an operation and the other one, said of each."""
    return [lambda *sets: law(narrow, merge, *sets), lambda *sets: law(merge, narrow, *sets)]


# how many sets a law is about, and its two sides
LAWS = {
    "commutative": (2, both(lambda op, x, y: (op(x, y), op(y, x)))),
    "associative": (3, both(lambda op, x, y, z: (op(op(x, y), z), op(x, op(y, z))))),
    "gives back x for x with x": (1, both(lambda op, x: (op(x, x), x))),
    "Any neutral for narrowing": (1, [lambda x: (narrow(x, "any"), x), lambda x: (narrow("any", x), x)]),
    "None neutral for merging": (1, [lambda x: (merge(x, "none"), x), lambda x: (merge("none", x), x)]),
    "each absorbs the other": (2, crossed(lambda op, other, x, y: (op(x, other(x, y)), x))),
    "each spreads over the other": (3, crossed(lambda op, other, x, y, z: (op(x, other(y, z)), other(op(x, y), op(x, z))))),
}


def told_apart(word):
    return word


def told_if_left(word):
    """The empty sets as one."""
    return "nothing" if word in ("none", "some:0") else word


# how a program is run, its word for narrowing, and which of its sets are taken for the same
Program = collections.namedtuple("Program", "command narrow plain")
PORT = Program(compare.ASK, "narrow", told_if_left)
THE_ORIGINAL = Program(compare.ORIGINAL, "restrict", told_apart)


def question(program, known, term):
    """The line that asks for a term whose sides are known; nothing is asked as None."""
    word, *sides = term
    sides = [known.get(side, side) for side in sides]
    return " ".join([program.narrow if word == "narrow" else word] + ["none" if side == "nothing" else side for side in sides])


def values(program, terms):
    """The set of each term, as the program says: what stands inside is asked first, then what stands round it."""
    terms = set(terms)
    inner = {side for term in terms if isinstance(term, tuple) for side in term[1:] if isinstance(side, tuple)}
    known = values(program, inner) if inner else {}
    asked = sorted((term for term in terms if isinstance(term, tuple)), key=repr)
    answers = compare.run(program.command, [question(program, known, term) for term in asked])
    known.update((term, program.plain(answer)) for term, answer in zip(asked, answers))
    known.update((term, program.plain(term)) for term in terms if isinstance(term, str))
    return known


def sets_of(languages):
    return ["any", "none"] + ["some:%d" % bits for bits in range(1 << languages)]


def tried(name, equations):
    """Both sides of each equation, asked of both programs: how many of all fail, or differ between the programs."""
    terms = [side for equation in equations for side in equation]
    port, original = (values(program, terms) for program in (PORT, THE_ORIGINAL))
    fail = ["%s is %s, %s is %s" % (one, known[one], other, known[other])
            for known in (port, original) for one, other in equations if known[one] != known[other]]
    differ = ["%s is %s by the port, %s by the original" % (term, port[term], original[term])
              for term in terms if port[term] != PORT.plain(original[term])]
    print("%s: %d equations, asked of both: %d fail, %d sets differ" % (name, len(equations), len(fail), len(differ)))
    for fault in (fail + differ)[:SHOWN]:
        print("  " + fault)
    return len(fail) + len(differ)


def below(x, y):
    """None, or nothing, below every set, every set below Any, of two Some the one whose languages the other has too."""
    if x in ("none", "nothing") or y == "any":
        return True
    if x == "any" or y in ("none", "nothing"):
        return False
    one, other = (int(word.split(":")[1]) for word in (x, y))
    return one & ~other == 0


def order_faults(sets):
    pairs = list(itertools.product(sets, repeat=2))
    wrong = 0
    for program in (PORT, THE_ORIGINAL):
        known = values(program, [op(x, y) for x, y in pairs for op in (narrow, merge)])
        for x, y in pairs:
            one, other = program.plain(x), program.plain(y)
            wrong += not below(one, other) == (known[narrow(x, y)] == one) == (known[merge(x, y)] == other)
    print("below exactly when narrowing gives it, and when merging adds nothing: %d pairs, asked of both: %d fail" % (len(pairs), wrong))
    return wrong


def in_turn(op, start, sets):
    for some in sets:
        start = op(start, some)
    return start


def sequence_equations(sets):
    """Lists of up to four sets: in every order, and with the first once more, they come to what the list itself comes to."""
    for op, length in itertools.product((narrow, merge), range(1, 5)):
        for some in itertools.combinations_with_replacement(sets, length):
            start = "any" if op == narrow else "none"
            plain = in_turn(op, start, some)
            for other in set(itertools.permutations(some)):
                yield plain, in_turn(op, start, other)
            yield plain, in_turn(op, plain, some[:1])


def law_faults(languages):
    sets = sets_of(languages)
    faults = sum(tried(name, [law(*some) for law in sides for some in itertools.product(sets, repeat=number)]) for name, (number, sides) in LAWS.items())
    return faults + order_faults(sets) + tried("in any order, and once more", list(sequence_equations(sets_of(2))))


# ---- moved lines

class Folder:
    """Rule files of one type for both programs, in a folder of their own."""

    def __init__(self, path, prefix, files):
        self.path, self.prefix = path, prefix
        os.makedirs(path, exist_ok=True)
        for name, content in files.items():
            with open(os.path.join(path, name + ".txt"), "wb") as file:
                file.write(content)

    def port(self, names):
        """The keys of the port, by bin/desk: `CODE FLAG KEY`, or a refusal."""
        return self.run([os.path.join(BIN, "desk"), self.prefix, self.path], names)

    def original(self, names):
        whole = self.path + "-filled"
        subprocess.run([sys.executable, FILL, whole, self.path], check=True)
        return self.run([ORACLE, whole, self.prefix, "approx", "0", LIMIT], names)

    def run(self, command, names):
        done = subprocess.run(command, input="".join(name + "\n" for name in names).encode(), stdout=subprocess.PIPE, check=True)
        return done.stdout.decode().split("\n")[:-1]


def key_faults(work, languages, rules, name, key):
    """Whether both programs give a name this key by these rules."""
    lines = [cases.rule_line(pattern.encode(), b"", b"", expression.encode()) for pattern, expression in rules]
    files = cases.files_with({"gen_rules_any": b"\n".join(lines) + b"\n"}, languages)
    folder = Folder(tempfile.mkdtemp(dir=work), "gen", files)
    port, original = folder.port([name]), folder.original([name])
    print("%s: %s gives %r by the port, %r by the original" % (b", ".join(lines).decode(), name, port, original))
    return port != ["0 0 " + key] or original != [key]


def pair_faults(work):
    return sum(key_faults(work, moved.languages, moved.rules_before, moved.name, moved.key_before)
               + key_faults(work, moved.languages, moved.rules_after, moved.name, moved.key_after) for moved in cases.MOVED)


def pattern_of(line):
    return line.split(b'"')[1]


def may_both_match(one, other):
    """Whether two rules can match at one place: a pattern that begins the other, or is it."""
    one, other = pattern_of(one), pattern_of(other)
    return one.startswith(other) or other.startswith(one)


def moved_apart(rng, lines):
    """The rules of a list after many swaps of neighbours that can not match at one place."""
    lines = list(lines)
    for _ in range(20 * len(lines)):
        place = rng.randrange(len(lines) - 1) if len(lines) > 1 else None
        if place is not None and not may_both_match(*lines[place:place + 2]):
            lines[place:place + 2] = lines[place + 1], lines[place]
    return lines


def shuffled(rng, lines):
    return rng.sample(lines, len(lines))


def moved_files(rng, prefix, files, move):
    """The same files with the guessing lines in any order and each list's rules moved."""
    changed = {}
    for name, content in files.items():
        lines = content.splitlines(True)
        if name == prefix + "_lang":
            lines = shuffled(rng, lines)
        elif name != prefix + "_languages":
            lines = move(rng, lines)
        changed[name] = b"".join(lines)
    return changed


def unlike(some, others):
    return sum(one != other for one, other in zip(some, others))


def key_of(line):
    """The key of a line `0 FLAG KEY`; a refusal stays as it is, and is no key of the original's."""
    return line.split(" ", 2)[2] if line.startswith("0 ") else line


def held_names(name_type, names):
    """The names that are held against the original: not those where two prefixes fit (02, ticket 5)."""
    settings = second.Settings(name_type, 0, 0, int(LIMIT))
    return [name for name in names if not second.two_prefixes_fit(settings, name.encode())]


def real_faults(work, rng, moves):
    with open(os.path.join(HERE, "surnames.txt"), encoding="utf-8") as file:
        surnames = file.read().splitlines()
    faults = 0
    for number, prefix in enumerate(real.TYPES):
        data, _ = real.pack_of(number, real.files_of(REAL_RULES, prefix))
        files = second.plain_files(number, second.check_pack(data))
        plain = Folder(os.path.join(work, prefix), prefix, files)
        names = held_names(number, surnames)
        port, original = plain.port(names), plain.original(names)
        counts = collections.Counter()
        for turn in range(moves):
            apart = Folder(os.path.join(work, "%s-apart%d" % (prefix, turn)), prefix, moved_files(rng, prefix, files, moved_apart))
            counts["harmless"] += unlike(port, apart.port(names)) + unlike(original, apart.original(names))
            anywhere = Folder(os.path.join(work, "%s-anywhere%d" % (prefix, turn)), prefix, moved_files(rng, prefix, files, shuffled))
            late_port, late_original = anywhere.port(names), anywhere.original(names)
            counts["port"] += unlike(map(key_of, port), map(key_of, late_port))
            counts["original"] += unlike(original, late_original)
            counts["differ"] += unlike(map(key_of, late_port), late_original)
        counts["differ"] += unlike(map(key_of, port), original)
        print("%s: %d names (%d left out, two prefixes fit), moved %d times: %d keys of either changed where no first match did; with rules moved anywhere "
              "%d of the port and %d of the original; %d differ between them" % (prefix, len(names), len(surnames) - len(names), moves, *(counts[word] for word in ("harmless", "port", "original", "differ"))))
        faults += counts["harmless"] + counts["differ"]
    return faults


def main():
    parser = argparse.ArgumentParser(usage=__doc__)
    parser.add_argument("--languages", type=int, default=3)
    parser.add_argument("--moves", type=int, default=5)
    parser.add_argument("--seed", type=int, default=1)
    given = parser.parse_args()
    faults = law_faults(given.languages)
    with tempfile.TemporaryDirectory() as work:
        faults += pair_faults(work)
        faults += real_faults(work, random.Random(given.seed), given.moves)
    print("%d faults" % faults)
    sys.exit(1 if faults else 0)


if __name__ == "__main__":
    main()
