#!/usr/bin/env python3
"""The long run under attack: names, packs and bundles, random and damaged, through the programs keys, ask, bundle and load.

    tests/attack.py [--names N] [--packs N] [--bundles N] [--seed N] [--seconds N] [--native DIR]

Each answer is held against the original (oracle/build builds it, oracle/rules fetches the real rules), against the second check, or
both. A program that ends with another status than it should, or that runs for more than --seconds, is a difference like a wrong
answer. Every difference is printed; at the end stand the figures, and for each refusal, 1 to 20, how often it was met and at how many
different places. The exit status is 1 where something differs.

  names    the program keys over the real rules and random packs, under settings of every kind, odd ones too. Every key and flag is
           the original's, with a share also the second check's; where the original cannot judge (a damaged name, an odd setting, 7, 8,
           and names where two prefixes fit, which are left out by 02, ticket 5) the second check does, and the original's counts show
           the cause of the shortest of each 7 and 8.
  packs    accepted packs and what damage makes of them, contexts that are boxes of every kind among it, through ask: verdict and place
           are the second check's; from those that stay accepted names are spelled. A share goes through keys as files.
  bundles  rule files of every kind and what damage makes of them, through ask: the pack, or number, line and file, are the second
           check's. A share is held against what the original loads, and a share goes as folders through bundle and load.

Programs are those of bin/. --native names a folder with the same programs (ask, keys, load_pack, bundle_files) compiled for this
processor, which are run in their place: quicker where bin/ needs an emulator. The full run: --names 1000000 --packs 100000 --bundles 20000.
"""
import argparse
import collections
import contextlib
import os
import random
import resource
import shutil
import signal
import subprocess
import sys
import tempfile
import time

HERE = os.path.dirname(os.path.abspath(__file__))
ROOT = os.path.dirname(HERE)
sys.path.insert(0, HERE)
import cases  # noqa: E402
import keys  # noqa: E402
import loading  # noqa: E402
import programs  # noqa: E402
import real  # noqa: E402
import second  # noqa: E402

CODES = range(1, 21)
SHOWN = 40                      # differences that are printed whole
LINES, BYTES = 2000, 8 << 20    # what one process of ask is given at most
REAL_NAMES, RANDOM_NAMES = 1500, 200            # most names for one process of keys, by the real rules and by a random pack
SHARE = 2                       # of so many keys one is held against the second check too
BROKEN_OF_A_PACK, BROKEN_OF_A_BUNDLE = 20, 4
PACKS_AS_FILES, BUNDLES_AS_FOLDERS, BUNDLES_ORIGINAL = 200, 6, 3        # of so many (bundles: undamaged ones) one


# ---- what was seen

class Figures:
    def __init__(self):
        self.counts, self.codes, self.places = collections.Counter(), collections.Counter(), collections.defaultdict(set)
        self.differ, self.processes, self.longest, self.started = 0, 0, (0.0, ""), time.time()

    def met(self, code, place, file=0):
        self.codes[code] += 1
        self.places[code].add((place, file))

    def answered(self, answer):
        """An answer of the program keys."""
        self.met(answer[0], answer[2] if answer[0] else 0)

    def differs(self, what, **told):
        self.differ += 1
        if self.differ <= SHOWN:
            print("DIFFERENCE " + what)
            for who, answer in told.items():
                print("  %-8s %s" % (who, str(answer)[:2000]), flush=True)

    def part(self, name):
        print("%-8s %6d seconds, %d processes so far, %d differ" % (name, time.time() - self.started, self.processes, self.differ), flush=True)

    def show(self):
        counts = self.counts
        print("%-8s %10s %20s %24s" % ("", "tried", "against the original", "against the second check"))
        for kind in ("names", "packs", "bundles"):
            print("%-8s %10d %20d %24d" % (kind, counts[kind], counts[kind, "original"], counts[kind, "second"]))
        print("names where two prefixes fit, here or in a name spelled afresh, left out of what is held against the original: %d" % counts["names", "two fit"])
        print("accepted: %d packs, %d bundles; done: %d answers; cause of 7 or 8 shown by the original: %d, it came to no end: %d" % (
            counts["packs", "accepted"], counts["bundles", "accepted"], self.codes[0], counts["shown"], counts["silent"]))
        print("%8s %10s %17s" % ("refusal", "seen", "different places"))
        for code in CODES:
            print("%8d %10d %17d" % (code, self.codes[code], len(self.places[code])))
        used = [resource.getrusage(who) for who in (resource.RUSAGE_SELF, resource.RUSAGE_CHILDREN)]
        print("%d processes, the longest %.1f seconds (%s); %d differ, %d seconds, %d of processor time" % (
            self.processes, *self.longest, self.differ, time.time() - self.started, sum(one.ru_utime + one.ru_stime for one in used)))


# ---- the programs

class Programs:
    """The programs of a bin folder, each run within a time."""

    def __init__(self, folder, seconds, figures):
        self.folder, self.seconds, self.figures = folder, seconds, figures

    def run(self, name, *words, data=b""):
        """Status, standard output and standard error; the status is None where the time was over."""
        started = time.time()
        command = [os.path.join(self.folder, name), *words]
        process = subprocess.Popen(command, stdin=subprocess.PIPE, stdout=subprocess.PIPE, stderr=subprocess.PIPE, start_new_session=True)
        try:
            out, error = process.communicate(data, timeout=self.seconds)
            status = process.returncode
        except subprocess.TimeoutExpired:
            os.killpg(process.pid, signal.SIGKILL)      # a session of its own: the script and the program that it runs
            out, error = process.communicate()
            status = None
        self.figures.processes += 1
        self.figures.longest = max(self.figures.longest, (time.time() - started, " ".join([name, *words])))
        return status, out, error.decode("utf-8", "replace")

    def lines(self, name, *words, data, count):
        """The lines that a program prints, of which there are so many; else None, and a difference."""
        status, out, error = self.run(name, *words, data=data)
        answers = out.split(b"\n")
        if status == 0 and answers.pop() == b"" and len(answers) == count:
            return answers
        with tempfile.NamedTemporaryFile(prefix="attack-", delete=False) as file:
            file.write(data)
        self.figures.differs("%s %s: status %s, %d answers where %d were asked for, %s" % (
            name, " ".join(words), status, out.count(b"\n"), count, error.strip()), input=file.name)
        return None


@contextlib.contextmanager
def bin_of(native):
    """The folder bin; or one with the same scripts, which run the programs of a folder."""
    if native is None:
        yield os.path.join(ROOT, "bin")
        return
    with tempfile.TemporaryDirectory() as folder:
        for name in ("ask", "keys", "load", "bundle"):
            shutil.copy(os.path.join(ROOT, "bin", name), folder)
        path = os.path.join(folder, "run-program")
        with open(path, "w", encoding="utf-8") as file:
            file.write('#!/bin/sh\nname=$1\nshift\nexec "%s/$name" "$@"\n' % os.path.abspath(native))
        os.chmod(path, 0o755)
        yield folder


class Ask:
    """Case lines for the program ask and the answers wanted, given to one process after another."""

    def __init__(self, run, figures):
        self.run, self.figures, self.given, self.size = run, figures, [], 0

    def line(self, setting, line, wanted):
        """A line that has an answer, behind one that has none (a pack or a bundle)."""
        if self.given and setting == self.given[-1][0]:
            self.given.append((setting, line, wanted, line))
        else:
            self.given.append((setting, line, wanted, setting + "\n" + line))
        self.size += len(self.given[-1][3])
        if len(self.given) >= LINES or self.size >= BYTES:
            self.flush()

    def flush(self):
        if not self.given:
            return
        text = "".join(whole + "\n" for _, _, _, whole in self.given).encode()
        answers = self.run.lines("ask", data=text, count=len(self.given))
        for (setting, line, wanted, _), answer in zip(self.given, answers or ()):
            self.judge(setting, line, wanted, answer.decode())
        self.given, self.size = [], 0

    def judge(self, setting, line, wanted, answer):
        if answer != wanted:
            self.figures.differs("%s\n%s" % (setting, line), port=answer, second=wanted)
            return
        fields = answer.split(" ")
        if fields[0] == "0":
            self.figures.met(0, 0)
        elif fields[0].isdigit():
            self.figures.met(int(fields[0]), int(fields[1]), int(fields[2]) if line.startswith("load ") else 0)


# ---- names

ODD_LETTERS = ("İ", "Ω", "\u0180", "\u00a0", "\u007f", "\u0080", "\u0000", "\u001f", "😀", "\ufeff", "\u0307")


def odd_name(rng, name):
    """What a name becomes by damage: bytes changed, put in, taken out or behind it; letters outside the range; too many of them."""
    place = rng.randrange(len(name) + 1)
    odd = rng.choice((
        cases.damaged(rng), name + cases.damaged(rng), cases.damaged(rng) + name, name[:place] + rng.choice(ODD_LETTERS).encode() + name[place:],
        name[:place] + bytes([rng.randrange(256)]) + name[place:], name[:place] + bytes([rng.randrange(256)]) + name[place + 1:],
        name[:place] + name[place + 1:], (name + b"a" * 97)[:rng.choice((95, 96, 97, 98))], ("é" * 60).encode()[:rng.choice((95, 96, 97))],
        name * rng.choice((2, 10, 100)), b"x" * rng.choice((97, 4096, 70000)) if rng.randrange(50) == 0 else name + b"\xc3"))
    return odd.replace(b"\n", b"\r")


def names_of(rng, good, count):
    """So many names, of twelve one damaged."""
    names = [good() for _ in range(count)]
    return [odd_name(rng, name) if rng.randrange(12) == 0 else name for name in names]


def odd_setting(rng, setting):
    """A setting that document 01 refuses with 4 or 6, for all of whose names the second check has the answer."""
    numbers, place = list(setting.settings), rng.randrange(5)
    if place == 4:
        return setting._replace(given=rng.choice(((3, 0), (2, 1 << 31), (2 ** 32 - 1, 1), (2, 2 ** 32 - 1))))
    numbers[place] = rng.choice(((3, 4), (2, 3), (2, 255), (257, 1000))[place] + (2 ** 32 - 1,))
    return setting._replace(settings=second.Settings(*numbers))


class Names:
    """The program keys against the original and the second check."""

    def __init__(self, rng, run, figures, folder):
        self.rng, self.run, self.figures, self.path = rng, run, figures, os.path.join(folder, "a.pack")

    def answers(self, pack, setting, names):
        """What the program answers, or None."""
        with open(self.path, "wb") as file:
            file.write(pack)
        words = [str(number) for number in setting.settings + (setting.given or ())]
        block = b"".join(name + b"\n" for name in names)
        lines = self.run.lines("keys", self.path, *words, data=block, count=len(names))
        try:
            return lines and [keys.answer_of(line) for line in lines]
        except ValueError as why:
            self.figures.differs("keys %s: %s" % (" ".join(words), why), pack=cases.hex_of(pack), names=cases.hex_of(block))
            return None

    def differs(self, rules, setting, name, **told):
        pack = rules.packs[setting.settings.name_type % 3]
        where = "real rules" if rules.part == "real" else cases.hex_of(pack)
        self.figures.differs("pack %s\n%s" % (where, keys.spelling_line(setting, second.LARGEST_ROOM, name)), **told)

    def by_second(self, rules, setting, name, answer):
        checked = rules.checked[setting.settings.name_type % 3]
        wanted = second.spell(setting.settings, checked, name, setting.given, ROOM)
        self.figures.counts["names", "second"] += 1
        if answer != wanted:
            self.differs(rules, setting, name, port=answer, second=wanted)

    def by_original(self, rules, setting, some):
        """Names and answers, each with a key (or 9, whose place is the key's length)."""
        told = self.probe(rules, setting, [name for name, _ in some], keys.SECONDS)
        for (name, answer), original in zip(some, told):
            if original is None:
                self.by_second(rules, setting, name, answer)
                continue
            self.figures.counts["names", "original"] += 1
            whole = (0, original.flag, original.key) if answer[0] == 9 and answer[2] == len(original.key) > ROOM else answer
            if not keys.agrees(whole, original):
                self.differs(rules, setting, name, port=answer, original=original)

    def cause(self, rules, setting, some):
        """The shortest name of those with 7 or 8: the original's count is over the bound."""
        name, answer = min(some, key=lambda pair: len(pair[0]))
        told = self.probe(rules, setting, [name], 1)[0]
        if told is None:
            self.figures.counts["silent"] += 1
            return
        self.figures.counts["shown"] += 1
        if not keys.agrees(answer, told):
            self.differs(rules, setting, name, port=answer, original=told)

    def probe(self, rules, setting, names, seconds):
        """What the original tells; None of each name where it came to no end."""
        try:
            return keys.probe(keys.probe_command(rules, setting), names, seconds)
        except SystemExit as why:
            self.figures.differs("the original: %s" % why)
            return [None] * len(names)

    def attack(self, rules, setting, names, odd=False):
        """Names under one setting; an odd one is for the second check alone."""
        answers = self.answers(rules.packs[setting.settings.name_type % 3], setting, names)
        if answers is None:
            return
        keyed, refused = [], []
        for name, answer in zip(names, answers):
            self.figures.counts["names"] += 1
            self.figures.answered(answer)
            reached = answer[0] in (0, 7, 8, 9) and not odd             # nothing was refused before the name was spelled
            left = reached and second.two_prefixes_fit(setting.settings, name)
            if left:
                self.figures.counts["names", "two fit"] += 1
            elif reached:
                (keyed if answer[0] in (0, 9) else refused).append((name, answer))
            if left or not reached or answer[0] in (7, 8) or self.rng.randrange(SHARE) == 0:
                self.by_second(rules, setting, name, answer)
        if keyed:
            self.by_original(rules, setting, keyed)
        for code in (7, 8):
            some = [pair for pair in refused if pair[1][0] == code]
            if some:
                self.cause(rules, setting, some)


ROOM = 1048576 - 5              # what the buffer of keys has for an answer: 1 MiB less what stands before and behind it


def rounds_of(rng, limits):
    """Settings of every kind, without end, each once before one comes again."""
    while True:
        every = keys.settings_over(limits)
        rng.shuffle(every)
        yield from every


def try_real_names(rng, count, names, rules):
    """The real rules, loaded by the programs bundle and load."""
    with open(keys.SURNAMES, encoding="utf-8") as file:
        surnames = file.read().split("\n")[:-1]
    try_load(names.run, rules, names.figures)
    size = max(20, min(REAL_NAMES, count // 144))
    rounds = rounds_of(rng, keys.REAL_LIMITS)
    while count > 0:
        settings = next(rounds)
        listed = rules.checked[settings.name_type].names
        for given in (None, keys.some_set(rng, listed)):
            some = names_of(rng, lambda: keys.mixed_name(rng, surnames) if rng.randrange(4) else keys.cut(rng.choice(surnames)), min(size, count))
            names.attack(rules, keys.Setting(settings, given), some)
            count -= len(some)
            if count <= 0:
                return
        odd = odd_setting(rng, keys.Setting(settings, None))
        some = names_of(rng, lambda: keys.mixed_name(rng, surnames), min(size // 20 + 1, count))
        names.attack(rules, odd, some, odd=True)
        count -= len(some)


def try_load(run, rules, figures):
    """The packs of a folder's rule files by the programs, each as the second check has it."""
    for prefix, pack in zip(real.TYPES, rules.packs):
        paths = [os.path.join(rules.folder, prefix + ending) for ending in (".bundle", ".pack")]
        told = run.run("bundle", prefix, rules.folder, paths[0])[0], run.run("load", prefix, *paths)
        if told != (0, (0, b"0 %d\n" % len(pack), "")) or open(paths[1], "rb").read() != pack:
            figures.differs("the real rules of " + prefix, port=told)


def longest_answers():
    """A pack by which a name's key has up to 1.4 MB, each prefix adding a word of 256 texts of 128 bytes; and names around 1 MiB."""
    data = cases.edge_pack(["any"], [(letter, "(%s|%s)" % ("x" * 16, "y" * 16)) for letter in "abcdefgh"], [])
    return data, [b"d'" * prefixes + b"abcdefgh" for prefixes in range(45)]


def try_random_names(rng, count, names):
    """Random packs and those at which an error comes easily."""
    data, some = longest_answers()
    with tempfile.TemporaryDirectory() as folder:
        names.attack(keys.rules_of_pack("edges", folder, data), keys.Setting(second.Settings(1, 0, 0, 256), None), some)
    count -= len(some)
    edges, rounds = list(cases.edges()), rounds_of(rng, cases.LIMITS)
    while count > 0:
        if rng.randrange(20):
            sounds, data = cases.spelling_pack(rng)
            letters, words, listed = sounds.letters, [], sounds.names
        else:
            data, words = rng.choice(edges)
            letters, listed = sorted(set("".join(words))), second.check_pack(data).names
            sounds = cases.Sounds(listed, letters, letters, [""], 1)
        words = [word.encode() for word in words]

        def good():
            kind = rng.randrange(4)
            return rng.choice(words) if words and kind == 0 else cases.name_over(rng, sounds).replace(b"\n", b"\r") if kind == 1 else keys.random_name(rng, letters)

        with tempfile.TemporaryDirectory() as folder:
            rules = keys.rules_of_pack("random", folder, data)
            for _ in range(2):
                setting = keys.Setting(next(rounds), keys.some_set(rng, listed) if rng.randrange(2) else None)
                some = names_of(rng, good, max(1, min(RANDOM_NAMES, count)))
                odd = rng.randrange(40) == 0
                names.attack(rules, odd_setting(rng, setting) if odd else setting, some, odd)
                count -= len(some)
        for kind in ("packs", ("packs", "original"), ("packs", "accepted")):
            names.figures.counts[kind] += 1


# ---- damage

# where counts and lengths stand, strings with their lengths, and those of them that are contexts
Parts = collections.namedtuple("Parts", "numbers strings contexts")

ODD_STRINGS = cases.WORDS + [text.encode() for text in cases.EXPRESSIONS + cases.CONTEXTS] + [
    b"a" * 255, b"\xff", b"\x00", b'"', b"(a|b)", b"^", b"$", b"[ab]", b"[^a]", b"b", b"zz", b"\x7f", b" ", b"/", b"#", b".", b"\xc3"]
ODD_FILES = cases.COMMENTS + cases.INCLUDES + cases.STRINGS + cases.GUESSES + cases.LANGUAGES


class Walk:
    """Notes where numbers and strings stand that follow one another."""

    def __init__(self):
        self.at, self.parts = 0, Parts([], [], [])

    def number(self, width):
        self.parts.numbers.append((self.at, self.at + width))
        self.at += width

    def string(self, length, width=1):
        self.parts.strings.append((self.at, self.at + width, self.at + width + length))
        self.number(width)
        self.at += length


def parts_of_pack(pack):
    """01, Bundle and pack, of an accepted pack."""
    walk = Walk()
    walk.number(1)
    for name in pack.names:
        walk.string(len(name))
    walk.number(2)
    for guess in pack.guesses:
        walk.number(1)
        walk.number(4)
        walk.string(len(guess.written.encode()))
    walk.number(1)
    for rules in pack.lists:
        walk.number(2)
        for rule in rules:
            for text in rule[:4]:
                walk.string(len(text.encode()))
            walk.parts.contexts.extend(walk.parts.strings[-3:-1])
    return walk.parts


def parts_of_bundle(bundle):
    """01, Bundle and pack, of a bundle that is well formed."""
    walk = Walk()
    walk.number(2)
    for name, content in second.read_bundle(bundle):
        walk.string(len(name))
        walk.string(len(content), 4)
    return walk.parts


def a_stretch(rng, data, most=8):
    start = rng.randrange(len(data) + 1)
    return start, min(len(data), start + rng.randrange(1, most))


def changed(rng, data, parts, odd):
    if not data:
        return bytes([rng.randrange(256)])
    place = rng.randrange(len(data))
    value = rng.choice((0, 255, data[place] ^ 1 << rng.randrange(8), (data[place] + rng.choice((1, 255))) % 256, rng.randrange(256)))
    return data[:place] + bytes([value]) + data[place + 1:]


def removed(rng, data, parts, odd):
    start, end = a_stretch(rng, data)
    return data[:start] + data[end:]


def put_in(rng, data, parts, odd):
    start = rng.randrange(len(data) + 1)
    return data[:start] + rng.choice((bytes([rng.randrange(256)]), rng.choice(odd)[:300])) + data[start:]


def doubled(rng, data, parts, odd):
    start, end = a_stretch(rng, data, 40)
    return data[:end] + data[start:]


def cut(rng, data, parts, odd):
    return data[:rng.randrange(len(data) + 1)]


def counted(rng, data, parts, odd):
    """A count or a length that is another one."""
    start, end = rng.choice(parts.numbers)
    most = 256 ** (end - start)
    number = int.from_bytes(data[start:end], "big")
    other = rng.choice((number + 1, number - 1, number + 1, number - 1, 0, most - 1, number + 256, number * 2, rng.randrange(most))) % most
    return data[:start] + other.to_bytes(end - start, "big") + data[end:]


def swapped(rng, data, parts, odd):
    """Two strings with their lengths, each where the other was."""
    (start, _, end), (later, _, last) = sorted((rng.choice(parts.strings), rng.choice(parts.strings)))
    return data[:start] + data[later:last] + data[end:later] + data[start:end] + data[last:] if end <= later else data


def replaced(rng, data, parts, odd):
    """A string that is an odd one, with its length."""
    start, middle, end = rng.choice(parts.strings)
    width = middle - start
    other = rng.choice(odd)[:256 ** width - 1]
    return data[:start] + len(other).to_bytes(width, "big") + other + data[end:]


def boxed(rng, data, parts, odd):
    """A context that is a box of any kind, with its length; of a pack with rules."""
    if not parts.contexts:
        return changed(rng, data, parts, odd)
    start, middle, end = rng.choice(parts.contexts)
    box = cases.a_box(rng).encode()
    return data[:start] + bytes([len(box)]) + box + data[end:]


ANYWHERE = (changed, removed, put_in, doubled, cut)


def within(rng, data, parts, odd):
    """A string that is damaged itself, with its length."""
    start, middle, end = rng.choice(parts.strings)
    other = rng.choice(ANYWHERE)(rng, data[middle:end], parts, odd)[:256 ** (middle - start) - 1]
    return data[:start] + len(other).to_bytes(middle - start, "big") + other + data[end:]


def lined(rng, data, parts, odd):
    """A file in which a line is an odd one, comes twice, is gone, or stands elsewhere."""
    start, middle, end = rng.choice([part for part in parts.strings if part[1] - part[0] == 4])
    lines = data[middle:end].split(b"\n")
    place, kind = rng.randrange(len(lines)), rng.randrange(6)
    if kind < 3:
        lines[place:place + rng.randrange(2)] = [odd_line(rng, odd)]
    elif kind == 3:
        lines.insert(rng.randrange(len(lines)), lines[place])
    elif kind == 4:
        del lines[place]
    else:
        lines.insert(rng.randrange(len(lines)), lines.pop(place))
    content = b"\n".join(lines)
    return data[:start] + len(content).to_bytes(4, "big") + content + data[end:]


def odd_line(rng, odd):
    """A rule of which a string is odd, or any odd line."""
    strings = [b"a", b"", b"", b"o"]
    place, string = rng.choice((
        (0, b""), (rng.randrange(4), b"a" * 256), (rng.randrange(1, 3), rng.choice(cases.CONTEXTS).encode()),
        (rng.randrange(1, 3), cases.a_box(rng).encode()), (3, b"o[zz]"),
        (3, rng.choice(cases.EXPRESSIONS).encode()), (rng.randrange(4), rng.choice(ODD_STRINGS))))
    strings[place] = string
    return rng.choice((cases.rule_line(*strings), cases.rule_line(*strings), rng.choice(odd)))


DAMAGES = ANYWHERE + (changed, counted, counted, swapped, swapped, replaced, replaced, within, within, within, boxed, boxed)
FILE_DAMAGES = DAMAGES + (swapped, replaced) + (lined,) * 10


def damaged(rng, data, parts, odd, damages):
    """Damage of one kind, and now and then more somewhere."""
    data = rng.choice(damages)(rng, data, parts, odd)
    while rng.randrange(6) == 0:
        data = rng.choice(ANYWHERE)(rng, data, parts, odd)
    return data


# ---- packs

def base_packs(rng, rules):
    """Accepted packs without end, with the letters of their names and how many damaged ones are made of each; few are large."""
    large = [data for data in cases.bounds() if isinstance(second.check_pack(data), second.Pack)] + rules.packs
    large.append(second.pack_bytes(["any"], [], [[("a", "", "", "o")] * 2000] * 5))        # longer than the program keys takes
    edges = list(cases.edges())
    while True:
        kind = rng.randrange(100)
        if kind < 2:
            yield rng.choice(large), "abdeénłv' -", 6
        elif kind < 6:
            data, words = rng.choice(edges)
            yield data, sorted(set("".join(words))), BROKEN_OF_A_PACK
        elif kind < 40:
            yield cases.small_pack(rng), "abcéł", BROKEN_OF_A_PACK
        else:
            sounds, data = cases.spelling_pack(rng)
            yield data, sounds.letters, BROKEN_OF_A_PACK


def some_setting(rng, names):
    settings = second.Settings(rng.randrange(3), rng.randrange(2), rng.randrange(2), rng.choice(cases.LIMITS))
    return keys.Setting(settings, keys.some_set(rng, names) if rng.randrange(2) else None)


def spell_some(rng, ask, figures, data, checked, letters, count):
    """Names by a pack, in rooms of every kind, and an odd line now and then."""
    listed = checked.names if isinstance(checked, second.Pack) else ["any"]
    for _ in range(count):
        setting = some_setting(rng, listed)
        name = keys.random_name(rng, letters)
        if rng.randrange(6) == 0:
            name = odd_name(rng, name)[:300]
        if rng.randrange(10) == 0:
            lines, line = second.Cases(), keys.odd_line(rng, setting, name)
            lines.checked = checked
            wanted = lines.answer(line)
        else:
            answer = second.spell(setting.settings, checked, name, setting.given)
            room = keys.room_for(rng, answer)
            line, wanted = keys.spelling_line(setting, room, name), second.spelled_line(keys.in_room(answer, room), room)
        figures.counts["names"] += 1
        figures.counts["names", "second"] += 1
        ask.line("pack " + cases.hex_of(data), line, wanted)


def pack_as_file(rng, run, figures, path, data, letters):
    """The same pack through the program keys."""
    with open(path, "wb") as file:
        file.write(data)
    settings = some_setting(rng, ["any"]).settings
    names = names_of(rng, lambda: keys.random_name(rng, letters), 4)
    block = b"".join(name + b"\n" for name in names)
    wanted = second.keys(settings, data, block).split(b"\n")[:-1]
    lines = run.lines("keys", path, *map(str, settings), data=block, count=len(wanted))
    figures.counts["names"] += len(names)
    figures.counts["names", "second"] += len(names)
    if lines is not None and lines != wanted:
        figures.differs("keys %s of pack %s with names %s" % (settings, data.hex(), block.hex()), port=lines, second=wanted)
        return
    for line in wanted:
        figures.answered(keys.answer_of(line))


def try_packs(rng, count, run, ask, figures, rules, folder):
    path = os.path.join(folder, "a.pack")
    for data, letters, broken in base_packs(rng, rules):
        parts = parts_of_pack(second.check_pack(data))
        for number in range(broken + 1):
            if count == 0:
                return ask.flush()
            some = data if number == 0 else damaged(rng, data, parts, ODD_STRINGS, DAMAGES)
            if rng.randrange(50) == 0:
                some = bytes(rng.randrange(256) for _ in range(rng.randrange(40)))
            if len(some) > second.LONGEST_PACK:
                continue
            count -= 1
            checked = second.check_pack(some)
            accepted = isinstance(checked, second.Pack)
            figures.counts["packs"] += 1
            figures.counts["packs", "second"] += 1
            figures.counts["packs", "accepted"] += accepted
            ask.line("pack " + cases.hex_of(some), "check", "0" if accepted else "5 %d" % checked[1])
            spell_some(rng, ask, figures, some, checked, letters, 2 if accepted else rng.randrange(20) // 19)
            if rng.randrange(PACKS_AS_FILES) == 0:
                pack_as_file(rng, run, figures, path, some, letters)


# ---- bundles

def try_bundle(rng, ask, figures, bundle, name_type):
    """A bundle at a room that is near its pack's length; a refused one in six bytes. Answers the pack, or None."""
    answer = second.load(name_type, bundle)
    figures.counts["bundles"] += 1
    figures.counts["bundles", "second"] += 1
    room = 6 if answer[0] else min(second.LONGEST_PACK, max(0, len(answer[1]) + rng.choice((0, 0, 0, 5, -1, -10 ** 6))))
    if answer[0]:
        wanted = "%d %d %d %s" % (*answer, second.lent(room, b""))
    elif room < len(answer[1]):
        wanted = "9 %d 0 %s" % (len(answer[1]), second.lent(room, b""))
    else:
        wanted = "0 %d %s" % (len(answer[1]), second.lent(room, answer[1]))
    ask.line("bundle " + cases.hex_of(bundle), "load %d %d" % (name_type, room), wanted)
    if answer[0]:
        return None
    figures.counts["bundles", "accepted"] += 1
    return answer[1]


def try_stored(rng, count, ask, figures):
    """The bundles of cases.py: each kind of line, each number at its first and last place, the bounds, every byte changed."""
    every = list(cases.loading_all())
    for text, _, _ in rng.sample(every, min(count, len(every))):
        setting, line = text.split("\n")
        if len(setting) <= 2 * second.LONGEST_PACK + len("bundle "):
            try_bundle(rng, ask, figures, second.bytes_of(setting.split(" ")[1]), int(line.split(" ")[1]))


def try_original(rng, ask, figures, folder):
    """A folder that both can read: what the original loads of it."""
    name_type, files = loading.random_try(rng)
    pack = try_bundle(rng, ask, figures, second.bundle_bytes(files), name_type)
    if pack is None:
        return
    figures.counts["bundles", "original"] += 1
    shown, told = loading.shown_pack(pack), folder.original(files, name_type)
    if shown != told:
        figures.differs("type %d %r" % (name_type, files), port=shown, original=told)


def try_folder(rng, trial, figures):
    """A folder through the programs bundle and load."""
    number = rng.randrange(3)
    if rng.randrange(2):
        files = programs.random_folder(rng, second.FILE_PREFIXES[number])
    else:
        some = cases.random_files(rng, real.TYPES[number], cases.sounds_of(rng), rng.choice((1000000, 40)))
        files = {name.encode(): content for name, content in some.items()}
    if second.FILE_PREFIXES[number] + b"_languages" in files:
        figures.counts["bundles"] += 1
        figures.counts["bundles", "second"] += 1
        figures.counts["bundles", "accepted"] += trial.folder("a folder", number, files) == 0


def try_bundles(rng, count, run, ask, figures, path):
    def program(*words):
        status, out, error = run.run(*words)
        return status, out.decode(), error

    trial, folder = programs.Trial(program), loading.Folder(path)
    wanted = figures.counts["bundles"] + count
    try_stored(rng, count // 3, ask, figures)
    while figures.counts["bundles"] < wanted:
        if rng.randrange(BUNDLES_AS_FOLDERS) == 0:
            try_folder(rng, trial, figures)
        if rng.randrange(BUNDLES_ORIGINAL) == 0:
            try_original(rng, ask, figures, folder)
        name_type, sounds = rng.randrange(3), cases.sounds_of(rng)
        files = cases.random_files(rng, real.TYPES[name_type], sounds, rng.choice((1000000, 1000000, 200, 40)))
        bundle = second.bundle_bytes(files)
        parts = parts_of_bundle(bundle)
        for number in range(BROKEN_OF_A_BUNDLE + 1):
            some = bundle if number == 0 else damaged(rng, bundle, parts, ODD_FILES, FILE_DAMAGES)
            if len(some) > second.LONGEST_PACK:
                continue
            pack = try_bundle(rng, ask, figures, some, name_type if rng.randrange(40) else rng.choice((3, 4, 255, 2 ** 32 - 1)))
            if pack is not None and rng.randrange(4) == 0:
                spell_some(rng, ask, figures, pack, second.check_pack(pack), sounds.letters, 2)
    ask.flush()
    figures.differ += trial.wrong


def main():
    parser = argparse.ArgumentParser(usage=__doc__)
    parser.add_argument("--names", type=int, default=20000)
    parser.add_argument("--packs", type=int, default=2000)
    parser.add_argument("--bundles", type=int, default=400)
    parser.add_argument("--seed", type=int, default=1)
    parser.add_argument("--seconds", type=int, default=300)
    parser.add_argument("--native")
    given = parser.parse_args()
    figures = Figures()
    random.seed(given.seed)             # programs.py draws from it
    with bin_of(given.native) as bin_folder, tempfile.TemporaryDirectory() as folder:
        def rng(part):
            return random.Random("attack %s %d" % (part, given.seed))

        def own(part):
            path = os.path.join(folder, part)
            os.mkdir(path)
            return path

        run = Programs(bin_folder, given.seconds, figures)
        ask = Ask(run, figures)
        rules = keys.real_rules(own("real"))
        try_packs(rng("packs"), given.packs, run, ask, figures, rules, own("packs"))
        figures.part("packs")
        try_bundles(rng("bundles"), given.bundles, run, ask, figures, own("bundles"))
        figures.part("bundles")
        rest = max(0, given.names - figures.counts["names"])
        names = Names(rng("names"), run, figures, own("names"))
        try_random_names(names.rng, rest * 2 // 5, names)
        figures.part("names")
        try_real_names(names.rng, given.names - figures.counts["names"], names, rules)
        figures.part("names")
    figures.show()
    sys.exit(1 if figures.differ else 0)


if __name__ == "__main__":
    main()
