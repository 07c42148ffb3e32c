#!/usr/bin/env python3
"""Holds keys and flags of the second check, and of the port, against those of the original.

    tests/keys.py [--packs N] [--wide N] [--names N] [--seed N] [--real] [--port ask] [--bulk N]

Tried are the edges and the names of prefixes of cases.py, N random packs, N whose sets grow to hundreds of texts, and with --real the real rules
(oracle/rules fetches them) less the lines that document 01 refuses; each under settings of every kind, with N random names a
setting. With --port the port's program answers the same as case lines, and odd ones besides. Every difference is printed, then what
was compared; the exit status is 1 where there is a difference. The original is built by oracle/build; bm-probe gives its keys. With
--bulk the program keys spells every surname and N mixed names under every setting of the real rules, and as many of random packs,
and is held against the original itself.

Where document 01 refuses with 7 or 8 the original gives a key; compared is that its counts show the cause. It has no bounds, so it
is asked for the shortest such names only, and with a bound on its time; where it does not come to an end it is counted as silent.
Names where two prefixes fit, here or in a name spelled afresh, are left out (02, ticket 5): of them the second check judges the port,
and how many there were stands under "two fit".
"""
import argparse
import collections
import functools
import itertools
import os
import random
import resource
import subprocess
import sys
import tempfile
import time

HERE = os.path.dirname(os.path.abspath(__file__))
ROOT = os.path.dirname(HERE)
sys.path.insert(0, HERE)
import cases  # noqa: E402
import real  # noqa: E402
import second  # noqa: E402

PROBE = os.path.join(ROOT, "oracle", "made", "bin", "bm-probe")
REAL_RULES = os.path.join(ROOT, "oracle", "made", "rules")
SURNAMES = os.path.join(HERE, "surnames.txt")
RULE_TYPES = ("approx", "exact")
REAL_LIMITS = (0, 1, 2, 10, 20, 256)
REFUSED_ASKED = 8               # how many names of a setting with 7 or 8 the original is asked for
SECONDS, SECONDS_REFUSED = 60, 2        # what the original may take for the names of a setting, and for one with 7 or 8
BYTES = 1 << 30                 # and how much memory
BATCH = 2000                    # lines for one process of the port
SETTINGS_OF_A_PACK = 12
# how packs are made at random, and the limits that they are tried under
PARTS = {"random": (cases.spelling_pack, cases.LIMITS), "wide": (cases.wide_pack, cases.WIDE_LIMITS)}

# the same rules for the original (folder) and for the others (packs, by name type: bytes, and accepted)
Rules = collections.namedtuple("Rules", "part folder packs checked")
# given: None, or kind and bits (01, What the desk gets)
Setting = collections.namedtuple("Setting", "settings given")
Told = collections.namedtuple("Told", "flag longest most key")


# ---- the original

def bounded(seconds):
    resource.setrlimit(resource.RLIMIT_CPU, (seconds, seconds))
    resource.setrlimit(resource.RLIMIT_AS, (BYTES, BYTES))


def languages_word(given, names):
    """A given set as bm-probe takes it."""
    kind, bits = given
    if kind < 2:
        return ("any", "none")[kind]
    return "some:" + ",".join(name for bit, name in enumerate(names) if bits >> bit & 1)


def probe_command(rules, setting):
    name_type, rule_type, concat, limit = setting.settings
    command = [PROBE, rules.folder, real.TYPES[name_type], RULE_TYPES[rule_type], str(concat), str(limit)]
    if setting.given is not None:
        command += ["--langs", languages_word(setting.given, rules.checked[name_type].names)]
    return command


def told_of(line):
    """A line `FLAG LONGEST MOST KEY` of bm-probe."""
    flag, longest, most, key = line.split(b" ", 3)
    return Told(int(flag), int(longest), int(most), key)


def probe(command, names, seconds):
    """What the original tells of each name; None of all where it does not come to an end in time."""
    done = subprocess.run(command, input=b"".join(name + b"\n" for name in names), stdout=subprocess.PIPE, stderr=subprocess.PIPE,
                          preexec_fn=functools.partial(bounded, seconds))
    if done.returncode > 0:
        sys.exit("%s: status %d, %s" % (" ".join(command), done.returncode, done.stderr.decode()))
    if done.returncode < 0:
        return [None] * len(names)
    told = [told_of(line) for line in done.stdout.split(b"\n")[:-1]]
    if len(told) != len(names):
        sys.exit("%s: %d answers to %d names" % (" ".join(command), len(told), len(names)))
    return told


def original(rules, setting, names, answers):
    """What the original tells, by place: of every name that is spelled, and of the shortest that meet 7 or 8, each alone, until it
    is silent."""
    command = probe_command(rules, setting)
    spelled = [place for place, answer in enumerate(answers) if answer[0] == 0]
    refused = sorted((len(names[place]), place) for place, answer in enumerate(answers) if answer[0] != 0)
    told = dict(zip(spelled, probe(command, [names[place] for place in spelled], SECONDS)))
    for _, place in refused[:REFUSED_ASKED]:
        told[place] = probe(command, [names[place]], SECONDS_REFUSED)[0]
        if told[place] is None:
            break
    return told


def agrees(answer, told):
    """Whether the original bears an answer out: key and flag, or the count that is the cause of a refusal (01, the table, codes 7
    and 8)."""
    long, many = told.longest > second.LONGEST_TEXT, told.most > second.MOST_TEXTS
    if answer[0] == 0:
        return not long and not many and answer == (0, told.flag, told.key)
    return long if answer[0] == 7 else many if answer[0] == 8 else False


# ---- case lines

def spelling_line(setting, room, name):
    fields = setting.settings + (setting.given or ())
    return "%s %s %d %s" % ("spell" if setting.given is None else "given", " ".join(map(str, fields)), room, cases.hex_of(name))


def plain_word(name_type, name):
    """The lower-cased name where it comes to the passes as it is (01, Spelling, 1 to 5, without concat), else nothing."""
    word = second.lower(second.decode(name))
    return "" if set(word) & set(" -") or name_type == second.GENERIC and word.startswith("d'") else word


def word_line(pack, setting, word):
    """The `word` line that comes to the same as spelling a plain word: its lists are those of the single language, else `any`."""
    languages = second.guess(pack, word) if setting.given is None else second.given_set(setting.given, pack)
    index = second.single(languages)
    numbers = cases.list_numbers(pack.names, pack.names.index("any") if index is None else index, setting.settings.rule_type)
    kind, bits = (0, 0) if languages == second.ANY else (1, 0) if languages == second.NONE else (2, languages)
    return "word %d %d %d %d %d %d %s" % (*numbers, setting.settings.limit, kind, bits, cases.hex_of(word.encode()))


def as_worded(answer):
    """What a `word` line prints where spelling gave this."""
    return "0 %d %s" % (answer[1], cases.hex_of(answer[2])) if answer[0] == 0 else str(answer[0])


def room_for(rng, answer):
    """A room in which an answer mostly just fits (01, the table, code 9)."""
    length = len(answer[2]) if answer[0] == 0 else 0
    room = length + rng.randrange(3) if rng.randrange(8) else rng.randrange(length + 1)
    return min(room, second.LARGEST_ROOM)


def in_room(answer, room):
    """The answer with code 9 last (01, What the desk gets)."""
    return (9, 0, len(answer[2])) if answer[0] == 0 and len(answer[2]) > room else answer


def odd_line(rng, setting, name):
    """A line that document 01 mostly refuses, for its settings, its set or its name."""
    settings, given = list(setting.settings), setting.given
    change = rng.randrange(6)
    if change < 4:
        settings[change] = rng.choice(((3, 4), (2, 3), (2, 255), (257, 1000))[change] + (2 ** 32 - 1,))
    elif change == 4:
        given = rng.choice(((3, 0), (2, rng.randrange(1 << 32)), (2 ** 32 - 1, 1), (rng.randrange(2), 2 ** 32 - 1)))
    long = (name + b"a" * 97)[:rng.choice((96, 97))]
    name = rng.choice((name, cases.damaged(rng), name + b"\xc4\xb0", name + cases.damaged(rng), long))
    return spelling_line(Setting(second.Settings(*settings), given), rng.randrange(40), name)


class Port:
    """Lines for the port's program and the answers wanted, given to one process after another."""

    def __init__(self, program, tally):
        self.command, self.tally = [os.path.join(ROOT, "bin", program)], tally
        self.wanted, self.pack = [], None

    def ask(self, pack, line, wanted):
        """A line over a pack, which is set first where another one was."""
        setting = "" if pack == self.pack else "pack %s\n" % cases.hex_of(pack)
        self.pack = pack
        self.wanted.append((pack, setting + line, wanted))
        if len(self.wanted) >= BATCH:
            self.flush()

    def flush(self):
        text = "".join(line + "\n" for _, line, _ in self.wanted)
        done = subprocess.run(self.command, input=text.encode(), stdout=subprocess.PIPE, check=True)
        answers = done.stdout.decode().split("\n")[:-1]
        if len(answers) != len(self.wanted):
            sys.exit("%s: %d answers to %d cases" % (self.command[0], len(answers), len(self.wanted)))
        for (pack, line, wanted), answer in zip(self.wanted, answers):
            self.tally.port(pack, line.split("\n")[-1], wanted, answer)
        self.wanted, self.pack = [], None


# ---- what was compared

COLUMNS = ("keys", "flag up", "no text", "7", "7 shown", "8", "8 shown", "silent", "two fit", "words", "differ")


class Tally:
    """Counts by part, name type and rule type, and prints each difference as it is met."""

    def __init__(self):
        self.counts, self.lines, self.differ, self.started = {}, 0, 0, time.time()

    def count(self, rules, setting, column):
        row = rules.part, real.TYPES[setting.settings.name_type], RULE_TYPES[setting.settings.rule_type]
        self.counts.setdefault(row, collections.Counter())[column] += 1

    def differs(self, pack, line, *told):
        self.differ += 1
        print("pack %s\n%s" % (cases.hex_of(pack), line))
        for who, answer in told:
            print("  %s %s" % (who, answer), flush=True)

    def key(self, rules, setting, name, answer, told):
        """An answer of the second check; told is None where the original is silent or was not asked."""
        code = answer[0]
        self.count(rules, setting, "keys" if code == 0 else str(code))
        if code == 0 and answer[1]:
            self.count(rules, setting, "flag up")
        if answer[2] == b"":
            self.count(rules, setting, "no text")
        if told is not None and agrees(answer, told):
            if code:
                self.count(rules, setting, "%d shown" % code)
        elif told is not None or code not in (7, 8):
            self.count(rules, setting, "differ")
            self.differs(rules.packs[setting.settings.name_type], spelling_line(setting, second.LARGEST_ROOM, name),
                         ("second", answer), ("original", told))

    def two_fit(self, rules, setting, name, answer, wanted):
        """An answer that is not the original's to judge, and the second check's."""
        self.count(rules, setting, "two fit")
        if answer != wanted:
            self.count(rules, setting, "differ")
            self.differs(rules.packs[setting.settings.name_type], spelling_line(setting, second.LARGEST_ROOM, name),
                         ("port", answer), ("second", wanted))

    def word(self, rules, setting, line, told, answer):
        """A `word` line's answer of the second check and what the original told of that name."""
        self.count(rules, setting, "words")
        wanted = as_worded((0, told.flag, told.key))
        if answer != wanted:
            self.count(rules, setting, "differ")
            self.differs(rules.packs[setting.settings.name_type], line, ("second", answer), ("original", wanted))

    def port(self, pack, line, wanted, answer):
        self.lines += 1
        if answer != wanted:
            self.differs(pack, line, ("second", wanted), ("port", answer))

    def silent(self, rules, setting):
        self.count(rules, setting, "silent")

    def show(self):
        width = "%-8s %-4s %-7s" + " %9s" * len(COLUMNS)
        print(width % (("part", "type", "kind") + COLUMNS))
        for row in sorted(self.counts):
            print(width % (row + tuple(self.counts[row][column] for column in COLUMNS)))
        total = sum(self.counts.values(), collections.Counter())
        print(width % (("all", "", "") + tuple(total[column] for column in COLUMNS)))
        if self.lines:
            print("%d lines of the port" % self.lines)
        print("%d differ, %d seconds" % (self.differ, time.time() - self.started))


# ---- comparing

def compare_words(rng, rules, setting, names, answers, told, tally, port):
    """`word` lines of some plain words, whose lists are those of a single language or of `any`, against the original's keys."""
    name_type = setting.settings.name_type
    lines = second.Cases()
    lines.checked = rules.checked[name_type]
    for place, answer in enumerate(answers):
        word = plain_word(name_type, names[place])
        if setting.settings.concat or answer[0] or told.get(place) is None or word == "" or rng.randrange(4):
            continue
        line = word_line(lines.checked, setting, word)
        tally.word(rules, setting, line, told[place], lines.answer(line))
        if port:
            port.ask(rules.packs[name_type], line, as_worded(answer))


def compare_port(rng, rules, setting, names, answers, port):
    pack = rules.packs[setting.settings.name_type]
    for name, answer in zip(names, answers):
        room = room_for(rng, answer)
        port.ask(pack, spelling_line(setting, room, name), second.spelled_line(in_room(answer, room), room))
    lines, line = second.Cases(), odd_line(rng, setting, rng.choice(names))
    some = pack if rng.randrange(4) else pack[:rng.randrange(len(pack))]
    lines.checked = second.check_pack(some)
    port.ask(some, line, lines.answer(line))


def spelled_by_second(rules, setting, name):
    return second.spell(setting.settings, rules.checked[setting.settings.name_type], name, setting.given)


def compare_keys(rules, setting, names, answers, tally):
    """Answers against the original, but those of names where two prefixes fit: these places, and what the original told of others."""
    left = {place for place, name in enumerate(names) if second.two_prefixes_fit(setting.settings, name)}
    held = [place for place in range(len(names)) if place not in left]
    told = original(rules, setting, [names[place] for place in held], [answers[place] for place in held])
    for place in left:
        tally.two_fit(rules, setting, names[place], answers[place], spelled_by_second(rules, setting, names[place]))
    for number, place in enumerate(held):
        if number in told and told[number] is None:
            tally.silent(rules, setting)
        tally.key(rules, setting, names[place], answers[place], told.get(number))
    return {held[number]: one for number, one in told.items()}


def compare(rng, rules, setting, names, tally, port):
    """All names under one setting."""
    answers = [spelled_by_second(rules, setting, name) for name in names]
    told = compare_keys(rules, setting, names, answers, tally)
    compare_words(rng, rules, setting, names, answers, told, tally, port)
    if port:
        compare_port(rng, rules, setting, names, answers, port)


# ---- names

def upper(letter):
    """The upper case of a letter where it is one character of the range (01, Letters)."""
    changed = letter.upper()
    return changed if len(changed) == 1 and second.in_range(ord(changed)) else letter


def cut(name):
    """01, Letters: "at most 96 bytes"."""
    while len(name.encode()) > second.LONGEST_NAME:
        name = name[:-1]
    return name.encode()


PREFIXES = sorted({prefix for some in second.PREFIXES.values() for prefix in some})


def prefixed(rng, name):
    """Now and then with something of steps 3 to 5 before it or in it."""
    while rng.randrange(4) == 0:
        name = rng.choice(PREFIXES) + rng.choice((" ", " ", "-", "  ", "")) + name
    if rng.randrange(10) == 0:
        name = "d'" + name
    if rng.randrange(10) == 0:
        name = rng.choice((" ", "-", "'")) + name + rng.choice((" ", "-", "'"))
    return name


def cased(rng, name):
    how = rng.randrange(4)
    return "".join(upper(letter) if how == 0 or how == 1 and place == 0 else letter for place, letter in enumerate(name))


def word_of(rng, letters):
    """A word, with a letter of the whole range now and then, and seldom a long one."""
    word = "".join(rng.choice(letters) for _ in range(rng.choice((0, 1, 1, 2, 2, 3, 3, 4, 5, 6, 8))))
    if rng.randrange(12) == 0:
        word += chr(rng.choice(cases.RANGE))
    return word * rng.randrange(2, 20) if rng.randrange(25) == 0 else word


def random_name(rng, letters):
    words = [word_of(rng, letters) for _ in range(rng.choice((1, 1, 1, 1, 2, 3)))]
    return cut(cased(rng, prefixed(rng, rng.choice((" ", "-", "'", "  ", " - ")).join(words))))


def mixed_name(rng, surnames):
    """The beginning of one surname and the end of another, or random letters."""
    if rng.randrange(3) == 0:
        return random_name(rng, "aabcdeefghiijklmnoopqrstuuvwxyzäéłñöüß")
    one, other = rng.choice(surnames), rng.choice(surnames)
    return cut(cased(rng, prefixed(rng, one[:rng.randrange(len(one) + 1)] + other[rng.randrange(len(other)):])))


# ---- rules and settings

def write_folder(folder, files):
    for name, content in files.items():
        with open(os.path.join(folder, name + ".txt"), "wb") as file:
            file.write(content)


def rules_of_pack(part, folder, data):
    """One pack for the three name types."""
    checked = second.check_pack(data)
    for name_type in range(3):
        write_folder(folder, second.plain_files(name_type, checked))
    return Rules(part, folder, [data] * 3, [checked] * 3)


def real_rules(folder):
    """The real files less the lines that are refused: the original reads them, the second check loads them."""
    packs = []
    for number, prefix in enumerate(real.TYPES):
        files = real.files_of(REAL_RULES, prefix)
        pack, dropped = real.pack_of(number, files)
        write_folder(folder, {name: b"\n".join(line.rstrip() for line in lines) for name, lines in files.items()})
        packs.append(pack)
        print("%s: %d bytes, dropped %s" % (prefix, len(pack), dict(dropped)))
    return Rules("real", folder, packs, [second.check_pack(pack) for pack in packs])


def settings_over(limits):
    return [second.Settings(*numbers) for numbers in itertools.product(range(3), range(2), range(2), limits)]


def some_set(rng, names):
    """A given set, with bits that count and with bits that don't (01, What the desk gets; reading 31)."""
    some, uncounted = (2, rng.randrange(1 << len(names))), (rng.randrange(2), rng.randrange(1 << 32))
    return rng.choice(cases.start_sets(names) + [some] * 3 + [uncounted])


def edge_settings(rng, names):
    for settings in settings_over(cases.LIMITS):
        for given in (None, (0, 0), rng.choice(cases.start_sets(names))):
            yield Setting(settings, given)


def try_edges(rng, tally, port):
    for data, words in cases.edges():
        with tempfile.TemporaryDirectory() as folder:
            rules = rules_of_pack("edges", folder, data)
            names = [word.encode() for word in words] + [" ".join(words[:2]).encode(), b"de " + words[0].encode()]
            for setting in edge_settings(rng, rules.checked[0].names):
                compare(rng, rules, setting, names, tally, port)


def try_prefixes(rng, tally, port):
    """Every name of some prefixes and words, by rules that show how it was parted."""
    names = list(cases.parted_names())
    with tempfile.TemporaryDirectory() as folder:
        rules = rules_of_pack("prefixes", folder, cases.PARTED_PACK)
        for name_type, concat in itertools.product(range(3), range(2)):
            compare(rng, rules, Setting(second.Settings(name_type, 0, concat, 20), None), names, tally, port)


def try_random(rng, part, packs, count, tally, port):
    """Packs with settings drawn from a shuffled round of all of them, half of them with a given set."""
    make, limits = PARTS[part]
    rounds = []
    for _ in range(packs):
        sounds, data = make(rng)
        with tempfile.TemporaryDirectory() as folder:
            rules = rules_of_pack(part, folder, data)
            for _ in range(SETTINGS_OF_A_PACK):
                if not rounds:
                    rounds = settings_over(limits)
                    rng.shuffle(rounds)
                setting = Setting(rounds.pop(), some_set(rng, sounds.names) if rng.randrange(2) else None)
                compare(rng, rules, setting, [random_name(rng, sounds.letters) for _ in range(count)], tally, port)


def try_real(rng, count, tally, port):
    """Every surname and random names under every setting, and some of both with given sets."""
    with open(SURNAMES, encoding="utf-8") as file:
        surnames = file.read().split("\n")[:-1]
    with tempfile.TemporaryDirectory() as folder:
        rules = real_rules(folder)
        for settings in settings_over(REAL_LIMITS):
            mixed = [mixed_name(rng, surnames) for _ in range(count)]
            compare(rng, rules, Setting(settings, None), [cut(name) for name in surnames] + mixed, tally, port)
            for _ in range(3):
                given = some_set(rng, rules.checked[settings.name_type].names)
                names = [mixed_name(rng, surnames) for _ in range(count)] + [cut(name) for name in rng.sample(surnames, count)]
                compare(rng, rules, Setting(settings, given), names, tally, port)


# ---- many names: the program against the original

def answer_of(line):
    """A line of the program keys: code, flag and key, or code and place."""
    if line.startswith(b"0 "):
        return 0, int(line[2:3]), line[4:]
    code, place = line.split(b" ")
    return int(code), 0, int(place)


def program(path, setting, names):
    command = [os.path.join(ROOT, "bin", "keys"), path] + [str(number) for number in setting.settings + (setting.given or ())]
    done = subprocess.run(command, input=b"".join(name + b"\n" for name in names), stdout=subprocess.PIPE, check=True)
    answers = [answer_of(line) for line in done.stdout.split(b"\n")[:-1]]
    if len(answers) != len(names):
        sys.exit("%s: %d answers to %d names" % (" ".join(command), len(answers), len(names)))
    return answers


def compare_bulk(rules, setting, names, tally):
    with tempfile.NamedTemporaryFile() as pack:
        pack.write(rules.packs[setting.settings.name_type])
        pack.flush()
        answers = program(pack.name, setting, names)
    compare_keys(rules, setting, names, answers, tally)


def loaded(folder):
    """The packs of a folder's rule files, by the programs bundle and load."""
    packs = []
    for prefix in real.TYPES:
        bundle, pack = os.path.join(folder, prefix + ".bundle"), os.path.join(folder, prefix + ".pack")
        subprocess.run([os.path.join(ROOT, "bin", "bundle"), prefix, folder, bundle], check=True)
        subprocess.run([os.path.join(ROOT, "bin", "load"), prefix, bundle, pack], check=True)
        with open(pack, "rb") as file:
            packs.append(file.read())
    return packs


def try_bulk(rng, count, tally):
    """The real rules, loaded by the programs, under every setting, guessed and with a given set; and random packs of as many names."""
    with open(SURNAMES, encoding="utf-8") as file:
        surnames = file.read().split("\n")[:-1]
    with tempfile.TemporaryDirectory() as folder:
        rules = real_rules(folder)._replace(part="bulk", packs=loaded(folder))
        for settings in settings_over(REAL_LIMITS):
            names = [cut(name) for name in surnames] + [mixed_name(rng, surnames) for _ in range(count)]
            compare_bulk(rules, Setting(settings, None), names, tally)
            given = some_set(rng, rules.checked[settings.name_type].names)
            compare_bulk(rules, Setting(settings, given), [mixed_name(rng, surnames) for _ in range(count // 4)], tally)
    for settings in settings_over(cases.LIMITS):
        sounds, data = cases.spelling_pack(rng)
        with tempfile.TemporaryDirectory() as folder:
            rules = rules_of_pack("packs", folder, data)
            setting = Setting(settings, some_set(rng, sounds.names) if rng.randrange(2) else None)
            compare_bulk(rules, setting, [random_name(rng, sounds.letters) for _ in range(count)], tally)


def main():
    parser = argparse.ArgumentParser(usage=__doc__)
    parser.add_argument("--packs", type=int, default=100)
    parser.add_argument("--wide", type=int, default=0)
    parser.add_argument("--names", type=int, default=25)
    parser.add_argument("--seed", type=int, default=1)
    parser.add_argument("--real", action="store_true")
    parser.add_argument("--port", choices=["ask"])
    parser.add_argument("--bulk", type=int, default=0)
    given = parser.parse_args()
    tally = Tally()
    port = Port(given.port, tally) if given.port else None
    rng = random.Random("keys %d" % given.seed)
    try_edges(rng, tally, port)
    try_prefixes(rng, tally, port)
    try_random(rng, "random", given.packs, given.names, tally, port)
    try_random(rng, "wide", given.wide, given.names, tally, port)
    if given.real:
        try_real(rng, given.names, tally, port)
    if given.bulk:
        try_bulk(rng, given.bulk, tally)
    if port:
        port.flush()
    tally.show()
    sys.exit(1 if tally.differ else 0)


if __name__ == "__main__":
    main()
