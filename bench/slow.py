#!/usr/bin/env python3
"""slow.py FOLDER: writes packs and names that are made to be slow, with the rule files for the original, and `list` and `slowest`, a line
for each of folder, name and words with tabs between, for bench.rs.

A shape says by its numbers what is made. A word's first letters build a set of texts, which share a long beginning; at each place behind
them stands a rule whose alternatives spell alike, so that every pair is tried while the set stays below the limit. Final rules do the
same with each of those texts: its first bytes build the same set again, and its other bytes are such places. Before the rule that
matches may stand others that do not, but are read a long way first; and there may be guessing patterns that come close to matching.
tests/slowest.py looks for the shapes that take longest.
"""
import itertools
import math
import os
import sys
from collections import namedtuple

sys.path.insert(0, os.path.join(os.path.dirname(os.path.abspath(__file__)), "..", "tests"))
import keys  # noqa: E402
import second  # noqa: E402

Shape = namedtuple("Shape", [
    "levels",       # how often the prefix d' stands before the words: each time they are spelled once more
    "words",        # words of the name
    "apart",        # 1: the words differ, and so do their texts
    "places",       # places of a word behind those that build the set
    "first",        # texts that a word's first letter makes, each with the shared beginning,
    "rows",         # alternatives of its second letter, and
    "columns",      # of its third: first * rows * columns texts
    "shared",       # letters of the shared beginning, each of which is a place of a final run
    "wide",         # 1: these are of two bytes each
    "behind",       # 1: a text stands behind all others and comes first, so that no other goes to the end of the set
    "how",          # what stands at a place, by PLACES
    "alike",        # about how many alternatives spell alike there
    "free",         # 1: names are guessed to be of Any language; 0: of all that are listed
    "finals",       # final lists: none, the common one, both
    "rules",        # rules at each place that do not match,
    "miss",         # why not, by MISSES, and
    "length",       # how many bytes are read until that is known
    "guesses",      # guessing patterns that do not match, and
    "box",          # how many other characters stand in each of their boxes; -1: they have none
    "end",          # "key", or the refusal that is met at the last text of all, by ENDS
])
PLAIN = Shape(levels=0, words=1, apart=0, places=0, first=1, rows=1, columns=1, shared=3, wide=0, behind=0, how="nothing", alike=1,
              free=0, finals=0, rules=0, miss="pattern", length=1, guesses=0, box=-1, end="key")

# a main pass alone
USUAL = PLAIN._replace(rows=14, columns=18, shared=120, alike=240, places=8, behind=1)
SHAPES = [
    USUAL,
    USUAL._replace(places=4),
    USUAL._replace(places=2),
    USUAL._replace(alike=120),
    USUAL._replace(alike=60),
    USUAL._replace(rows=7),
    USUAL._replace(rows=7, columns=9),
    USUAL._replace(shared=60),
    USUAL._replace(shared=30),
    USUAL._replace(behind=0),
    USUAL._replace(alike=248, places=93),
]

# what tests/slowest.py found to take longest, of each kind, and to take longest against the original
FINAL = PLAIN._replace(rows=14, columns=18, shared=120, behind=1, how="single", finals=2)
MANY = FINAL._replace(behind=0, rules=4000, miss="both boxes", length=250)
SLOWEST = [
    FINAL._replace(how="nothing", alike=248),
    FINAL,
    FINAL._replace(behind=0, how="crossing", alike=40),
    MANY._replace(rows=3, columns=3),
    MANY,
    MANY._replace(miss="between"),
    MANY._replace(miss="between", levels=45, words=2, apart=1, rows=5, columns=1, shared=53, free=1),
    PLAIN._replace(levels=47, guesses=4095, box=60),
    PLAIN._replace(levels=1, places=93, guesses=4095, free=1),
    PLAIN._replace(levels=47, shared=122, finals=2, alike=253, free=1),
    PLAIN._replace(levels=24, words=16, apart=1, first=2, rows=6, shared=115, how="single", finals=2),
    FINAL._replace(levels=24, words=12, apart=1),
    FINAL._replace(end="7"),
    FINAL._replace(end="8"),
]

# letters of texts: those of TURNS stand at places, 6 and 7 have the lower six bits of v and w, A stands between those; those of NEVER
# match nothing, and zz is behind all others; MARKS tell words apart
TURNS, NEVER = ("vw", "žź"), ("x", "ŷ")
COLUMNS = "abcdefghijlmnopqrstuy"
ROWS = "BCDEFGHIJKLMNOPQRSTUVWXYZ#$%&*,.:;<>?@`"
FIRST = "+-="
MARKS = "01234589!_"
FEW_NAMES = ["any", "f", "g", "h"]
MANY_NAMES = sorted(["any", "za", "zb", "zc", "zd", "ze"] + [chr(letter) for letter in range(ord("a"), ord("z") + 1)])


# ---- expressions

def cut(expression):
    """An expression within 255 bytes: alternatives are left out from the end."""
    while len(expression.encode()) > second.LONGEST_STRING:
        expression = expression[:expression.rindex("|")] + ")"
    return expression


def one_of(texts, others=""):
    """One of the texts, all but the first for the languages of `others`."""
    if len(texts) == 1:
        return texts[0]
    return cut("(%s)" % "|".join(texts[:1] + [text + others for text in texts[1:]]))


def masks(wanted):
    """Different sets of one to three languages, f, g and h left out."""
    letters = [name for name in MANY_NAMES if len(name) == 1 and name not in "fgh"]
    every = ("+".join(names) for size in (1, 2, 3) for names in itertools.combinations(letters, size))
    return ["[%s]" % mask for mask in every if wanted(mask)]


# what stands between the brackets at a place, for so many alternatives
PLACES = {
    "nothing": lambda alike: "|" * alike,
    "single": lambda alike: "",
    "wide first": lambda alike: "|".join([""] + masks(lambda mask: True)[:alike]),
    "crossing": lambda alike: "|".join(masks(lambda mask: mask[:2] == "a+")[:alike]),
    "fitting last": lambda alike: "|".join(masks(lambda mask: len(mask) == 1)[:alike] + ["[h]"]),
    "last of many": lambda alike: "|".join([letter + "[f]" for letter in (COLUMNS + ROWS)[:min(alike, 49)]] + ["[h]"]),
    "unmatched": None,
}


def at_place(shape, language):
    """The expression at a place; in front, where wanted, what puts zz behind the one text that has the language."""
    front = "zz[%s]|" % language if shape.behind else ""
    return cut("(%s%s)" % (front, PLACES[shape.how](max(0, shape.alike - shape.behind))))


# ---- rules

def turn(shape):
    """The letters of places, which take turns."""
    return TURNS[shape.wide][:1 + shape.behind]


def beginning(shape):
    return (turn(shape) * second.LONGEST_TEXT)[:shape.shared]


def behind_letter(shape, letter, size):
    """The letters that stand from a letter of a place on, of so many bytes."""
    letters = turn(shape)
    return (letters[letters.index(letter):] + letters * 255)[:min(shape.length, size) // (1 + shape.wide)]


def boxed(shape, size, own=""):
    """The inside of a box of so many bytes: letters that never match, and `own`."""
    never = NEVER[shape.wide]
    return never * (min(shape.length, size - len(own.encode())) // len(never.encode())) + own


# pattern, left and right of a rule that begins with the letter of a place and does not match there
MISSES = {
    "pattern": lambda shape, letter: (behind_letter(shape, letter, 254) + "x", "", ""),
    "right": lambda shape, letter: (letter, "", behind_letter(shape, letter, 254)[1:] + "x"),
    "left": lambda shape, letter: (letter, behind_letter(shape, letter, 252)[::-1] + "x", ""),
    "right box": lambda shape, letter: (letter, "", "[%s]" % boxed(shape, 253)),
    "left box": lambda shape, letter: (letter, "[%s]" % boxed(shape, 253), ""),
    "both boxes": lambda shape, letter: (letter, "[%s]" % boxed(shape, 253), "[%s]" % boxed(shape, 253, turn(shape))),
    "negated box": lambda shape, letter: (letter, "", "[^%s]" % boxed(shape, 252, turn(shape))),
}
MISSES_BETWEEN = "between"      # rules of another first letter, between letters of which some are of the same kind by six bits


def missing(shape, letter):
    """The rules of a place that do not match."""
    if shape.miss == MISSES_BETWEEN:
        return []
    return [(*MISSES[shape.miss](shape, letter), "")] * shape.rules


def between(shape):
    if shape.miss != MISSES_BETWEEN or shape.rules == 0:
        return []
    return [(letter, "", "", "") for letter in "67"] + [("A", "x", "", "")] * shape.rules


def list_of(shape, building, others):
    """A list in the order of a pack: at places the rules that do not match, those that build the set, and what stands there."""
    rules = between(shape) + others
    for letter, language in zip(turn(shape), "fg"):
        rules += missing(shape, letter) + [rule for rule in building if rule[0] == letter]
        if shape.how != "unmatched":
            rules.append((letter, "", "", at_place(shape, language)))
    rules += [rule for rule in building if rule[0] not in turn(shape)]
    return sorted(rules, key=lambda rule: rule[0][0])


# ---- a pack and a name

def parts_of(shape):
    """What a word's letters put together: beginnings, second and third letters."""
    first, rows = FIRST[:shape.first - 1], (ROWS if shape.columns > 1 else ROWS + COLUMNS)[:shape.rows - 1]
    return ["", *first], ["", *rows], ["", *COLUMNS[:shape.columns - 1]]


def building(shape, places, start, others):
    """Rules that build the set at three places, each by its letter and left context; texts but the first are for `others`."""
    first, rows, columns = parts_of(shape)
    first = [start + text for text in first]
    if shape.how in ("fitting last", "last of many"):
        first, others = [text + "[h]" for text in first], ""
    expressions, sizes = [one_of(texts, others) for texts in (first, rows, columns)], (2, shape.rows, shape.columns)
    return [(*place, "", expression) for place, expression, size in zip(places, expressions, sizes) if size > 1]


def letters_of(shape):
    """The first letter of each word, and the letters behind it."""
    marks = MARKS[:shape.words] if shape.apart else "s"
    behind = "t" * (shape.rows > 1) + "u" * (shape.columns > 1) + (turn(shape) * second.LONGEST_NAME)[:shape.places]
    return marks, behind


def name_of(shape):
    marks, behind = letters_of(shape)
    return "d'" * shape.levels + " ".join([mark + behind for mark, _ in zip(itertools.cycle(marks), range(shape.words))])


def main_list(shape):
    """Where there are final rules the languages of texts stay as they are: there the texts are to be told apart by them."""
    others = "[h]" if shape.behind and not shape.finals else ""
    rules = []
    for mark in letters_of(shape)[0]:
        rules += building(shape, ((mark, ""), ("t", ""), ("u", "")), beginning(shape) + (mark if shape.apart else ""), others)
    return list_of(shape, sorted(set(rules)), [])


# what the last letter of the last text spells, where the answer is to be a refusal
ENDS = {"key": "", "7": "v" * second.LONGEST_TEXT, "8": "(%s)" % "|".join(COLUMNS + ROWS)}


def final_list(shape, end):
    """By the first three letters the set is built again, and what told the old texts apart is left out. Where no rule matches at a place
    its letter is appended, so the beginning is no longer than those three."""
    start = beginning(shape)
    places = ((start[0], "^"), (start[1], "^" + start[:1]), (start[2], "^" + start[:2]))
    rules = building(shape, places, start[:3] if shape.how == "unmatched" else start, "[h]" * shape.behind)
    told = [sorted(part[1:]) for part in parts_of(shape)] + [["z"] * shape.behind]
    last = "z" if shape.behind else next((part[-1] for part in told if part), "")
    return list_of(shape, rules, [(letter, "", "", ENDS[end] if letter == last else "") for part in told for letter in part])


def guesses_of(shape, names):
    """Patterns that only the last piece keeps from matching; and one that leaves no language."""
    letters = "".join(sorted(set(name_of(shape)) - {" "}))
    piece = turn(shape)[0] if shape.box < 0 else "[%s%s]" % (NEVER[shape.wide] * shape.box, letters)
    pattern = piece * min(second.LONGEST_NAME, (second.LONGEST_STRING - 3) // len(piece.encode())) + "[x]"
    return [(1, 1, pattern)] * shape.guesses + [(0, (1 << len(names)) - 1, "[^x]")] * shape.free


def rules_of(shape):
    """Language names, guessing rules and lists."""
    names = FEW_NAMES if shape.how in ("nothing", "single", "unmatched", "last of many") else MANY_NAMES
    lists, own = [[] for _ in range(second.list_count(names))], 3 * names.index("any")
    lists[own] = main_list(shape)
    if shape.finals > 0:
        lists[3 * len(names)] = final_list(shape, "key")
    if shape.finals > 1:
        lists[own + 1] = final_list(shape, shape.end)
    return names, guesses_of(shape, names), lists


def pack_of(shape):
    return second.pack_bytes(*rules_of(shape))


def files_of(shape):
    """The same rules for the original."""
    names, guesses, lists = rules_of(shape)
    return second.plain_files(second.GENERIC, second.Pack(names, [second.Guess(*rule, None) for rule in guesses], lists, None))


def write(shape, folder):
    """Folder with the rule files, and the pack beside it."""
    os.mkdir(folder)
    keys.write_folder(folder, files_of(shape))
    with open(folder + ".pack", "wb") as file:
        file.write(pack_of(shape))


# ---- in words

HOW = {
    "nothing": "%d alternatives that spell alike",
    "single": "one alternative",
    "wide first": "%d alternatives of one text, the first for Any language",
    "crossing": "%d alternatives of one text and different languages",
    "fitting last": "%d alternatives of one text, only the last of which fits",
    "last of many": "%d alternatives, only the last of which fits",
    "unmatched": "no rule",
}


def texts_of(shape):
    return math.prod(map(len, parts_of(shape))) + shape.behind


def alternatives_of(shape):
    """How many alternatives stand at a place."""
    return 1 if shape.how == "unmatched" else len(second.cut_expression(at_place(shape, "f")))


def usual_words(shape):
    """The first column of the table of main passes."""
    return "%d, %d, %d, %d%s" % (texts_of(shape), shape.shared, shape.alike, shape.places, "" if shape.behind else "; none behind the others")


def place_words(shape):
    """The passes, and what stands at their places."""
    passes, places = ("a main pass", "a final pass", "both final passes")[shape.finals], shape.shared if shape.finals else shape.places
    how = HOW[shape.how] % alternatives_of(shape) if "%d" in HOW[shape.how] else HOW[shape.how]
    behind = ", one text behind the others" if shape.behind else ""
    where = "at each of %d places" % places if places > 1 else "at one place"
    texts = "%d text%s%s" % (texts_of(shape), "s" * (texts_of(shape) > 1), behind)
    return "%s over %s, %s %s%s" % (passes, texts, how, where, " of two bytes" * shape.wide)


def rule_words(shape):
    if shape.miss == MISSES_BETWEEN:
        return "%d rules of another letter in between" % shape.rules
    return "%d rules that do not match there, by %s of %d bytes" % (shape.rules, shape.miss, shape.length)


def times(count):
    return "once" if count == 1 else "%d times" % count


def name_words(shape):
    words = "%d words%s" % (shape.words, " that differ" if shape.apart else "") if shape.words > 1 else "a word"
    return "d' %s before %s" % (times(shape.levels), words) if shape.levels else words


def words_of(shape):
    """What a shape is."""
    guesses = "%d guessing patterns that do not match, %s" % (shape.guesses, "no boxes" if shape.box < 0 else "boxes of %d others" % shape.box)
    words = [place_words(shape)] * (shape.finals + shape.places > 0) + [rule_words(shape)] * (shape.rules > 0)
    words += [guesses] * (shape.guesses > 0) + [name_words(shape)] * (shape.levels > 0 or shape.words > 1)
    return "; ".join(words + ["refused with %s at the last text" % shape.end] * (shape.end != "key"))


def main(folder):
    os.mkdir(folder)
    for name, shapes, told in (("list", SHAPES, usual_words), ("slowest", SLOWEST, words_of)):
        with open(os.path.join(folder, name), "w", encoding="utf-8") as lines:
            for number, shape in enumerate(shapes):
                part = "%s-%d" % (name, number)
                write(shape, os.path.join(folder, part))
                lines.write("%s\t%s\t%s\n" % (part, name_of(shape), told(shape)))


if __name__ == "__main__":
    main(sys.argv[1])
