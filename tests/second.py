#!/usr/bin/env python3
"""Document 01 written out a second time, in Python, to judge the port from outside.

Every function names the sentence it follows, as in "01, Contexts"; "reading 21" is an entry of the
list of readings that says how an open point of document 01 is read. Nothing here is taken from the
port. The original was asked for one thing only, the order of work in engine.rs, since document 01
leaves the order in which 7 and 8 are met to it; the places that use it say so.

Inside, texts are Python strings, whose characters are code points and whose order is the order of
code points; bytes are met at the edges only.

    python3 second.py                           answers case lines, as the port's program `ask` does
    python3 second.py keys T K C L PACK < NAMES prints keys, as document 01's program does
"""

import functools
import re
import sys
from collections import namedtuple

MOST = 4294967295               # the largest place number (01, What the desk gets, code 9)
LONGEST_NAME = 96               # code 3
LONGEST_TEXT = 128              # code 7
MOST_TEXTS = 256                # code 8, and the largest limit (code 4)
LONGEST_STRING = 255            # code 18
MOST_RULES = 4096               # code 18, for a list and for guessing rules
MOST_LANGUAGES = 32             # code 18
DEEPEST_INCLUDE = 8             # code 17
MOST_INCLUDES = 256             # code 17
PROGRAM_PACK = 49152            # example 14
ASHKENAZI, GENERIC, SEPHARDIC = 0, 1, 2


class Refusal(Exception):
    """A number of the table with its place and, when loading, its file (01, What the desk gets)."""

    def __init__(self, code, place=0, file=0):
        super().__init__(code, place, file)
        self.code, self.place, self.file = code, place, file


# ---------------------------------------------------------------------------------------------------
# Letters
# ---------------------------------------------------------------------------------------------------

def shape_of(lead):
    """Length of a sequence with this first byte and the bounds of its second byte (RFC 3629, 4)."""
    if 0xC2 <= lead <= 0xDF:
        return 2, 0x80, 0xBF
    if 0xE0 <= lead <= 0xEF:
        return 3, 0xA0 if lead == 0xE0 else 0x80, 0x9F if lead == 0xED else 0xBF
    if 0xF0 <= lead <= 0xF4:
        return 4, 0x90 if lead == 0xF0 else 0x80, 0x8F if lead == 0xF4 else 0xBF
    return None


def character_at(data, place):
    """Code point and length of the well-formed sequence that stands at a place, or None (RFC 3629, 4)."""
    lead = data[place]
    if lead < 0x80:
        return lead, 1
    shape = shape_of(lead)
    if shape is None:
        return None
    length, low, high = shape
    tail = data[place + 1:place + length]
    if len(tail) < length - 1 or not low <= tail[0] <= high:
        return None
    code = lead & (0x7F >> length)
    for byte in tail:
        if byte & 0xC0 != 0x80:
            return None
        code = code << 6 | byte & 0x3F
    return code, length


def characters(data):
    """Each place with the code point there, or with None for a byte at which no sequence is well formed."""
    place = 0
    while place < len(data):
        found = character_at(data, place)
        code, length = found or (None, 1)
        yield place, code, length
        place += length


def ill_formed(data):
    """Start of the first ill-formed sequence, or None (01, the table, code 1; reading 24)."""
    if data.isascii():
        return None
    return next((place for place, code, _ in characters(data) if code is None), None)


def decode(data):
    """The text of well-formed bytes."""
    if data.isascii():
        return data.decode("ascii")
    return "".join(chr(code) for _, code, _ in characters(data))


def in_range(code):
    """01, Letters: "U+0020 to U+007E and U+00A1 to U+017F without U+0130"."""
    return 0x20 <= code <= 0x7E or 0xA1 <= code <= 0x17F and code != 0x130


def outside_range(data):
    """First place at which no character of the range stands, or None (01, the table, code 2)."""
    return next((place for place, code, _ in characters(data) if code is None or not in_range(code)), None)


# 01, Letters: "384 entries, one for each code point below U+0180; entries outside the range map to
# themselves". str.lower works from Unicode's character data, the same that unicodedata shows.
LOWER = tuple(ord(chr(code).lower()) if in_range(code) else code for code in range(0x180))
LOWER_TEXT = {code: LOWER[code] for code in range(0x180)}


def lower(text):
    """The lower-cased text: the table below U+0180, every other character as it is."""
    return text.translate(LOWER_TEXT)


def lower_bytes(data):
    """The same for any bytes: those that belong to no well-formed sequence stay as they are."""
    kept = bytearray()
    for place, code, length in characters(data):
        changed = code is not None and code < 0x180
        kept += chr(LOWER[code]).encode() if changed else data[place:place + length]
    return bytes(kept)


def order(one, other):
    """Order of two texts (01, Spelling: "Texts compare by code points, shorter first"; reading 27)."""
    return "less" if one < other else "greater" if one > other else "equal"


@functools.lru_cache(1 << 16)
def readable_text(data):
    """A rule or guessing text, or 12 (01, Letters: "any UTF-8 without U+0000 to U+001F, U+007F or the
    double quote; else 12")."""
    if ill_formed(data) is not None or any(byte < 0x20 or byte == 0x7F or byte == 0x22 for byte in data):
        raise Refusal(12)
    return decode(data)


# ---------------------------------------------------------------------------------------------------
# Language sets: ANY, NONE, or the bits of a Some as a number
# ---------------------------------------------------------------------------------------------------

ANY, NONE = "any", "none"


def narrow(languages, by):
    """01, Language sets: "Narrowing: by Any changes nothing; by None gives None; Any by Some gives that
    Some; None stays None; Some by Some intersects"."""
    if by == ANY:
        return languages
    if by == NONE or languages == NONE:
        return NONE
    if languages == ANY:
        return by
    return languages & by


def merge(one, other):
    """01, Language sets: "Merging: anything with Any is Any; None adds nothing; Some with Some unites"."""
    if one == ANY or other == ANY:
        return ANY
    if one == NONE:
        return other
    if other == NONE:
        return one
    return one | other


def is_empty(languages):
    """01, Language sets: "Some with no bits ... isn't the same as None; both are empty"."""
    return languages == NONE or languages == 0


def single(languages):
    """The index of the single language, or None (01, Language sets: "Some and exactly one bit is one")."""
    if languages in (ANY, NONE) or bin(languages).count("1") != 1:
        return None
    return languages.bit_length() - 1


def is_language_name(name):
    """01, Language sets: "Names are 1 to 24 letters `a` to `z`, but not `common`"."""
    return re.fullmatch("[a-z]{1,24}", name) is not None and name != "common"


def mask_of(name, names):
    """The bit of a listed name, or 16 (01, Language sets: "an unlisted name ..., an empty one too, is 16")."""
    if name not in names:
        raise Refusal(16)
    return 1 << names.index(name)


def mask_of_names(joined, names):
    """The bits of names joined by `+` (01, Phoneme expressions; Rule files and includes, Guessing lines)."""
    mask = 0
    for name in joined.split("+"):
        mask |= mask_of(name, names)
    return mask


# ---------------------------------------------------------------------------------------------------
# Phoneme expressions
# ---------------------------------------------------------------------------------------------------

def cut_expression(expression):
    """The alternatives of an expression as they are written, or 14 (01, Phoneme expressions)."""
    if not expression.startswith("("):
        return [expression]                 # "Without `(`, a bar is part of the text."
    if not expression.endswith(")"):
        raise Refusal(14)
    between = expression[1:-1]
    more = [""] if between.startswith("|") or between.endswith("|") else []
    return between.split("|") + more


def cut_alternative(alternative):
    """Text and joined names (None for Any) of an alternative, or 14 (01, Phoneme expressions: "the first
    `[` must be closed by a `]` at the very end")."""
    text, bracket, names = alternative.partition("[")
    if not bracket:
        return text, None
    if not names.endswith("]"):
        raise Refusal(14)
    return text, names[:-1]


def alternatives_of(expression, names):
    """The alternatives (text, set) of an expression, or 14, or 16; 14 is judged over the whole first
    (01, What the desk gets: "in a line ... 14, 16"; reading 18)."""
    cut = [cut_alternative(alternative) for alternative in cut_expression(expression)]
    return tuple((text, ANY if joined is None else mask_of_names(joined, names)) for text, joined in cut)


# ---------------------------------------------------------------------------------------------------
# Contexts
# ---------------------------------------------------------------------------------------------------

Context = namedtuple("Context", "form text negated")    # text: the literal, or the characters of the box

# (first anchor, last anchor) -> form of a literal, form of nothing, form of a box
FORMS = {
    (True, True): ("Equals", "IsEmpty", "EqualsChar"),
    (True, False): ("StartsWith", "AllStringsMatcher", "StartsWithChar"),
    (False, True): ("EndsWith", "AllStringsMatcher", "EndsWithChar"),
}


def in_box(context, character):
    """01, Contexts: "a list of literal characters, a first `^` negating"."""
    return (character in context.text) != context.negated


# What each form asks of the text before or after the pattern (01, Contexts: "both anchors mean equal (or
# empty), one means ends or starts with it, or always if nothing is left"; "a box always needs a
# character, and with both anchors exactly one").
FITS = {
    "AllStringsMatcher": lambda context, text: True,
    "IsEmpty": lambda context, text: text == "",
    "Equals": lambda context, text: text == context.text,
    "StartsWith": lambda context, text: text.startswith(context.text),
    "EndsWith": lambda context, text: text.endswith(context.text),
    "EqualsChar": lambda context, text: len(text) == 1 and in_box(context, text),
    "StartsWithChar": lambda context, text: text != "" and in_box(context, text[0]),
    "EndsWithChar": lambda context, text: text != "" and in_box(context, text[-1]),
}


def is_box(rest):
    """01, Contexts: "starts with `[`, ends with `]` and has no other `[`"."""
    return rest.startswith("[") and rest.endswith("]") and rest.count("[") == 1


def context_of(anchored):
    """The form of a context that has got its anchor, or 15 (01, Contexts)."""
    first, last = anchored.startswith("^"), anchored.endswith("$")
    rest = anchored[first:len(anchored) - last]
    literal, nothing, box = FORMS[first, last]
    if "[" not in rest:
        return Context(literal if rest else nothing, rest, False)
    if not is_box(rest):
        raise Refusal(15)
    listed = rest[1:-1]
    negated = listed.startswith("^")
    return Context(box, listed[negated:], negated)


@functools.lru_cache(None)
def left_context(written):
    """01, Contexts: "`$` is put after the left"."""
    return context_of(written + "$")


@functools.lru_cache(None)
def right_context(written):
    """01, Contexts: "`^` before the right"."""
    return context_of("^" + written)


def is_empty_box(context):
    """02, ticket 11: "an empty box that isn't negated"; its form is one of a box, its list is empty."""
    return context.form.endswith("Char") and context.text == "" and not context.negated


def fits(context, text):
    """Whether a context fits the text on its side."""
    return FITS[context.form](context, text)


# ---------------------------------------------------------------------------------------------------
# Rules
# ---------------------------------------------------------------------------------------------------

Rule = namedtuple("Rule", "pattern left right expression left_context right_context alternatives")


def rule_of(strings, names):
    """The rule of four strings given as bytes, or what is wrong with it, in the order 12, 13, 18, 15
    (left, then right), 20, 14, 16 (01, What the desk gets; reading 17; 02, ticket 11)."""
    pattern, left, right, expression = (readable_text(string) for string in strings)
    if pattern == "":
        raise Refusal(13)
    if any(len(string) > LONGEST_STRING for string in strings):
        raise Refusal(18)
    before, behind = left_context(left), right_context(right)
    if is_empty_box(before) or is_empty_box(behind):
        raise Refusal(20)
    return Rule(pattern, left, right, expression, before, behind, alternatives_of(expression, names))


def rule_matches(rule, word, place):
    """Whether a rule matches at a place: its pattern stands there and its contexts fit what is before and
    after the pattern (01, Spelling, 6; Contexts)."""
    if not word.startswith(rule.pattern, place):
        return False
    return (fits(rule.right_context, word[place + len(rule.pattern):])
            and fits(rule.left_context, word[:place]))


def by_first_character(rules):
    """01, Rule files and includes: "Rules stand by first character of the pattern, in file order"."""
    held = {}
    for rule in rules:
        held.setdefault(rule.pattern[0], []).append(rule)
    return held


def first_match(held, word, place):
    """The rule that is applied at a place, or None (01, Spelling, 6: "the first rule in its character's
    list that matches")."""
    for rule in held.get(word[place], ()):
        if rule_matches(rule, word, place):
            return rule
    return None


# ---------------------------------------------------------------------------------------------------
# Guessing patterns
# ---------------------------------------------------------------------------------------------------

Guess = namedtuple("Guess", "accept mask written pattern")
# a piece: its characters, and whether negated; needed: the characters without which nothing can match
Pattern = namedtuple("Pattern", "first pieces last needed")
NO_PIECE = frozenset("\\.+*?()|[]{}^$")
NOT_IN_BOX = NO_PIECE | frozenset("-&~")


def box_at(body, place):
    """The box that opens at a place and the place behind it, or 15 (01, Guessing lines: "a box of one or
    more such characters, without `- & ~`, perhaps negated by a first `^`")."""
    end = body.find("]", place)
    if end < 0:
        raise Refusal(15)
    inside = body[place + 1:end]
    negated = inside.startswith("^")
    listed = inside[negated:]
    if listed == "" or not NOT_IN_BOX.isdisjoint(listed):
        raise Refusal(15)
    return (listed, negated), end + 1


def pieces_of(body):
    """The pieces between the anchors, or 15 (01, Guessing lines: "A piece is a character other than ...,
    or a box")."""
    pieces, place = [], 0
    while place < len(body):
        if body[place] == "[":
            piece, place = box_at(body, place)
            pieces.append(piece)
        elif body[place] in NO_PIECE:
            raise Refusal(15)
        else:
            pieces.append((body[place], False))
            place += 1
    return tuple(pieces)


def guessing_pattern(written):
    """A guessing pattern, or 15 (01, Guessing lines: "A pattern has 1 to 255 bytes, begins with neither
    `/` nor `#`, holds no blank, and is an optional `^`, pieces, an optional `$`"; readings 2 and 3)."""
    if not 1 <= len(written.encode()) <= LONGEST_STRING:
        raise Refusal(15)
    if written[0] in "/#" or " " in written or "\t" in written:
        raise Refusal(15)
    first = written.startswith("^")
    last = written[first:].endswith("$")
    pieces = pieces_of(written[first:len(written) - last])
    needed = frozenset(listed for listed, negated in pieces if len(listed) == 1 and not negated)
    return Pattern(first, pieces, last, needed)


def stands_at(pattern, name, place):
    """Whether the pieces stand one behind the other from a place on."""
    for offset, (listed, negated) in enumerate(pattern.pieces):
        if (name[place + offset] in listed) == negated:
            return False
    return True


def guess_matches(pattern, name):
    """01, Guessing lines: "It matches anywhere that its anchors permit"."""
    last_place = len(name) - len(pattern.pieces)
    if last_place < 0:
        return False
    if pattern.first and pattern.last:
        return last_place == 0 and stands_at(pattern, name, 0)
    if pattern.first:
        return stands_at(pattern, name, 0)
    if pattern.last:
        return stands_at(pattern, name, last_place)
    return any(stands_at(pattern, name, place) for place in range(last_place + 1))


def guess(pack, name):
    """01, Spelling, 1: "start with all listed, intersect or subtract for each matching rule in order;
    nothing left means Any"."""
    left = (1 << len(pack.names)) - 1
    there = set(name)
    for rule in pack.guesses:
        if rule.pattern.needed <= there and guess_matches(rule.pattern, name):
            left = left & rule.mask if rule.accept else left & ~rule.mask
    return left if left else ANY


# ---------------------------------------------------------------------------------------------------
# Packs
# ---------------------------------------------------------------------------------------------------

# names: texts; guesses: of Guess; lists: of lists of Rule; held: the lists by first character
Pack = namedtuple("Pack", "names guesses lists held")


class Reader:
    """Reads counts (big-endian) and strings behind their length byte; bytes that run out are a 5."""

    def __init__(self, data):
        self.data, self.at = bytes(data), 0

    def bytes(self, count):
        taken = self.data[self.at:self.at + count]
        if len(taken) < count:
            raise Refusal(5)
        self.at += count
        return taken

    def number(self, width):
        return int.from_bytes(self.bytes(width), "big")

    def string(self):
        return self.bytes(self.number(1))


def demand(holds):
    """A pack rule that has to hold (01, the table, code 5)."""
    if not holds:
        raise Refusal(5)


def read_names(reader):
    """01, Bundle and pack: "language count (1 byte), names (length byte, bytes), strictly increasing, with
    `any`"; at most 32 (reading 22)."""
    count = reader.number(1)
    demand(count <= MOST_LANGUAGES)
    names = [readable_text(reader.string()) for _ in range(count)]
    demand(all(is_language_name(name) for name in names))
    demand(all(one < other for one, other in zip(names, names[1:])))
    demand("any" in names)
    return names


def read_guess(reader, names):
    """01, Bundle and pack: "accept byte 0 or 1, mask (4 bytes, not zero, listed bits only), pattern"."""
    accept = reader.number(1)
    mask = reader.number(4)
    demand(accept <= 1)
    demand(0 < mask < 1 << len(names))
    written = readable_text(reader.string())
    return Guess(accept, mask, written, guessing_pattern(written))


def read_guesses(reader, names):
    """01, Bundle and pack: "guessing count (2 bytes)"; at most 4,096 (reading 22)."""
    count = reader.number(2)
    demand(count <= MOST_RULES)
    return [read_guess(reader, names) for _ in range(count)]


def read_list(reader, names):
    """01, Bundle and pack: "A list is a rule count (2 bytes) and rules of four strings, by first character
    and then file order"; at most 4,096 (reading 22)."""
    count = reader.number(2)
    demand(count <= MOST_RULES)
    rules = [rule_of([reader.string() for _ in range(4)], names) for _ in range(count)]
    demand(all(one.pattern[0] <= other.pattern[0] for one, other in zip(rules, rules[1:])))
    return rules


def list_count(names):
    """01, Bundle and pack: "for each language rules, approx, exact, then common approx, common exact"."""
    return 3 * len(names) + 2


def check_pack(data):
    """The accepted pack, or (5, first byte of the section at fault). Sections are judged one after the
    other, so the first one at fault is named (01, Bundle and pack; readings 21 and 22)."""
    reader = Reader(data)
    section = 0
    try:
        names = read_names(reader)
        section = reader.at
        guesses = read_guesses(reader, names)
        section = reader.at
        demand(reader.number(1) == list_count(names))
        lists = []
        for _ in range(list_count(names)):
            section = reader.at
            lists.append(read_list(reader, names))
        section = reader.at
        demand(section == len(data))                        # "nothing follows"
    except Refusal:
        return 5, section
    return Pack(names, guesses, lists, [by_first_character(rules) for rules in lists])


def string_bytes(text):
    """01, Bundle and pack: "Strings follow their length byte"."""
    data = text.encode()
    return bytes([len(data)]) + data


def list_bytes(rules):
    """A list of a pack; of a rule the first four parts count."""
    return len(rules).to_bytes(2, "big") + b"".join(string_bytes(part) for rule in rules for part in rule[:4])


def pack_bytes(names, guesses, lists):
    """A pack of names, guessing rules (accept, mask, pattern, ..) and lists of rules (pattern, left, right,
    expression, ..), as they are given (01, Bundle and pack)."""
    parts = [bytes([len(names)])]
    parts += [string_bytes(name) for name in names]
    parts.append(len(guesses).to_bytes(2, "big"))
    for rule in guesses:
        parts.append(bytes([rule[0]]) + rule[1].to_bytes(4, "big") + string_bytes(rule[2]))
    parts.append(bytes([len(lists)]))
    parts += [list_bytes(rules) for rules in lists]
    return b"".join(parts)


# ---------------------------------------------------------------------------------------------------
# Spelling
# ---------------------------------------------------------------------------------------------------

Settings = namedtuple("Settings", "name_type rule_type concat limit")

# 01, Spelling, Prefixes
GENERIC_PREFIXES = ("da", "dal", "de", "de la", "del", "dela", "della", "des", "di", "do", "dos", "du",
                    "van", "von")
PREFIXES = {
    ASHKENAZI: ("bar", "ben", "da", "de", "van", "von"),
    GENERIC: GENERIC_PREFIXES,
    SEPHARDIC: ("al", "el") + GENERIC_PREFIXES,
}


def check_settings(settings, given):
    """01, the table, code 4: "limit over 256, or a setting's number unknown". `given` is None or (kind,
    bits), its kind "0 Any, 1 None, 2 Some"."""
    if settings.name_type > 2 or settings.rule_type > 1 or settings.concat > 1 or settings.limit > MOST_TEXTS:
        raise Refusal(4)
    if given is not None and given[0] > 2:
        raise Refusal(4)


def name_text(name):
    """The text of a name, or 3, 1, 2 in this order (01, What the desk gets; reading 24)."""
    if len(name) > LONGEST_NAME:
        raise Refusal(3)
    place = ill_formed(name)
    if place is not None:
        raise Refusal(1, place)
    place = outside_range(name)
    if place is not None:
        raise Refusal(2, place)
    return decode(name)


def given_set(given, pack):
    """The set that a call gives, or None if it gives none, or 6 (01, What the desk gets: "(only here bits
    count)"; reading 31)."""
    if given is None:
        return None
    kind, bits = given
    if kind == 0:
        return ANY
    if kind == 1:
        return NONE
    if bits >> len(pack.names):
        raise Refusal(6)
    return bits


def fitting_prefixes(name):
    """The Generic prefixes that fit: a name begins with them and a space (01, Spelling, 3)."""
    return [prefix for prefix in PREFIXES[GENERIC] if name.startswith(prefix + " ")]


def part_prefix(name):
    """Remainder and joined name of a Generic name with a prefix, or None (01, Spelling, 3; 02, ticket 5: "among
    prefixes that fit, the longest is taken")."""
    if name.startswith("d'"):
        return name[2:], "d" + name[2:]
    prefix = max(fitting_prefixes(name), key=len, default=None)
    if prefix is None:
        return None
    remainder = name[len(prefix) + 1:]
    return remainder, prefix + remainder


def words_of(name):
    """01, Spelling, 4: "Words part at spaces"."""
    return [word for word in name.split(" ") if word]


def names_met(settings, name):
    """A lower-cased name as step 3 meets it, and each that is spelled afresh in its place (01, Spelling, 2 to 4)."""
    name = name.replace("-", " ")
    yield name
    parted = part_prefix(name) if settings.name_type == GENERIC else None
    words = words_of(name)
    for afresh in parted or (words if len(words) > 1 and not settings.concat else ()):
        yield from names_met(settings, afresh)


def two_prefixes_fit(settings, name):
    """Whether the original may part a name otherwise (02, ticket 5: "names where two prefixes fit, here or in a
    name spelled afresh")."""
    return settings.name_type == GENERIC and any(len(fitting_prefixes(met)) > 1 for met in names_met(settings, lower(decode(name))))


def concat_words(name_type, words):
    """01, Spelling, 5: "Sephardic words keep what follows their last apostrophe; Sephardic and Ashkenazi
    words that equal a prefix drop out; join by a space" (reading 28: an empty word stays)."""
    if name_type == SEPHARDIC:
        words = [word.rpartition("'")[2] for word in words]
    if name_type != GENERIC:
        words = [word for word in words if word not in PREFIXES[name_type]]
    return " ".join(words)


def enterable(text):
    """The text, or 7 (01, the table, code 7: "a text over 128 bytes would enter a set")."""
    if len(text) > LONGEST_TEXT // 4 and len(text.encode()) > LONGEST_TEXT:
        raise Refusal(7)
    return text


def apply(texts, alternatives, limit):
    """01, Spelling, 7, on texts (text, set) in order. The count is tested where the Rust tests it: behind
    each pair whose set is not empty, before which the set has room unless the limit is 0 (reading 26)."""
    entered = {}
    for old, languages in texts:
        for text, by in alternatives:
            narrowed = narrow(languages, by)
            if is_empty(narrowed):
                continue
            if len(entered) < limit:
                entered.setdefault(enterable(old + text), narrowed)
            if len(entered) >= limit:
                return sorted(entered.items())
    return sorted(entered.items())


def append(texts, character):
    """01, Spelling, 8: "an unmatched character being appended"; example 11, the order is made anew."""
    return sorted((enterable(text + character), languages) for text, languages in texts)


class Call:
    """One call of spelling: what stays the same in it, and the flag, which is "up exactly when some apply
    of the call ended with a count at or over the limit" (01, Spelling)."""

    def __init__(self, settings, pack):
        self.settings, self.pack, self.flag = settings, pack, 0

    def name(self, name, given=None):
        """Steps 1 to 5 on a lower-cased name. Names spelled afresh come here without a set and with spaces
        where hyphens were (readings 29 and 30)."""
        languages = guess(self.pack, name) if given is None else given
        name = name.replace("-", " ")
        parted = part_prefix(name) if self.settings.name_type == GENERIC else None
        if parted is not None:
            return self.parted(*parted)
        words = words_of(name)
        if self.settings.concat:
            return self.word(concat_words(self.settings.name_type, words), languages)
        if len(words) != 1:
            return "-".join([self.name(word) for word in words])
        return self.word(words[0], languages)

    def parted(self, remainder, joined):
        """01, Spelling, 3: "`(`remainder`)-(`prefix joined to remainder`)`. Both are spelled afresh ..., the
        joined one first"."""
        joined_answer = self.name(joined)
        return "(" + self.name(remainder) + ")-(" + joined_answer + ")"

    def lists(self, languages):
        """Main, common final and language final list (01, Spelling, 2: "those of the single language, else
        `any`"; Bundle and pack, order of lists)."""
        index = single(languages)
        if index is None:
            index = self.pack.names.index("any")
        kind = self.settings.rule_type
        held = self.pack.held
        return held[3 * index], held[3 * len(self.pack.names) + kind], held[3 * index + 1 + kind]

    def word(self, word, languages):
        """01, Spelling, 2: the lists, and what they give."""
        return self.passes(*self.lists(languages), word, languages)

    def passes(self, main, common, own, word, languages):
        """01, Spelling, 6, 8 and 9, from these lists."""
        texts = self.run(main, word, languages, False)
        texts = self.final_pass(common, texts)
        texts = self.final_pass(own, texts)
        return "|".join(text for text, _ in texts)

    def run(self, held, word, languages, appending):
        """01, Spelling, 6: "from one empty text with the set. At each place the first rule in its
        character's list that matches is applied and its pattern's length passed; otherwise one character is
        skipped", or in a final pass appended (8)."""
        texts = [("", languages)]
        place = 0
        while place < len(word):
            rule = first_match(held, word, place)
            if rule is not None:
                texts = self.applied(texts, rule.alternatives)
                place += len(rule.pattern)
                continue
            if appending:
                texts = append(texts, word[place])
            place += 1
        return texts

    def applied(self, texts, alternatives):
        """An apply, and the flag (01, Spelling, 7; reading 25)."""
        texts = apply(texts, alternatives, self.settings.limit)
        if len(texts) >= self.settings.limit:
            self.flag = 1
        return texts

    def final_pass(self, held, texts):
        """01, Spelling, 8: "Results unite without the limit; an equal text takes its old set merged with the
        set of the text being worked on". As in engine.rs the results of a text enter after its whole run,
        and 8 is met when the 257th would enter (reading 33). An empty list changes nothing (reading 32)."""
        if not held:
            return texts
        united = {}
        for text, languages in texts:
            for result, own in self.run(held, text, languages, True):
                if result in united:
                    united[result] = merge(united[result], languages)
                elif len(united) == MOST_TEXTS:
                    raise Refusal(8)
                else:
                    united[result] = own
        return sorted(united.items())


def accepted(pack):
    """The accepted pack of bytes, or of what check_pack gave for them; or 5."""
    checked = check_pack(pack) if isinstance(pack, (bytes, bytearray)) else pack
    if not isinstance(checked, Pack):
        raise Refusal(*checked)
    return checked


def spell(settings, pack, name, given=None, room=MOST):
    """(0, flag, answer) or (code, 0, place) for a name's bytes. `pack` is bytes or what check_pack gave for
    them, `given` None or (kind, bits). Checks in the order 4, 3, 1, 2, 5, 6, then 7 and 8 as they are met,
    9 last; a refusal has the flag down (01, What the desk gets)."""
    try:
        check_settings(settings, given)
        text = name_text(name)
        checked = accepted(pack)
        languages = given_set(given, checked)
        call = Call(settings, checked)
        answer = call.name(lower(text), languages).encode()
        check_room(len(answer), room)
    except Refusal as refusal:
        return refusal.code, 0, refusal.place
    return 0, call.flag, answer


def check_room(length, room):
    """01, the table, code 9: "length needed, 4294967295 if more"."""
    if length > room:
        raise Refusal(9, min(length, MOST))


# ---------------------------------------------------------------------------------------------------
# Lines
# ---------------------------------------------------------------------------------------------------

BLANKS = b" \t"
RULE_LINE = re.compile(rb'"([^"]*)"[ \t]+"([^"]*)"[ \t]+"([^"]*)"[ \t]+"([^"]*)"[ \t]*(?://.*)?', re.DOTALL)
INCLUDE_LINE = re.compile(rb"#include[ \t]+([^ \t]+)", re.DOTALL)


def lines_of(content):
    """Number and text of each line, without the blanks at its ends (01, Rule files and includes: "Lines end
    at LF or the file's end; blanks are space, tab and a CR before LF"; reading 11)."""
    lines = content.split(b"\n")
    for number, line in enumerate(lines, 1):
        if number < len(lines) and line.endswith(b"\r"):
            line = line[:-1]
        yield number, line.strip(BLANKS)


def ends_comment(text, opened):
    """Whether a text inside a block comment closes it: its first `*/` has to be the last text of the line,
    else the opening line is 12 (01, Rule files and includes; reading 1)."""
    place = text.find(b"*/")
    if place < 0:
        return False
    if place + 2 < len(text):
        raise Refusal(12, opened)
    return True


def told_lines(content):
    """Number and text of each line that is neither blank nor comment (01, Rule files and includes: "A line
    is blank; a comment from `//`; a comment opened by `/*` as first text and closed by `*/`, not sharing its
    star, as last text of that or a later line"; "an unclosed one is 12 where it opens")."""
    opened = None
    for number, text in lines_of(content):
        if opened is not None:
            if ends_comment(text, opened):
                opened = None
        elif text.startswith(b"/*"):
            if not ends_comment(text[2:], number):
                opened = number
        elif text and not text.startswith(b"//"):
            yield number, text
    if opened is not None:
        raise Refusal(12, opened)


def language_of_line(text):
    """01, Rule files and includes: "The language list has one name a line"; Language sets: "else 12 in the
    list"."""
    name = text.decode("latin-1")
    if not is_language_name(name):
        raise Refusal(12)
    return name


def guess_of_line(text, names):
    """01, Guessing lines: "pattern, names joined by `+`, `true` or `false`, parted by blanks"; in the order
    12, 18, 15, 16 (What the desk gets; readings 3 to 5 and 7)."""
    fields = re.split(rb"[ \t]+", text)
    told = [readable_text(field) for field in fields]
    if len(told) != 3 or told[2] not in ("true", "false"):
        raise Refusal(12)
    if len(fields[0]) > LONGEST_STRING:
        raise Refusal(18)
    pattern = guessing_pattern(told[0])
    return Guess(1 if told[2] == "true" else 0, mask_of_names(told[1], names), told[0], pattern)


def item_of_line(text, names):
    """A rule, or an include's file name as bytes; else 12 and what rule_of meets (01, Rule files and
    includes; readings 6 to 8)."""
    include = INCLUDE_LINE.fullmatch(text)
    if include is not None:
        return include.group(1)
    rule = RULE_LINE.fullmatch(text)
    if rule is None:
        raise Refusal(12)
    return rule_of(rule.groups(), names)


# ---------------------------------------------------------------------------------------------------
# Loading
# ---------------------------------------------------------------------------------------------------

FILE_PREFIXES = {ASHKENAZI: b"ash", GENERIC: b"gen", SEPHARDIC: b"sep"}


def read_bundle(data):
    """The files (name, content) of a bundle, or 10 (01, Bundle and pack: "file count (2 bytes); each file a
    name (length byte, bytes) and content (length in 4 bytes); names strictly increasing, nothing after")."""
    reader = Reader(data)
    files = []
    try:
        for _ in range(reader.number(2)):
            name = reader.string()
            demand(not files or files[-1][0] < name)
            files.append((name, reader.bytes(reader.number(4))))
        demand(reader.at == len(data))
    except Refusal:
        raise Refusal(10) from None
    return files


def bundle_bytes(files):
    """The bundle of a dict of files; names and contents may be texts or bytes."""
    listed = sorted((as_bytes(name), as_bytes(content)) for name, content in files.items())
    parts = [len(listed).to_bytes(2, "big")]
    for name, content in listed:
        parts += [bytes([len(name)]), name, len(content).to_bytes(4, "big"), content]
    return b"".join(parts)


def as_bytes(text):
    return text.encode() if isinstance(text, str) else bytes(text)


def list_names(prefix, names):
    """The rule files in pack order (01, Bundle and pack)."""
    listed = [(kind, name.encode()) for name in names for kind in (b"rules", b"approx", b"exact")]
    listed += [(b"approx", b"common"), (b"exact", b"common")]
    return [b"_".join((prefix, kind, name)) for kind, name in listed]


class Loader:
    """One call of loading: the files of the bundle, and the languages once they are read."""

    def __init__(self, files):
        self.files = files
        self.numbers = {name: number for number, (name, _) in enumerate(files)}
        self.names = []
        self.items = {}

    def listed(self, name):
        """Number of a listed file, or 11 without a line (01, the table, code 11; reading 13: a file is looked
        for when its turn comes)."""
        if name not in self.numbers:
            raise Refusal(11)
        return self.numbers[name]

    def told(self, number, meaning):
        """Line number and meaning of each line of a file that is neither blank nor comment; a refusal gets
        its line and file (01, What the desk gets: "Lines count from 1 in the innermost file, whose number in
        the bundle, from 0, is also returned")."""
        line = 0
        try:
            for line, text in told_lines(self.files[number][1]):
                yield line, meaning(text)
        except Refusal as refusal:
            raise Refusal(refusal.code, refusal.place or line, number) from None

    def languages(self, name):
        """01, What the desk gets: "Lists are counted when finished; 19 after the language list"; Rule files
        and includes: "one given twice counts once" (reading 12)."""
        found = {language for _, language in self.told(self.listed(name), language_of_line)}
        if len(found) > MOST_LANGUAGES:
            raise Refusal(18)
        if "any" not in found:
            raise Refusal(19)
        return sorted(found)

    def guesses(self, name):
        """The guessing rules, counted when finished."""
        meaning = functools.partial(guess_of_line, names=self.names)
        guesses = [rule for _, rule in self.told(self.listed(name), meaning)]
        if len(guesses) > MOST_RULES:
            raise Refusal(18)
        return guesses

    def rules(self, name):
        """The finished list of a listed file, "by first character and then file order", counted when
        finished (01, Bundle and pack; reading 14)."""
        followed = [0]
        held = self.held_by(self.listed(name), 0, followed)
        rules = [rule for first in sorted(held) for rule in held[first]]
        if len(rules) > MOST_RULES:
            raise Refusal(18)
        return rules

    def items_of(self, number):
        """The (line, rule or include) pairs of a rule file up to its first bad line, and the refusal there,
        if any. They do not depend on where the file is included, so each file is read once."""
        if number not in self.items:
            items, refusal = [], None
            try:
                for item in self.told(number, functools.partial(item_of_line, names=self.names)):
                    items.append(item)
            except Refusal as met:
                refusal = met
            self.items[number] = items, refusal
        return self.items[number]

    def held_by(self, number, depth, followed):
        """What a file brings, by first character (01, Rule files and includes: "An include REPLACES what was
        held for each first character that it brings; later rules are added behind")."""
        held = {}
        items, refusal = self.items_of(number)
        for line, item in items:
            if isinstance(item, Rule):
                held.setdefault(item.pattern[0], []).append(item)
            else:
                included = self.included(item, line, number, depth, followed)
                held.update(self.held_by(included, depth + 1, followed))
        if refusal is not None:
            raise Refusal(refusal.code, refusal.place, refusal.file)
        return held

    def included(self, name, line, number, depth, followed):
        """Number of an included file, or 17, then 11, in the file that holds the include (01, the table, codes
        11 and 17; readings 9, 10 and 20). `followed` counts over a listed file and everything below it."""
        if depth + 1 > DEEPEST_INCLUDE or followed[0] == MOST_INCLUDES:
            raise Refusal(17, line, number)
        if name not in self.numbers:
            raise Refusal(11, line, number)
        followed[0] += 1
        return self.numbers[name]

    def pack(self, name_type):
        """The files in pack order (01, What the desk gets)."""
        prefix = FILE_PREFIXES[name_type]
        self.names = self.languages(prefix + b"_languages")
        guesses = self.guesses(prefix + b"_lang")
        lists = [self.rules(name) for name in list_names(prefix, self.names)]
        return pack_bytes(self.names, guesses, lists)


def load(name_type, bundle, room=MOST):
    """(0, pack) or (code, place, file) for a bundle's bytes. Checks in the order 4, 10, then the files in
    pack order, 9 last (01, What the desk gets)."""
    try:
        if name_type > 2:
            raise Refusal(4)
        pack = Loader(read_bundle(bundle)).pack(name_type)
        check_room(len(pack), room)
    except Refusal as refusal:
        return refusal.code, refusal.place, refusal.file
    return 0, pack


def plain_files(name_type, pack):
    """An accepted pack as rule files in the plainest form, one blank between fields and no comments, which
    the original reads too: a dict of file names (without `.txt`) and contents."""
    prefix = FILE_PREFIXES[name_type]
    files = {prefix + b"_languages": "".join(name + "\n" for name in pack.names)}
    files[prefix + b"_lang"] = "".join(plain_guess(rule, pack.names) for rule in pack.guesses)
    for name, rules in zip(list_names(prefix, pack.names), pack.lists):
        files[name] = "".join('"%s" "%s" "%s" "%s"\n' % tuple(rule[:4]) for rule in rules)
    return {name.decode(): content.encode() for name, content in files.items()}


def plain_guess(rule, names):
    """A guessing line."""
    joined = "+".join(name for bit, name in enumerate(names) if rule.mask >> bit & 1)
    return "%s %s %s\n" % (rule.written, joined, "true" if rule.accept else "false")


# ---------------------------------------------------------------------------------------------------
# The program that prints keys (example 14; readings 23 and 34)
# ---------------------------------------------------------------------------------------------------

def key_line(settings, checked, name):
    """01, example 14: "code, flag, answer, or code and place"."""
    code, flag, result = spell(settings, checked, name)
    if code == 0:
        return b"0 %d " % flag + result + b"\n"
    return b"%d %d\n" % (code, result)


def block(settings, checked, names, room):
    """(0, bytes read, text) for the lines of a block that go into a buffer, or (9, length needed, nothing)
    where the first doesn't (01, code 9: "answer .. longer than the output buffer", of a line)."""
    read, text, size = 0, b"", min(room, MOST)
    for name in names.split(b"\n")[:-1]:
        whole = key_line(settings, checked, name)
        needed = min(len(whole), MOST)
        line = b"9 %d\n" % needed if whole[:1] == b"0" and len(whole) > size else whole
        if len(text) + len(line) > size:
            return (0, read, text) if read else (9, needed, b"")
        read, text = read + len(name) + 1, text + line
    return 0, read, text


def keys(settings, pack, names):
    """What document 01's program prints for a block of names, "one name a line"."""
    if len(pack) > PROGRAM_PACK:
        return b"5 %d\n" % PROGRAM_PACK
    checked = check_pack(pack)
    lines = names.split(b"\n")
    if lines[-1] == b"":
        lines.pop()
    return b"".join(key_line(settings, checked, name) for name in lines)


# ---------------------------------------------------------------------------------------------------
# Case lines
# ---------------------------------------------------------------------------------------------------

UNTOUCHED = 165                 # each byte of a lent buffer
LONGEST_PACK = 98304            # of a `pack` or `bundle` line, and the largest room of `load`
LARGEST_ROOM = 4096             # of `spell`, `given` and `lines`


class NotACase(Exception):
    """A line that is no case."""


def hex_of(data):
    return data.hex() or "-"


def bytes_of(field):
    if field == "-":
        return b""
    if re.fullmatch("(?:[0-9a-f]{2})+", field) is None:
        raise NotACase
    return bytes.fromhex(field)


def text_of(field):
    """A field that has to be a text. What an ill-formed one means is nowhere said, so it is no case."""
    data = bytes_of(field)
    if ill_formed(data) is not None:
        raise NotACase
    return decode(data)


def number_of(field, largest=MOST):
    if re.fullmatch("0*[0-9]{1,10}", field) is None:
        raise NotACase
    number = int(field[-10:])
    if number > largest:
        raise NotACase
    return number


def set_of(field):
    if field in (ANY, NONE):
        return field
    if not field.startswith("some:"):
        raise NotACase
    return number_of(field[5:])


def shown_set(languages, between=":"):
    return languages if languages in (ANY, NONE) else "some%s%d" % (between, languages)


def comparable(data):
    """Any bytes as a text that equals no other bytes' text."""
    return data.decode("utf-8", "surrogateescape")


def strings_of(field):
    """The first 32 strings that a field holds from its start; one that is cut off ends the list."""
    reader = Reader(bytes_of(field))
    strings = []
    try:
        while len(strings) < MOST_LANGUAGES:
            strings.append(comparable(reader.string()))
    except Refusal:
        pass
    return strings


def shown_place(place):
    return "-" if place is None else str(place)


def lent(room, answer):
    """The lent buffer afterwards (01, What the desk gets: "A refusal ... writes nothing; a success leaves
    bytes after the answer unchanged")."""
    return hex_of(answer + bytes([UNTOUCHED]) * (room - len(answer)))


def spelled_line(answer, room):
    """What spell gave, as `spell` and `given` print it."""
    code, flag, result = answer
    if code == 0:
        return "0 %d %d %s" % (flag, len(result), lent(room, result))
    return "%d %d %s" % (code, result, lent(room, b""))


def context_case(context, written, text):
    try:
        found = context(written)
    except Refusal as refusal:
        return str(refusal.code)
    return "%s %d" % (found.form, fits(found, text))


class Cases:
    """Answers case lines; keeps the pack and the bundle that were set."""

    def __init__(self):
        self.checked = check_pack(b"")
        self.files = b""

    def answer(self, line):
        """What a line prints, or None if it prints nothing."""
        fields = re.findall("[^ \t]+", line)
        try:
            command = getattr(Cases, "on_" + fields[0], None) if fields else None
            if command is None or command.__code__.co_argcount != len(fields):
                raise NotACase
            return command(self, *fields[1:])
        except NotACase:
            return "?"

    def on_decode(self, data):
        data = bytes_of(data)
        place = ill_formed(data)
        if place is not None:
            return "ill %d" % place
        return " ".join(["text"] + [str(ord(character)) for character in decode(data)])

    def on_outside(self, data):
        return shown_place(outside_range(bytes_of(data)))

    def on_lower(self, data):
        return hex_of(lower_bytes(bytes_of(data)))

    def on_order(self, one, other):
        return order(bytes_of(one), bytes_of(other))

    def on_same(self, one, other):
        return "%d" % (bytes_of(one) == bytes_of(other))

    def on_narrow(self, languages, by):
        left = narrow(set_of(languages), set_of(by))
        return "nothing" if is_empty(left) else shown_set(left)

    def on_merge(self, one, other):
        return shown_set(merge(set_of(one), set_of(other)))

    def on_singleton(self, languages):
        return "%d" % (single(set_of(languages)) is not None)

    def on_subtract(self, bits, less):
        return str(number_of(bits) & ~number_of(less))

    def on_single(self, languages):
        return shown_place(single(set_of(languages)))

    def on_name(self, name):
        return "%d" % is_language_name(comparable(bytes_of(name)))

    def on_listed(self, names, name):
        try:
            return str(mask_of(comparable(bytes_of(name)), strings_of(names)))
        except Refusal:
            return "-"

    def on_left(self, context, text):
        return context_case(left_context, text_of(context), text_of(text))

    def on_right(self, context, text):
        return context_case(right_context, text_of(context), text_of(text))

    def on_expr(self, expression, names):
        try:
            found = alternatives_of(text_of(expression), strings_of(names))
        except Refusal as refusal:
            return str(refusal.code)
        return " ".join(["ok"] + [hex_of(text.encode()) + ":" + shown_set(languages)
                                  for text, languages in found])

    def on_guessing(self, pattern, name):
        pattern, name = text_of(pattern), text_of(name)
        try:
            return "%d" % guess_matches(guessing_pattern(pattern), name)
        except Refusal as refusal:
            return str(refusal.code)

    def on_rule(self, pattern, left, right, text, place):
        pattern, left, right = text_of(pattern), text_of(left), text_of(right)
        data, place = text_of(text).encode(), number_of(place)
        try:
            rule = Rule(pattern, left, right, "", left_context(left), right_context(right), ())
        except Refusal as refusal:
            return str(refusal.code)
        if place > len(data) or ill_formed(data[:place]) is not None:
            return "0"                      # a byte place at which no character begins
        return "%d" % rule_matches(rule, decode(data), len(decode(data[:place])))

    def on_pack(self, data):
        data = bytes_of(data)
        if len(data) > LONGEST_PACK:
            raise NotACase
        self.checked = check_pack(data)

    def on_check(self):
        return "0" if isinstance(self.checked, Pack) else "%d %d" % self.checked

    def on_guess(self, name):
        name = text_of(name)
        if not isinstance(self.checked, Pack):
            return "%d %d" % self.checked
        return shown_set(guess(self.checked, name), " ")

    def on_word(self, main, common, own, limit, kind, bits, word):
        numbers, limit = [number_of(number) for number in (main, common, own)], number_of(limit)
        kind, bits, word = number_of(kind), number_of(bits), text_of(word)
        if not isinstance(self.checked, Pack):
            return "%d %d" % self.checked
        if limit > MOST_TEXTS or max(numbers) >= len(self.checked.held):
            raise NotACase
        call = Call(Settings(GENERIC, 0, 0, limit), self.checked)
        languages = ANY if kind == 0 else NONE if kind == 1 else bits
        try:
            texts = call.passes(*(self.checked.held[number] for number in numbers), word, languages)
        except Refusal as refusal:
            return str(refusal.code)
        return "0 %d %s" % (call.flag, hex_of(texts.encode()))

    def spelled(self, settings, given, room, name):
        settings = Settings(*(number_of(field) for field in settings))
        room, name = number_of(room, LARGEST_ROOM), bytes_of(name)
        return spelled_line(spell(settings, self.checked, name, given, room), room)

    def on_spell(self, name_type, rule_type, concat, limit, room, name):
        return self.spelled((name_type, rule_type, concat, limit), None, room, name)

    def on_given(self, name_type, rule_type, concat, limit, kind, bits, room, name):
        given = number_of(kind), number_of(bits)
        return self.spelled((name_type, rule_type, concat, limit), given, room, name)

    def on_lines(self, name_type, rule_type, concat, limit, room, names):
        settings = Settings(*(number_of(field) for field in (name_type, rule_type, concat, limit)))
        room, names = number_of(room, LARGEST_ROOM), bytes_of(names)
        code, number, text = block(settings, self.checked, names, room)
        return "%d %d %s%s" % (code, number, "%d " % len(text) if code == 0 else "", lent(room, text))

    def on_bundle(self, data):
        data = bytes_of(data)
        if len(data) > LONGEST_PACK:
            raise NotACase
        self.files = data

    def on_load(self, name_type, room):
        room = number_of(room, LONGEST_PACK)
        answer = load(number_of(name_type), self.files, room)
        if answer[0] == 0:
            return "0 %d %s" % (len(answer[1]), lent(room, answer[1]))
        return "%d %d %d %s" % (*answer, lent(room, b""))


def answer_cases(lines, out):
    cases = Cases()
    for line in lines:
        answer = cases.answer(line.rstrip(b"\n").decode("latin-1"))
        if answer is not None:
            out.write(answer + "\n")


def main(arguments):
    if not arguments:
        answer_cases(sys.stdin.buffer, sys.stdout)
    elif arguments[0] == "keys" and len(arguments) == 6:
        settings = Settings(*(int(number) for number in arguments[1:5]))
        with open(arguments[5], "rb") as file:
            pack = file.read()
        sys.stdout.buffer.write(keys(settings, pack, sys.stdin.buffer.read()))
    else:
        sys.exit(__doc__)


if __name__ == "__main__":
    main(sys.argv[1:])
