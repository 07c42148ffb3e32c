#!/usr/bin/env python3
"""Case lines for the port's program `ask`, made anew from a seed, and what the original may answer to each.

A case is the line for the port, the line for the original's `bm-answers` (None where the original has no such thing), and the
function that turns the original's answer into the answers that the port may give (None: any).
"""
import collections
import itertools
import random

import second

ANY = None


def hex_of(data):
    return data.hex() or "-"


def same(answer):
    return (answer,)


def case(line, ask=ANY, allowed=same):
    return line, (line if ask is ANY else ask), allowed


def unasked(line):
    return line, None, same


# ---- letters

RANGE = [c for c in range(0x20, 0x180) if (c <= 0x7E or c >= 0xA1) and c != 0x130]
EDGES = [0x00, 0x41, 0x7F, 0x80, 0x8F, 0x90, 0x9F, 0xA0, 0xBF, 0xC0, 0xC1, 0xC2, 0xC3, 0xDF, 0xE0, 0xE1, 0xEC, 0xED, 0xEE, 0xEF,
         0xF0, 0xF1, 0xF3, 0xF4, 0xF5, 0xFF]


def sequences():
    """All sequences of one byte and two, and those of three and four bytes at the edges of RFC 3629's table."""
    yield b""
    for length in (1, 2):
        for bytes_ in itertools.product(range(256), repeat=length):
            yield bytes(bytes_)
    for length in (3, 4):
        for bytes_ in itertools.product(EDGES, repeat=length):
            yield bytes(bytes_)


def name(rng, most=24):
    return "".join(chr(rng.choice(RANGE)) for _ in range(rng.randrange(most))).encode()


def damaged(rng):
    data = bytearray(rng.choice((name(rng), bytes(rng.randrange(256) for _ in range(rng.randrange(12))),
                                 "".join(chr(rng.choice((0x7F, 0x80, 0x7FF, 0x800, 0xD7FF, 0xE000, 0xFFFF, 0x10000, 0x10FFFF, 0x3A9)))
                                         for _ in range(rng.randrange(5))).encode())))
    for _ in range(rng.randrange(3)):
        if data:
            place = rng.randrange(len(data))
            change = rng.randrange(3)
            if change == 0:
                data[place] = rng.randrange(256)
            elif change == 1:
                del data[place]
            else:
                data.insert(place, rng.choice(EDGES))
    return bytes(data)


def texts_of(rng):
    one = rng.choice((name, damaged))(rng)
    other = one[:rng.randrange(len(one) + 1)] + rng.choice((b"", name(rng, 4))) if rng.randrange(2) else name(rng)
    return (one, other) if rng.randrange(2) else (other, one)


def letters_all():
    for data in sequences():
        yield case("decode " + hex_of(data))
        yield case("outside " + hex_of(data))
    for code in RANGE:
        yield case("lower " + hex_of(chr(code).encode()))


def letters_random(rng, count):
    for _ in range(count):
        data = damaged(rng)
        yield case("decode " + hex_of(data))
        yield case("outside " + hex_of(data))
        yield unasked("lower " + hex_of(data))
        yield case("lower " + hex_of(name(rng)))
        one, other = texts_of(rng)
        yield case("order %s %s" % (hex_of(one), hex_of(other)), allowed=lambda a: None if a == "!" else (a,))
        yield unasked("same %s %s" % (hex_of(one), hex_of(other)))


# ---- languages

def set_word(mask):
    return mask if isinstance(mask, str) else "some:%d" % mask


def pairs_of(sets):
    for one, other in itertools.product(sets, repeat=2):
        for word in ("narrow", "merge"):
            yield case("%s %s %s" % (word, set_word(one), set_word(other)))
    for one in sets:
        yield case("single " + set_word(one))
        yield unasked("singleton " + set_word(one))


def languages_all():
    yield from pairs_of(["any", "none"] + list(range(64)) + [2 ** 31, 2 ** 32 - 1, 2 ** 31 + 1, 2 ** 16])


WORDS = [b"", b"a", b"any", b"common", b"commons", b"z" * 24, b"z" * 25, b"A", b"a1", b"french", b"\xc3\xa9"]


def strings(names):
    return b"".join(bytes([len(n)]) + n for n in names)


def languages_random(rng, count):
    for _ in range(count):
        sets = [rng.choice(("any", "none", rng.randrange(2 ** 32), 2 ** rng.randrange(32))) for _ in range(2)]
        yield from pairs_of(sets)
        yield unasked("subtract %d %d" % (rng.randrange(2 ** 32), rng.randrange(2 ** 32)))
        word = rng.choice(WORDS + [bytes(rng.choice(b"abcz{`") for _ in range(rng.randrange(27)))])
        yield unasked("name " + hex_of(word))
        names = strings([b"n%d" % i for i in range(rng.choice((0, 1, 5, 31, 32, 33, 40)))] + [rng.choice(WORDS)])
        if rng.randrange(4) == 0:
            names = names[:rng.randrange(len(names) + 1)]
        yield unasked("listed %s %s" % (hex_of(names), hex_of(rng.choice(WORDS + [b"n0", b"n31", b"n32", b"n39"]))))


# ---- contexts, expressions, guessing patterns, rules

SIGNS = ["^", "$", "[", "]", "a", "b", "é", "-"]
CONTEXT_TEXTS = ["", "a", "b", "é", "-", "^", "$", "[", "]", "ab", "ba", "aé", "éa", "éé", "a-", "]b", "^a", "a$", "[a]", "aba"]


def by_form(answer):
    return ("15",) if answer.startswith("Regex") or answer == "Refused" else (answer,)


def contexts_of(context, texts):
    for side in ("left", "right"):
        for text in texts:
            yield case("%s %s %s" % (side, hex_of(context.encode()), hex_of(text.encode())), allowed=by_form)


def words_over(signs, most):
    for length in range(most + 1):
        for word in itertools.product(signs, repeat=length):
            yield "".join(word)


def contexts_all():
    for context in words_over(SIGNS, 4):
        yield from contexts_of(context, CONTEXT_TEXTS)


LETTERS = ["a", "b", "c", "é", "ł", "ω", "😀", "-", "^", "$", "]", "'", " "]


def a_box(rng, letters=tuple(LETTERS)):
    """02, ticket 11: a box of any kind, empty or not, negated or not, with each anchor or none, now and then closed twice or never."""
    listed = "".join(rng.choice(letters) for _ in range(rng.choice((0, 0, 1, 2))))
    return rng.choice(("", "", "^")) + "[" + rng.choice(("", "", "^")) + listed + rng.choice(("]", "]", "]", "]", "]]", "")) + rng.choice(("", "", "$"))


def contexts_random(rng, count):
    for _ in range(count):
        context = "".join(rng.choice(LETTERS) for _ in range(rng.randrange(7)))
        if rng.randrange(3):
            context = rng.choice(("", "^")) + "[" + rng.choice(("", "^")) + context + "]" + rng.choice(("", "$"))
        texts = ["".join(rng.choice(LETTERS) for _ in range(rng.randrange(5))) for _ in range(2)]
        texts.append(context.strip("^$[]"))
        yield from contexts_of(context, texts)


NAMES = ["a", "any", "b", "french", "z"]
NAMES_FIELD = hex_of(strings([n.encode() for n in NAMES]))


def by_alternatives(answer):
    if answer == "Refused":
        return ("14",)
    shown = ["ok"]
    for part in answer.split(" ")[1:]:
        text, _, languages = part.partition(":")
        if languages == "any":
            shown.append(text + ":any")
            continue
        mask = 0
        for word in languages.split("+"):
            word = bytes.fromhex(word[1:]).decode() if word.startswith("=") else word
            if word not in NAMES:
                return ("16",)
            mask |= 1 << NAMES.index(word)
        shown.append("%s:some:%d" % (text, mask))
    return (" ".join(shown),)


def expression_case(expression):
    field = hex_of(expression.encode())
    return "expr %s %s" % (field, NAMES_FIELD), "expr " + field, by_alternatives


def expressions_all():
    for expression in words_over(["(", ")", "|", "[", "]", "+", "a", "é"], 5):
        yield expression_case(expression)


def expressions_random(rng, count):
    for _ in range(count):
        parts = []
        for _ in range(rng.randrange(6)):
            part = "".join(rng.choice(("a", "é", "x", "]", "+")) for _ in range(rng.randrange(4)))
            if rng.randrange(2):
                part += "[" + "+".join(rng.choice(NAMES + ["any"] + (["zz", ""] if rng.randrange(5) == 0 else []))
                                       for _ in range(rng.randrange(1, 5))) + ("]" if rng.randrange(12) else "")
            parts.append(part)
        expression = "|".join(parts)
        yield expression_case("(" + expression + ")" if rng.randrange(5) else expression)


def by_guess(answer):
    return ("15",) if answer == "Refused" else (answer, "15")


def guessing_case(pattern, text):
    pattern, text = hex_of(pattern.encode()), hex_of(text.encode())
    return "guessing %s %s" % (pattern, text), "guess %s %s" % (pattern, text), by_guess


GUESS_TEXTS = ["", "a", "b", "é", "ab", "ba", "aé", "éa", "aba", "bab", "-", "a-b"]


def guessing_all():
    for pattern in words_over(["^", "$", "[", "]", "a", "b", "é", "-", "."], 4):
        for text in GUESS_TEXTS:
            yield guessing_case(pattern, text)


def guessing_blanks():
    """"holds no blank": neither a space nor a tab, in a box or outside."""
    for pattern in (" ", "\t", "a b", "a\tb", " a", "\ta", "a ", "a\t", "[a b]", "[a\tb]", "^\t$", "[^\t]"):
        yield guessing_case(pattern, "a b")


def guessing_random(rng, count):
    for _ in range(count):
        pattern = rng.choice(("", "", "^"))
        for _ in range(rng.randrange(6)):
            pattern += rng.choice(("a", "b", "c", "é", "ł", "[ab]", "[^a]", "[éa]", "[^éł]", "[b]", "[", "/", "#"))
        pattern += rng.choice(("", "", "$"))
        text = "".join(rng.choice("abcéł") for _ in range(rng.randrange(9)))
        yield guessing_case(pattern, text)


def by_rule(answer):
    return ("15",) if answer == "Refused" else (answer, "15")


def rules_random(rng, count):
    for _ in range(count):
        text = "".join(rng.choice("abéł") for _ in range(rng.randrange(7)))
        place = rng.randrange(len(text) + 1)
        pattern = text[place:place + rng.randrange(1, 3)] if rng.randrange(3) else rng.choice("abéł")
        if not pattern:
            continue
        left = rng.choice(("", "^", "a", "[ab]", "[^ab]", "é", "^b", "[é]", text[max(0, place - 1):place], "[ab]c", a_box(rng, "abéł")))
        right = rng.choice(("", "$", "a", "[ab]", "[^ab]", "é", "b$", "[é]$", "[ab]$", a_box(rng, "abéł")))
        line = "rule %s %d" % (" ".join(hex_of(x.encode()) for x in (pattern, left, right, text)), len(text[:place].encode()))
        yield case(line, allowed=by_rule)


# ---- packs

PAPER_PACK = bytes.fromhex("0103616e790000050001016100" + "00016f") + bytes(8)        # example 13


def rules_of(rng, names, most):
    found = []
    for _ in range(rng.randrange(most + 1)):
        languages = "[%s]" % "+".join(rng.choice(names) for _ in range(rng.randrange(1, 3)))
        expression = rng.choice(("o", "", "(a|b%s)" % languages, "x" + languages, "(|e)", "()"))
        left = rng.choice(("", "^", "a", "[ab]", "[^é]", "^b"))
        right = rng.choice(("", "$", "b", "[ab]$", "[^a]", "é"))
        found.append((rng.choice(("a", "b", "é", "ab", "c", "ł", "ba")), left, right, expression))
    return sorted(found, key=lambda rule: rule[0][0])


def small_pack(rng):
    names = sorted({"any"} | {rng.choice(("de", "fr", "zz", "english", "a")) for _ in range(rng.randrange(3))})
    guesses = [(rng.randrange(2), rng.randrange(1, 1 << len(names)), rng.choice(("a", "^b", "[ab]$", "é", "[^a]b", "^", "$")))
               for _ in range(rng.randrange(4))]
    return second.pack_bytes(names, guesses, [rules_of(rng, names, 2) for _ in range(3 * len(names) + 2)])


def pack_cases(data, texts=()):
    """The verdict, and for an accepted pack what it guesses."""
    yield unasked("pack %s\ncheck" % hex_of(data))
    for text in texts:
        yield unasked("pack %s\nguess %s" % (hex_of(data), hex_of(text.encode())))


def bounds():
    """Counts at their bounds and one over."""
    names = ["any"] + sorted("a" * (n // 26) + chr(98 + n % 24) + "b" * (n // 24) for n in range(40))
    for count in (1, 2, 31, 32, 33, 40):
        some = sorted(set(names[:count]) | {"any"})
        yield second.pack_bytes(some, [], [[] for _ in range(3 * len(some) + 2)])
    for count in (4095, 4096, 4097):
        yield second.pack_bytes(["any"], [(1, 1, "a")] * count, [[] for _ in range(5)])
        yield second.pack_bytes(["any"], [], [[("a", "", "", "")] * count] + [[] for _ in range(4)])
    for length in (254, 255):
        yield second.pack_bytes(["any"], [(0, 1, "a" * length)], [[("a" * length, "", "", "b" * length)], [], [], [], []])
    for lists in (4, 5, 6):
        yield second.pack_bytes(["any"], [], [[] for _ in range(lists)])
    for mask in (0, 1, 2, 2 ** 31):
        yield second.pack_bytes(["any"], [(1, mask, "a")], [[] for _ in range(5)])
    for name in WORDS:
        some = sorted({b"any", name})
        yield bytes([len(some)]) + strings(some) + bytes(2) + bytes([3 * len(some) + 2]) + bytes(2 * (3 * len(some) + 2))


def packs_with(contexts, places):
    """Each context on each side, in each of these lists."""
    for text, place in itertools.product(contexts, places):
        for rule in (("a", text, "", "o"), ("a", "", text, "o")):
            yield second.pack_bytes(["any"], [], [[("a", "", "", "o")] + [rule] * (number == place) for number in range(5)])


def packs_boxes():
    for data in packs_with(BOXES, (2,)):
        yield from pack_cases(data)


def packs_all():
    rng = random.Random("packs")
    good = [PAPER_PACK, PAPER_PACK + bytes(1)] + [small_pack(rng) for _ in range(4)]
    for data in good:
        for length in range(len(data) + 1):
            yield from pack_cases(data[:length])
    for data in good[:3]:
        for place, value in itertools.product(range(len(data)), range(256)):
            yield from pack_cases(data[:place] + bytes([value]) + data[place + 1:])
    for data in itertools.chain(bounds(), packs_with(CONTEXTS, (0, 2, 4))):
        yield from pack_cases(data)


def packs_random(rng, count):
    for _ in range(count):
        data = small_pack(rng)
        texts = ["".join(rng.choice("abé-") for _ in range(rng.randrange(5))) for _ in range(3)]
        yield from pack_cases(data, texts)
        for _ in range(2):
            broken = bytearray(data)
            for _ in range(rng.randrange(1, 4)):
                place = rng.randrange(len(broken))
                if rng.randrange(2):
                    broken[place] = rng.choice((0, 1, broken[place] ^ 1, rng.randrange(256)))
                elif rng.randrange(2):
                    del broken[place]
                else:
                    broken.insert(place, rng.randrange(256))
            yield from pack_cases(bytes(broken), texts[:1])
        yield from pack_cases(bytes(rng.randrange(256) for _ in range(rng.randrange(12))))


# ---- words: steps 6 to 9 of document 01's "Spelling a name", from three lists of a pack

LIMITS = (0, 1, 2, 3, 20, 256)
# the languages of a pack, the letters of its names, the letters of its texts, the few texts that its expressions hold, and how many
# of four alternatives have a box
Sounds = collections.namedtuple("Sounds", "names letters sounds texts boxes")


def sounds_of(rng):
    """Few letters and few texts, so that equal texts meet with other languages; now and then one near the 128 bytes of code 7."""
    names = sorted({"any"} | set(rng.sample(("a", "de", "fr", "zz"), rng.randrange(1, 4))))
    letters = rng.sample("abdenvé łß'", rng.randrange(2, 6))
    sounds = rng.sample("abxyéω😀", rng.randrange(2, 4))
    texts = [""] + sounds + [rng.choice(sounds) + rng.choice(sounds)]
    if rng.randrange(5) == 0:
        sound = rng.choice(sounds)
        texts.append(sound * (rng.choice((16, 32, 64, 127, 128, 129)) // len(sound.encode())))
    return Sounds(names, letters, sounds, texts, rng.choice((1, 1, 3)))


def context_over(rng, signs, left):
    """01, Contexts: each of the forms."""
    one, other = rng.choice(signs), rng.choice(signs)
    rest = rng.choice(("", "", "", one, one + other, "[%s%s]" % (one, other), "[^%s]" % one))
    if rng.randrange(4):
        return rest
    return "^" + rest if left else rest + "$"


def expression_over(rng, sounds):
    """01, Phoneme expressions, of the few texts and with boxes; at most 255 bytes."""
    parts = []
    for _ in range(rng.choice((1, 1, 2, 2, 3, 4))):
        box = "[%s]" % "+".join(rng.sample(sounds.names, rng.randrange(1, len(sounds.names) + 1)))
        parts.append(rng.choice(sounds.texts) + (box if rng.randrange(4) < sounds.boxes else ""))
    joined = "(%s)" % "|".join(parts)
    return parts[0] if len(joined.encode()) > second.LONGEST_STRING or len(parts) == 1 and rng.randrange(2) else joined


def rules_over(rng, sounds, signs, most, plain=0):
    """Random rules, and for so many of four signs a rule that always matches behind them."""
    found = []
    for _ in range(rng.randrange(most + 1)):
        pattern = "".join(rng.choice(signs) for _ in range(rng.choice((1, 1, 1, 2, 3))))
        found.append((pattern, context_over(rng, signs, True), context_over(rng, signs, False), expression_over(rng, sounds)))
    found += [(sign, "", "", expression_over(rng, sounds)) for sign in signs if rng.randrange(4) < plain]
    return sorted(found, key=lambda rule: rule[0][0])


def final_rules(rng, sounds):
    return rules_over(rng, sounds, sounds.sounds, 3, sounds.boxes - 1)


def guesses_over(rng, sounds):
    """01, Guessing lines: a pattern holds no blank."""
    signs = [letter for letter in sounds.letters if letter != " "]
    found = []
    for _ in range(rng.randrange(5)):
        one, other = rng.choice(signs), rng.choice(signs)
        pattern = rng.choice((one, one + other, "[%s%s]" % (one, other), "[^%s]" % one, "-", "-" + one, "[^%s]%s" % (one, other)))
        found.append((rng.randrange(2), rng.randrange(1, 1 << len(sounds.names)),
                      rng.choice(("", "", "^")) + pattern + rng.choice(("", "", "$"))))
    return found


def spelling_pack(rng):
    """A random pack and what it is made of."""
    sounds = sounds_of(rng)
    lists = []
    for _ in sounds.names:
        lists += [rules_over(rng, sounds, sounds.letters, 4, 3), final_rules(rng, sounds), final_rules(rng, sounds)]
    lists += [final_rules(rng, sounds), final_rules(rng, sounds)]
    return sounds, second.pack_bytes(sounds.names, guesses_over(rng, sounds), lists)


def edge_pack(names, main, common, own=()):
    """A pack in which each language has these main rules and these final ones, approx and exact."""
    plain = [[rule if len(rule) == 4 else (rule[0], "", "", rule[1]) for rule in rules] for rules in (main, common, own)]
    main, common, own = (sorted(rules, key=lambda rule: rule[0][0]) for rules in plain)
    return second.pack_bytes(names, [], [main, own, own] * len(names) + [common, common])


EIGHT = [(letter, "(x|y)") for letter in "abcdefgh"]
FOUR_NAMES = ["any", "de", "fr", "it"]


def edges():
    """Packs at which an error comes easily, with words for each."""
    # an equal text of a final pass is merged with the set of the text being worked on: z/{de} with {fr, it}, not with {it}
    yield edge_pack(FOUR_NAMES, [("a", "(x[de]|y[fr+it])"), ("b", "(x[de]|y[it])")], [("x", "z"), ("y", "z[it]")],
                    [("z", "(d[de]|f[fr]|i[it])")]), ["a", "b", "ab", "ba", "aab"]
    # an equal text of an apply stays as it was
    yield edge_pack(FOUR_NAMES, [("a", "(b[fr]|a|b[de])"), ("c", "(p[de]|q[fr])")], []), ["a", "ac", "aac", "ca"]
    # an append is sorted anew, and what comes first then is kept at a limit
    yield edge_pack(FOUR_NAMES, [("a", "k"), ("b", "z"), ("c", "m")], [("k", "(a|ab)"), ("m", "(1|2)")]), [
        "abc", "ab", "abcc", "aabc"]
    # 128 bytes and 129: in an apply, in a final pass, in an append
    main = [("a", "o" * 64), ("b", "o" * 127), ("c", "o" * 128), ("d", "o" * 129), ("e", "é"), ("f", "x" + "y" * 127), ("g", "g"),
            ("h", "h"), ("i", "1"), ("j", "(j|%s)" % ("o" * 129))]
    words = ["a", "aa", "aae", "aea", "b", "be", "bg", "c", "ci", "d", "ae", "f", "g", "h", "ig", "gi", "fi", "j", "jj"]
    yield edge_pack(["any"], main, [("1", "11"), ("g", "y" * 128), ("h", "y" * 129), ("x", "z")]), words
    yield edge_pack(["any"], main, [("x", "zz")]), ["f", "fe", "cf"]
    # 256 texts and 257 of a final pass, and 7 met before 8 and behind it
    for more in ([("x", "^yyyyyyy", "$", "z")], [("x", "^yyyyyyy", "$", "(x|z)")],
                 [("x", "^yyyyyyy", "$", "(x|z)"), ("yyyyyyyy", "o" * 129)], [("xxxxxxxx", "(1|2|3)"), ("yyyyyyyy", "o" * 129)]):
        yield edge_pack(["any"], EIGHT, more), ["abcdefgh", "abcdefg", "hgfedcba", "a"]
        yield edge_pack(["any"], EIGHT, [], more), ["abcdefgh"]
    # results of a final pass unite without the limit
    yield edge_pack(["any"], [("a", "(p|q)")], [("p", "(1|2)"), ("q", "(3|4)")], [("1", "(5|6)"), ("3", "(5|7)")]), [
        "a", "aa", "aaa", "aaaa"]


def list_numbers(names, index, kind):
    """01, Bundle and pack, the order of lists: main, common final and language final list of a language."""
    return 3 * index, 3 * len(names) + kind, 3 * index + 1 + kind


def word_case(data, numbers, limit, kind, bits, word):
    return unasked("pack %s\nword %d %d %d %d %d %d %s" % (hex_of(data), *numbers, limit, kind, bits, hex_of(word.encode())))


def start_sets(names):
    """Every kind of set: Any, None, Some without bits, with one, with all."""
    return [(0, 0), (1, 0), (2, 0), (2, (1 << len(names)) - 1)] + [(2, 1 << bit) for bit in range(len(names))]


def words_all():
    for data, words in edges():
        names = second.check_pack(data).names
        for limit, (kind, bits), word in itertools.product(LIMITS + (4, 8, 128), start_sets(names), words):
            yield word_case(data, list_numbers(names, names.index("any"), 0), limit, kind, bits, word)


def numbers_of(rng, names):
    """Lists that a name can be spelled from; else any three, seldom one that is not there."""
    if rng.randrange(5):
        return list_numbers(names, rng.randrange(len(names)), rng.randrange(2))
    count = second.list_count(names) + (rng.randrange(20) == 0)
    return tuple(rng.randrange(count) for _ in range(3))


def word_over(rng, sounds, most=9):
    """A word of a pack's letters, now and then with others or long."""
    signs = sounds.letters if rng.randrange(5) else sounds.letters + sounds.sounds + ["A", "Ω", "-"]
    return "".join(rng.choice(signs) for _ in range(rng.randrange(1, most))) * (1 if rng.randrange(20) else rng.randrange(30))


def set_over(rng, names):
    """A start set of a word, Any or of several languages more often than others; bits of no language too."""
    some = (2, rng.randrange(1, 1 << len(names)))
    return rng.choice(start_sets(names) + [(0, 0)] * 6 + [some] * 8 + [(rng.randrange(3), rng.randrange(1 << 32))])


def words_random(rng, count):
    for _ in range(count):
        sounds, data = spelling_pack(rng)
        if rng.randrange(50) == 0:
            data = data[:rng.randrange(len(data))]
        for _ in range(2):
            limit = rng.choice(LIMITS) if rng.randrange(30) else rng.choice((4, 19, 255, 257, 1000, 2 ** 32 - 1))
            yield word_case(data, numbers_of(rng, sounds.names), limit, *set_over(rng, sounds.names), word_over(rng, sounds))


# ---- spelling a name

def spell_case(data, settings, given, room, name):
    fields = settings + (given or ())
    word = "spell" if given is None else "given"
    return unasked("pack %s\n%s %s %d %s" % (hex_of(data), word, " ".join(map(str, fields)), room, hex_of(name)))


def spelling_all():
    """Example 14, the table's bounds at each number, and the edges of a word."""
    for room, name in itertools.product((0, 1, 3, 8), ("aba", "de a", "a-a", "d'", "Ω", "", "-", "de  a", "d'de a", "A-D'A")):
        yield spell_case(PAPER_PACK, (1, 0, 0, 20), None, room, name.encode())
    for name in (b"a" * 96, b"a" * 97, b"a\xe2\x82A", "Ω".encode() + b"\xff", b"a\x7f", "aİ".encode(), b"\x00", b"a\n"):
        for settings in ((1, 0, 0, 20), (0, 1, 1, 256), (3, 0, 0, 20), (1, 2, 0, 20), (1, 0, 2, 20), (1, 0, 0, 257)):
            yield spell_case(PAPER_PACK, settings, None, 100, name)
    for given in ((0, 9), (1, 9), (2, 0), (2, 1), (2, 2), (3, 0), (2, 2 ** 32 - 1)):
        yield spell_case(PAPER_PACK, (1, 0, 0, 20), given, 8, b"aba")
        yield spell_case(PAPER_PACK[:-1], (1, 0, 0, 20), given, 8, b"aba")
    for data, words in edges():
        for settings in itertools.product(range(3), (0,), range(2), (1, 20, 256)):
            yield spell_case(data, settings, None, 40, "-".join(words[:2]).encode())
            yield spell_case(data, settings, (0, 0), 40, ("de " + words[0]).encode())


def lines_case(data, settings, room, names):
    return unasked("pack %s\nlines %s %d %s" % (hex_of(data), " ".join(map(str, settings)), room, hex_of(names)))


def block_all():
    """Blocks in every small buffer: answers and refusals that fit, that wait for an emptier buffer, and that never fit."""
    for names in ("aaaaa\n", "Ω\n", "\n", "\naaaaa\n", "aba\nde a\na-a\nd'\nΩ\n", "a\naaaaaaaaaaaa\na\n", "", "aaaaa", "a\naaaaa"):
        for room in range(26):
            yield lines_case(PAPER_PACK, (1, 0, 0, 20), room, names.encode())
    for room in range(8):
        yield lines_case(PAPER_PACK[:-1], (1, 0, 0, 20), room, b"a\na\n")
        yield lines_case(PAPER_PACK, (1, 0, 0, 257), room, b"a\n\n")
        yield lines_case(PAPER_PACK, (1, 0, 0, 20), room, b"a" * 97 + b"\na\n")


def block_random(rng, count):
    for _ in range(count):
        sounds, data = spelling_pack(rng)
        for _ in range(20):
            settings = (rng.randrange(3), rng.randrange(2), rng.randrange(2), rng.choice(LIMITS))
            names = b"".join(name_over(rng, sounds) + b"\n" for _ in range(rng.randrange(1, 5)))
            yield lines_case(data, settings, rng.choice((0, 3, 4, 5, 9, 20, 40, 80, 200)), names[:rng.choice((len(names), len(names), 30))])


def name_over(rng, sounds):
    """Words of a pack's letters, parted and led as steps 2 to 5 look for; seldom bytes that are no name."""
    name = rng.choice((" ", "-", "'", "  ")).join(word_over(rng, sounds, 6) for _ in range(rng.choice((1, 1, 1, 2, 2, 3))))
    prefixes = [prefix for some in second.PREFIXES.values() for prefix in some]
    name = rng.choice(("", "", "", "d'", rng.choice(prefixes) + " ", rng.choice(prefixes) + "-", rng.choice(prefixes) + "  ")) + name
    data = name.encode()
    return data + damaged(rng) if rng.randrange(25) == 0 else data[:rng.choice((97, 200))] if rng.randrange(4) == 0 else data[:60]


def spelling_random(rng, count):
    for _ in range(count):
        sounds, data = spelling_pack(rng)
        if rng.randrange(25) == 0:
            data = data[:rng.randrange(len(data))]
        for _ in range(40):
            settings = (rng.randrange(3), rng.randrange(2), rng.randrange(2), rng.choice(LIMITS))
            if rng.randrange(30) == 0:
                settings = tuple(number + rng.choice((0, 2, 300)) for number in settings)
            given = None if rng.randrange(2) else set_over(rng, sounds.names)
            yield spell_case(data, settings, given, rng.choice((0, 5, 20, 80, 80, 200)), name_over(rng, sounds))


# ---- request 5: the longest prefix first

PARTED_PACK = edge_pack(["any"], [(letter, letter) for letter in "adelnv"], [])         # a key shows how its name was parted


def parted_names():
    """Every name of up to four of some words: prefixes of which two fit, here or in a name spelled afresh, and such that nearly do."""
    for count in range(1, 5):
        for words in itertools.product(("de", "la", "dela", "d'de", "van", "a"), repeat=count):
            yield from dict.fromkeys(between.join(words).encode() for between in (" ", "-", "  "))


# two prefixes fit, here or in a name spelled afresh; and names of which that is nearly so
AMENDED = ["de la ", "de la a", "De-La A", "de  la a", "de la  a", "d'de la a", "van de la a", "de de la a", "de la de la a", "de la d'a",
           "de la -a", "de la " + "a" * 90, "de la", "de laa", "dela a", "a de la a", " de la a", "d' de la a"]


def prefixes_named():
    """These under each type, with and without concat; some with languages given, and in buffers that just have room and have not."""
    for name, name_type, concat in itertools.product(AMENDED, range(3), range(2)):
        yield spell_case(PARTED_PACK, (name_type, 0, concat, 20), None, 120, name.encode())
    for name, given in itertools.product(AMENDED, ((0, 0), (1, 0), (2, 1))):
        yield spell_case(PARTED_PACK, (1, 0, 0, 20), given, 120, name.encode())
    for room in range(18, 22):
        yield spell_case(PARTED_PACK, (1, 0, 0, 20), None, room, b"de la a")


def prefixes_all():
    yield from prefixes_named()
    for name in parted_names():
        for name_type, concat in itertools.product(range(3), range(2)):
            yield spell_case(PARTED_PACK, (name_type, 0, concat, 20), None, 120, name)


# ---- request 12: in which order languages are narrowed

# languages, main rules before and after a move, a name, and its keys before and after
Moved = collections.namedtuple("Moved", "languages rules_before rules_after name key_before key_after")
MOVED = [
    # another rule matches first
    Moved(["any"], [("a", "o"), ("a", "u")], [("a", "u"), ("a", "o")], "a", "o", "u"),
    # so that a language is lost
    Moved(["any", "b"], [("a", "o"), ("a", "o[b]"), ("c", "i[any]")], [("a", "o[b]"), ("a", "o"), ("c", "i[any]")], "ac", "oi", ""),
    # another alternative enters first, and "an equal text already there stays as it was"
    Moved(["any", "b"], [("a", "(o|o[b])"), ("c", "i[any]")], [("a", "(o[b]|o)"), ("c", "i[any]")], "ac", "oi", ""),
]


def narrowing_all():
    """All pairs of sets of three languages, and packs before and after a move."""
    yield from pairs_of(["any", "none"] + list(range(8)))
    for moved in MOVED:
        for rules in (moved.rules_before, moved.rules_after):
            yield spell_case(edge_pack(moved.languages, rules, []), (1, 0, 0, 20), None, 8, moved.name.encode())


# ---- request 2: looking for a text in a set

WIDE_LIMITS = (2, 3, 20, 64, 255, 256)


def sets_all():
    """Sets of up to twelve texts in order, and one more text that is united into each place of them: between two, or equal to one."""
    for count in range(13):
        texts = "bdfhjlnprtvx"[:count]
        for text in "abcdefghijklmnopqrstuvwxy"[:2 * count + 1]:
            data = edge_pack(FOUR_NAMES, [("a", "(%s)" % "|".join(["%s[de]" % one for one in texts] + ["z[fr]"]))], [("z", text)],
                             [(text, "(%s[de]|%s[fr+it])" % (text, 2 * text))])
            yield word_case(data, list_numbers(FOUR_NAMES, 0, 0), 256, 0, 0, "a")


def wide_expression(rng, sounds):
    """Up to forty alternatives of few letters, so that many are equal and many begin with others; at most 255 bytes."""
    most = rng.choice((2, 8, 40))
    parts = []
    for _ in range(rng.randrange(1, most + 1)):
        box = "[%s]" % "+".join(rng.sample(sounds.names, rng.randrange(1, len(sounds.names) + 1)))
        text = "".join(rng.choice(sounds.sounds) for _ in range(rng.randrange(5)))
        parts.append(text + (box if rng.randrange(4) < sounds.boxes else ""))
    while len("(%s)" % "|".join(parts)) > second.LONGEST_STRING:
        parts.pop()
    return "(%s)" % "|".join(parts)


def wide_pack(rng):
    """A pack whose sets grow to hundreds of texts that share their beginnings, and what it is made of."""
    names = sorted({"any"} | set(rng.sample(("a", "de", "fr", "zz"), rng.randrange(3))))
    sounds = Sounds(names, list("abcd"), rng.sample("stuv", rng.randrange(1, 4)), [], rng.randrange(2))
    main = [(letter, "", "", wide_expression(rng, sounds)) for letter in sounds.letters]

    def finals():
        return [(sound, "", "", wide_expression(rng, sounds) if rng.randrange(2) else sound) for sound in sounds.sounds if rng.randrange(2)]

    lists = [rules for _ in names for rules in (main, sorted(finals()), sorted(finals()))] + [sorted(finals()), sorted(finals())]
    return sounds, second.pack_bytes(names, [], lists)


def sets_random(rng, count):
    for _ in range(count):
        sounds, data = wide_pack(rng)
        for _ in range(4):
            word = "".join(rng.choice(sounds.letters) for _ in range(rng.randrange(1, 6)))
            numbers = list_numbers(sounds.names, rng.randrange(len(sounds.names)), rng.randrange(2))
            yield word_case(data, numbers, rng.choice(WIDE_LIMITS), *set_over(rng, sounds.names), word)


# ---- loading a bundle

LINE = b'"a" "" "" "o"'
LISTS = ("rules", "approx", "exact")


def load_case(bundle, name_type, room):
    return unasked("bundle %s\nload %d %d" % (hex_of(bundle), name_type, room))


def loads(bundle, name_type=1, rooms=(0, -1, 3)):
    """A bundle at rooms that are so much longer than its pack; a refused one in six bytes."""
    answer = second.load(name_type, bundle)
    if answer[0]:
        yield load_case(bundle, name_type, 6)
        return
    for more in rooms:
        yield load_case(bundle, name_type, min(second.LONGEST_PACK, max(0, len(answer[1]) + more)))


def files_with(changed=(), names=("any",), prefix="gen"):
    """The files that a type needs, empty but for those that are given (None: missing)."""
    files = {"%s_%s_%s" % (prefix, kind, name): b"" for kind in LISTS for name in names}
    files.update({"%s_%s_common" % (prefix, kind): b"" for kind in LISTS[1:]})
    files.update({prefix + "_lang": b"", prefix + "_languages": "\n".join(names).encode()})
    files.update(changed)
    return {name: content for name, content in files.items() if content is not None}


def loads_with(changed, names=("any",), **more):
    return loads(second.bundle_bytes(files_with(changed, names)), **more)


def rule_line(*strings):
    return b" ".join(b'"%s"' % string for string in strings)


# 01, Rule files and includes, and readings 1 to 11, 16: what a line may be, and what it may not
COMMENTS = [b"", b" ", b"\t ", b"//", b" // x", b"//\xff\x00", b"/", b"/ /", b"/* a */", b" \t/* a */\t ", b"/**/", b"/*/", b"/*/ */", b"/***/",
            b"/* * /", b"/* a */ b", b"/* a */ // b", b"/* a */ /* b */", b"/* a */*/", b"/* /* */", b"/*\n*/", b"/*\n\n a */ ", b"/* \n // */",
            b"/*\n*/ x", b"/*\n*/x\n*/", b"/*\n" + LINE + b"\n*/", b"/*", b"/*\n", b"/*\n*", b"/*\n*\n/", b"/* \xff\x00\n\x7f*/", b"*/", b"x /* a */",
            b"/* a */\r", b"/*\r*/", b"/*\r\n*/\r", b"\r", b"\r\r", b" \r", b"\r ", b"//\r", b"\xef\xbb\xbf", b"\xef\xbb\xbf//", b"\xc2\xa0", b"\xe2\x80\xa8",
            b"\x0b", b"\x0c", b"\x00", b"\x1a"]
INCLUDES = [b"#include x", b" \t#include \t x \t", b"#include", b"#include ", b"#includex", b"#include x y", b"#include x//c", b"#include x // c",
            b"#include x /* c */", b'#include "x"', b"#Include x", b"# include x", b"#include no", b"#include \xff", b"#include x\r", b"#include \xc3\xa9",
            b"#include x.txt", b"#include\rx", b"#include gen_rules_any", b"#include //c", b"#include /*c", b"#include\xc2\xa0x", b"#", b"#include x\x00"]
STRINGS = [LINE, LINE + b" // c", LINE + b"//c", LINE + b"/", LINE + b" / /", LINE + b" /* c */", LINE + b" x", LINE + b"x", LINE + b' ""', b" \t" + LINE + b"\t ",
           LINE + b"//\xff\r", b'"a" "" ""', b'"a" "" "" "', b'"a""" "" "o"', b'"a" """" "o"', b'"a" "" """o"', b'"a"\t""\t \t"" "o"', b'"a"  "" "" "o"', b"a b c d",
           b'a "" "" ""', b'"a" "" "" o', b'"a', b'"', b'"" "" "" ""', b'"a" "" "" ""', b'"a\t" "" "" "o"', b'" " " " " " " "', b'"\\" "" "" "o"', b'"\\"" "" "" ""',
           b'"a//b" "" "" "//"', b'"/*" "" "" "*/"', b'"a" "" "" "o" //', b'"a"\r"" "" "o"', b'\r"a" "" "" "o"', b'"a" "" "" "o"\r', b'"a" "" "" "o"\r\r', b'"a\r" "" "" "o"',
           b'"a\n" "" "" "o"', b'"#include" "" "" ""', b"'a' '' '' 'o'", b'\xef\xbb\xbf"a" "" "" "o"', b'"\xc2\xa0" "" "" "\xc2\x85"', b'"a"\xc2\xa0"" "" ""']
STRINGS += [rule_line(b"a" + bad, b"", b"", b"") for bad in (b"\x00", b"\x1f", b"\x7f", b"\xff", b"\xc3", b"\xed\xa0\x80", b"\xc0\x80", b"\xf4\x90\x80\x80", b"\xf4\x8f\xbf\xbf")]
# readings 18 and 19
EXPRESSIONS = ["(", ")", "()", "(|)", "(a|)", "((a|b))", "a]", "[any]", "a[", "a[any]b", "(a[any|b])", "a[]", "a[any+]", "a[any]]", "a[b[any]", "a|b", "(a[zz]|b[)", "(a",
               "a[any+any]", "a[Any]", "[", "(a|b[any]|)", "a[any]|b", "a[any", "a[zz"]
CONTEXTS = ["^", "$", "^$", "a$", "^^a", "]", "[a]b]", "[^^]", "[a^]", "[a-c]", "^[]", "[^]", "[abc]$", "^[abc]$", "[", "a[b]", "[a]b", "[a][b]", "[[a]", "^a", "$$", "^[abc]", "[]$", "[]",
            "é[", "[é]", "(a|b)", "a.b", "\\"]
# 02, ticket 11: boxes of every kind
BOXES = ["[]", "^[]", "[]$", "^[]$", "[^]", "^[^]", "[^]$", "^[^]$", "[]]", "^[]]", "[]]$", "[^]]", "[ ]", "[-]", "[é]", "[^é]", "[[]", "[][]", "a[]", "[]a", "[^^]"]
CONTEXTS += [box for box in BOXES if box not in CONTEXTS]
STRINGS += [rule_line(b"a", b"", b"", text.encode()) for text in EXPRESSIONS]
STRINGS += [rule_line(b"a", *pair, b"") for text in CONTEXTS for pair in ((text.encode(), b""), (b"", text.encode()))]
GUESSES = [b"a any true", b"a any false", b"a any True", b"a any truex", b"a any", b"a", b"a any true x", b"a any true // c", b"a any true//c", b"a any+any true",
           b"a any+ true", b"a +any true", b"a + true", b"a any,b true", b"a ANY true", b"a zz true", b"a zz x", b"^ any true", b"$ any true", b"^$ any true", b"^^ any true",
           b"$$ any true", b"^a$ any true", b"$a any true", b"/a any true", b"/ any true", b"//a any true", b"/*a any true", b"/*a any true */", b"#include any true", b"# any true",
           b"#include x", b'"a any true', b'a any" true', b'a any "true"', b'"a" "" "" "o"', b"a\x01 any true", b"a any\x7f true", b"a any true\x00", b"a\xff any true", b"a any\xff true",
           b"\tany\ttrue", b"a\tany \t true ", b" a any true", b"a any true\r", b"a any\rtrue", b"a any\r true", b"[a] any true", b"[] any true", b"[^] any true", b"[^a] any true",
           b"[a-b] any true", b"[a&] any true", b"[~] any true", b"a-&~ any true", b"[^^] any true", b"[a any true", b"a] any true", b"[a[] any true", b"a.b any true", b"(a) any true",
           b"a| any true", b"a{1} any true", b"\\a any true", b"\xc3\xa9 any true", b"[\xc3\xa9\xcf\x89]x any false", b"\xef\xbb\xbfa any true", b"\xc2\xa0 any true", b"a any true any true",
           b"a " + b"+".join([b"any"] * 90) + b" true", b". zz true", b"a zz " + b"true"]
LANGUAGES = [b"any", b" any\t", b"any any", b"any // c", b"any//c", b"any /* c */", b"Any", b"common", b"commons", b"z" * 24, b"z" * 25, b"a" * 300, b"a1", b"\xc3\xa9", b"#include x",
             b"any\r", b"an\ry", b"\xff", b'"any"', b"any+b", b"b\nany\nb", b"b\na", b"any\nany", b"a any true", LINE, b"\x00", b"common\nany", b"any\ncommon", b"a-b"]


def layouts(line):
    """A line alone, first, last, between, behind comments and with other ends."""
    for before, behind in ((b"", b""), (b"", b"\n"), (b"", b"\r\n"), (b"\n", b""), (b"/*\n*/\n// \n", b"\n"), (b"\r\n \r\n", b"\r\n\r\n"), (b"", b"\r")):
        yield before + line + behind


def languages_in(content):
    """Every name that a list may give."""
    return sorted({"any"} | {word.decode() for word in content.split() if word.isalpha() and word.isascii() and len(word) < 30})


def loading_lines():
    """Each line in each kind of file, at several places."""
    more = {"x": rule_line(b"b", b"", b"", b"p") + b"\n", b"\xff": b"", "é": LINE, '"x"': b"", "x//c": LINE}
    for line in COMMENTS + INCLUDES + STRINGS:
        for content in layouts(line):
            yield from loads_with({**more, "gen_rules_any": content})
        yield from loads_with({**more, "gen_rules_any": LINE + b"\n" + line + b"\n" + LINE})
        yield from loads_with({**more, "gen_exact_common": b"\n#include y", "y": b"\n\n" + line})
    for line in COMMENTS + GUESSES + [LINE]:
        for content in layouts(line):
            yield from loads_with({**more, "gen_lang": content})
        yield from loads_with({**more, "gen_lang": b"a any true\n" + line + b"\nb any true"})
    for line in COMMENTS + LANGUAGES:
        for content in layouts(line):
            yield from loads_with({**more, "gen_languages": content}, languages_in(content))
        yield from loads_with({**more, "gen_languages": b"any\n" + line + b"\nb"}, languages_in(b"b " + line))


def loading_orders():
    """Faults that meet: in a line, in a guessing line, in several files."""
    patterns = [b"a", b"", b"a" * 256, b"\x01"]
    lefts, rights = [b"", b"[", b"[]", b"^[]", b"[^]", b"a" * 256, b"\x7f"], [b"", b"[", b"[]", b"[]$", b"[^]$", b"a" * 256, b"\xff"]
    expressions = [b"o", b"(", b"a[", b"a[zz]", b"(b[zz]|a[)", b"o" * 256, b"\x00"]
    for strings_ in itertools.product(patterns, lefts, rights, expressions):
        yield from loads_with({"gen_approx_any": rule_line(*strings_)}, rooms=(0,))
    for fields in itertools.product([b"a", b".", b"a" * 256, b"." * 256, b"a\x01"], [b"any", b"zz", b"\x01", b'"'], [b"true", b"x", b"tru\x01"]):
        yield from loads_with({"gen_lang": b" ".join(fields)}, rooms=(0,))
    names = sorted(files_with())
    for contents in itertools.product((b"any", None, b"\n?"), repeat=len(names)):
        changed = {name: content if content != b"any" else b"any" if name == "gen_languages" else b"" for name, content in zip(names, contents)}
        yield from loads_with(changed, rooms=(0,))
    for one, other in itertools.product((b"\n#include no", b"#include gen_rules_any", b"x", b"//\n" + rule_line(b"", b"", b"", b"")), repeat=2):
        yield from loads_with({"gen_rules_any": one + b"\n" + other}, rooms=(0,))
        yield from loads_with({"gen_rules_any": LINE + b"\n" + one, "gen_exact_common": other}, rooms=(0,))


def many_names(count):
    return sorted(["any"] + ["l" + chr(97 + n // 26) + chr(97 + n % 26) for n in range(count - 1)])


def chain(depth, last=b""):
    """A listed file and so many files below it, each but the last with a line before the include and one behind it."""
    files = {"gen_rules_any": b"#include c1"}
    for n in range(1, depth + 1):
        letter = bytes([96 + n])
        here = rule_line(letter, b"", b"", b"%d" % n)
        files["c%d" % n] = here + (b"\n#include c%d\n" % (n + 1) + here if n < depth else b"\n" + last)
    return files


def loading_places():
    """Each number of a line at its first and its last possible place, and far lines and files."""
    faults = {11: b"#include no", 12: b"?", 13: rule_line(b"", b"", b"", b""), 14: rule_line(b"a", b"", b"", b"("), 15: rule_line(b"a", b"[", b"", b""),
              16: rule_line(b"a", b"", b"", b"[b]"), 17: b"#include gen_rules_any", 18: rule_line(b"a", b"", b"a" * 256, b""),
              20: rule_line(b"a", b"", b"[]$", b"[b]")}
    for line in faults.values():
        yield from loads_with({"gen_rules_any": line})
        yield from loads_with({"gen_rules_any": line + b"\n?"})
        yield from loads_with({"gen_exact_common": LINE + b"\n" + line, "gen_rules_any": LINE})
        yield from loads_with({**chain(8, line), "gen_exact_common": b"#include c1", "gen_rules_any": b""})
        yield from loads_with({"gen_rules_any": b"\n" * 70000 + line})
        yield from loads_with({"gen_rules_any": b"/*" + b"\n" * 70000 + b"*/\r\n" + line})
        yield from loads_with({"gen_exact_common": LINE + b"\n#include z", "z": b"\n" + line, **{"%03d" % n: b"" for n in range(700)}})
    for line in (b"?", b"a" * 256 + b" any true", b". any true", b"a b true"):
        for content in (line, line + b"\n?", b"a any true\n" * 3 + line, b"\n" * 70000 + line):
            yield from loads_with({"gen_lang": content, "gen_rules_any": None})
    for content in (b"?", b"?\nany", b"any\n?", b"any" + b"\n" * 70000 + b"?", b"", b"b", b"any\nb"):
        yield from loads_with({"gen_languages": content, "gen_lang": None})
    for name in sorted(files_with()):
        yield from loads_with({name: None})


def loading_bounds():
    """The bounds of 17 and 18, at and over them; few are large."""
    for length, place in itertools.product((254, 255, 256, 257), range(4)):
        for letter in (b"a", "é".encode(), "ω😀".encode()):
            text = (letter * length)[:length // len(letter) * len(letter)]
            text += b"a" * (length - len(text))
            yield from loads_with({"gen_rules_any": rule_line(*(text if n == place else b"a" for n in range(4)))}, rooms=(0,))
            yield from loads_with({"gen_lang": b"//\n" + text + b" any true"}, rooms=(0,))
    for count in (31, 32, 33, 40):
        names = many_names(count)
        yield from loads_with({}, names)
        yield from loads_with({"gen_languages": "\n".join(names + names[::-1]).encode()}, names)
        yield from loads_with({"gen_languages": "\n".join(name for name in names if name != "any").encode()}, names)
        yield from loads_with({"gen_languages": "\n".join(names + ["?"]).encode()}, names)
    for depth in range(1, 11):
        for last in (b"", b"#include no", b"#include c1", b"?", b"\n#include c%d" % depth):
            yield from loads_with(chain(depth, last))
    for count in (255, 256, 257):
        for last in (b"", b"#include no", b"?"):
            yield from loads_with({"gen_rules_any": b"#include x\n" * count + last, "x": LINE}, rooms=(0,))
        yield from loads_with({"gen_rules_any": b"#include x\n" * 16 + b"#include z\n" * (count - 256), "x": b"#include y\n" * 15, "y": LINE, "z": b""}, rooms=(0,))
        yield from loads_with({"gen_rules_any": b"#include x\n" * 200, "gen_approx_any": b"#include x\n" * count, "x": LINE}, rooms=(0,))
    for content in (b"#include gen_rules_any", b"#include x", LINE + b"\n#include gen_rules_any\n" + LINE):
        yield from loads_with({"gen_rules_any": content, "x": b"#include x\n#include x"})


def loading_large():
    """Lists of 4,096 rules and more."""
    rule, other = LINE + b"\n", rule_line(b"b", b"", b"", b"") + b"\n"
    distinct = ['"%s" "" "" ""\n' % chr(0x4E00 + n) for n in range(4200)]
    for count in (4095, 4096, 4097):
        yield from loads_with({"gen_rules_any": rule * count})
        yield from loads_with({"gen_exact_common": rule * (count - 1) + other})
        yield from loads_with({"gen_rules_any": rule * count + b"#include x", "x": rule})
        yield from loads_with({"gen_rules_any": rule * count + b"#include x\n" + other * 2, "x": other})
        yield from loads_with({"gen_rules_any": rule * count + b"?"})
        yield from loads_with({"gen_lang": b"a any true\n" * count})
        yield from loads_with({"gen_lang": b"a any true\n" * count + b"?"})
        yield from loads_with({"gen_rules_any": "".join(distinct[:count][::-1]).encode()})
        yield from loads_with({"gen_rules_any": "".join(distinct[:count]).encode() + b"#include no"})
    yield from loads_with({"gen_rules_any": b"#include x\n" * 3 + other, "x": rule * 4095})
    yield from loads_with({"gen_rules_any": b"#include x\n" * 3 + other * 2, "x": rule * 4095})
    yield from loads_with({"gen_rules_any": b"#include x\n#include y\n", "x": rule * 3000, "y": other * 1097})
    yield from loads_with({"gen_rules_any": b"#include x\n#include y\n", "x": rule * 3000, "y": other * 1096})
    yield from loads_with({"gen_rules_any": b"#include x\n#include y\n", "x": rule * 3000 + other * 3000, "y": other * 1097})


def entry(name, content):
    return bytes([len(name)]) + name + len(content).to_bytes(4, "big") + content


SMALL = files_with({"gen_languages": b"any\nb//\n"[:5], "gen_lang": b"a b true\n", "gen_rules_any": b'"a" "" "" "o"\n#include x\n', "x": b'/*\n*/\n"a" "^" "b" "(a|b[b])"//\n'},
                   ("any", "b"))


def loading_bundles():
    """Every prefix and every changed byte of a small bundle, and bundles that are badly formed."""
    small = second.bundle_bytes(SMALL)
    for length in range(len(small) + 1):
        yield from loads(small[:length], rooms=(0,))
    for place, value in itertools.product(range(len(small)), range(256)):
        if value == small[place] or value < 4 or value & 0x0F == place & 0x0F or value ^ small[place] in (1, 2, 4, 8, 16, 32, 64, 128):
            yield from loads(small[:place] + bytes([value]) + small[place + 1:], rooms=(0,))
    for name_type in (0, 1, 2, 3, 4, 255, 256, 4294967295):
        for data in (small, small[:-1], b"", b"\0\0"):
            yield from loads(data, name_type)
    yield from loads(small + b"\0")
    whole = [entry(name.encode(), content) for name, content in sorted(files_with().items())]
    for more in ([b""], [b"", b""], [b"a"], [b"a", b"a"], [b"b", b"a"], [b"a", b""], [b"", b"a"], [b"\xff"], [b"z", b"\xff", b"\xff\0"], [b"gen_lang"], [b"x" * 255], [b"g"], [b"gen_languages\0"]):
        files = [entry(name, b"?") for name in more]
        for some in (files, files + whole, whole + files, sorted(files + whole, key=lambda e: e[1:1 + e[0]])):
            data = len(some).to_bytes(2, "big") + b"".join(some)
            yield from loads(data)
            yield from loads((len(some) + 1).to_bytes(2, "big") + b"".join(some))
            yield from loads((len(some) - 1).to_bytes(2, "big") + b"".join(some))
    for length in (0, 1, 2 ** 16, 2 ** 24, 2 ** 31, 2 ** 32 - 1):
        yield from loads(b"\0\x01\x01a" + length.to_bytes(4, "big"))
        yield from loads(b"\0\x01\x01a" + length.to_bytes(4, "big") + b"x")
    yield from loads(b"\xff\xff" + whole[0])
    yield from loads((3000).to_bytes(2, "big") + b"".join(entry(b"%04d" % n, b"") for n in range(3000)))


def loading_boxes():
    """02, ticket 11: each box on each side, and 20 between 15 and 14."""
    faults = [(box, b"", b"o") for box in BOXES] + [(b"", box, b"o") for box in BOXES]
    faults += [(b"[]", b"[", b"("), (b"[", b"[]", b"("), (b"[]", b"", b"("), (b"", b"[]$", b"a[zz]"), (b"[^]", b"[^]$", b"("), (b"[^]", b"", b"a[zz]"),
               (b"[]", b"[]", b"o"), (b"[]", b"a" * 256, b"o"), (b"[]", b"\x01", b"o")]
    for fault in faults:
        strings_ = [text if isinstance(text, bytes) else text.encode() for text in fault]
        yield from loads_with({"gen_rules_any": LINE + b"\n" + rule_line(b"a", *strings_)}, rooms=(0,))


def loading_all():
    yield from loading_boxes()
    yield from loading_lines()
    yield from loading_orders()
    yield from loading_places()
    yield from loading_bounds()
    yield from loading_bundles()
    yield from loading_large()


def loading_stored():
    """Some of each kind, none of them long."""
    yield from loading_boxes()
    rng = random.Random("loading")
    kinds = ((loading_places, 80), (loading_lines, 260), (loading_orders, 90), (loading_bounds, 140), (loading_bundles, 90))
    for every, count in kinds:
        short = [case for case in every() if len(case[0]) < 2500]
        yield from rng.sample(short, min(count, len(short)))
    yield from (case for case in loading_random(rng, 60) if len(case[0]) < 5000)


ENDS = (b"\n",) * 8 + (b"\r\n", b" \n", b"\t\r\n")
SPOILED = [b'"', b" ", b"\t", b"\r", b"\n", b"/", b"*", b"#", b"\0", b"\x7f", b"\xff", b"\xc3", "é".encode(), b"+", b"[", b"]", b"(", b")", b"|", b"^", b"$", b"//", b"/*", b"*/",
           b"a" * 256, b"\xef\xbb\xbf", b"#include ", b"\r\n", b"-", b"."]


def blanks(rng, least=1):
    return b"".join(rng.choice((b" ", b" ", b"\t")) for _ in range(rng.choice((least, least, least, least + 1, least + 2))))


def passed_lines(rng):
    """Lines that say nothing."""
    return rng.choice((b"", b" \t", b"// x", b" //\xff \"", b"/* a */", b"\t/**/ ", b"/*\n" + LINE + b"\n * */", b"/* \r\n\r\n*/", b"/*\n//\n\t*/ ", b"/* #include no\n\xff*/"))


def spoiled(rng, line):
    """A line with a byte or two put in, taken out or changed."""
    line = bytearray(line)
    for _ in range(rng.choice((1, 1, 2))):
        place = rng.randrange(len(line) + 1)
        if rng.randrange(3) == 0:
            del line[place:place + rng.choice((1, 1, 3))]
        else:
            line[place:place + rng.randrange(2)] = rng.choice(SPOILED)
    return bytes(line)


def a_rule(rng, sounds):
    """A rule's line, of the pack's letters."""
    rule = rules_over(rng, sounds, sounds.letters, 1, 1)
    strings_ = [part.encode() for part in rule[0]] if rule else [b"a", b"", b"", b"o"]
    line = b'"%s"' % strings_[0] + b"".join(blanks(rng) + b'"%s"' % part for part in strings_[1:])
    return blanks(rng, 0) + line + rng.choice((b"", b"", b"", b" ", b"//c", b" // \xff", b"\t//"))


def a_guess(rng, sounds):
    some = guesses_over(rng, sounds)
    accept, mask, pattern = some[0] if some else (1, 1, "a")
    names = [name for bit, name in enumerate(sounds.names) if mask >> bit & 1]
    rng.shuffle(names)
    fields = [pattern.encode(), "+".join(names + names[:rng.randrange(2)]).encode(), b"true" if accept else b"false"]
    return blanks(rng, 0) + fields[0] + blanks(rng) + fields[1] + blanks(rng) + fields[2] + blanks(rng, 0)


def a_file(rng, lines, faults):
    """A file of these lines, with others that say nothing between them."""
    content = b""
    for line in lines:
        while rng.randrange(5) == 0:
            content += passed_lines(rng) + rng.choice(ENDS)
        content += (spoiled(rng, line) if rng.randrange(faults) == 0 else line) + rng.choice(ENDS)
    if rng.randrange(3) == 0:
        content = content.rstrip(b"\r\n")
    return content


def rule_file(rng, sounds, below, most, faults):
    """Rules, and includes of the files below."""
    lines = [a_rule(rng, sounds) for _ in range(rng.randrange(most + 1))]
    for _ in range(rng.choice((0, 0, 1, 1, 2)) if below else 0):
        lines.insert(rng.randrange(len(lines) + 1), blanks(rng, 0) + b"#include" + blanks(rng) + rng.choice(below).encode() + blanks(rng, 0))
    return a_file(rng, lines, faults)


def random_files(rng, prefix, sounds, faults):
    """The files of a type, and a pool that they include: each file of it those behind it, now and then any."""
    files = files_with((), sounds.names, prefix)
    pool = ["x%d" % n for n in range(rng.choice((0, 1, 3, 10)))]
    for number, name in enumerate(pool):
        near = pool[number + 1:number + 2] * 3 + pool[number + 1:]
        files[name] = rule_file(rng, sounds, near if rng.randrange(20) else pool, 2, faults)
    names = [name.encode() for name in sounds.names]
    rng.shuffle(names)
    files[prefix + "_languages"] = a_file(rng, [blanks(rng, 0) + name + blanks(rng, 0) for name in names + names[:rng.randrange(2)]], faults)
    files[prefix + "_lang"] = a_file(rng, [a_guess(rng, sounds) for _ in range(rng.randrange(4))], faults)
    for name in second.list_names(prefix.encode(), sounds.names):
        files[name.decode()] = rule_file(rng, sounds, pool[:3] or pool, rng.choice((0, 2, 5)), faults)
    if rng.randrange(faults) == 0:
        files.pop(rng.choice(sorted(files)))
    return files


def loading_random(rng, count):
    for _ in range(count):
        name_type, sounds, faults = rng.randrange(3), sounds_of(rng), rng.choice((1000000, 1000000, 200, 60, 20))
        bundle = second.bundle_bytes(random_files(rng, ("ash", "gen", "sep")[name_type], sounds, faults))
        if rng.randrange(12) == 0:
            bundle = spoiled(rng, bundle)
        yield from loads(bundle, name_type if rng.randrange(30) else rng.randrange(4), (rng.choice((0, 0, -1, 5, -10 ** 6)),))


LAYERS = {
    "letters": (letters_all, letters_random),
    "languages": (languages_all, languages_random),
    "contexts": (contexts_all, contexts_random),
    "expressions": (expressions_all, expressions_random),
    "guessing": (guessing_all, guessing_random),
    "rules": (None, rules_random),
    "packs": (packs_all, packs_random),
    "words": (words_all, words_random),
    "spelling": (spelling_all, spelling_random),
    "prefixes": (prefixes_all, None),
    "loading": (loading_all, loading_random),
    "blocks": (block_all, block_random),
    "narrowing": (narrowing_all, None),
    "sets": (sets_all, sets_random),
}


def cases_of(layer, seed, count, exhaustive=True):
    every, some = LAYERS[layer]
    if exhaustive and every:
        yield from every()
    if some:
        yield from some(random.Random("%s %d" % (layer, seed)), count)
