#!/usr/bin/env python3
"""Tests of second.py: the fifteen examples of document 01, each concrete input of the readings that
applies to document 01, and the case lines. Run: python3 test_second.py"""

import itertools
import random
import re
import unicodedata
import unittest

import second
from second import ANY, NONE, ASHKENAZI, GENERIC, SEPHARDIC, Refusal, Settings

# Example 13: language `any`, main rule "a" "" "" "o"
PACK = bytes.fromhex("0103616e79000005000101610000016f0000000000000000")
RULE = b'"a" "" "" "o"\n'


def code_of(function, *arguments):
    """The number with which a function refuses, or None."""
    try:
        function(*arguments)
    except Refusal as refusal:
        return refusal.code
    return None


def filled(files, prefix="gen"):
    """Files and those that nobody named: the language list is `any`, the others are empty."""
    files = {name: second.as_bytes(content) for name, content in files.items()}
    files.setdefault(prefix + "_languages", b"any\n")
    files.setdefault(prefix + "_lang", b"")
    for language in set(re.findall(rb"\b[a-z]{1,24}\b", files[prefix + "_languages"])):
        for kind in ("rules", "approx", "exact"):
            files.setdefault("%s_%s_%s" % (prefix, kind, language.decode()), b"")
    for kind in ("approx", "exact"):
        files.setdefault("%s_%s_common" % (prefix, kind), b"")
    return files


def loaded(files):
    """The accepted pack of files, or (code, line, file name; None without a line)."""
    files = filled(files)
    answer = second.load(GENERIC, second.bundle_bytes(files))
    if answer[0] == 0:
        return second.check_pack(answer[1])
    code, line, number = answer
    if line == 0:
        assert number == 0
        return code, 0, None
    return code, line, sorted(files)[number]


def main_file(content):
    return loaded({"gen_rules_any": content})


def guessing_file(content):
    return loaded({"gen_lang": content})


def language_file(content):
    return loaded({"gen_languages": content})


def four(pattern, left="", right="", expression="o"):
    return pattern, left, right, expression


def pack_of(main=(), common=(), own=(), names=("any",), guesses=(), more=None):
    """A pack whose language `any` has these main, common approx and approx rules; `more` gives further
    lists by number."""
    lists = [[] for _ in range(second.list_count(names))]
    index = 3 * list(names).index("any")
    lists[index], lists[index + 1], lists[3 * len(names)] = list(main), list(own), list(common)
    for number, rules in (more or {}).items():
        lists[number] = list(rules)
    return second.pack_bytes(names, guesses, lists)


def key(pack, name, name_type=GENERIC, concat=0, limit=20, given=None, room=second.MOST):
    """What spelling a name gives: (0, flag, text) or (code, 0, place)."""
    name = name.encode() if isinstance(name, str) else name
    code, flag, result = second.spell(Settings(name_type, 0, concat, limit), pack, name, given, room)
    return code, flag, result.decode() if code == 0 else result


class Case(unittest.TestCase):
    def accepts(self, checked):
        self.assertIsInstance(checked, second.Pack)


class Examples(Case):
    """01, Examples"""

    def test_01_names_of_an_alternative(self):
        self.assertEqual(second.alternatives_of("a[fr+de]", ["any", "de", "fr"]), (("a", 0b110),))

    def test_02_leading_bar(self):
        self.assertEqual(second.alternatives_of("(|a)", []), (("", ANY), ("a", ANY), ("", ANY)))

    def test_03_one_empty(self):
        self.assertEqual(second.alternatives_of("()", []), (("", ANY),))

    def test_04_a_bar_in_a_text(self):
        self.assertEqual(second.alternatives_of("a|b", []), (("a|b", ANY),))

    def test_05_wrong_expressions(self):
        self.assertEqual(code_of(second.alternatives_of, "(a", ["fr"]), 14)
        self.assertEqual(code_of(second.alternatives_of, "a[fr", ["fr"]), 14)

    def test_06_only_at_the_beginning(self):
        context = second.left_context("^")
        self.assertTrue(second.fits(context, ""))
        self.assertFalse(second.fits(context, "a"))

    def test_07_box_of_literals(self):
        context = second.left_context("[a-c]")
        self.assertTrue(second.fits(context, "x-"))
        self.assertFalse(second.fits(context, "xb"))

    def test_08_any_and_a_set(self):
        self.assertEqual(second.narrow(ANY, 0b100), 0b100)
        self.assertEqual(second.merge(ANY, 0b100), ANY)

    def test_09_apply(self):
        alternatives = second.alternatives_of("(b[fr]|a|b[de])", ["any", "de", "fr"])
        self.assertEqual(second.apply([("", ANY)], alternatives, 5), [("a", ANY), ("b", 0b100)])

    def test_10_apply_at_its_limit(self):
        alternatives = second.alternatives_of("(b[fr]|a|b[de])", ["any", "de", "fr"])
        self.assertEqual(second.apply([("", ANY)], alternatives, 1), [("b", 0b100)])
        self.assertEqual(second.apply([("", ANY)], alternatives, 0), [])
        call = second.Call(Settings(GENERIC, 0, 0, 1), None)
        call.applied([("", ANY)], alternatives)
        self.assertEqual(call.flag, 1)

    def test_11_append(self):
        self.assertEqual(second.append([("a", ANY), ("ab", ANY)], "z"), [("abz", ANY), ("az", ANY)])

    def test_12_prefix(self):
        self.assertEqual(second.part_prefix("de la cruz"), ("cruz", "de lacruz"))
        self.assertEqual(second.part_prefix("de lacruz"), ("lacruz", "delacruz"))

    def test_13_pack(self):
        code, pack = second.load(GENERIC, second.bundle_bytes(filled({"gen_rules_any": RULE})))
        self.assertEqual((code, pack), (0, PACK))
        self.accepts(second.check_pack(pack))

    def test_14_program(self):
        names = "aba\nde a\na-a\nd'\nΩ\n".encode()
        printed = second.keys(Settings(GENERIC, 0, 0, 20), PACK, names)
        self.assertEqual(printed, b"0 0 oo\n0 0 (o)-(o)\n0 0 o-o\n0 0 ()-()\n2 0\n")

    def test_15_bounds(self):
        self.assertEqual(key(PACK, "b" * 96), (0, 0, ""))
        self.assertEqual(key(PACK, "b" * 97), (3, 0, 0))
        for length, wanted in ((128, (0, 0, "o" * 128)), (129, (7, 0, 0))):
            self.assertEqual(key(pack_of([four("a", expression="o" * length)]), "a"), wanted)
        self.assertEqual(key(PACK, "a", limit=256), (0, 0, "o"))
        self.assertEqual(key(PACK, "a", limit=257), (4, 0, 0))


class Letters(Case):
    """01, Letters"""

    def test_table(self):
        self.assertEqual(len(second.LOWER), 384)
        for code, low in enumerate(second.LOWER):
            self.assertEqual(second.LOWER[low], low)
            if not second.in_range(code):
                self.assertEqual(low, code)
                continue
            self.assertTrue(second.in_range(low))
            self.assertEqual(len(chr(low).encode()), len(chr(code).encode()))

    def test_table_against_character_names(self):
        for code in filter(second.in_range, range(0x180)):
            name = unicodedata.name(chr(code))
            small = name.replace("CAPITAL", "SMALL") if unicodedata.category(chr(code)) == "Lu" else name
            self.assertEqual(chr(second.LOWER[code]), unicodedata.lookup(small))

    def test_range(self):
        inside = {code for code in range(0x110000) if second.in_range(code)}
        self.assertEqual(inside, set(range(0x20, 0x7F)) | set(range(0xA1, 0x180)) - {0x130})

    def test_utf8(self):
        picked = random.Random(3629)
        samples = [bytes(pair) for pair in itertools.product(range(256), repeat=2)]
        edges = bytes.fromhex("004161 7f 80 8f 90 9f a0 bf c0 c1 c2 df e0 e1 ec ed ee ef f0 f1 f3 f4 f5 ff")
        samples += [bytes(picked.choices(edges, k=picked.randint(1, 7))) for _ in range(20000)]
        for sample in samples:
            try:
                text, place = sample.decode(), None
            except UnicodeDecodeError as error:
                text, place = None, error.start
            self.assertEqual(second.ill_formed(sample), place, sample.hex())
            if place is None:
                self.assertEqual(second.decode(sample), text)

    def test_order_of_texts_is_the_order_of_their_bytes(self):
        texts = ["", "a", "ab", "az", "z", "é", "ÿ", "\u0180", "\ud7ff", "\ue000", "\uffff", "\U00010000"]
        for one, other in itertools.product(texts, repeat=2):
            self.assertEqual(second.order(one, other), second.order(one.encode(), other.encode()))
        self.assertEqual(texts, sorted(texts))

    def test_24_places(self):
        self.assertEqual(key(PACK, bytes.fromhex("61e28241")), (1, 0, 1))
        self.assertEqual(key(PACK, "Ω".encode() + b"\xff"), (1, 0, 2))
        self.assertEqual(key(PACK, "aΩ"), (2, 0, 1))
        for outside in ("\x1f", "\x7f", "\u0080", "\u00a0", "\u0130", "\u0180", "\t", "\r"):
            self.assertEqual(key(PACK, "é" + outside), (2, 0, 2))

    def test_27_shorter_first_is_prefix_first(self):
        self.assertEqual(sorted(["b", "ab", "a"]), ["a", "ab", "b"])
        pack = pack_of([four("x", expression="(b|ab|a)")])
        self.assertEqual(key(pack, "x"), (0, 0, "a|ab|b"))


class LanguageSets(Case):
    """01, Language sets"""

    SETS = (ANY, NONE, 0, 0b001, 0b110, 0xFFFFFFFF)

    def test_narrowing(self):
        for languages in self.SETS:
            self.assertEqual(second.narrow(languages, ANY), languages)
            self.assertEqual(second.narrow(languages, NONE), NONE)
            self.assertEqual(second.narrow(NONE, languages), NONE)
        for bits in self.SETS[2:]:
            self.assertEqual(second.narrow(ANY, bits), bits)
        self.assertEqual(second.narrow(0b110, 0b011), 0b010)
        self.assertEqual(second.narrow(0b100, 0b011), 0)

    def test_merging(self):
        for languages in self.SETS:
            self.assertEqual(second.merge(languages, ANY), ANY)
            self.assertEqual(second.merge(ANY, languages), ANY)
            self.assertEqual(second.merge(languages, NONE), languages)
            self.assertEqual(second.merge(NONE, languages), languages)
        self.assertEqual(second.merge(0b110, 0b011), 0b111)
        self.assertEqual(second.merge(0, NONE), 0)

    def test_empty_and_single(self):
        self.assertEqual([second.is_empty(x) for x in self.SETS], [False, True, True, False, False, False])
        self.assertEqual([second.single(x) for x in self.SETS], [None, None, None, 0, None, None])
        self.assertEqual(second.single(1 << 31), 31)

    def test_names(self):
        for name in ("a", "any", "commons", "x" * 24):
            self.assertTrue(second.is_language_name(name))
        for name in ("", "common", "x" * 25, "Any", "a b", "é", "a\n"):
            self.assertFalse(second.is_language_name(name))


class Expressions(Case):
    """01, Phoneme expressions; reading 18"""

    def texts(self, expression):
        return [text for text, _ in second.alternatives_of(expression, ["any"])]

    def test_18_texts(self):
        for expression, texts in (
                (")", [")"]), ("()", [""]), ("(|)", ["", "", ""]), ("(a|)", ["a", "", ""]),
                ("((a|b))", ["(a", "b)"]), ("a]", ["a]"]), ("[any]", [""]), ("", [""]), ("a)", ["a)"]),
                ("(a|b)", ["a", "b"]), ("(a||b)", ["a", "", "b"]), ("(a))", ["a)"])):
            self.assertEqual(self.texts(expression), texts, expression)

    def test_18_wrong(self):
        for expression in ("(", "a[", "a[any]b", "(a[any|b])"):
            self.assertEqual(code_of(self.texts, expression), 14, expression)

    def test_18_not_listed(self):
        for expression in ("a[]", "a[any+]", "a[any]]", "a[b[any]", "a[common]", "a[ any]"):
            self.assertEqual(code_of(self.texts, expression), 16, expression)

    def test_18_all_of_14_before_16(self):
        self.assertEqual(code_of(self.texts, "(a[xx]|b[any)"), 14)

    def test_sets(self):
        self.assertEqual(second.alternatives_of("([any]|b[de+any+de]|c)", ["any", "de"]),
                         (("", 0b01), ("b", 0b11), ("c", ANY)))


class Contexts(Case):
    """01, Contexts; reading 19"""

    def form(self, context, written):
        found = context(written)
        return found.form, found.text, found.negated

    def test_19_left(self):
        for written, wanted in (
                ("", ("AllStringsMatcher", "", False)), ("^", ("IsEmpty", "", False)),
                ("$", ("EndsWith", "$", False)), ("^$", ("Equals", "$", False)),
                ("a$", ("EndsWith", "a$", False)), ("^^a", ("Equals", "^a", False)),
                ("]", ("EndsWith", "]", False)), ("[a]b]", ("EndsWithChar", "a]b", False)),
                ("[^^]", ("EndsWithChar", "^", True)), ("[a^]", ("EndsWithChar", "a^", False)),
                ("[a-c]", ("EndsWithChar", "a-c", False)), ("^[]", ("EqualsChar", "", False)),
                ("[^]", ("EndsWithChar", "", True)), ("^[ab]", ("EqualsChar", "ab", False)),
                ("(a|b)", ("EndsWith", "(a|b)", False))):
            self.assertEqual(self.form(second.left_context, written), wanted, written)

    def test_19_left_outside_the_forms(self):
        for written in ("[abc]$", "^[abc]$", "[", "a[b]", "[a]b", "[a][b]", "[[a]"):
            self.assertEqual(code_of(second.left_context, written), 15, written)

    def test_19_right(self):
        for written, wanted in (
                ("", ("AllStringsMatcher", "", False)), ("^a", ("StartsWith", "^a", False)),
                ("$", ("IsEmpty", "", False)), ("$$", ("Equals", "$", False)),
                ("[abc]$", ("EqualsChar", "abc", False)), ("[abc]", ("StartsWithChar", "abc", False)),
                ("ab$", ("Equals", "ab", False)), ("^", ("StartsWith", "^", False))):
            self.assertEqual(self.form(second.right_context, written), wanted, written)
        self.assertEqual(code_of(second.right_context, "^[abc]"), 15)

    def test_fitting(self):
        for context, written, text, wanted in (
                (second.left_context, "ab", "cab", True), (second.left_context, "ab", "abc", False),
                (second.right_context, "ab", "abc", True), (second.right_context, "ab", "cab", False),
                (second.left_context, "^ab", "ab", True), (second.left_context, "^ab", "cab", False),
                (second.left_context, "[^a]", "", False), (second.left_context, "[^a]", "ab", True),
                (second.left_context, "^[^a]", "b", True), (second.left_context, "^[^a]", "bb", False),
                (second.right_context, "[^a]", "", False), (second.right_context, "[é]$", "é", True),
                (second.right_context, "[é]$", "éé", False), (second.left_context, "[^]", "é", True),
                (second.left_context, "[^]", "", False), (second.left_context, "^[]", "a", False),
                (second.left_context, "^[]", "", False), (second.left_context, "[]", "a", False)):
            self.assertEqual(second.fits(context(written), text), wanted, (written, text))


class Guessing(Case):
    """01, Guessing lines"""

    def matches(self, pattern, name):
        return second.guess_matches(second.guessing_pattern(pattern), name)

    def test_02_no_piece(self):
        for name in ("", "a", "ab"):
            self.assertTrue(self.matches("^", name))
            self.assertTrue(self.matches("$", name))
            self.assertEqual(self.matches("^$", name), name == "")

    def test_outside_the_forms(self):
        for pattern in ("", "/", "/a", "#", "a b", "a.", "a+", "(a|b)", "a|b", "[", "]", "[]", "[^]", "[a^]",
                        "[a-c]", "[&]", "[~]", "[[a]]", "a{2}", "\\a", "^^", "$$", "$^", "a^", "$a", "a" * 256):
            self.assertEqual(code_of(second.guessing_pattern, pattern), 15, pattern)

    def test_forms(self):
        for pattern in ("a", "-", "&", "~", "a/", "a#", "[/]", "[ab][^cd]", "^[^é]$", "a" * 255, "é" * 127):
            self.assertIsNone(code_of(second.guessing_pattern, pattern), pattern)

    def test_against_general_regular_expressions(self):
        picked = random.Random(15)
        pieces = ["a", "b", "é", "-", "[ab]", "[^a]", "[é]", "[^bé]"]
        for _ in range(5000):
            pattern = "".join(picked.choices(pieces, k=picked.randint(1, 4)))
            pattern = picked.choice(["", "^"]) + pattern + picked.choice(["", "$"])
            name = "".join(picked.choices("abé-c", k=picked.randint(0, 6)))
            wanted = re.search(pattern.replace("$", r"\Z"), name) is not None
            self.assertEqual(self.matches(pattern, name), wanted, (pattern, name))
            rule = second.Guess(1, 1, pattern, second.guessing_pattern(pattern))
            pack = second.Pack(["any", "de"], [rule], [], [])
            self.assertEqual(second.guess(pack, name), 0b01 if wanted else 0b11, (pattern, name))

    def test_guess(self):
        names = ["any", "de", "fr"]
        for guesses, name, wanted in (
                ([], "x", 0b111), ([(1, 0b010, "x")], "x", 0b010), ([(0, 0b010, "x")], "x", 0b101),
                ([(0, 0b111, "x")], "x", ANY), ([(1, 0b010, "x"), (1, 0b100, "$")], "x", ANY),
                ([(1, 0b110, "x"), (0, 0b010, "y")], "xy", 0b100), ([(1, 0b010, "x")], "y", 0b111)):
            pack = second.check_pack(pack_of(names=names, guesses=guesses))
            self.assertEqual(second.guess(pack, name), wanted)

    def test_03_slash_and_hash(self):
        for line in ("/a any true", "#a any true", "#include any true", "/ any true"):
            self.assertEqual(guessing_file("\n" + line), (15, 2, "gen_lang"), line)
        for pattern in ("/a", "#a"):
            self.assertEqual(second.check_pack(pack_of(guesses=[(1, 1, pattern)])), (5, 5))
        self.accepts(guessing_file("// any true\n/* any true */\n"))

    def test_04_long_fields(self):
        self.accepts(guessing_file("a" * 255 + " any true"))
        self.assertEqual(guessing_file("a" * 256 + " any true"), (18, 1, "gen_lang"))
        self.assertEqual(guessing_file("[" * 256 + " xx true"), (18, 1, "gen_lang"))
        self.accepts(guessing_file("é" * 127 + " any true"))
        self.assertEqual(guessing_file("é" * 128 + " any true"), (18, 1, "gen_lang"))
        self.accepts(guessing_file("a " + "+".join(["any"] * 100) + " true"))

    def test_05_odd_bytes(self):
        for odd in (b"\x01", b"\x7f", b'"', b"\xff", b"\x0b", b"\r"):
            for fields in ((b"a" + odd, b"any", b"true"), (b"a", b"any" + odd, b"true"),
                           (b"a", b"any", b"true" + odd)):
                self.assertEqual(guessing_file(b" ".join(fields)), (12, 1, "gen_lang"), fields)
        self.assertEqual(guessing_file("a an! true"), (16, 1, "gen_lang"))
        self.assertEqual(guessing_file("a any+ true"), (16, 1, "gen_lang"))

    def test_lines(self):
        pack = guessing_file(" a\t any  false \r\n\n")
        self.assertEqual([rule[:3] for rule in pack.guesses], [(0, 1, "a")])
        for line in ("a any", "a any true x", "a any True", "a any 1", "any"):
            self.assertEqual(guessing_file(line), (12, 1, "gen_lang"), line)
        self.assertEqual(guessing_file("[ xx true"), (15, 1, "gen_lang"))

    def test_count(self):
        self.accepts(guessing_file("a any true\n" * 4096))
        self.assertEqual(guessing_file("a any true\n" * 4097), (18, 0, None))


class Lines(Case):
    """01, Rule files and includes"""

    def test_01_block_comments(self):
        for content in (b"/* c */ x\n", b"/* a\n b */ x\n*/\n", b"/*/\n", b"/*", b"/* c */ /* d */",
                        b"/* c */*/", b"/* c */ // d", b"/* c */" + RULE):
            self.assertEqual(main_file(content), (12, 1, "gen_rules_any"), content)
        self.assertEqual(main_file(b"\n /* x\n\n"), (12, 2, "gen_rules_any"))
        for content in (b"/**/", b"/*/*/", b"/*/\n*/", b" /* c\n\xff\x00\n \t*/ \t\r\n" + RULE, b"/* // */",
                        b"/* #include x\n*/", b"/***/", b'/* "a" */'):
            self.accepts(main_file(content))
        self.assertEqual(main_file(b"/* c */\r"), (12, 1, "gen_rules_any"))

    def test_01_in_every_file(self):
        for name, line in (("gen_languages", "any"), ("gen_lang", "a any true"),
                           ("gen_rules_any", '"a" "" "" ""')):
            self.accepts(loaded({name: "/* c\n*/\n\n  // d\n\t" + line + " \n"}))
            self.assertEqual(loaded({name: line + "\n/* c"}), (12, 2, name))
            self.assertEqual(loaded({name: "/* c */ " + line}), (12, 1, name))

    def test_06_comment_behind_a_rule(self):
        for comment in (b"//", b"// c \xff", b" // c", b"\t//\x00"):
            self.accepts(main_file(RULE[:-1] + comment))
        for text in (b"/* c */", b" /* c */", b" x", b"/", b' "b"'):
            self.assertEqual(main_file(RULE[:-1] + text), (12, 1, "gen_rules_any"), text)

    def test_07_no_comment_behind_other_lines(self):
        self.assertEqual(main_file("#include x // c"), (12, 1, "gen_rules_any"))
        self.assertEqual(guessing_file("a any true // c"), (12, 1, "gen_lang"))
        self.assertEqual(guessing_file("a any true//c"), (12, 1, "gen_lang"))
        self.assertEqual(language_file("any // c"), (12, 1, "gen_languages"))
        self.assertEqual(main_file("#include x//c"), (11, 1, "gen_rules_any"))
        self.accepts(loaded({"gen_rules_any": "#include x//c", "x//c": ""}))

    def test_08_any_file_name(self):
        for name in (b"\xff\x01", b'"', b"x.txt", b"#include", b"\xc2\xa0"):
            files = filled({"gen_rules_any": b" #include \t" + name + b" \r\n"})
            files = {second.as_bytes(known): content for known, content in files.items()}
            files[name] = RULE
            code, pack = second.load(GENERIC, second.bundle_bytes(files))
            self.assertEqual((code, pack), (0, PACK), name)
        self.assertEqual(loaded({"gen_rules_any": "#include x", "x.txt": ""}), (11, 1, "gen_rules_any"))
        self.assertEqual(loaded({"gen_rules_any": "#include x.txt", "x": ""}), (11, 1, "gen_rules_any"))
        for line in ("#include", "#include ", "#includex", "#Include x", "#include x y", "include x"):
            self.assertEqual(loaded({"gen_rules_any": line, "x": ""}), (12, 1, "gen_rules_any"), line)

    def test_11_carriage_returns(self):
        self.accepts(main_file(b'\r\n"a"\t""  "" "o"\r\n\r\n'))
        for content in (b'"a" "" "" "o"\r', b'"a" "" ""\r"o"', b"\r", b"\r\r\n", b'\r"a" "" "" "o"\n',
                        b'"a" "" "" "o"\r \n', b'"a\r" "" "" "o"\n'):
            self.assertEqual(main_file(content), (12, 1, "gen_rules_any"), content)
        self.accepts(main_file(b"// c\r"))
        self.assertEqual(language_file(b"any\r"), (12, 1, "gen_languages"))
        self.accepts(language_file(b"any\r\n"))

    def test_a_carriage_return_may_stand_in_a_file_name(self):
        # 01: "a file name without blanks", and only a CR before LF is a blank
        self.assertEqual(main_file(b"#include x\r"), (11, 1, "gen_rules_any"))
        self.accepts(loaded({"gen_rules_any": b"#include x\r", "x\r": RULE}))
        self.accepts(loaded({"gen_rules_any": b"#include x\ry\r\n", "x\ry": RULE}))

    def test_a_file_name_may_be_long(self):
        self.accepts(loaded({"gen_rules_any": "#include " + "x" * 255, "x" * 255: RULE}))
        self.assertEqual(main_file("#include " + "x" * 256), (11, 1, "gen_rules_any"))

    def test_16_a_guessing_pattern_may_begin_with_a_bom(self):
        # 01: a piece is any character but those listed
        pack = guessing_file(b"\xef\xbb\xbfa any true")
        self.assertEqual(pack.guesses[0].written, "\ufeffa")
        self.assertEqual(guessing_file(b"\xef\xbb\xbf// c"), (12, 1, "gen_lang"))

    def test_16_ordinary_characters(self):
        self.assertEqual(main_file(b"\xef\xbb\xbf" + RULE), (12, 1, "gen_rules_any"))
        self.assertEqual(language_file(b"\xef\xbb\xbfany"), (12, 1, "gen_languages"))
        for character in "\u00a0\u0085\u2028":
            self.assertEqual(main_file('"a"%s"" "" "o"' % character), (12, 1, "gen_rules_any"))
            self.assertEqual(main_file(character), (12, 1, "gen_rules_any"))
            self.accepts(main_file('"%s" "" "" "o"' % character))
            self.accepts(guessing_file("a%sb any true" % character))

    def test_17_order_inside_a_line(self):
        for line, code in (
                ('"" "\x01" "" ""', 12), ('"" "%s" "[" "("' % ("a" * 256), 13),
                ('"%s" "" "" ""' % ("é" * 128), 18),
                ('"a" "[" "" "%s"' % ("(" * 256), 18), ('"a" "[" "" "("', 15), ('"a" "" "[" "("', 15),
                ('"a" "[]" "[" "("', 15), ('"a" "[" "[]" "("', 15), ('"%s" "[]" "" "("' % ("é" * 128), 18), ('"" "[]" "" "("', 13),
                ('"a" "[]" "" "("', 20), ('"a" "^[]" "$" "x[xx]"', 20), ('"a" "" "[]$" "o"', 20), ('"a" "a" "[]" "o"', 20),
                ('"a" "[^]" "[^]$" "("', 14), ('"a" "[^]" "[^]$" "x[xx]"', 16), ('"a" "^[^]" "[^]" "o"', None), ('"a" "[]]" "[]]$" "o"', None),
                ('"a" "[]$" "" "o"', 15), ('"a" "" "^[]" "o"', 15), ('"a" "^[]$" "" "o"', 15),
                ('"a" "" "" "(x[xx]|["', 14), ('"a" "" "" "x[xx]"', 16),
                ('"a" "" "" "%s"' % ("é" * 127), None)):
            wanted = (code, 2, "gen_rules_any")
            if code is None:
                self.accepts(main_file("\n" + line))
            else:
                self.assertEqual(main_file("\n" + line), wanted, line)
        self.assertEqual(language_file("any\n" + "a" * 300), (12, 2, "gen_languages"))

    def test_rule_lines(self):
        for line in ('"a" "" ""', '"a""" "" "o"', '"a" "" "" "o', "a", '"a" "" "" "o" "p"', "'a' '' '' ''",
                     '"a" "" "" "\\""', '"a"\x0b"" "" "o"'):
            self.assertEqual(main_file(line), (12, 1, "gen_rules_any"), line)
        self.assertEqual(main_file(b'"a" "" "\xff" "o"'), (12, 1, "gen_rules_any"))
        self.assertEqual(main_file('"" "" "" ""'), (13, 1, "gen_rules_any"))
        rules = main_file('"é" "[a]" " " "//"').lists[0]
        self.assertEqual([rule[:4] for rule in rules], [("é", "[a]", " ", "//")])

    def test_plain_files(self):
        pack = loaded({"gen_languages": "fr\nany\nde\n", "gen_lang": "^a fr+de true\n[b]$ any false\n",
                       "gen_rules_fr": '"b" "" "" "x"\n"a" "[^a]" "$" "(a[de]|b)"\n', "gen_exact_common": RULE})
        files = second.plain_files(GENERIC, pack)
        self.assertEqual(files["gen_languages"], b"any\nde\nfr\n")
        self.assertEqual(files["gen_lang"], b"^a de+fr true\n[b]$ any false\n")
        self.assertEqual(files["gen_rules_fr"], b'"a" "[^a]" "$" "(a[de]|b)"\n"b" "" "" "x"\n')
        self.assertEqual(len(files), 2 + second.list_count(pack.names))
        self.assertEqual(loaded(files), pack)


class Files(Case):
    """01, Rule files and includes; Bundle and pack"""

    def chain(self, length):
        """A listed file of depth 0, and files of depth 1 to `length` that include each other."""
        files = {"gen_rules_any": "#include f1"}
        for depth in range(1, length):
            files["f%d" % depth] = "\n#include f%d" % (depth + 1)
        files["f%d" % length] = RULE
        return files

    def test_09_depth(self):
        self.accepts(loaded(self.chain(8)))
        self.assertEqual(loaded(self.chain(9)), (17, 2, "f8"))
        self.assertEqual(loaded({"gen_rules_any": "\n#include gen_rules_any"}), (17, 2, "gen_rules_any"))
        files = self.chain(9)
        del files["f9"]
        self.assertEqual(loaded(files), (17, 2, "f8"))

    def test_10_includes_of_one_list(self):
        many = "#include x\n" * 256
        self.accepts(loaded({"gen_rules_any": many, "gen_approx_any": many, "x": ""}))
        self.assertEqual(loaded({"gen_rules_any": many + "#include y", "x": ""}), (17, 257, "gen_rules_any"))
        below = {"gen_rules_any": "#include y\n#include y", "y": "#include x\n" * 127, "x": ""}
        self.accepts(loaded(below))
        below["gen_rules_any"] += "\n#include x"
        self.assertEqual(loaded(below), (17, 3, "gen_rules_any"))
        below["y"] += "#include x"
        self.assertEqual(loaded(below), (17, 127, "y"))

    def test_include_replaces(self):
        files = {"gen_rules_any": '"a" "" "" "1"\n"b" "" "" "2"\n#include x\n"a" "" "" "5"\n',
                 "x": '"a" "" "" "3"\n"aa" "" "" "4"\n'}
        self.assertEqual([rule.expression for rule in loaded(files).lists[0]], ["3", "4", "5", "2"])

    def test_include_in_an_include_replaces(self):
        files = {"gen_rules_any": '"c" "" "" "1"\n#include x\n',
                 "x": '"a" "" "" "2"\n"b" "" "" "3"\n#include y\n"b" "" "" "4"\n', "y": '"b" "" "" "5"\n'}
        self.assertEqual([rule.expression for rule in loaded(files).lists[0]], ["2", "5", "4", "1"])

    def test_first_characters_are_sorted_by_code_points(self):
        files = {"gen_rules_any": "".join('"%s" "" "" ""\n' % first for first in "\U00010000\uffffbéa")}
        self.assertEqual([rule.pattern for rule in loaded(files).lists[0]], list("abé\uffff\U00010000"))

    def test_12_languages(self):
        some = ["any"] + ["l" + chr(97 + number) for number in range(26)] + ["m" + c for c in "abcdef"]
        self.assertEqual(language_file("\n".join(some)), (18, 0, None))
        self.assertEqual(language_file("\n".join(some[1:] + ["x"])), (18, 0, None))
        self.accepts(language_file("\n".join(some[:32] + some[:5])))
        self.assertEqual(language_file("\n".join(some[1:])), (19, 0, None))
        self.assertEqual(language_file(""), (19, 0, None))
        self.assertEqual(language_file("\n".join(some + ["common"])), (12, 34, "gen_languages"))
        self.assertEqual(language_file("fr\nany\nde\nfr").names, ["any", "de", "fr"])

    def test_13_files_are_looked_for_in_turn(self):
        files = filled({"gen_lang": "a xx true"})
        del files["gen_rules_any"]
        number = sorted(files).index("gen_lang")
        self.assertEqual(second.load(GENERIC, second.bundle_bytes(files)), (16, 1, number))
        files["gen_lang"] = b""
        self.assertEqual(second.load(GENERIC, second.bundle_bytes(files)), (11, 0, 0))
        files["gen_languages"] = b""
        self.assertEqual(second.load(GENERIC, second.bundle_bytes(files)), (19, 0, 0))
        del files["gen_languages"]
        self.assertEqual(second.load(GENERIC, second.bundle_bytes(files)), (11, 0, 0))

    def test_pack_order(self):
        names = ["gen_languages", "gen_lang", "gen_rules_any", "gen_approx_any", "gen_exact_any",
                 "gen_rules_de", "gen_approx_de", "gen_exact_de", "gen_approx_common", "gen_exact_common"]
        files = {name: "!" for name in names}
        for name in names:
            self.assertEqual(loaded(files), (12, 1, name))
            files[name] = "any\nde\n" if name == "gen_languages" else ""
        self.accepts(loaded(files))

    def test_14_only_the_finished_list_is_counted(self):
        self.accepts(main_file(RULE * 4096))
        self.assertEqual(main_file(RULE * 4097), (18, 0, None))
        self.accepts(loaded({"gen_rules_any": RULE * 4097 + b"#include x", "x": RULE}))
        self.accepts(loaded({"gen_rules_any": b"#include x\n#include y", "x": RULE * 4097, "y": RULE}))

    def test_15_bundles(self):
        self.assertEqual(second.load(GENERIC, b"\0\0"), (11, 0, 0))
        for data in ("", "00", "0000 00", "0001", "0001 00", "0001 00 000000", "0001 00 00000001",
                     "0001 00 00000000 00", "0002 00 00000000 00 00000000", "0002 0162 00000000 0161 00000000"):
            self.assertEqual(second.load(GENERIC, bytes.fromhex(data)), (10, 0, 0), data)
        files = filled({"gen_rules_any": RULE, "": b"\xff", "zz": b'"', "ash_lang": b"/*"})
        self.assertEqual(second.load(GENERIC, second.bundle_bytes(files)), (0, PACK))
        files = filled({"gen_rules_any": "#include \u00ff\n#include z", "\u00ff": "", "z": RULE})
        self.assertEqual(second.load(GENERIC, second.bundle_bytes(files)), (0, PACK))

    def test_20_file_numbers(self):
        files = {"gen_rules_any": "\n#include x", "x": "\n\n#include y", "y": "\n\n\nbad"}
        self.assertEqual(loaded(files), (12, 4, "y"))
        del files["y"]
        self.assertEqual(loaded(files), (11, 3, "x"))
        bundle = second.bundle_bytes(filled({"gen_rules_any": RULE}))
        self.assertEqual(second.load(GENERIC, bundle, len(PACK) - 1), (9, len(PACK), 0))
        self.assertEqual(second.load(GENERIC, bundle, len(PACK)), (0, PACK))

    def test_settings_first(self):
        self.assertEqual(second.load(3, b""), (4, 0, 0))
        for name_type, prefix in ((ASHKENAZI, "ash"), (GENERIC, "gen"), (SEPHARDIC, "sep")):
            files = filled({prefix + "_rules_any": RULE}, prefix)
            self.assertEqual(second.load(name_type, second.bundle_bytes(files)), (0, PACK))
            self.assertEqual(second.load((name_type + 1) % 3, second.bundle_bytes(files)), (11, 0, 0))

    def test_first_refusal_of_a_file_wins(self):
        self.assertEqual(main_file('"" "" "" ""\n/*'), (13, 1, "gen_rules_any"))
        self.assertEqual(main_file('#include x\n/*'), (11, 1, "gen_rules_any"))
        self.assertEqual(main_file('/*\n"" "" "" ""\n#include x'), (12, 1, "gen_rules_any"))


class Packs(Case):
    """01, Bundle and pack"""

    def test_21_cut_packs(self):
        places = [0] * 5 + [5] * 2 + [7] + [8] * 8 + [16] * 2 + [18] * 2 + [20] * 2 + [22] * 2
        for length, place in enumerate(places):
            self.assertEqual(second.check_pack(PACK[:length]), (5, place), length)
        self.accepts(second.check_pack(PACK))
        self.assertEqual(second.check_pack(PACK + b"\0"), (5, 24))

    def test_21_sections_at_fault(self):
        for count in (4, 6, 0):
            self.assertEqual(second.check_pack(PACK[:7] + bytes([count]) + PACK[8:]), (5, 7))
        self.assertEqual(second.check_pack(pack_of([four("b"), four("a")])), (5, 8))
        self.accepts(second.check_pack(pack_of([four("ab"), four("aa"), four("b")])))
        fault = four("a", expression="(")
        self.assertEqual(second.check_pack(pack_of([fault], guesses=[(2, 1, "a")])), (5, 5))
        self.assertEqual(second.check_pack(pack_of([four("a")], common=[fault])), (5, 8 + 8 + 4))
        self.assertEqual(second.check_pack(pack_of([fault])[:-1]), (5, 8))

    def test_22_names(self):
        for names in ([], ["de"], ["any", "any"], ["de", "any"], ["any", "common"], ["any", "b" * 25],
                      ["", "any"], ["Any", "any"], ["any"] + ["b" + chr(97 + n) for n in range(26)] +
                      ["c" + c for c in "abcdef"]):
            pack = second.pack_bytes(names, [], [[]] * second.list_count(names))
            self.assertEqual(second.check_pack(pack), (5, 0), names)
        names = ["any"] + ["b" + chr(97 + number) for number in range(26)] + ["c" + c for c in "abcde"]
        self.accepts(second.check_pack(pack_of(names=names)))

    def test_22_guesses(self):
        for rule in ((2, 1, "a"), (1, 0, "a"), (1, 2, "a"), (1, 0x80000000, "a"), (1, 1, ""), (1, 1, "["),
                     (1, 1, "a b"), (1, 1, '"'), (1, 1, "\x01"), (1, 1, "a\tb")):
            self.assertEqual(second.check_pack(pack_of(guesses=[(1, 1, "a"), rule])), (5, 5), rule)
        self.accepts(second.check_pack(pack_of(guesses=[(0, 1, "^$")] * 4096)))
        self.assertEqual(second.check_pack(pack_of(guesses=[(0, 1, "^$")] * 4097)), (5, 5))

    def test_22_rules(self):
        for rule in (four(""), four("a\x7f"), four("a", "["), four("a", "", "^[a]"), four("a", "", "", "("),
                     four("a", "", "", "a[de]"), four('"'), four("a", "\n"), four("a", "", "", "a[]"),
                     four("a", "[]"), four("a", "^[]"), four("a", "", "[]"), four("a", "", "[]$")):
            self.assertEqual(second.check_pack(pack_of([four("a"), rule])), (5, 8), rule)
        self.accepts(second.check_pack(pack_of([four("a", "[^]", "[^]$"), four("a", "^[^]", "[^]"), four("a", "[]]", "[]]$")])))
        ill = PACK[:11] + b"\xff" + PACK[12:]
        self.assertEqual(second.check_pack(ill), (5, 8))
        self.accepts(second.check_pack(pack_of([four("a")] * 4096)))
        self.assertEqual(second.check_pack(pack_of([four("a")] * 4097)), (5, 8))

    def test_23_long_packs(self):
        long = pack_of([four("a", expression="o" * 100)] * 1000)
        self.assertGreater(len(long), 49152)
        self.assertEqual(key(long, "a"), (0, 0, "o" * 100))
        self.assertEqual(second.keys(Settings(1, 0, 0, 20), long, b"a\na\n"), b"5 49152\n")

    def test_writing_what_was_read(self):
        names = ["any", "de"]
        pack = pack_of([four("é", "[^a]", "$", "(a[de]|)")], names=names, guesses=[(0, 3, "[^a]$")],
                       more={3: [four("b")], 7: [four("c")]})
        checked = second.check_pack(pack)
        self.assertEqual(second.pack_bytes(checked.names, checked.guesses, checked.lists), pack)


class Spelling(Case):
    """01, Spelling a name"""

    TWO = ("any", "xx")
    # main lists: any a -> o, xx a -> x
    TWO_PACK = pack_of([four("a")], names=TWO, more={3: [four("a", expression="x")]})
    EIGHT = [four(letter, expression="(x|y)") for letter in "abcdefgh"]

    def test_25_flag(self):
        pack = pack_of([four("a", expression="(p|q)")])
        self.assertEqual(key(pack, "a", limit=3), (0, 0, "p|q"))
        self.assertEqual(key(pack, "a", limit=2), (0, 1, "p|q"))
        self.assertEqual(key(pack, "a", limit=1), (0, 1, "p"))
        self.assertEqual(key(pack, "a", limit=0), (0, 1, ""))
        self.assertEqual(key(pack, "a", limit=0, given=(1, 0)), (0, 1, ""))
        self.assertEqual(key(pack, "a", limit=1, given=(1, 0)), (0, 0, ""))
        self.assertEqual(key(pack, "bcd", limit=0), (0, 0, ""))
        self.assertEqual(key(pack, "", limit=0), (0, 0, ""))
        self.assertEqual(key(pack, "b a b", limit=2), (0, 1, "-p|q-"))

    def test_25_flag_of_a_final_pass(self):
        pack = pack_of([four("a", expression="p")], [four("p", expression="(r|s)")])
        self.assertEqual(key(pack, "a", limit=2), (0, 1, "r|s"))
        self.assertEqual(key(pack, "a", limit=3), (0, 0, "r|s"))

    def test_25_a_refusal_has_the_flag_down(self):
        self.assertEqual(key(PACK, "aa", limit=1, room=1), (9, 0, 2))
        self.assertEqual(key(PACK, "aa", limit=1, room=2), (0, 1, "oo"))
        long = pack_of([four("a"), four("b", expression="o" * 129)])
        self.assertEqual(key(long, "ab", limit=1), (7, 0, 0))

    def test_26_no_7_where_nothing_would_enter(self):
        names = ("any", "de", "fr")
        long = "o" * 129
        pack = pack_of([four("a", expression=long)])
        self.assertEqual(key(pack, "a", limit=0), (0, 1, ""))
        self.assertEqual(key(pack, "a", limit=1), (7, 0, 0))
        pack = pack_of([four("a", expression="(p|%s)" % long)])
        self.assertEqual(key(pack, "a", limit=1), (0, 1, "p"))
        self.assertEqual(key(pack, "a", limit=2), (7, 0, 0))
        rule = four("a", expression="(%s[fr]|p)" % long)
        pack = pack_of([rule], names=names, more={3: [rule]})
        self.assertEqual(key(pack, "a", given=(2, 0b010)), (0, 0, "p"))
        self.assertEqual(key(pack, "a", given=(2, 0b110)), (7, 0, 0))

    def test_26_in_an_append_every_text_is_tested(self):
        main = [four("a", expression="x" + "y" * 127)]
        self.assertEqual(key(pack_of(main, [four("x", expression="z")]), "a"), (0, 0, "z" + "y" * 127))
        self.assertEqual(key(pack_of(main, [four("x", expression="zz")]), "a"), (7, 0, 0))
        self.assertEqual(key(pack_of(main, [four("x", expression="zz")]), "a", limit=1), (7, 0, 0))
        self.assertEqual(key(pack_of(main, [four("x", expression="é")]), "a"), (7, 0, 0))

    def test_28_sephardic_apostrophes(self):
        self.assertEqual(second.concat_words(SEPHARDIC, ["x'", "c"]), " c")
        self.assertEqual(second.concat_words(SEPHARDIC, ["x'", "y'", "c"]), "  c")
        self.assertEqual(second.concat_words(SEPHARDIC, ["x'y'z", "de", "q'el", "c"]), "z c")
        self.assertEqual(second.concat_words(ASHKENAZI, ["x'a", "ben", "al", "c"]), "x'a al c")
        self.assertEqual(second.concat_words(GENERIC, ["de", "x'a"]), "de x'a")
        pack = pack_of([four(" ", expression="_"), four("'", expression="'"), four("a")])
        self.assertEqual(key(pack, "x' a", SEPHARDIC, 1), (0, 0, "_o"))
        self.assertEqual(key(pack, "x'a", SEPHARDIC, 1), (0, 0, "o"))
        self.assertEqual(key(pack, "x'a", SEPHARDIC, 0), (0, 0, "'o"))
        self.assertEqual(key(pack, "el", SEPHARDIC, 1), (0, 0, ""))

    def test_29_words_are_guessed_afresh(self):
        for name, concat, wanted in (("a", 0, "x"), ("a a", 0, "o-o"), ("a a", 1, "xx"), ("de a", 0, "(o)-(o)"),
                                     ("de a", 1, "(o)-(o)"), (" a ", 0, "x")):
            self.assertEqual(key(self.TWO_PACK, name, concat=concat, given=(2, 2)), (0, 0, wanted), name)

    def test_29_only_the_whole_name_has_hyphens(self):
        pack = pack_of([four("a")], names=self.TWO, guesses=[(1, 2, "a-a")],
                       more={3: [four("a", expression="x")]})
        self.assertEqual(key(pack, "a-a", concat=1), (0, 0, "xx"))
        self.assertEqual(key(pack, "A-A", concat=1), (0, 0, "xx"))
        self.assertEqual(key(pack, "a a", concat=1), (0, 0, "oo"))
        self.assertEqual(key(pack, "a-a", concat=0), (0, 0, "o-o"))
        self.assertEqual(key(pack, "de a-a", concat=1), (0, 0, "(oo)-(oo)"))

    def test_30_no_words(self):
        for name in ("", " ", "-", "- -"):
            for name_type, concat in itertools.product((ASHKENAZI, GENERIC, SEPHARDIC), (0, 1)):
                self.assertEqual(key(PACK, name, name_type, concat, 0), (0, 0, ""))

    def test_30_prefix_again(self):
        self.assertEqual(key(PACK, "de  a"), (0, 0, "(o)-((o)-(o))"))
        self.assertEqual(key(PACK, "de-la a"), (0, 0, "(o)-((oo)-(oo))"))
        self.assertEqual(key(PACK, "de "), (0, 0, "()-()"))
        self.assertEqual(key(PACK, "d'd'a"), (0, 0, "((o)-(o))-(o)"))

    def test_prefixes_are_generic(self):
        self.assertEqual(key(PACK, "de a", ASHKENAZI), (0, 0, "-o"))
        self.assertEqual(key(PACK, "de a", ASHKENAZI, 1), (0, 0, "o"))
        for prefix in second.PREFIXES[GENERIC]:
            self.assertEqual(second.part_prefix(prefix + " x"), ("x", prefix + "x"))
        for name in ("de", "d", "dex x", "da-x", "bar x", "al x"):
            self.assertIsNone(second.part_prefix(name))
        self.assertEqual(second.part_prefix("d' x"), (" x", "d x"))
        self.assertEqual(second.part_prefix("de la"), ("la", "dela"))

    def test_two_prefixes_fit(self):
        """02, ticket 5: "names where two prefixes fit, here or in a name spelled afresh"."""
        for name in ("de la x", "De-La x", "de la ", "d'de la x", "van de la x", "de de la x", "DI de-la x", "de  la x"):
            self.assertTrue(second.two_prefixes_fit(Settings(GENERIC, 0, 0, 20), name.encode()))
            self.assertTrue(second.two_prefixes_fit(Settings(GENERIC, 0, 1, 20), name.encode()))
            self.assertFalse(second.two_prefixes_fit(Settings(SEPHARDIC, 0, 0, 20), name.encode()))
        for name in ("de la", "de lax", "dela x", "x de la x", " de la x", "d' de la x", "de-d'la x", ""):
            self.assertFalse(second.two_prefixes_fit(Settings(GENERIC, 0, 0, 20), name.encode()))

    def test_31_kinds_of_a_given_set(self):
        self.assertEqual(key(self.TWO_PACK, "a", given=(0, 0xFFFFFFFF)), (0, 0, "o"))
        self.assertEqual(key(self.TWO_PACK, "a", given=(1, 0xFFFFFFFF)), (0, 0, ""))
        self.assertEqual(key(self.TWO_PACK, "a", given=(2, 0b11)), (0, 0, "o"))
        self.assertEqual(key(self.TWO_PACK, "a", given=(2, 0)), (0, 0, ""))
        self.assertEqual(key(self.TWO_PACK, "a", given=(2, 0b100)), (6, 0, 0))
        self.assertEqual(key(self.TWO_PACK, "a", given=(2, 0x80000000)), (6, 0, 0))
        self.assertEqual(key(self.TWO_PACK, "a", given=(3, 0)), (4, 0, 0))
        guessing = pack_of([four("a")], names=self.TWO, guesses=[(1, 2, "a")],
                           more={3: [four("a", expression="x")]})
        self.assertEqual(key(guessing, "a"), (0, 0, "x"))
        self.assertEqual(key(guessing, "a", given=(0, 0)), (0, 0, "o"))

    def test_32_an_empty_final_list_changes_nothing(self):
        call = second.Call(Settings(GENERIC, 0, 0, 2), None)
        texts = [("", NONE), ("a" * 128, 0b1), ("b", ANY)]
        self.assertEqual(call.final_pass({"x": []}, texts), texts)
        self.assertEqual(call.final_pass({}, texts), texts)
        self.assertEqual(call.flag, 0)

    def test_33_texts_of_a_final_pass(self):
        def common(*rules):
            return key(pack_of(self.EIGHT, sorted(rules)), "abcdefgh", limit=256)
        one_more = four("x", "^yyyyyyy", "$", "(x|z)")
        code, flag, answer = common(four("x", "^yyyyyyy", "$", "z"))
        self.assertEqual((code, flag, answer.count("|")), (0, 1, 255))
        self.assertEqual(common(one_more), (8, 0, 0))
        too_long = four("yyyyyyyy", expression="o" * 129)
        # the last text brings the 257th, but its run meets 7 first
        self.assertEqual(common(one_more, too_long), (7, 0, 0))
        # two more from the first text: the last but one brings the 257th, the last one is not run
        two_more = four("xxxxxxxx", expression="(1|2|3)")
        self.assertEqual(common(two_more, too_long), (8, 0, 0))

    def test_34_program(self):
        settings = Settings(GENERIC, 0, 0, 20)
        self.assertEqual(second.keys(settings, PACK, b""), b"")
        self.assertEqual(second.keys(settings, PACK, b"\n"), b"0 0 \n")
        self.assertEqual(second.keys(settings, PACK, b"a"), b"0 0 o\n")
        self.assertEqual(second.keys(settings, PACK, b"a\n\nb\n"), b"0 0 o\n0 0 \n0 0 \n")
        self.assertEqual(second.keys(settings, PACK, b"a\r\n"), b"2 1\n")
        self.assertEqual(second.keys(settings, PACK[:-1], b"a\n\xff\n"), b"5 22\n1 0\n")
        self.assertEqual(second.keys(Settings(GENERIC, 0, 0, 257), PACK, b"a\n"), b"4 0\n")

    def test_01_a_block_in_a_buffer(self):
        settings, checked = Settings(GENERIC, 0, 0, 20), second.check_pack(PACK)
        self.assertEqual(second.block(settings, checked, b"aaaaa\n", 10), (0, 6, b"0 0 ooooo\n"))
        self.assertEqual(second.block(settings, checked, b"aaaaa\n", 9), (0, 6, b"9 10\n"))
        self.assertEqual(second.block(settings, checked, b"aaaaa\n", 4), (9, 10, b""))
        self.assertEqual(second.block(settings, checked, "Ω\n".encode(), 3), (9, 4, b""))
        self.assertEqual(second.block(settings, checked, b"a\naaaaa\n", 10), (0, 2, b"0 0 o\n"))
        self.assertEqual(second.block(settings, checked, b"aaaaa", 0), (0, 0, b""))

    def test_order_of_checks(self):
        bad = PACK[:-1]
        long, ill, outside = b"\xff" * 97, b"\x01\xff", b"\x01"
        self.assertEqual(key(bad, long, limit=257, given=(2, 2)), (4, 0, 0))
        self.assertEqual(key(bad, long, given=(2, 2)), (3, 0, 0))
        self.assertEqual(key(bad, ill, given=(2, 2)), (1, 0, 1))
        self.assertEqual(key(bad, outside, given=(2, 2)), (2, 0, 0))
        self.assertEqual(key(bad, "a", given=(2, 2)), (5, 0, 22))
        self.assertEqual(key(PACK, "a", given=(2, 2), room=0), (6, 0, 0))
        self.assertEqual(key(PACK, "a", room=0), (9, 0, 1))
        for settings in ((3, 0, 0, 0), (0, 2, 0, 0), (0, 0, 2, 0), (0, 0, 0, 257)):
            self.assertEqual(second.spell(Settings(*settings), PACK, b"a"), (4, 0, 0))

    def test_main_pass(self):
        pack = pack_of([four("ab", expression="1"), four("a", "[b]", expression="2"), four("a", expression="3"),
                        four("b", "", "$", "4"), four("é", "b", expression="5")])
        for name, wanted in (("ab", "1"), ("aab", "31"), ("baa", "23"), ("bab", "1"), ("aa", "33"), ("bb", "4"),
                             ("bé", "5"), ("BÉ", "5"), ("xbéa", "53"), ("zz", "")):
            self.assertEqual(key(pack, name), (0, 0, wanted), name)

    def test_equal_text_of_an_apply_stays_as_it_was(self):
        names = ("any", "de", "fr")
        pack = pack_of([four("a", expression="(b[fr]|a|b[de])"), four("z", expression="(p[de]|q[fr])")],
                       names=names)
        self.assertEqual(key(pack, "az", given=(0, 0)), (0, 0, "ap|aq|bq"))

    def test_equal_text_of_a_final_pass_is_merged_with_the_set_worked_on(self):
        names = ("any", "de", "fr", "it")
        # main: x of {de}, y of {fr, it}; common: both become z, the second narrowed to {it};
        # own: z keeps those of de, fr or it
        own = [four("z", expression="(d[de]|f[fr]|i[it])")]
        common = [four("x", expression="z"), four("y", expression="z[it]")]
        pack = pack_of([four("a", expression="(x[de]|y[fr+it])")], common, own, names)
        self.assertEqual(key(pack, "a", given=(0, 0)), (0, 0, "d|f|i"))

    def test_kinds_of_rules(self):
        names = ("any", "xx")
        lists = {0: [four("a", expression="m")], 1: [four("m", expression="1")], 2: [four("m", expression="2")],
                 3: [four("a", expression="n")], 4: [four("n", expression="3")], 5: [four("n", expression="4")],
                 6: [four("m", expression="m"), four("n", expression="(n|c)")],
                 7: [four("m", expression="(m|e)")]}
        pack = pack_of(names=names, more=lists)
        for kind, bits, wanted in ((0, 1, b"1"), (1, 1, b"2|e"), (0, 2, b"3|c"), (1, 2, b"4")):
            answer = second.spell(Settings(GENERIC, kind, 0, 20), pack, b"a", (2, bits))
            self.assertEqual(answer, (0, 0, wanted))

    def test_a_final_pass_runs_over_any_character(self):
        common = [four("x", "Ω", expression="!"), four("Ω", "", "x", "ω")]
        pack = pack_of([four("a", expression="Ωx")], common)
        self.assertEqual(key(pack, "a"), (0, 0, "ω!"))

    def test_a_given_empty_set(self):
        pack = pack_of([four("a")], [four("o", expression="p")])
        for given in ((1, 0), (2, 0)):
            self.assertEqual(key(pack, "b", given=given), (0, 0, ""))
            self.assertEqual(key(pack, "a", given=given), (0, 0, ""))

    def test_joined_name_is_spelled_first(self):
        eight = self.EIGHT + [four("v", expression="o" * 129)]
        common = [four("x", "^yyyyyyy", "$", "(x|z)")]
        pack = pack_of(sorted(eight), common)
        # remainder alone meets 8, joined with `van` 7; the joined one is spelled first
        self.assertEqual(key(pack, "abcdefgh", limit=256), (8, 0, 0))
        self.assertEqual(key(pack, "van abcdefgh", limit=256), (7, 0, 0))

    def test_length_needed(self):
        self.assertEqual(key(PACK, "de a", room=6), (9, 0, 7))
        self.assertEqual(key(PACK, "de a", room=7), (0, 0, "(o)-(o)"))
        self.assertEqual(code_of(second.check_room, 2 ** 33, 0), 9)
        try:
            second.check_room(2 ** 33, 0)
        except Refusal as refusal:
            self.assertEqual(refusal.place, 4294967295)


class CaseLines(Case):
    """The command-line face"""

    def setUp(self):
        self.cases = second.Cases()

    def asks(self, line, wanted):
        self.assertEqual(self.cases.answer(line), wanted, line)

    def test_letters(self):
        self.asks("decode 61ceA9", "?")
        self.asks("decode 61cea9", "text 97 937")
        self.asks("decode -", "text")
        self.asks("decode 61e28241", "ill 1")
        self.asks("outside 61cea9", "1")
        self.asks("outside 61e28241", "1")
        self.asks("outside 61", "-")
        self.asks("lower 41c389ffcea9c4b0", "61c3a9ffcea9c4b0")
        self.asks("lower -", "-")
        self.asks("order 61 6162", "less")
        self.asks("order 62 6162", "greater")
        self.asks("order - -", "equal")

    def test_sets(self):
        self.asks("narrow any some:6", "some:6")
        self.asks("narrow some:6 some:3", "some:2")
        self.asks("narrow any any", "any")
        self.asks("narrow some:4 some:3", "nothing")
        self.asks("narrow some:4 none", "nothing")
        self.asks("narrow some:0 any", "nothing")
        self.asks("merge some:4 some:3", "some:7")
        self.asks("merge none any", "any")
        self.asks("empty any", "?")
        self.asks("single some:2147483648", "31")
        self.asks("single some:3", "-")
        self.asks("single some:4294967296", "?")

    def test_names(self):
        self.asks("name 616e79", "1")
        self.asks("name 636f6d6d6f6e", "0")
        self.asks("name -", "0")
        self.asks("name ff", "0")
        self.asks("listed 0161016203 62", "2")
        self.asks("listed 0161016203 63", "-")
        self.asks("listed 01610261 61", "1")
        self.asks("listed %s 62" % ("0161" * 31 + "0162"), str(1 << 31))
        self.asks("listed %s 62" % ("0161" * 32 + "0162"), "-")
        self.asks("listed - -", "-")

    def test_contexts_and_rules(self):
        self.asks("left - -", "AllStringsMatcher 1")
        self.asks("left 5e 61", "IsEmpty 0")
        self.asks("left 5b612d635d 2d", "EndsWithChar 1")
        self.asks("right 5e5b615d 61", "15")
        self.asks("right 6124 61", "Equals 1")
        self.asks("rule 61 - - 6261 1", "1")
        self.asks("rule 61 - - 6261 0", "0")
        self.asks("rule 61 62 24 6261 1", "1")
        self.asks("rule 61 - - 6261 3", "0")
        self.asks("rule 61 5b - 6261 3", "15")
        self.asks("rule 61 c3a9 - c3a961 2", "1")
        self.asks("rule 61 c3a9 - c3a961 1", "0")

    def test_expressions_and_patterns(self):
        self.asks("expr 287c6129 -", "ok -:any 61:any -:any")
        self.asks("expr 615b66722b64655d 026465026672", "ok 61:some:3")
        self.asks("expr 615b5d -", "16")
        self.asks("expr 2861 -", "14")
        self.asks("guessing 5e61 6162", "1")
        self.asks("guessing 6124 6162", "0")
        self.asks("guessing 2e 6162", "15")
        self.asks("guessing ff 6162", "?")

    def test_spelling(self):
        self.asks("check", "5 0")
        self.asks("guess 61", "5 0")
        self.asks("pack " + PACK.hex(), None)
        self.asks("check", "0")
        self.asks("guess 61", "some 1")
        self.asks("spell 1 0 0 20 4 616261", "0 0 2 6f6fa5a5")
        self.asks("spell 1 0 0 20 1 616261", "9 2 a5")
        self.asks("spell 1 0 0 20 0 -", "0 0 0 -")
        self.asks("spell 1 0 0 1 2 61", "0 1 1 6fa5")
        self.asks("spell 4294967295 0 0 1 2 61", "4 0 a5a5")
        self.asks("spell 4294967296 0 0 1 2 61", "?")
        self.asks("spell 1 0 0 1 4097 61", "?")
        self.asks("given 1 0 0 20 1 0 2 61", "0 0 0 a5a5")
        self.asks("given 1 0 0 20 2 2 2 61", "6 0 a5a5")
        self.asks("given 1 0 0 20 3 0 2 61", "4 0 a5a5")
        self.asks("pack 00", None)
        self.asks("spell 1 0 0 20 0 61", "5 0 -")

    def test_words(self):
        self.asks("word 0 3 1 20 0 0 61", "5 0")
        self.asks("pack " + PACK.hex(), None)
        self.asks("word 0 3 1 20 0 0 616261", "0 0 6f6f")
        self.asks("word 0 3 1 1 0 0 61", "0 1 6f")
        self.asks("word 0 3 1 0 0 0 61", "0 1 -")
        self.asks("word 0 3 1 20 1 0 61", "0 0 -")
        self.asks("word 0 3 1 20 2 0 61", "0 0 -")
        self.asks("word 0 3 1 20 2 4294967295 61", "0 0 6f")
        self.asks("word 1 0 1 20 0 0 61", "0 0 -")
        self.asks("word 0 0 0 20 0 0 41", "0 0 -")
        self.asks("word 0 3 1 256 0 0 -", "0 0 -")
        for line in ("word 0 3 1 257 0 0 61", "word 5 3 1 20 0 0 61", "word 0 5 1 20 0 0 61", "word 0 3 5 20 0 0 61",
                     "word 0 3 1 20 0 0 ff", "word 0 3 1 20 0 0", "word 0 3 1 20 0 0 61 61"):
            self.asks(line, "?")
        self.asks("pack " + pack_of([four("a", expression="o" * 129)]).hex(), None)
        self.asks("word 0 3 1 20 0 0 61", "7")
        self.asks("word 0 3 1 0 0 0 61", "0 1 -")
        self.asks("pack " + pack_of(Spelling.EIGHT, [four("x", "^yyyyyyy", "$", "(x|z)")]).hex(), None)
        self.asks("word 0 3 1 256 0 0 6162636465666768", "8")
        self.asks("pack " + pack_of([four("a", expression="(p[xx]|q)")], names=Spelling.TWO).hex(), None)
        self.asks("word 0 6 1 20 0 0 61", "0 0 707c71")
        self.asks("word 0 6 1 2 2 1 61", "0 0 71")

    def test_loading(self):
        self.asks("load 1 0", "10 0 0 -")
        self.asks("bundle " + second.bundle_bytes(filled({"gen_rules_any": RULE})).hex(), None)
        self.asks("load 1 26", "0 24 " + PACK.hex() + "a5a5")
        self.asks("load 1 2", "9 24 0 a5a5")
        self.asks("load 3 2", "4 0 0 a5a5")
        self.asks("load 1 98305", "?")
        self.asks("bundle " + second.bundle_bytes(filled({"gen_lang": "\nx"})).hex(), None)
        self.asks("load 1 1", "12 2 %d a5" % sorted(filled({})).index("gen_lang"))

    def test_no_cases(self):
        for line in ("", " ", "x", "decode", "decode 6", "decode 61 61", "decode 6G", "check 1", "single some:",
                     "single some:x", "single some:" + "9" * 5000, "narrow any", "rule 61 - - 61 x", "load 1",
                     "answer x", "_decode 61", "pack " + "00" * 98305):
            self.asks(line, "?")
        self.asks("single some:" + "0" * 5000, "-")
        self.asks("\tdecode \t61 ", "text 97")


if __name__ == "__main__":
    unittest.main()
