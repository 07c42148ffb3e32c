#!/usr/bin/env python3
"""Holds what the port loads against what the original loads from the same files.

    tests/loading.py [--folders N] [--seed N] [--real] [--lines]

Tried are N random folders, with includes up to 8 deep, first characters that an include replaces, comments, and lines that end with CR LF;
with --real the real rules (oracle/rules fetches them) less the lines that document 01 refuses. The port's program `ask` loads the
files as a bundle, bm-lists has what the original loads, and the lists are compared as bm-lists prints them. With --lines each line of
cases.py is tried alone in its kind of file, and those are printed that one of the two takes and the other does not, or that say something
else to each (docs/DIFFERENCES.md has them). The exit status is 1 where the lists of a random folder or of the real rules differ, where the port
refuses a folder that the second check loads (or otherwise), and where under half of the folders were loaded. The original is built by oracle/build.
"""
import argparse
import collections
import os
import random
import subprocess
import sys
import tempfile

HERE = os.path.dirname(os.path.abspath(__file__))
ROOT = os.path.dirname(HERE)
sys.path.insert(0, HERE)
import cases  # noqa: E402
import compare  # noqa: E402
import real  # noqa: E402
import second  # noqa: E402

LISTS = os.path.join(ROOT, "oracle", "made", "bin", "bm-lists")
REAL_RULES = os.path.join(ROOT, "oracle", "made", "rules")
BATCH = 500                     # bundles for one process of the port
REFUSES, PANICS, OVERFLOWS = 3, 4, -6           # how bm-lists ends where the original loads nothing


# ---- what was loaded, as bm-lists prints it

def shown_names(names):
    return "+".join(sorted(names))


def shown_context(context):
    content = second.hex_of(context.text.encode())
    if context.form.endswith("Char"):
        return "%s:%d:%s" % (context.form, not context.negated, content)
    return context.form if context.form in ("AllStringsMatcher", "IsEmpty") else context.form + ":" + content


def shown_languages(languages, names):
    if languages == second.ANY:
        return "any"
    joined = shown_names(name for bit, name in enumerate(names) if languages >> bit & 1)
    return "=616e79" if joined == "any" else joined


def shown_rule(rule, names):
    parts = ["rule", second.hex_of(rule.pattern.encode()), shown_context(rule.left_context), shown_context(rule.right_context)]
    return " ".join(parts + [second.hex_of(text.encode()) + ":" + shown_languages(languages, names) for text, languages in rule.alternatives])


def shown_pack(data):
    """The lines of a pack; None where it breaks a pack rule."""
    pack = second.check_pack(data)
    if not isinstance(pack, second.Pack):
        return None
    lines = ["language " + name for name in pack.names]
    for guess in pack.guesses:
        names = shown_names(name for bit, name in enumerate(pack.names) if guess.mask >> bit & 1)
        lines.append("guess %d %s %s" % (guess.accept, names, second.hex_of(guess.written.encode())))
    for name, rules in zip(second.list_names(b"x", pack.names), pack.lists):
        lines.append("list %s %d" % (" ".join(name.decode().split("_")[1:]), len(rules)))
        lines += [shown_rule(rule, pack.names) for rule in rules]
    return lines


# ---- the two that load

class Folder:
    """A folder with the plainest files of all three types, and those of a try besides."""

    def __init__(self, path):
        self.path, self.own = path, {}
        for prefix in real.TYPES:
            self.write(cases.files_with((), prefix=prefix))

    def write(self, files):
        for name, content in files.items():
            with open(os.path.join(os.fsencode(self.path), second.as_bytes(name) + b".txt"), "wb") as file:
                file.write(content)

    def original(self, files, name_type):
        """What the original holds of a type with these files, or how bm-lists ended."""
        plain = cases.files_with((), prefix=real.TYPES[name_type])
        for name in self.own:
            os.remove(os.path.join(os.fsencode(self.path), second.as_bytes(name) + b".txt"))
        for name in set(plain) - set(files):
            path = os.path.join(self.path, name + ".txt")
            if os.path.exists(path):
                os.remove(path)
        self.write(files)
        done = subprocess.run([LISTS, self.path, real.TYPES[name_type]], stdout=subprocess.PIPE, stderr=subprocess.DEVNULL, check=False)
        self.own = {name: content for name, content in files.items() if name not in plain}
        self.write(plain)
        return done.stdout.decode().split("\n")[:-1] if done.returncode == 0 else done.returncode


def port(tries):
    """What the port loads of (type, files) pairs, and what the second check does: the pack, or code, place and file."""
    lines, expected = [], []
    for name_type, files in tries:
        bundle = second.bundle_bytes(files)
        answer = second.load(name_type, bundle)
        expected.append(answer if answer[0] else answer[1])
        lines.append(cases.load_case(bundle, name_type, 0 if answer[0] else len(answer[1]))[0])
    for answer, second_answer in zip(compare.run(compare.ASK, lines), expected):
        fields = answer.split(" ")
        yield second.bytes_of(fields[2]) if fields[0] == "0" else tuple(int(field) for field in fields[:3]), second_answer


# ---- random folders that both can read

ENDS = (b"\n",) * 6 + (b"\r\n", b"\r\n", b" \n", b"\t\r\n")
PASSED = (b"", b" \t", b"// x", b" // \xc3\xa9 \"", b"/* a */", b"/**/\t", b"/*\n" + cases.LINE + b"\n * */", b"/* \r\n\r\n*/", b"/*\n//\n\t*/ ",
          b"/* #include no\n*/", b"/*/\n*/", b"/***/")


def a_file(rng, lines):
    """A file of these lines, with others that say nothing between them; the original wants what is said at the beginning of a line."""
    content = b""
    for line in lines:
        while rng.randrange(4) == 0:
            content += rng.choice(PASSED) + rng.choice(ENDS)
        content += line + rng.choice((b"", b"", b"", b" ", b"\t")) + rng.choice(ENDS)
    return content.rstrip(b"\r\n") if rng.randrange(3) == 0 else content


def rule_file(rng, sounds, below, most, least=0):
    lines = [cases.a_rule(rng, sounds).strip(b" \t").replace(b"\xff", b"\xc3\xa9") for _ in range(rng.randrange(most + 1))]
    for _ in range(rng.choice((least, 1, 1, 2)) if below else 0):
        lines.insert(rng.randrange(len(lines) + 1), b"#include " + rng.choice(below).encode())
    return a_file(rng, lines)


def random_try(rng):
    """A type and its files: each file of the pool includes those behind it, the next one more often, or that alone and always."""
    name_type, sounds = rng.randrange(3), cases.sounds_of(rng)
    prefix = real.TYPES[name_type]
    pool = ["x%d" % n for n in range(rng.choice((0, 2, 4, 8)))]
    files, chained = {}, rng.randrange(3) == 0
    for number, name in enumerate(pool):
        following = pool[number + 1:number + 2]
        files[name] = rule_file(rng, sounds, following if chained else following * 3 + pool[number + 1:], 2, int(chained))
    names = [name.encode() for name in sounds.names]
    rng.shuffle(names)
    files[prefix + "_languages"] = a_file(rng, names + names[:rng.randrange(2)])
    files[prefix + "_lang"] = a_file(rng, [b" ".join(cases.a_guess(rng, sounds).split()) for _ in range(rng.randrange(4))])
    for name in second.list_names(prefix.encode(), sounds.names):
        files[name.decode()] = rule_file(rng, sounds, pool[:1] if chained else pool[:3], rng.choice((0, 2, 5)))
    return name_type, files


def depth_of(files, name, seen=0):
    """How deep the includes below a file go; a comment may hold one that is none."""
    below = [line.split()[1].decode() for line in files.get(name, b"").split(b"\n") if line.startswith(b"#include x")]
    return max((1 + depth_of(files, other, seen + 1) for other in below), default=0) if seen < 9 else 0


def replaces(name_type, files, names):
    """Whether loading with includes that add to what was held would give another pack."""
    loader = second.Loader(second.read_bundle(second.bundle_bytes(files)))
    loader.names = names

    def added(number):
        met = []
        for _, item in loader.items_of(number)[0]:
            met += [item] if isinstance(item, second.Rule) else added(loader.numbers[item])
        return met

    return any(len(added(loader.numbers[name])) != len(loader.rules(name)) for name in second.list_names(real.TYPES[name_type].encode(), names))


def try_random(rng, count, folder):
    """How many folders were compared and differ, and what they were like."""
    tally = collections.Counter()
    while count > 0:
        tries = [random_try(rng) for _ in range(min(BATCH, count))]
        count -= len(tries)
        for (name_type, files), (loaded, expected) in zip(tries, port(tries)):
            if isinstance(loaded, tuple) and loaded == expected:
                tally["refused with %d" % loaded[0]] += 1
                continue
            if loaded != expected:
                tally["differ"] += 1
                if tally["differ"] <= 5:
                    print("type %d %r\n  port %s\n  second check %s" % (name_type, files, loaded, expected))
                continue
            shown = shown_pack(loaded)
            tally["compared"] += 1
            tally["rules"] += sum(line.startswith("rule ") for line in shown or ())
            tally["depth %d" % max(depth_of(files, name) for name in files)] += 1
            tally["an include replaces rules"] += replaces(name_type, files, second.check_pack(loaded).names)
            told = folder.original(files, name_type)
            if shown != told:
                tally["differ"] += 1
                if tally["differ"] <= 5:
                    print("type %d %r\n  port %s\n  original %s" % (name_type, files, shown, told))
    print("random folders: " + ", ".join("%s %d" % pair for pair in sorted(tally.items())))
    if 2 * tally["compared"] < sum(count for name, count in tally.items() if name == "compared" or name.startswith("refused")):
        print("under half of the folders were loaded, so too little was compared")
        return tally["differ"] + 1
    return tally["differ"]


# ---- the real rules

def needed(files, prefix):
    """The files that the list names and those that they include."""
    wanted = [name.decode() for name in second.list_names(prefix.encode(), sorted({line.decode() for line in files[prefix + "_languages"] if line.isalpha()}))]
    for name in wanted:
        wanted += [line.split()[1].decode() for line in files[name] if line.startswith(b"#include ") and line.split()[1].decode() not in wanted]
    return [prefix + "_languages", prefix + "_lang"] + wanted


def without_head(content):
    """A file without the comment that it begins with."""
    return content.split(b"*/", 1)[1] if content.startswith(b"/*") else content


def try_real(folder):
    differ = 0
    for name_type, prefix in enumerate(real.TYPES):
        lines = real.files_of(REAL_RULES, prefix)
        _, dropped = real.pack_of(name_type, lines)
        files = {name: b"\n".join(lines[name]) for name in needed(lines, prefix)}
        heads = len(second.bundle_bytes(files)) > second.LONGEST_PACK
        given = {name: without_head(content) for name, content in files.items()} if heads else files
        loaded, _ = next(port([(name_type, given)]))
        shown = None if isinstance(loaded, tuple) else shown_pack(loaded)
        same = shown == folder.original({name: content for name, content in files.items()}, name_type)
        differ += not same
        print("%s: %d files, %d bytes%s, %d lines dropped, %d rules, pack of %d bytes: %s" % (
            prefix, len(files), len(second.bundle_bytes(given)), " without their heads" if heads else "", sum(dropped.values()),
            sum(line.startswith("rule ") for line in shown or ()), len(loaded), "same" if same else "DIFFERS"))
    return differ


# ---- single lines

def single_lines():
    """A line and the files of a type that hold it."""
    more = {"x": cases.rule_line(b"b", b"", b"", b"p") + b"\n", "é": cases.LINE}
    for line in cases.COMMENTS + cases.INCLUDES + cases.STRINGS:
        yield "rules", line, {**cases.files_with({"gen_rules_any": cases.LINE + b"\n" + line + b"\n" + cases.LINE}), **more}
    for line in cases.COMMENTS + cases.GUESSES:
        yield "guessing", line, {**cases.files_with({"gen_lang": b"a any true\n" + line + b"\nb any true"}), **more}
    for line in cases.COMMENTS + cases.LANGUAGES:
        content = b"any\n" + line + b"\nb"
        yield "list", line, {**cases.files_with({"gen_languages": content}, cases.languages_in(content)), **more}


def try_lines(folder):
    tries = list(single_lines())
    both = 0
    for (kind, line, files), (loaded, _) in zip(tries, port([(1, files) for _, _, files in tries])):
        told = folder.original(files, 1)
        if isinstance(loaded, tuple) and isinstance(told, int):
            both += 1
            continue
        shown = "%d" % loaded[0] if isinstance(loaded, tuple) else shown_pack(loaded)
        if shown == told:
            both += 1
            continue
        ended = {REFUSES: "refuses", PANICS: "panics", OVERFLOWS: "overflows"}
        verdict = ended.get(told, told) if isinstance(told, int) else "loads" if isinstance(shown, str) else "loads something else"
        print("%-8s %-50r port %-6s original %s" % (kind, line, shown if isinstance(shown, str) else "loads", verdict))
    print("single lines: %d, of them %d alike" % (len(tries), both))


def main():
    parser = argparse.ArgumentParser(usage=__doc__)
    parser.add_argument("--folders", type=int, default=300)
    parser.add_argument("--seed", type=int, default=2)
    parser.add_argument("--real", action="store_true")
    parser.add_argument("--lines", action="store_true")
    given = parser.parse_args()
    with tempfile.TemporaryDirectory() as path:
        folder = Folder(path)
        differ = try_random(random.Random("loading %d" % given.seed), given.folders, folder)
        differ += try_real(folder) if given.real else 0
        if given.lines:
            try_lines(folder)
    sys.exit(1 if differ else 0)


if __name__ == "__main__":
    main()
