#!/usr/bin/env python3
"""Holds the port's program `ask` against the second check and against the original, on the same cases.

    tests/compare.py LAYER.. [--seed N] [--count N] [--sample N] [--no-original]
    tests/compare.py --stored

LAYER is one of those in cases.py, or `all`. Without --sample every short input of the layer is tried, and --count random ones.
`--stored` writes crates/ask/stdin and crates/ask/stdout: a sample of the cases, with the original's answers where it has one.
The original is built by oracle/build.
"""
import argparse
import os
import random
import subprocess
import sys

HERE = os.path.dirname(os.path.abspath(__file__))
ROOT = os.path.dirname(HERE)
sys.path.insert(0, HERE)
import cases  # noqa: E402

ASK = [os.path.join(ROOT, "bin", "ask")]
SECOND = [sys.executable, os.path.join(HERE, "second.py")]
ORIGINAL = [os.path.join(ROOT, "oracle", "made", "bin", "bm-answers")]
STORED = 260            # how many cases of each kind are stored
NO_CASES = ["", " ", "foo", "decode", "decode 6", "decode 6g", "decode 61 62", "DECODE 61", "lower 6A", "narrow any", "empty any", "single some:",
            "single some:4294967296", "subtract 1", "name", "listed 00", "left 61", "rule 61 - - 61", "rule 61 - - 61 x", "expr 61",
            "word", "word 0 3 1 20 0 0", "word 0 3 1 20 0 0 61 61", "word 0 3 1 20 0 0 6", "word 0 3 1 20 0 x 61",
            "word 0 3 1 20 0 4294967296 61", "word - 3 1 20 0 0 61", "spell 1 0 0 20 4", "spell 1 0 0 20 4 61 61",
            "spell 1 0 0 20 4 6", "spell 4294967296 0 0 20 4 61", "spell 1 0 0 20 4097 61", "given 1 0 0 20 4 61",
            "given 1 0 0 20 0 0 4 61 61", "given 1 0 0 20 0 x 4 61", "given 1 0 0 20 0 0 4097 61", "bundle", "bundle 6", "bundle 0000 00",
            "lines 1 0 0 20 4", "lines 1 0 0 20 4 61 61", "lines 1 0 0 20 4 6", "lines 1 0 0 20 4097 61", "lines 1 0 0 x 4 61",
            "load", "load 1", "load 1 0 0", "load 1 98305", "load x 0", "load 1 -", "load 4294967296 0"]
# what is no case of a pack with five lists: a limit over 256, a list that is not there
NO_CASES += ["pack %s\nword %s" % (cases.PAPER_PACK.hex(), fields) for fields in (
    "0 3 1 257 0 0 61", "0 3 1 4294967295 0 0 61", "5 3 1 20 0 0 61", "0 5 1 20 0 0 61", "0 3 5 20 0 0 61", "0 98 1 20 0 0 61",
    "0 3 4294967295 20 0 0 61", "0 3 1 20 0 0", "0 3 1 20 0 0 -61")]


def run(command, lines):
    done = subprocess.run(command, input="".join(line + "\n" for line in lines).encode(), stdout=subprocess.PIPE, check=True)
    answers = done.stdout.decode().split("\n")[:-1]
    if len(answers) != len(lines):
        sys.exit("%s: %d answers to %d cases" % (command[-1], len(answers), len(lines)))
    return answers


def original_of(some):
    """What the original permits for each case: a tuple of answers, or None."""
    asked = [place for place, (_, ask, _) in enumerate(some) if ask is not None]
    answers = run(ORIGINAL, [some[place][1] for place in asked])
    permitted = [None] * len(some)
    for place, answer in zip(asked, answers):
        permitted[place] = some[place][2](answer)
    return permitted


def compare(layer, some, original):
    lines = [line for line, _, _ in some]
    port, second = run(ASK, lines), run(SECOND, lines)
    permitted = original_of(some) if original else [None] * len(some)
    differing = [case for case in zip(lines, port, second, permitted) if case[1] != case[2] or (case[3] is not None and case[1] not in case[3])]
    for line, one, other, may in sorted(differing, key=lambda case: len(case[0]))[:20]:
        print("%s\n  port %s\n  second %s\n  original %s" % (line, one, other, may))
    differ = len(differing)
    held = sum(may is not None for may in permitted)
    print("%s: %d cases, %d of them held against the original, %d differ" % (layer, len(lines), held, differ))
    return differ


def sampled(layer, seed, count, sample):
    some = list(cases.cases_of(layer, seed, count))
    if sample and sample < len(some):
        some = random.Random(seed).sample(some, sample)
    return some


def stored(layer):
    """Some cases of each kind, by the last line's word, and those that are wanted by name; of spelling, blocks and sets those of some packs,
    all of them; of loading as cases.py says; of narrowing all."""
    if layer in ("spelling", "blocks", "sets"):
        return list(cases.cases_of(layer, 1, 40 if layer == "spelling" else 10))
    if layer == "loading":
        return list(cases.loading_stored())
    if layer == "narrowing":
        return list(cases.narrowing_all())
    kinds = {}
    for case in cases.cases_of(layer, 1, 2000):
        kinds.setdefault(case[0].split("\n")[-1].split(" ")[0], []).append(case)
    rng = random.Random(layer)
    named = {"guessing": cases.guessing_blanks, "packs": cases.packs_boxes, "prefixes": cases.prefixes_named}.get(layer, tuple)()
    return [case for word, kind in kinds.items() for case in rng.sample(kind, min(700 if word == "lower" else STORED, len(kind)))] + list(named)


def store(layers):
    lines, answers = list(NO_CASES), ["?"] * len(NO_CASES)
    for layer in layers:
        some = stored(layer)
        second, pack = run(SECOND, [line for line, _, _ in some]), None
        for (line, _, _), other, may in zip(some, second, original_of(some)):
            if may is not None and other not in may:
                sys.exit("the second check and the original differ: " + line)
            setting, _, last = line.rpartition("\n")
            lines.append(last if setting and setting == pack else line)
            pack = setting or pack
            answers.append(other)
    for name, content in (("stdin", lines), ("stdout", answers)):
        with open(os.path.join(ROOT, "crates", "ask", name), "w") as file:
            file.write("".join(line + "\n" for line in content))
    print("%d cases stored" % len(lines))


def main():
    parser = argparse.ArgumentParser(usage=__doc__)
    parser.add_argument("layers", nargs="*")
    parser.add_argument("--seed", type=int, default=2)
    parser.add_argument("--count", type=int, default=20000)
    parser.add_argument("--sample", type=int, default=0)
    parser.add_argument("--no-original", action="store_true")
    parser.add_argument("--stored", action="store_true")
    given = parser.parse_args()
    layers = list(cases.LAYERS) if given.layers in ([], ["all"]) else given.layers
    if given.stored:
        return store(layers)
    differ = sum(compare(layer, sampled(layer, given.seed, given.count, given.sample), not given.no_original) for layer in layers)
    sys.exit(1 if differ else 0)


if __name__ == "__main__":
    main()
