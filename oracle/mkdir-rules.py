#!/usr/bin/env python3
"""mkdir-rules.py DST FILE|FOLDER..
Copies rule files (names as in the crate, with or without .txt) to the folder DST, and fills in what else the
crate wants to load it: for each of ash, gen and sep a language list (`any`), an empty guessing file, and the rule
files of each listed language and of `common`. So a test of one name type needs a handful of files."""
import os
import re
import shutil
import sys


def copy(source, dst):
    name = os.path.basename(source)
    shutil.copyfile(source, os.path.join(dst, name if name.endswith(".txt") else name + ".txt"))


def fill(dst, name, text):
    path = os.path.join(dst, name + ".txt")
    if not os.path.exists(path):
        with open(path, "w", encoding="utf-8") as file:
            file.write(text)


def languages(path):
    """The names in a language list; a line that is none is left to the crate."""
    with open(path, encoding="utf-8", errors="replace", newline="") as file:
        text = re.sub(r"/\*.*?\*/", "", file.read(), flags=re.S)
    lines = {line.split("//")[0].strip() for line in text.split("\n")}
    return sorted(line for line in lines if re.fullmatch("[A-Za-z]+", line))


def main(dst, sources):
    os.makedirs(dst, exist_ok=True)
    for source in sources:
        if os.path.isdir(source):
            for name in os.listdir(source):
                copy(os.path.join(source, name), dst)
        else:
            copy(source, dst)
    for name_type in ("ash", "gen", "sep"):
        fill(dst, name_type + "_languages", "any\n")
        fill(dst, name_type + "_lang", "")
        for language in languages(os.path.join(dst, name_type + "_languages.txt")):
            for kind in ("rules", "approx", "exact"):
                fill(dst, "%s_%s_%s" % (name_type, kind, language), "// filled in\n")
        for kind in ("approx", "exact"):
            fill(dst, "%s_%s_common" % (name_type, kind), "// filled in\n")


if __name__ == "__main__":
    if len(sys.argv) < 2:
        sys.exit(__doc__)
    main(sys.argv[1], sys.argv[2:])
