#!/usr/bin/env python3
"""prepare.py CHECKED WORK
Makes the three source trees that are built from the sources in CHECKED:
  WORK/original  as published, but lib.rs does not name the crate's other modules
  WORK/counted   the same with counting lines in engine.rs, and counted/probe.rs as a module
  WORK/opened    the same with other words of visibility
Each change names a text and how often it stands in its file; where that is not so the run ends."""
import os
import re
import sys

HERE = os.path.dirname(os.path.abspath(__file__))
FILES = ["lib.rs", "helper.rs", "rules_parser.rs"] + [
    "beider_morse/%s.rs" % name
    for name in ("engine", "lang", "languages", "mod", "regex_optim", "rule")
]
LIB, MOD, ENGINE, LANG, OPTIM, RULE = (
    "lib.rs", "beider_morse/mod.rs", "beider_morse/engine.rs", "beider_morse/lang.rs",
    "beider_morse/regex_optim.rs", "beider_morse/rule.rs")

# lines of lib.rs that go, in blocks
OTHER_MODULES = """\
#![doc = document_features::document_features!()]

pub use crate::caverphone::{Caverphone1, Caverphone2};
pub use crate::cologne::Cologne;
pub use crate::daitch_mokotoff::{DaitchMokotoffSoundex, DaitchMokotoffSoundexBuilder};
pub use crate::double_metaphone::{DoubleMetaphone, DoubleMetaphoneResult};

pub use crate::match_rating_approach::MatchRatingApproach;
pub use crate::metaphone::Metaphone;
pub use crate::nysiis::Nysiis;
pub use crate::phonex::Phonex;
pub use crate::refined_soundex::RefinedSoundex;
pub use crate::soundex::{
    Soundex, DEFAULT_US_ENGLISH_GENEALOGY_MAPPING_SOUNDEX, DEFAULT_US_ENGLISH_MAPPING_SOUNDEX,
};

mod caverphone;
mod cologne;
mod daitch_mokotoff;
mod double_metaphone;

mod match_rating_approach;
mod metaphone;
mod nysiis;
mod phonex;
mod refined_soundex;

mod soundex;""".split("\n\n")

# (file, the text before which lines are put, those lines); the text stands once
LONGEST = "        crate::probe::texts(%s.iter().map(|p| p.phoneme_text().len()).max());\n"
COUNTING = [
    (LIB, "mod rules_parser;\n", "#[allow(missing_docs)]\npub mod probe;\n"),
    (ENGINE, "        self.phonemes = phonemes;\n",
     "        crate::probe::applied(phonemes.len(), max_phonemes);\n" + LONGEST % "phonemes"),
    (ENGINE, "    }\n\n    fn make_string(&self)", LONGEST % "self.phonemes"),
    (ENGINE, "        PhonemeBuilder { phonemes }\n",
     "        crate::probe::final_set(phonemes.len());\n"),
]

# (file, text, text with other words of visibility, how often)
OPENING = [
    (LIB, "\nmod beider_morse;", "\npub mod beider_morse;", 1),
    (MOD, "\nmod lang;", "\npub mod lang;", 1),
    (MOD, "\nmod regex_optim;", "\npub mod regex_optim;", 1),
    (MOD, "\nmod rule;", "\npub mod rule;", 1),
    (MOD, "\ntrait IsMatch", "\npub trait IsMatch", 1),
    (MOD, "\n    langs: Langs,", "\n    pub langs: Langs,", 1),
    (MOD, "\n    rules: Rules,", "\n    pub rules: Rules,", 1),
    (LANG, "\nstruct LangRule ", "\npub struct LangRule ", 1),
    (LANG, "\n    line_number: usize,", "\n    pub line_number: usize,", 1),
    (LANG, "\n    accept_on_match: bool,", "\n    pub accept_on_match: bool,", 1),
    (LANG, "\n    pattern: Regex,", "\n    pub pattern: Regex,", 1),
    # of a LangRule and of a Lang
    (LANG, "\n    languages: BTreeSet<String>,", "\n    pub languages: BTreeSet<String>,", 2),
    (LANG, "\n    rules: Vec<LangRule>,", "\n    pub rules: Vec<LangRule>,", 1),
    (OPTIM, "\npub(super) enum ", "\npub enum ", 1),
    # Rule and Rules
    (RULE, "\npub(crate) struct ", "\npub struct ", 2),
    (RULE, "\nfn parse_phoneme_expr(", "\npub fn parse_phoneme_expr(", 1),
    # of PhonemeList and of Rule
    (RULE, "\n    pub(crate) fn ", "\n    pub fn ", 4),
    (RULE, "\n    location: String,", "\n    pub location: String,", 1),
    (RULE, "\n    line: usize,", "\n    pub line: usize,", 1),
    (RULE, "\n    left_context: Either<", "\n    pub left_context: Either<", 1),
    (RULE, "\n    pattern: String,", "\n    pub pattern: String,", 1),
    (RULE, "\n    pattern_length_char: usize,", "\n    pub pattern_length_char: usize,", 1),
    (RULE, "\n    right_context: Either<", "\n    pub right_context: Either<", 1),
    (RULE, "\n    phoneme: PhonemeList,", "\n    pub phoneme: PhonemeList,", 1),
]


def change(tree, name, old, new, times):
    found = tree[name].count(old)
    if found != times:
        sys.exit("prepare.py: %s has %r %d times, not %d" % (name, old, found, times))
    tree[name] = tree[name].replace(old, new)


def read(*path):
    with open(os.path.join(*path), encoding="utf-8", newline="") as file:
        return file.read()


def put(tree, *folder):
    """Writes what is new only, so that nothing is built twice."""
    for name, text in tree.items():
        path = os.path.join(*folder, name)
        os.makedirs(os.path.dirname(path), exist_ok=True)
        if not os.path.exists(path) or read(path) != text:
            with open(path, "w", encoding="utf-8", newline="") as file:
                file.write(text)


def closed(text):
    """The text without words of visibility."""
    return re.sub(r"\bpub(\((crate|super)\))? ", "", text)


def main(checked, made):
    original = {name: read(checked, "src", name) for name in FILES}
    for block in OTHER_MODULES:
        change(original, LIB, "\n" + block + "\n", "\n", 1)
    put(original, made, "original")

    counted = dict(original)
    for name, place, lines in COUNTING:
        change(counted, name, place, lines + place, 1)
    counted["probe.rs"] = read(HERE, "counted", "probe.rs")
    put(counted, made, "counted")

    opened = dict(original)
    for name, old, new, times in OPENING:
        change(opened, name, old, new, times)
    for name in FILES:
        if closed(opened[name]) != closed(original[name]):
            sys.exit("prepare.py: more than visibility changed in %s" % name)
    put(opened, made, "opened")


if __name__ == "__main__":
    if len(sys.argv) != 3:
        sys.exit(__doc__)
    main(*sys.argv[1:])
