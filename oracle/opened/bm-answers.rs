//! Reads cases on standard input, one a line, and prints the original's answer to each; see README.md.
extern crate rphonetic_opened as rphonetic;

mod show;

use either::Either;
use regex::Regex;
use rphonetic::beider_morse::lang::LangRule;
use rphonetic::beider_morse::regex_optim::OptimizedRegex;
use rphonetic::beider_morse::rule::{parse_phoneme_expr, Phoneme, Rule};
use rphonetic::beider_morse::IsMatch;
use rphonetic::{CharSequence, LanguageSet};
use show::{alternatives, hex};
use std::cmp::Ordering;
use std::collections::BTreeSet;
use std::io::{BufRead, Write};

const NO_CASE: &str = "?";
const NOT_IN_RANGE: &str = "!";
const REFUSED: &str = "Refused";
const PANIC: &str = "Panic";

/// An answer, or the word that stands for there being none.
type Answer<T = String> = Result<T, &'static str>;

fn bytes(field: &str) -> Answer<Vec<u8>> {
    if field == "-" {
        return Ok(Vec::new());
    }
    if field.is_empty() || field.len() % 2 != 0 {
        return Err(NO_CASE);
    }
    let digit = |byte: &u8| match byte {
        b'0'..=b'9' => Ok(byte - b'0'),
        b'a'..=b'f' => Ok(byte - b'a' + 10),
        _ => Err(NO_CASE),
    };
    let pairs = field.as_bytes().chunks(2);
    pairs
        .map(|pair| Ok(digit(&pair[0])? * 16 + digit(&pair[1])?))
        .collect()
}

/// The texts of some fields; which fields are no hex is judged before which are no UTF-8.
fn texts<const N: usize>(fields: [&str; N]) -> Answer<[String; N]> {
    let mut texts = [const { String::new() }; N];
    let all: Vec<Vec<u8>> = fields.into_iter().map(bytes).collect::<Answer<_>>()?;
    for (text, bytes) in texts.iter_mut().zip(all) {
        *text = String::from_utf8(bytes).map_err(|_| NOT_IN_RANGE)?;
    }
    Ok(texts)
}

fn number(field: &str) -> Answer<u32> {
    if !field.bytes().all(|byte| byte.is_ascii_digit()) {
        return Err(NO_CASE);
    }
    field.parse().map_err(|_| NO_CASE)
}

fn bit(value: bool) -> String {
    (value as u8).to_string()
}

fn decode(bytes: &[u8]) -> String {
    match std::str::from_utf8(bytes) {
        Err(error) => format!("ill {}", error.valid_up_to()),
        Ok(text) => text.chars().fold("text".to_string(), |line, character| {
            format!("{line} {}", character as u32)
        }),
    }
}

/// Whether names may hold this character (document 01, "Letters").
fn in_range(character: char) -> bool {
    matches!(character, '\u{20}'..='\u{7e}' | '\u{a1}'..='\u{12f}' | '\u{131}'..='\u{17f}')
}

fn outside(bytes: &[u8]) -> Option<usize> {
    let (text, ill) = match std::str::from_utf8(bytes) {
        Ok(text) => (text, None),
        Err(error) => {
            let end = error.valid_up_to();
            (std::str::from_utf8(&bytes[..end]).unwrap(), Some(end))
        }
    };
    let stranger = text.char_indices().find(|(_, c)| !in_range(*c));
    stranger.map(|(place, _)| place).or(ill)
}

fn lower(text: &str) -> Answer {
    match outside(text.as_bytes()) {
        None => Ok(hex(text.to_lowercase().as_bytes())),
        Some(_) => Err(NOT_IN_RANGE),
    }
}

/// By the order of phonemes, which has to be that of str.
fn order(a: &str, b: &str) -> String {
    let phoneme = |text| Phoneme::new(text, LanguageSet::Any);
    let order = phoneme(a).cmp(&phoneme(b));
    assert_eq!(order, a.cmp(b));
    match order {
        Ordering::Less => "less",
        Ordering::Equal => "equal",
        Ordering::Greater => "greater",
    }
    .to_string()
}

/// The language of bit `index`: `a` to `z`, `za` to `zf`, so that the order of names is that of bits.
fn language(index: u8) -> String {
    match index {
        0..=25 => char::from(b'a' + index).to_string(),
        _ => format!("z{}", char::from(b'a' + index - 26)),
    }
}

fn index(name: &str) -> u8 {
    (0..32).find(|index| language(*index) == name).unwrap()
}

fn set(field: &str) -> Answer<LanguageSet> {
    match field {
        "any" => Ok(LanguageSet::Any),
        "none" => Ok(LanguageSet::NoLanguages),
        _ => {
            let bits = number(field.strip_prefix("some:").ok_or(NO_CASE)?)?;
            let some = (0..32).filter(|index| bits >> index & 1 == 1);
            Ok(LanguageSet::SomeLanguages(some.map(language).collect()))
        }
    }
}

fn shown(set: LanguageSet) -> String {
    match set {
        LanguageSet::Any => "any".to_string(),
        LanguageSet::NoLanguages => "none".to_string(),
        LanguageSet::SomeLanguages(names) => {
            let bits: u32 = names.iter().map(|name| 1 << index(name)).sum();
            format!("some:{bits}")
        }
    }
}

fn left_of(narrowed: LanguageSet) -> String {
    if narrowed.is_empty() {
        "nothing".to_string()
    } else {
        shown(narrowed)
    }
}

fn single(set: &LanguageSet) -> String {
    if set.is_singleton() {
        index(set.any().unwrap()).to_string()
    } else {
        "-".to_string()
    }
}

/// As parse_rule of rule.rs, which puts `$` after the left and `^` before the right.
fn context(regex: &str) -> Answer<Either<Regex, OptimizedRegex>> {
    match regex.parse::<OptimizedRegex>() {
        Ok(optimized) => Ok(Either::Right(optimized)),
        Err(()) => Regex::new(regex).map(Either::Left).map_err(|_| REFUSED),
    }
}

fn left(text: &str) -> Answer<Either<Regex, OptimizedRegex>> {
    context(&format!("{text}$"))
}

fn right(text: &str) -> Answer<Either<Regex, OptimizedRegex>> {
    context(&format!("^{text}"))
}

fn matched(context: &Either<Regex, OptimizedRegex>, text: &str) -> String {
    let shown = show::context(context);
    let form = shown.split(':').next().unwrap();
    format!("{form} {}", bit(context.is_match(text)))
}

fn expression(text: &str) -> Answer {
    let list = parse_phoneme_expr(text).map_err(|_| REFUSED)?;
    Ok(format!("ok{}", alternatives(&list)))
}

fn guess(pattern: &str, name: &str) -> Answer {
    let rule = LangRule {
        line_number: 0,
        accept_on_match: true,
        languages: BTreeSet::new(),
        pattern: Regex::new(pattern).map_err(|_| REFUSED)?,
    };
    Ok(bit(rule.matches(name)))
}

/// A rule as parse_rule makes it, tried at a byte of the text.
fn rule([pattern, l, r, text]: [String; 4], place: usize) -> Answer {
    if !text.is_char_boundary(place) {
        return Err(NO_CASE);
    }
    let (left_context, right_context) = (left(&l)?, right(&r)?);
    if pattern.is_empty() {
        // parse_rule unwraps the first character
        return Err(PANIC);
    }
    let rule = Rule {
        location: String::new(),
        line: 0,
        left_context,
        pattern_length_char: pattern.chars().count(),
        pattern,
        right_context,
        phoneme: parse_phoneme_expr("").unwrap(),
    };
    let index = text[..place].chars().count();
    let text = CharSequence::from(text.as_str());
    Ok(bit(rule.pattern_and_context_matches(&text, index)))
}

fn answer(line: &[u8]) -> Answer {
    let line = std::str::from_utf8(line).map_err(|_| NO_CASE)?;
    let fields: Vec<&str> = line.split(' ').collect();
    match fields[..] {
        ["decode", a] => Ok(decode(&bytes(a)?)),
        ["outside", a] => Ok(match outside(&bytes(a)?) {
            None => "-".to_string(),
            Some(place) => place.to_string(),
        }),
        ["lower", a] => texts([a]).and_then(|[a]| lower(&a)),
        ["order", a, b] => texts([a, b]).map(|[a, b]| order(&a, &b)),
        ["narrow", a, b] => Ok(left_of(set(a)?.restrict_to(&set(b)?))),
        ["restrict", a, b] => Ok(shown(set(a)?.restrict_to(&set(b)?))),
        ["merge", a, b] => Ok(shown(set(a)?.merge(&set(b)?))),
        ["single", a] => Ok(single(&set(a)?)),
        ["left", c, t] => texts([c, t]).and_then(|[c, t]| Ok(matched(&left(&c)?, &t))),
        ["right", c, t] => texts([c, t]).and_then(|[c, t]| Ok(matched(&right(&c)?, &t))),
        ["expr", a] => texts([a]).and_then(|[a]| expression(&a)),
        ["guess", p, n] => texts([p, n]).and_then(|[p, n]| guess(&p, &n)),
        ["rule", p, l, r, t, place] => {
            let place = number(place)? as usize;
            rule(texts([p, l, r, t])?, place)
        }
        _ => Err(NO_CASE),
    }
}

fn main() -> std::io::Result<()> {
    std::panic::set_hook(Box::new(|_| {}));
    let mut out = std::io::stdout().lock();
    for line in std::io::stdin().lock().split(b'\n') {
        let line = line?;
        let answer = std::panic::catch_unwind(|| answer(&line)).unwrap_or(Err(PANIC));
        writeln!(out, "{}", answer.unwrap_or_else(str::to_string))?;
    }
    Ok(())
}
