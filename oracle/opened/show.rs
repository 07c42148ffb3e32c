//! How what the crate holds is written in a line.
use either::Either;
use regex::Regex;
use rphonetic::beider_morse::regex_optim::OptimizedRegex;
use rphonetic::beider_morse::rule::PhonemeList;
use rphonetic::LanguageSet;

/// `-` stands for no bytes.
pub fn hex(bytes: &[u8]) -> String {
    match bytes {
        [] => "-".to_string(),
        _ => bytes.iter().map(|byte| format!("{byte:02x}")).collect(),
    }
}

fn in_hex(name: &str) -> String {
    format!("={}", hex(name.as_bytes()))
}

/// Joined by `+`; a name with other characters than ASCII letters is `=` and its hex.
pub fn names<'a>(names: impl IntoIterator<Item = &'a String>) -> String {
    let shown = names.into_iter().map(|name| {
        if name.bytes().all(|byte| byte.is_ascii_alphabetic()) {
            name.clone()
        } else {
            in_hex(name)
        }
    });
    shown.collect::<Vec<String>>().join("+")
}

/// `any` is Any, and the set of the one language `any` is in hex.
fn languages(set: &LanguageSet) -> String {
    match set {
        LanguageSet::Any => "any".to_string(),
        LanguageSet::NoLanguages => unreachable!("no expression gives it"),
        LanguageSet::SomeLanguages(some) => match names(some).as_str() {
            "any" => in_hex("any"),
            shown => shown.to_string(),
        },
    }
}

/// A blank, the text, `:` and its languages, for each alternative.
pub fn alternatives(list: &PhonemeList) -> String {
    let shown = list.phonemes().into_iter().map(|phoneme| {
        let text = hex(phoneme.phoneme_text().as_bytes());
        format!(" {text}:{}", languages(phoneme.languages()))
    });
    shown.collect()
}

/// The form, and after `:` what it holds; boxes have 1 for one of the characters, 0 for another one.
pub fn context(context: &Either<Regex, OptimizedRegex>) -> String {
    use OptimizedRegex::*;
    let text = |form, text: &str| format!("{form}:{}", hex(text.as_bytes()));
    let within = |form, list: &str, one| format!("{form}:{}:{}", one as u8, hex(list.as_bytes()));
    match context {
        Either::Left(regex) => text("Regex", regex.as_str()),
        Either::Right(AllStringsMatcher) => "AllStringsMatcher".to_string(),
        Either::Right(IsEmpty) => "IsEmpty".to_string(),
        Either::Right(Equals(content)) => text("Equals", content),
        Either::Right(StartsWith(content)) => text("StartsWith", content),
        Either::Right(EndsWith(content)) => text("EndsWith", content),
        Either::Right(EqualsChar(list, one)) => within("EqualsChar", list, *one),
        Either::Right(StartsWithChar(list, one)) => within("StartsWithChar", list, *one),
        Either::Right(EndsWithChar(list, one)) => within("EndsWithChar", list, *one),
    }
}
