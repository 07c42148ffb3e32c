//! The program that prints keys: arguments, names in, keys out.
use crate::load::load;
use rphonetic::{BeiderMorseBuilder, Encoder, LanguageSet, NameType, RuleType};
use std::io::{BufWriter, Read, Write};
use std::panic::{catch_unwind, set_hook, AssertUnwindSafe};
use std::str::FromStr;
use std::time::Instant;

struct Asked {
    dir: String,
    name_type: NameType,
    rule_type: RuleType,
    concat: bool,
    limit: usize,
    langs: Option<LanguageSet>,
    time: bool,
    repeat: usize,
    dump: bool,
}

fn asked() -> Option<Asked> {
    let (mut langs, mut time, mut repeat, mut dump) = (None, false, 1, false);
    let mut plain = Vec::new();
    let mut words = std::env::args().skip(1);
    while let Some(word) = words.next() {
        match word.as_str() {
            "--langs" => langs = Some(language_set(&words.next()?)?),
            "--time" => time = true,
            "--repeat" => repeat = words.next()?.parse().ok()?,
            "--dump" => dump = true,
            _ => plain.push(word),
        }
    }
    let [dir, name_type, rule_type, concat, limit] = &plain[..] else {
        return None;
    };
    Some(Asked {
        dir: dir.clone(),
        name_type: NameType::from_str(name_type).ok()?,
        rule_type: match rule_type.as_str() {
            "approx" => RuleType::Approx,
            "exact" => RuleType::Exact,
            _ => return None,
        },
        concat: match concat.as_str() {
            "0" => false,
            "1" => true,
            _ => return None,
        },
        limit: limit.parse().ok()?,
        langs,
        time,
        repeat,
        dump,
    })
}

fn language_set(word: &str) -> Option<LanguageSet> {
    match word {
        "any" => Some(LanguageSet::Any),
        "none" => Some(LanguageSet::NoLanguages),
        _ => {
            let names = word.strip_prefix("some:")?;
            // `some:` has no names, where split would give an empty one
            let names = names.split(',').filter(|_| !names.is_empty());
            Some(LanguageSet::from(names.collect::<Vec<&str>>()))
        }
    }
}

/// `before` is called before each name, and what `columns` gives after it stands before its key.
pub fn run(program: &str, before: fn(), columns: fn() -> String) {
    let Some(asked) = asked() else {
        eprintln!("usage: {program} DIR ash|gen|sep approx|exact 0|1 LIMIT [--langs any|none|some:a,b] [--time] [--repeat N] [--dump]");
        eprintln!("       names on standard input, one a line (LF), keys on standard output; !utf8, !panic where there is none");
        std::process::exit(2)
    };
    set_hook(Box::new(|_| {}));
    let start = Instant::now();
    let config = load(&asked.dir);
    let loaded = start.elapsed();
    if asked.dump {
        println!("{config:#?}");
        return;
    }
    let morse = BeiderMorseBuilder::new(&config)
        .name_type(asked.name_type)
        .rule_type(asked.rule_type)
        .concat(asked.concat)
        .max_phonemes(asked.limit)
        .build();

    let mut input = Vec::new();
    std::io::stdin().read_to_end(&mut input).unwrap();
    // A line ends at LF or at the end; nothing follows a last LF. A CR is part of the name.
    let mut lines: Vec<&[u8]> = input.split(|byte| *byte == b'\n').collect();
    if lines.last().is_some_and(|line| line.is_empty()) {
        lines.pop();
    }
    let mut out = BufWriter::new(std::io::stdout().lock());
    let (mut spent, mut done) = (0, 0u64);
    for round in 1..=asked.repeat {
        for line in &lines {
            let shown = match std::str::from_utf8(line) {
                Err(_) => "!utf8".to_string(),
                Ok(name) => {
                    before();
                    let start = Instant::now();
                    let key = catch_unwind(AssertUnwindSafe(|| match &asked.langs {
                        None => morse.encode(name),
                        Some(langs) => morse.encode_with_languages(name, langs),
                    }));
                    spent += start.elapsed().as_nanos();
                    done += 1;
                    columns() + key.as_deref().unwrap_or("!panic")
                }
            };
            // every round gives the same; the last one is shown
            if round == asked.repeat {
                writeln!(out, "{shown}").unwrap();
            }
        }
    }
    out.flush().unwrap();
    if asked.time {
        eprintln!(
            "encode_ns={spent} names={done} ns_per_name={:.0} names_per_s={:.0} load_ms={:.1}",
            spent as f64 / done.max(1) as f64,
            done as f64 * 1e9 / spent.max(1) as f64,
            loaded.as_secs_f64() * 1e3
        );
    }
}
