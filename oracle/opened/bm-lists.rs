//! bm-lists DIR ash|gen|sep: what the crate holds of a rule folder for a name type, in the order of a pack.
extern crate rphonetic_opened as rphonetic;

#[path = "../common/load.rs"]
mod load;
mod show;

use load::load;
use rphonetic::beider_morse::rule::PrivateRuleType::{self, Approx, Exact, Rules};
use rphonetic::{ConfigFiles, NameType};
use show::{alternatives, context, hex, names};
use std::io::{BufWriter, Result, Write};
use std::str::FromStr;

fn list(
    out: &mut impl Write,
    config: &ConfigFiles,
    name_type: NameType,
    kind: PrivateRuleType,
    language: &str,
) -> Result<()> {
    let list = config.rules.rules(name_type, kind, language).unwrap();
    let count: usize = list.values().map(Vec::len).sum();
    writeln!(out, "list {kind} {language} {count}")?;
    for rule in list.values().flatten() {
        writeln!(
            out,
            "rule {} {} {}{}",
            hex(rule.pattern.as_bytes()),
            context(&rule.left_context),
            context(&rule.right_context),
            alternatives(&rule.phoneme)
        )?;
    }
    Ok(())
}

fn main() -> Result<()> {
    let args: Vec<String> = std::env::args().skip(1).collect();
    let asked = match &args[..] {
        [dir, name_type] => NameType::from_str(name_type).ok().map(|t| (dir, t)),
        _ => None,
    };
    let Some((dir, name_type)) = asked else {
        eprintln!("usage: bm-lists DIR ash|gen|sep");
        std::process::exit(2)
    };
    std::panic::set_hook(Box::new(|_| {}));
    let config = load(dir);
    let lang = config.langs.get(&name_type).unwrap();
    let mut out = BufWriter::new(std::io::stdout().lock());
    for language in &lang.languages {
        writeln!(out, "language {language}")?;
    }
    for rule in &lang.rules {
        writeln!(
            out,
            "guess {} {} {}",
            rule.accept_on_match as u8,
            names(&rule.languages),
            hex(rule.pattern.as_str().as_bytes())
        )?;
    }
    for language in &lang.languages {
        for kind in [Rules, Approx, Exact] {
            list(&mut out, &config, name_type, kind, language)?;
        }
    }
    for kind in [Approx, Exact] {
        list(&mut out, &config, name_type, kind, "common")?;
    }
    out.flush()
}
