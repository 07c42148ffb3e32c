//! The port's static library against the original, in one process; bench/run builds and runs it.
//!
//!     bench DIR SURNAMES                            prints the tables
//!     bench DIR SURNAMES port|original KIND LIMIT   one bulk round of a side, in a function whose instructions can be counted
//!     bench one SIDE RULES NAME KIND LIMIT CAP ROUNDS
//!
//! The last spells one name by a pack (SIDE port, or before) or a folder (SIDE original), ROUNDS times unless that takes over a second,
//! and is cut after CAP seconds of processor time. It prints the seconds of the quickest round, those of the check or of the load, the
//! code, and length and mark of the answer.
//!
//! DIR holds what bench/run has made: the folders `all`, `half` and `quarter` for the original, the packs of the same rules, and `bundle`;
//! and in `slow` the packs that are made to be slow. Compiled with `--cfg before`, an earlier library is measured beside the port's.
use rphonetic::{BeiderMorse, BeiderMorseBuilder, ConfigFiles, Encoder, NameType, RuleType};
use std::fmt::Display;
use std::hint::black_box;
use std::path::{Path, PathBuf};
use std::process::Command;

const ROUNDS: usize = 25;
const SECONDS: f64 = 8.0;
/// Of a slowest answer: the seconds after which a side is cut, and its rounds, none of which begins after a second.
const CAP: u64 = 30;
const FEW_ROUNDS: usize = 5;
const KINDS: [&str; 2] = ["approx", "exact"];
const GENERIC: u32 = 1;

/// docs/c/bm.h
#[rustfmt::skip]
mod face {
    extern "C" {
        pub fn bm_load(name_type: u32, bundle: *const u8, bundle_length: usize, out: *mut u8, out_length: usize, tail: *mut u64, tail_length: usize) -> u32;
        pub fn bm_check(pack: *const u8, pack_length: usize, tail: *mut u64, tail_length: usize) -> u32;
        pub fn bm_spell(
            name_type: u32, rule_type: u32, concat: u32, limit: u32, pack: *const u8, pack_length: usize, name: *const u8, name_length: usize,
            out: *mut u8, out_length: usize, tail: *mut u64, tail_length: usize) -> u32;
        pub fn bm_spell_lines(
            name_type: u32, rule_type: u32, concat: u32, limit: u32, given: u32, kind: u32, bits: u32, pack: *const u8, pack_length: usize,
            block: *const u8, block_length: usize, out: *mut u8, out_length: usize, tail: *mut u64, tail_length: usize) -> u32;
    }
}

/// Of an earlier library, whose names bench/run has put `before_` in front of.
#[cfg(before)]
#[rustfmt::skip]
mod before {
    extern "C" {
        pub fn before_bm_check(pack: *const u8, pack_length: usize, tail: *mut u64, tail_length: usize) -> u32;
        pub fn before_bm_spell(
            name_type: u32, rule_type: u32, concat: u32, limit: u32, pack: *const u8, pack_length: usize, name: *const u8, name_length: usize,
            out: *mut u8, out_length: usize, tail: *mut u64, tail_length: usize) -> u32;
        pub fn before_bm_spell_lines(
            name_type: u32, rule_type: u32, concat: u32, limit: u32, given: u32, kind: u32, bits: u32, pack: *const u8, pack_length: usize,
            block: *const u8, block_length: usize, out: *mut u8, out_length: usize, tail: *mut u64, tail_length: usize) -> u32;
    }
}

type Check = unsafe extern "C" fn(*const u8, usize, *mut u64, usize) -> u32;
#[rustfmt::skip]
type Spell = unsafe extern "C" fn(u32, u32, u32, u32, *const u8, usize, *const u8, usize, *mut u8, usize, *mut u64, usize) -> u32;
#[rustfmt::skip]
type Lines = unsafe extern "C" fn(u32, u32, u32, u32, u32, u32, u32, *const u8, usize, *const u8, usize, *mut u8, usize, *mut u64, usize) -> u32;

/// The functions of a library by which names are spelled: a check, a name, a block of names.
#[derive(Clone, Copy)]
struct Library {
    check: Check,
    spell: Spell,
    lines: Lines,
}

const NOW: Library = Library {
    check: face::bm_check,
    spell: face::bm_spell,
    lines: face::bm_spell_lines,
};

#[cfg(before)]
const BEFORE: Option<Library> = Some(Library {
    check: before::before_bm_check,
    spell: before::before_bm_spell,
    lines: before::before_bm_spell_lines,
});
#[cfg(not(before))]
const BEFORE: Option<Library> = None;

/// A rule kind (0 approx, 1 exact) and a limit; Generic, no concat.
#[derive(Clone, Copy)]
struct Setting {
    kind: u32,
    limit: u32,
}

impl Setting {
    fn of(kind: &str, limit: &str) -> Setting {
        Setting {
            kind: KINDS.iter().position(|known| *known == kind).unwrap() as u32,
            limit: limit.parse().unwrap(),
        }
    }
}

impl Display for Setting {
    fn fmt(&self, out: &mut std::fmt::Formatter) -> std::fmt::Result {
        write!(out, "{}, limit {}", KINDS[self.kind as usize], self.limit)
    }
}

const APPROX_20: Setting = Setting { kind: 0, limit: 20 };
const APPROX_256: Setting = Setting {
    kind: 0,
    limit: 256,
};
const EXACT_20: Setting = Setting { kind: 1, limit: 20 };
const EXACT_256: Setting = Setting {
    kind: 1,
    limit: 256,
};
const FOUR: [Setting; 4] = [APPROX_20, APPROX_256, EXACT_20, EXACT_256];

/// A library, a pack and the buffers that are lent.
struct Port {
    library: Library,
    pack: Vec<u8>,
    out: Vec<u8>,
    tail: [u64; 2],
}

impl Port {
    fn new(library: Library, pack: Vec<u8>) -> Port {
        let mut port = Port {
            library,
            pack,
            out: vec![0; 8 << 20],
            tail: [0; 2],
        };
        assert_eq!(port.check(), 0);
        port
    }

    #[rustfmt::skip]
    fn load(bundle: &[u8]) -> Vec<u8> {
        let (mut out, mut tail) = (vec![0; 49152], [0u64; 2]);
        let code = unsafe { face::bm_load(GENERIC, bundle.as_ptr(), bundle.len(), out.as_mut_ptr(), out.len(), tail.as_mut_ptr(), 2) };
        assert_eq!(code, 0, "the bundle is refused at {tail:?}");
        out.truncate(tail[0] as usize);
        out
    }

    #[rustfmt::skip]
    fn check(&mut self) -> u32 {
        unsafe { (self.library.check)(black_box(self.pack.as_ptr()), self.pack.len(), self.tail.as_mut_ptr(), 2) }
    }

    /// The code of a checked call; the answer is in `out`, its length in `tail`.
    #[rustfmt::skip]
    fn spell(&mut self, setting: Setting, name: &str) -> u32 {
        unsafe {
            (self.library.spell)(
                GENERIC, setting.kind, 0, setting.limit, self.pack.as_ptr(), self.pack.len(), name.as_ptr(), name.len(),
                self.out.as_mut_ptr(), self.out.len(), self.tail.as_mut_ptr(), 2)
        }
    }

    /// The lines of a block of names.
    #[rustfmt::skip]
    fn lines(&mut self, setting: Setting, block: &[u8]) -> &[u8] {
        let code = unsafe {
            (self.library.lines)(
                GENERIC, setting.kind, 0, setting.limit, 0, 0, 0, self.pack.as_ptr(), self.pack.len(), block.as_ptr(), block.len(),
                self.out.as_mut_ptr(), self.out.len(), self.tail.as_mut_ptr(), 2)
        };
        assert!(code == 0 && self.tail[0] as usize == block.len(), "the block has too long answers");
        &self.out[..self.tail[1] as usize]
    }

    /// The names that are answered with a key under each setting.
    fn answered(&mut self, settings: &[Setting], names: &[String]) -> Vec<String> {
        let mut kept = names.to_vec();
        for setting in settings {
            let block = block_of(&kept);
            let mut lines = self.lines(*setting, &block).split(|byte| *byte == b'\n');
            kept.retain(|_| lines.next().unwrap().starts_with(b"0 "));
        }
        kept
    }
}

/// Of one name: seconds, those of the check or the load before it, the code, and length and mark (FNV-1a) of the answer.
struct Told {
    time: f64,
    before: f64,
    code: u32,
    length: usize,
    mark: u64,
}

impl Told {
    fn of(time: f64, before: f64, code: u32, answer: &[u8]) -> Told {
        let mark = answer.iter().fold(0xcbf29ce484222325, |mark: u64, byte| {
            (mark ^ *byte as u64).wrapping_mul(0x100000001b3)
        });
        Told {
            time,
            before,
            code,
            length: answer.len(),
            mark,
        }
    }

    fn read(line: &str) -> Told {
        let [time, before, code, length, mark] = line.split_whitespace().collect::<Vec<_>>()[..]
        else {
            panic!("{line}");
        };
        Told {
            time: time.parse().unwrap(),
            before: before.parse().unwrap(),
            code: code.parse().unwrap(),
            length: length.parse().unwrap(),
            mark: u64::from_str_radix(mark, 16).unwrap(),
        }
    }

    /// By a checked call of a library, with room for any answer.
    fn by_library(
        library: Library,
        pack: Vec<u8>,
        name: &str,
        setting: Setting,
        rounds: usize,
    ) -> Told {
        let mut port = Port::new(library, pack);
        port.out = vec![0; 64 << 20];
        let (check, _) = seconds(|| port.check());
        let (time, code) = best_of(rounds, || port.spell(setting, name));
        let written = if code == 0 { port.tail[0] as usize } else { 0 };
        Told::of(time, check, code, &port.out[..written])
    }

    /// By the original, preloaded.
    fn by_original(folder: PathBuf, name: &str, setting: Setting, rounds: usize) -> Told {
        let (load, config) = seconds(|| ConfigFiles::new(&folder).unwrap());
        let morse = original(&config, setting);
        let (time, key) = best_of(rounds, || morse.encode(name));
        Told::of(time, load, 0, key.as_bytes())
    }

    /// By a side in a process of its own; none where it is cut.
    fn by_side(side: &str, rules: &Path, name: &str) -> Option<Told> {
        let done = Command::new(std::env::current_exe().unwrap())
            .args(["one", side])
            .arg(rules)
            .args([name, "approx", "256"])
            .args([CAP.to_string(), FEW_ROUNDS.to_string()])
            .output()
            .unwrap();
        match done.status.code() {
            Some(0) => Some(Told::read(&String::from_utf8(done.stdout).unwrap())),
            None => None,
            _ => panic!("{name}: {}", String::from_utf8_lossy(&done.stderr)),
        }
    }
}

/// What `one` prints.
fn one(words: &[String]) {
    let [side, rules, name, kind, limit, cap, rounds] = words else {
        panic!("{words:?}");
    };
    stop_after(cap.parse().unwrap());
    let (setting, rounds) = (Setting::of(kind, limit), rounds.parse().unwrap());
    let pack = || std::fs::read(rules).unwrap();
    let told = match side.as_str() {
        "port" => Told::by_library(NOW, pack(), name, setting, rounds),
        "before" => Told::by_library(BEFORE.unwrap(), pack(), name, setting, rounds),
        _ => Told::by_original(PathBuf::from(rules), name, setting, rounds),
    };
    println!(
        "{:.6} {:.6} {} {} {:016x}",
        told.time, told.before, told.code, told.length, told.mark
    );
}

/// The system ends this process when it has used so many seconds of processor time.
fn stop_after(cap: u64) {
    extern "C" {
        fn setrlimit(resource: i32, limit: *const [u64; 2]) -> i32;
    }
    const RLIMIT_CPU: i32 = 0;
    assert_eq!(unsafe { setrlimit(RLIMIT_CPU, &[cap, cap]) }, 0);
}

fn original(config: &ConfigFiles, setting: Setting) -> BeiderMorse<'_> {
    let kind = [RuleType::Approx, RuleType::Exact][setting.kind as usize];
    BeiderMorseBuilder::new(config)
        .name_type(NameType::Generic)
        .rule_type(kind)
        .concat(false)
        .max_phonemes(setting.limit as usize)
        .build()
}

fn block_of(names: &[String]) -> Vec<u8> {
    names
        .iter()
        .flat_map(|name| name.bytes().chain([b'\n']))
        .collect()
}

/// Every key from a block is the original's.
fn assert_lines(port: &mut Port, keys: &[String], setting: Setting, names: &[String]) {
    let lines = String::from_utf8(port.lines(setting, &block_of(names)).to_vec()).unwrap();
    assert_eq!(lines.lines().count(), names.len());
    for ((name, key), line) in names.iter().zip(keys).zip(lines.lines()) {
        assert_eq!(&line[4..], key, "{name}");
    }
}

/// Every key of the port, from a block and from a call of its own, is the original's.
fn assert_equal(port: &mut Port, keys: &[String], setting: Setting, names: &[String]) {
    assert_lines(port, keys, setting, names);
    for (name, key) in names.iter().zip(keys) {
        assert_eq!(port.spell(setting, name), 0);
        assert_eq!(&port.out[..port.tail[0] as usize], key.as_bytes(), "{name}");
    }
}

#[no_mangle]
#[inline(never)]
fn port_round(port: &mut Port, setting: Setting, block: &[u8]) {
    black_box(port.lines(setting, black_box(block)));
}

#[no_mangle]
#[inline(never)]
fn original_round(morse: &BeiderMorse, names: &[String]) {
    for name in names {
        black_box(morse.encode(black_box(name)));
    }
}

/// A checked call for each name.
fn calls(port: &mut Port, setting: Setting, names: &[String]) {
    for name in names {
        black_box(port.spell(setting, black_box(name)));
    }
}

/// Seconds of processor time that this thread has used, so that other work on the machine does not count.
fn used() -> f64 {
    extern "C" {
        fn clock_gettime(clock: i32, time: *mut [i64; 2]) -> i32;
    }
    const CLOCK_THREAD_CPUTIME_ID: i32 = 3;
    let mut time = [0; 2];
    assert_eq!(
        unsafe { clock_gettime(CLOCK_THREAD_CPUTIME_ID, &mut time) },
        0
    );
    time[0] as f64 + time[1] as f64 * 1e-9
}

/// What something takes, and what it gives.
fn seconds<T>(what: impl FnOnce() -> T) -> (f64, T) {
    let start = used();
    let given = what();
    (used() - start, given)
}

/// The same of the quickest of rounds, none of which begins after a second.
fn best_of<T>(rounds: usize, mut what: impl FnMut() -> T) -> (f64, T) {
    let begun = used();
    let mut best = seconds(&mut what);
    for _ in 1..rounds {
        if 1.0 < used() - begun {
            break;
        }
        let (time, _) = seconds(&mut what);
        best.0 = best.0.min(time);
    }
    best
}

/// Seconds of the quickest of rounds in which the sides take turns; after SECONDS no further round begins.
fn quickest<const N: usize>(mut sides: [&mut dyn FnMut(); N]) -> [f64; N] {
    let (mut best, begun) = ([f64::MAX; N], used());
    for _ in 0..ROUNDS {
        for (side, best) in sides.iter_mut().zip(&mut best) {
            let start = used();
            side();
            *best = best.min(used() - start);
        }
        if SECONDS < used() - begun {
            break;
        }
    }
    best
}

fn fastest(mut one: impl FnMut(), mut other: impl FnMut()) -> (f64, f64) {
    let [one, other] = quickest([&mut one, &mut other]);
    (one, other)
}

/// `1 name`, `2 names`.
fn counted(names: &[String]) -> String {
    format!(
        "{} name{}",
        names.len(),
        if names.len() == 1 { "" } else { "s" }
    )
}

fn row(what: impl Display, port: f64, original: f64) {
    println!(
        "| {what} | {port:.1} | {original:.1} | {:.2} |",
        original / port
    );
}

/// Microseconds a name in bulk of the port, of the original and of an earlier library.
struct Times {
    port: f64,
    original: f64,
    before: Option<f64>,
}

impl Times {
    fn head(title: &str, first: &str) {
        println!("\n{title}\n");
        match BEFORE {
            Some(_) => println!("| {first} | before, µs | port, µs | before / port | original, µs | original / port |\n|---|---|---|---|---|---|"),
            None => println!("| {first} | port, µs | original, µs | original / port |\n|---|---|---|---|"),
        }
    }

    fn row(&self, what: impl Display) {
        match self.before {
            Some(before) => println!(
                "| {what} | {before:.1} | {:.1} | {:.2} | {:.1} | {:.2} |",
                self.port,
                before / self.port,
                self.original,
                self.original / self.port
            ),
            None => row(what, self.port, self.original),
        }
    }
}

struct Bench {
    port: Port,
    config: ConfigFiles,
    names: Vec<String>,
}

impl Bench {
    /// The rules of a folder and of the pack beside it.
    fn of_folder(folder: &Path) -> Bench {
        Bench {
            port: Port::new(NOW, std::fs::read(folder.with_extension("pack")).unwrap()),
            config: ConfigFiles::new(&folder.to_path_buf()).unwrap(),
            names: Vec::new(),
        }
    }

    /// What a name takes in bulk, whose keys are equal first.
    fn bulk(&mut self, setting: Setting, names: &[String]) -> Times {
        let morse = original(&self.config, setting);
        let keys: Vec<String> = names.iter().map(|name| morse.encode(name)).collect();
        assert_equal(&mut self.port, &keys, setting, names);
        let (block, count) = (block_of(names), 1e6 / names.len() as f64);
        let earlier = BEFORE.map(|library| Port::new(library, self.port.pack.clone()));
        let (mut one, mut other) = (
            || port_round(&mut self.port, setting, &block),
            || original_round(&morse, names),
        );
        let Some(mut earlier) = earlier else {
            let [port, original] = quickest([&mut one, &mut other]).map(|time| time * count);
            return Times {
                port,
                original,
                before: None,
            };
        };
        assert_lines(&mut earlier, &keys, setting, names);
        let mut third = || port_round(&mut earlier, setting, &block);
        let [port, original, before] =
            quickest([&mut one, &mut other, &mut third]).map(|time| time * count);
        Times {
            port,
            original,
            before: Some(before),
        }
    }

    fn main_table(&mut self, dir: &Path) -> Figures {
        println!("| what | port | original | original's time / port's |\n|---|---|---|---|");
        let (mut checked, mut figures) = (Vec::new(), Figures::default());
        for setting in FOUR {
            let names = self.port.answered(&[setting], &self.names);
            let times = self.bulk(setting, &names);
            println!(
                "| names a second in bulk, {setting} ({}) | {:.0} | {:.0} | {:.2} |",
                counted(&names),
                1e6 / times.port,
                1e6 / times.original,
                times.original / times.port
            );
            figures.bulk.push((setting, times.original / times.port));
            let morse = original(&self.config, setting);
            let (one, other) = fastest(
                || calls(&mut self.port, setting, &names),
                || original_round(&morse, &names),
            );
            figures.checked.push((setting, one / other));
            let count = 1e6 / names.len() as f64;
            checked.push((
                format!("one checked call, µs, {setting}"),
                one * count,
                other * count,
            ));
        }
        for (what, one, other) in checked {
            row(what, one, other);
        }
        let (check, _) = fastest(|| assert_eq!(self.port.check(), 0), || ());
        println!("| check of the pack, µs | {:.1} | | |", check * 1e6);
        let (rules, bundle) = (dir.join("all"), dir.join("bundle"));
        let (one, other) = fastest(
            || drop(black_box(Port::load(&std::fs::read(&bundle).unwrap()))),
            || drop(black_box(ConfigFiles::new(&rules).unwrap())),
        );
        row(
            "load of the rule files, read from disk, µs",
            one * 1e6,
            other * 1e6,
        );
        figures.load = one / other;
        figures
    }

    /// Names of one word and of so many bytes.
    fn pieces(&self, length: usize) -> Vec<String> {
        let letters: String = self
            .names
            .iter()
            .flat_map(|name| name.chars())
            .filter(|c| c.is_ascii_alphabetic())
            .collect();
        let step = letters.len() / 60;
        (0..60)
            .filter_map(|n| letters.get(n * step..n * step + length))
            .map(str::to_string)
            .collect()
    }

    /// Gives how often the port's time goes into the original's at 96 bytes and limit 256.
    fn by_length(&mut self) -> Vec<(Setting, f64)> {
        let mut longest = Vec::new();
        Times::head(
            "By the length of the name (one word), a name in bulk:",
            "rules, limit, bytes of the name",
        );
        for setting in FOUR {
            for length in [8, 16, 32, 64, 96] {
                let names = self.port.answered(&[setting], &self.pieces(length));
                let what = format!("{setting}, {length} bytes");
                if names.is_empty() {
                    println!("| {what} (each refused) |");
                    continue;
                }
                let times = self.bulk(setting, &names);
                times.row(format!("{what} ({})", counted(&names)));
                if setting.limit == 256 && length == 96 {
                    longest.push((setting, times.original / times.port));
                }
            }
        }
        longest
    }

    fn by_limit(&mut self, kind: u32) {
        let settings = [1, 5, 20, 64, 256].map(|limit| Setting { kind, limit });
        let names = self.port.answered(&settings, &self.names);
        Times::head(
            &format!(
                "By the limit (approx, {}), a name in bulk:",
                counted(&names)
            ),
            "limit",
        );
        for setting in settings {
            self.bulk(setting, &names).row(setting.limit);
        }
    }

    fn by_pack(&self, setting: Setting, dir: &Path) {
        println!("\nBy the rules (approx, limit 20; every fourth rule, every second, all):\n");
        println!("| rules | bytes of the pack | a name in bulk, µs | the original's, µs | original / port | a checked call, µs | a check, µs |");
        println!("|---|---|---|---|---|---|---|");
        for what in ["quarter", "half", "all"] {
            let mut part = Bench::of_folder(&dir.join(what));
            let names = part.port.answered(&[setting], &self.names);
            let Times { port, original, .. } = part.bulk(setting, &names);
            let (call, _) = fastest(|| calls(&mut part.port, setting, &names), || ());
            let (check, _) = fastest(|| assert_eq!(part.port.check(), 0), || ());
            let (bytes, call) = (part.port.pack.len(), call * 1e6 / names.len() as f64);
            println!(
                "| {what} | {bytes} | {port:.1} | {original:.1} | {:.2} | {call:.1} | {:.1} |",
                original / port,
                check * 1e6
            );
        }
    }
}

/// The packs that are made to be slow, each with its name (bench/slow.py).
fn slow_packs(dir: &Path) {
    Times::head(
        "A name by a pack made to be slow (approx, limit 256, no final rules):",
        "texts, bytes they share, alternatives that spell alike, places",
    );
    let list = std::fs::read_to_string(dir.join("slow").join("list")).unwrap();
    for line in list.lines() {
        let [folder, name, what] = line.split('\t').collect::<Vec<_>>()[..] else {
            panic!("{line}");
        };
        let mut bench = Bench::of_folder(&dir.join("slow").join(folder));
        bench.bulk(APPROX_256, &[name.to_string()]).row(what);
    }
}

/// What the goals are about: how often the port's time goes into the original's in bulk; of a checked call and of a load, the port's time
/// by the original's.
#[derive(Default)]
struct Figures {
    bulk: Vec<(Setting, f64)>,
    checked: Vec<(Setting, f64)>,
    load: f64,
}

/// What was seen of the slowest answers: the longest one, none where one was cut; and the least that the original's time is by the port's.
struct Slowest {
    seconds: Option<f64>,
    times: f64,
}

/// Seconds, or that a side was cut.
fn shown(told: &Option<Told>) -> String {
    match told {
        Some(told) => format!("{:.3}", told.time),
        None => format!("over {CAP}"),
    }
}

/// The slowest answers that tests/slowest.py found, each side in a process of its own; a refusal has no counterpart in the original.
fn slowest_answers(dir: &Path) -> Slowest {
    println!("\nThe slowest answers found (approx, limit 256; one name, a side is cut after {CAP} seconds):\n");
    let earlier = if BEFORE.is_some() { " before, s |" } else { "" };
    println!("| what | bytes of the pack | bytes of the answer |{earlier} port, s | original, s | original / port |");
    println!(
        "|---|---|---|---|---|---|{}",
        &"---|"[..4 * BEFORE.iter().count()]
    );
    let mut seen = Slowest {
        seconds: Some(0.0),
        times: f64::MAX,
    };
    let list = std::fs::read_to_string(dir.join("slow").join("slowest")).unwrap();
    for line in list.lines() {
        let [folder, name, what] = line.split('\t').collect::<Vec<_>>()[..] else {
            panic!("{line}");
        };
        let rules = dir.join("slow").join(folder);
        seen.row(what, &rules, name);
    }
    seen
}

impl Slowest {
    fn row(&mut self, what: &str, rules: &Path, name: &str) {
        let pack = rules.with_extension("pack");
        let earlier =
            BEFORE.map(|_| format!(" {} |", shown(&Told::by_side("before", &pack, name))));
        let port = Told::by_side("port", &pack, name);
        let (code, length) = port
            .as_ref()
            .map_or((0, 0), |told| (told.code, told.length));
        let (original, times) = if code == 0 {
            let original = Told::by_side("original", rules, name);
            if let (Some(port), Some(original)) = (&port, &original) {
                assert_eq!(
                    (port.length, port.mark),
                    (original.length, original.mark),
                    "{name}"
                );
            }
            let times = self.held_against(&port, &original);
            (shown(&original), times)
        } else {
            (format!("refused with {code}"), String::new())
        };
        self.seconds = match (self.seconds, &port) {
            (Some(seconds), Some(port)) => Some(seconds.max(port.time)),
            _ => None,
        };
        println!(
            "| {what} | {} | {length} |{} {} | {original} | {times} |",
            std::fs::metadata(pack).unwrap().len(),
            earlier.unwrap_or_default(),
            shown(&port)
        );
    }

    /// The original's time by the port's, of which one that was cut is at least what it was given.
    fn held_against(&mut self, port: &Option<Told>, original: &Option<Told>) -> String {
        let (least, word) = match (port, original) {
            (Some(port), Some(original)) => (original.time / port.time, ""),
            (Some(port), None) => (CAP as f64 / port.time, "over "),
            (None, Some(original)) => (original.time / CAP as f64, "under "),
            (None, None) => return String::new(),
        };
        self.times = self.times.min(least);
        format!("{word}{least:.2}")
    }
}

/// A row of the goals.
fn goal(what: &str, seen: String, reached: bool) {
    println!(
        "| {what} | {seen} | {} |",
        if reached { "yes" } else { "no" }
    );
}

fn goals(figures: &Figures, longest: &[(Setting, f64)], slowest: &Slowest) {
    println!("\nThe goals (real Generic rules, limit 20 where none is said):\n\n| goal | seen | reached |\n|---|---|---|");
    let of = |seen: &[(Setting, f64)], kind: u32, limit: u32| {
        let found = seen
            .iter()
            .find(|(setting, _)| (setting.kind, setting.limit) == (kind, limit));
        found.map_or(f64::NAN, |(_, value)| *value)
    };
    for (kind, least, aim) in [(0, 8.0, 10.0), (1, 9.5, 12.0)] {
        let seen = of(&figures.bulk, kind, 20);
        let what = format!(
            "in bulk at least {least} times the original's names a second, {} (aimed at: {aim})",
            KINDS[kind as usize]
        );
        goal(&what, format!("{seen:.2}"), least <= seen);
    }
    for kind in [0, 1] {
        let seen = of(longest, kind, 256);
        let what = format!(
            "at 96 bytes and limit 256 at least 5 times, {}",
            KINDS[kind as usize]
        );
        goal(&what, format!("{seen:.2}"), 5.0 <= seen);
    }
    for (kind, most) in [(0, 1.2), (1, 1.5)] {
        let seen = of(&figures.checked, kind, 20);
        let what = format!(
            "one checked call at most {most} times the original's preloaded call, {}",
            KINDS[kind as usize]
        );
        goal(&what, format!("{seen:.2}"), seen <= most);
    }
    goal(
        "a load at most a third of the original's",
        format!("{:.2}", figures.load),
        figures.load <= 1.0 / 3.0,
    );
    let seen = slowest
        .seconds
        .map_or(format!("over {CAP} s"), |seconds| format!("{seconds:.1} s"));
    goal(
        "the slowest answer found under 30 s",
        seen,
        slowest.seconds.is_some_and(|seconds| seconds < 30.0),
    );
    goal(
        "none of the slowest answers slower than the original's",
        format!("at least {:.2} times as fast", slowest.times),
        1.0 <= slowest.times,
    );
}

fn main() {
    let words: Vec<String> = std::env::args().skip(1).collect();
    if words[0] == "one" {
        return one(&words[1..]);
    }
    let (dir, surnames) = (
        PathBuf::from(&words[0]),
        std::fs::read_to_string(&words[1]).unwrap(),
    );
    let mut bench = Bench {
        port: Port::new(NOW, Port::load(&std::fs::read(dir.join("bundle")).unwrap())),
        config: ConfigFiles::new(&dir.join("all")).unwrap(),
        names: surnames.lines().map(str::to_string).collect(),
    };
    if let [_, _, side, kind, limit] = &words[..] {
        let setting = Setting::of(kind, limit);
        let names = bench.port.answered(&[setting], &bench.names);
        match side.as_str() {
            "port" => port_round(&mut bench.port, setting, &block_of(&names)),
            _ => original_round(&original(&bench.config, setting), &names),
        }
        return;
    }
    assert_eq!(
        bench.port.pack,
        std::fs::read(dir.join("all.pack")).unwrap()
    );
    println!("Generic rules, {} surnames, a pack of {} bytes; the best of {ROUNDS} rounds (fewer where they take over {SECONDS} seconds) in which the sides take turns, in processor time; keys equal.\n", bench.names.len(), bench.port.pack.len());
    let figures = bench.main_table(&dir);
    let longest = bench.by_length();
    bench.by_limit(APPROX_20.kind);
    bench.by_pack(APPROX_20, &dir);
    slow_packs(&dir);
    let slowest = slowest_answers(&dir);
    goals(&figures, &longest, &slowest);
}
