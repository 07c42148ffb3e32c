//! As bm-oracle, each line `FLAG LONGEST MOST KEY`; probe.rs says what the numbers are.
extern crate rphonetic_counted as rphonetic;

#[path = "../common/keys.rs"]
mod keys;
#[path = "../common/load.rs"]
mod load;

use rphonetic::probe::{reset, FLAG, LONGEST, MOST};

fn main() {
    keys::run("bm-probe", reset, || {
        format!("{} {} {} ", FLAG.get() as u8, LONGEST.get(), MOST.get())
    })
}
