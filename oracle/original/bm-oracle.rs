//! Keys by the module as published.
#[path = "../common/keys.rs"]
mod keys;
#[path = "../common/load.rs"]
mod load;

fn main() {
    keys::run("bm-oracle", || {}, String::new)
}
