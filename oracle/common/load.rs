//! Loading a rule folder; a program ends where the crate does not load it.
use rphonetic::ConfigFiles;
use std::panic::catch_unwind;
use std::path::PathBuf;
use std::process::exit;

/// Exit status 3: the crate refuses the folder, 4: it panics on it.
pub fn load(dir: &str) -> ConfigFiles {
    let dir = PathBuf::from(dir);
    match catch_unwind(|| ConfigFiles::new(&dir)) {
        Ok(Ok(config)) => config,
        Ok(Err(error)) => {
            eprintln!("!load {error}");
            exit(3)
        }
        Err(panic) => {
            let why = match panic.downcast::<String>() {
                Ok(why) => *why,
                Err(panic) => panic.downcast_ref::<&str>().unwrap_or(&"").to_string(),
            };
            eprintln!("!load panic {why}");
            exit(4)
        }
    }
}
