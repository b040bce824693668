//! Words of the command line: `--name value` and `--name`. The seed may come from BAVOLINESK_SEED too.

use std::env;
use std::time::{SystemTime, UNIX_EPOCH};

pub struct Args(Vec<String>);

impl Args {
    pub fn new() -> Args {
        Args(env::args().skip(1).collect())
    }

    pub fn has(&self, name: &str) -> bool {
        self.0.iter().any(|word| word == name)
    }

    pub fn text(&self, name: &str) -> Option<&str> {
        let at = self.0.iter().position(|word| word == name)?;
        self.0.get(at + 1).map(String::as_str)
    }

    pub fn number(&self, name: &str, default: u64) -> u64 {
        let Some(text) = self.text(name) else { return default };
        match text.replace('_', "").parse() {
            Ok(number) => number,
            Err(_) => {
                eprintln!("{name} wants a number, not {text:?}");
                std::process::exit(2);
            }
        }
    }

    /// The seed: the word after --seed, or BAVOLINESK_SEED, or 1; `clock` takes one from the time.
    pub fn seed(&self) -> u64 {
        let from_env = env::var("BAVOLINESK_SEED").ok();
        match self.text("--seed").or(from_env.as_deref()) {
            None => 1,
            Some("clock") => {
                let now = SystemTime::now().duration_since(UNIX_EPOCH);
                now.map_or(1, |now| now.as_nanos() as u64)
            }
            Some(text) => text.parse().unwrap_or_else(|_| {
                eprintln!("the seed is a number or `clock`, not {text:?}");
                std::process::exit(2);
            }),
        }
    }
}

impl Default for Args {
    fn default() -> Args {
        Args::new()
    }
}
