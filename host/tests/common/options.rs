//! What the environment asks of the comparison: SATCHELRAM_LONG for a longer run, SATCHELRAM_SEED for the first seed,
//! SATCHELRAM_ROUNDS for a number of random rounds.

use satchelram_host::generate::random::Random;
use std::env;

const LONGER: u64 = 50;

pub fn long() -> bool {
    env::var_os("SATCHELRAM_LONG").is_some()
}

fn number(name: &str) -> Option<u64> {
    let value = env::var(name).ok()?;
    let parsed = value.parse();
    Some(parsed.unwrap_or_else(|_| panic!("{}={} is no number", name, value)))
}

/// Runs a random test so many times, each round by a seed of its own: the first seed and the numbers after it.
pub fn rounds(usual: u64, round: impl Fn(&mut Random)) {
    let usual = if long() { usual * LONGER } else { usual };
    let first = number("SATCHELRAM_SEED").unwrap_or(1);
    for index in 0..number("SATCHELRAM_ROUNDS").unwrap_or(usual) {
        let told = Told(first.wrapping_add(index));
        round(&mut Random::new(told.0));
    }
}

/// A round's seed, told if the round fails.
struct Told(u64);

impl Drop for Told {
    fn drop(&mut self) {
        if std::thread::panicking() {
            let seed = self.0;
            eprintln!(
                "seed {}: SATCHELRAM_SEED={} SATCHELRAM_ROUNDS=1 repeats it",
                seed, seed
            );
        }
    }
}
