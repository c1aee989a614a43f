//! Seeds: each loop of a test goes over some, or over the one that the environment names.

use std::ops::Range;

use crate::rng::Rng;

/// The seed that `OBRISKA_SEED` names: the one that a failure printed.
pub fn one_seed() -> Option<u64> {
    let seed = std::env::var("OBRISKA_SEED").ok()?;
    Some(seed.parse().expect("OBRISKA_SEED is a number"))
}

/// Runs the check for each seed, or for the one of the environment; a failure prints its seed.
pub fn each_seed(seeds: Range<u64>, mut check: impl FnMut(u64, &mut Rng)) {
    for seed in one_seed().map_or(seeds, |seed| seed..seed.saturating_add(1)) {
        let _printed = PrintedOnFailure(seed);
        check(seed, &mut Rng::new(seed));
    }
}

struct PrintedOnFailure(u64);

impl Drop for PrintedOnFailure {
    fn drop(&mut self) {
        if std::thread::panicking() {
            eprintln!("this failed with OBRISKA_SEED={}", self.0);
        }
    }
}
