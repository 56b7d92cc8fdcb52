//! Random cases for a time, up to the first difference, which is then made smaller.

use crate::cases::{self, Case};
use crate::judge::Judge;
use crate::side::Side;
use crate::tally::Tally;
use oracle::random::Random;
use std::time::{Duration, Instant};

/// How long a difference is made smaller.
const SHRINKING: Duration = Duration::from_secs(60);

pub struct Difference {
    pub case: Case,
    pub what: String,
}

pub struct Outcome {
    pub cases: u64,
    pub tally: Tally,
    pub difference: Option<Difference>,
}

fn difference(side: &dyn Side, case: &Case) -> Option<String> {
    Judge { side, tally: Tally::default() }.judge(case).err()
}

/// The smallest case found that still differs.
pub fn shrunk(side: &dyn Side, case: Case, what: String) -> Difference {
    let end = Instant::now() + SHRINKING;
    let mut found = Difference { case, what };
    loop {
        let in_time = found.case.smaller().take_while(|_| Instant::now() < end);
        let smaller = in_time.into_iter().find_map(|case| Some(Difference { what: difference(side, &case)?, case }));
        match smaller {
            Some(smaller) => found = smaller,
            None => return found,
        }
    }
}

pub fn run(side: &dyn Side, seed: u64, time: Duration) -> Outcome {
    let end = Instant::now() + time;
    let mut random = Random::new(seed);
    let mut judge = Judge { side, tally: Tally::default() };
    let mut cases = 0;
    while Instant::now() < end {
        for case in cases::random(&mut random) {
            cases += 1;
            if let Err(what) = judge.judge(&case) {
                return Outcome { cases, tally: judge.tally, difference: Some(shrunk(side, case, what)) };
            }
        }
    }
    Outcome { cases, tally: judge.tally, difference: None }
}
