//! Times: both sides in turn, pass after pass, and the best pass of each. It is the processor's time that counts: what other programs take in
//! between does not.

use std::hint::black_box;
use std::time::Duration;

/// Takes what a side answers, one answer after the other.
pub type Sink<'s> = &'s mut dyn FnMut(&[u8]);

/// Goes through a whole input once.
pub type Work = Box<dyn FnMut(Sink)>;

/// Short passes and many of them: on a loaded machine some are left in peace.
const PASSES: usize = 75;
const PASS: Duration = Duration::from_millis(4);
/// Places of the stack that the passes take in turn, a page and more of it together.
const STEPS: usize = 9;

/// The one function in which callgrind counts. Every answer is used as far as the compiler knows.
#[inline(never)]
pub fn once(work: &mut Work) {
    work(&mut |answer| {
        black_box(answer);
    });
}

/// What the processor has spent on this thread.
fn spent() -> Duration {
    let mut time = libc::timespec { tv_sec: 0, tv_nsec: 0 };
    // SAFETY: the call writes into the two numbers.
    assert_eq!(unsafe { libc::clock_gettime(libc::CLOCK_THREAD_CPUTIME_ID, &mut time) }, 0);
    Duration::new(time.tv_sec as u64, time.tv_nsec as u32)
}

fn time(work: &mut Work, turns: u32) -> Duration {
    let before = spent();
    for _ in 0..turns {
        once(work);
    }
    spent() - before
}

/// Does the work so many steps of 500 bytes or so further down the stack: where it lies there moves the time by a third.
#[inline(never)]
fn deeper(steps: usize, work: &mut dyn FnMut()) {
    if steps == 0 {
        return work();
    }
    let step = [0u8; 480];
    black_box(&step);
    deeper(steps - 1, work);
    black_box(&step);
}

/// So many turns that a pass takes long enough to be timed; trying it out also warms caches and buffers.
fn turns(work: &mut Work) -> u32 {
    let mut turns = 1;
    while time(work, turns) < PASS {
        turns *= 2;
    }
    turns
}

/// The best time of one turn for each of the works, in nanoseconds.
pub fn best(works: &mut [&mut Work]) -> Vec<f64> {
    let turns: Vec<u32> = works.iter_mut().map(|work| turns(work)).collect();
    let mut best = vec![f64::INFINITY; works.len()];
    for pass in 0..PASSES {
        for ((work, &turns), best) in works.iter_mut().zip(&turns).zip(&mut best) {
            deeper(pass % STEPS, &mut || {
                let nanoseconds = time(work, turns).as_secs_f64() * 1e9 / f64::from(turns);
                *best = best.min(nanoseconds);
            });
        }
    }
    best
}

/// All answers, one by one.
pub fn answers(work: &mut Work) -> Vec<Vec<u8>> {
    let mut answers = Vec::new();
    work(&mut |answer| answers.push(answer.to_vec()));
    answers
}
