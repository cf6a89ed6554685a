//! Times: rounds of each program in turn, and the median of their times.
//!
//! The clock is the processor time of this process in microseconds, so that
//! other work on the machine counts little; a round repeats a call until that
//! clock is fine enough.

use std::sync::atomic::{AtomicU64, Ordering};

/// Rounds of each program, an odd number.
pub const ROUNDS: usize = 5;

/// The shortest round in seconds.
const ROUND: f64 = 0.01;

/// Where the answers of timed calls go.
static USED: AtomicU64 = AtomicU64::new(0);

/// Repeats a call so many times and folds the answers into one number, so that
/// none can be left out.
pub type Repeated<'a> = &'a mut dyn FnMut(u64) -> u64;

extern "C" {
    fn clock() -> i64;
}

/// The processor time of this process in seconds.
pub fn now() -> f64 {
    // SAFETY: C's clock takes nothing and writes nothing; it counts in
    // microseconds on every Linux.
    unsafe { clock() as f64 / 1e6 }
}

/// Folds the answers of calls 0, 1, .. below `times`. The factor, of the hash
/// FNV-1a, keeps a difference that every answer has from cancelling itself.
pub fn fold(times: u64, mut call: impl FnMut(usize) -> u64) -> u64 {
    (0..times as usize).fold(0, |sum, i| {
        (sum.rotate_left(1) ^ call(i)).wrapping_mul(0x100000001b3)
    })
}

/// The median of an odd number of times.
pub fn median(mut times: Vec<f64>) -> f64 {
    times.sort_by(f64::total_cmp);
    times[times.len() / 2]
}

/// Asks desk and plain the same `compared` times, which have to agree, then
/// times both in turn.
pub fn pair<'a>(name: &str, compared: u64, desk: Repeated<'a>, plain: Repeated<'a>) {
    let answer = desk(compared);
    assert_eq!(answer, plain(compared), "desk and plain differ: {}", name);
    println!("answer {} desk {}", name, answer);
    let programs = [("desk", desk), ("plain", plain)];
    let mut timed = programs.map(|(program, call)| (program, repetitions(call), call, Vec::new()));
    for _ in 0..ROUNDS {
        for (_, repetitions, call, times) in &mut timed {
            times.push(seconds(call, *repetitions) / *repetitions as f64);
        }
    }
    for (program, _, _, times) in timed {
        println!("time {} {} {:.2}", name, program, median(times) * 1e9);
    }
}

/// How long so many repetitions take.
pub fn seconds(call: Repeated, repetitions: u64) -> f64 {
    let start = now();
    USED.fetch_xor(call(repetitions), Ordering::Relaxed);
    now() - start
}

/// How often a round repeats a call.
pub fn repetitions(call: Repeated) -> u64 {
    let mut repetitions = 1;
    while seconds(call, repetitions) < ROUND {
        repetitions *= 2;
    }
    repetitions
}
