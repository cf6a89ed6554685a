//! The searches: two whole fields, and two ranges at degree 46.
//!
//! At degree 46 the leaders of the ranges lie so densely that a search of 2^20
//! elements can take most of a minute, so each program goes through the first 2^10,
//! 2^12, .. elements until the next step would pass its time. The time of an
//! element is that of the longest step; the answers of all steps are compared.

use crate::rounds::{median, now};
use sabrentuglio::raw;

/// A search: from `first`, the first 2^k elements for each k of `steps`.
struct Search {
    name: &'static str,
    f: u64,
    first: u64,
    steps: &'static [u32],
}

/// A part of a whole field would have another share of leaders.
const SEARCHES: [Search; 4] = [
    Search {
        name: "search-16",
        f: (1 << 16) + 43,
        first: 0,
        steps: &[16],
    },
    Search {
        name: "search-20",
        f: (1 << 20) + 9,
        first: 0,
        steps: &[20],
    },
    Search {
        name: "search-46-from-0",
        f: (1 << 46) + (1 << 45) + 1,
        first: 0,
        steps: &[10, 12, 14, 16, 18, 20],
    },
    // With this f no element below 2^45 has trace 1, and so none is normal.
    Search {
        name: "search-46-from-2^45",
        f: (1 << 46) + 3,
        first: 1 << 45,
        steps: &[10, 12, 14, 16, 18, 20],
    },
];

/// Element, complexity and count.
type Answer = (u64, u64, u64);

/// One of the two programs, the steps it has done and the times of the last.
struct Program {
    name: &'static str,
    search: fn(u64, u64, u64) -> Answer,
    done: usize,
    times: Vec<f64>,
}

fn programs() -> [Program; 2] {
    let of = |name, search| Program {
        name,
        search,
        done: 0,
        times: Vec::new(),
    };
    [
        of("desk", |f, first, last| {
            let found = raw::search(f, first, last);
            (found.element, found.complexity, found.count)
        }),
        of("plain", |f, first, last| {
            let found = plain::search(f, first, last);
            (found.element, found.complexity, found.count)
        }),
    ]
}

impl Program {
    /// Goes through the first 2^k elements and keeps the time.
    fn run(&mut self, search: &Search, k: u32) -> Answer {
        let start = now();
        let answer = (self.search)(search.f, search.first, search.first + (1 << k) - 1);
        self.times.push(now() - start);
        answer
    }

    /// The next step, if there is time for it.
    fn step(&mut self, search: &Search, seconds: f64) {
        let last = self.times.last().copied();
        if self.done == search.steps.len() || last.map_or(false, |last| last * 4.0 > seconds) {
            return;
        }
        self.times.clear();
        let k = search.steps[self.done];
        let (element, complexity, count) = self.run(search, k);
        self.done += 1;
        println!(
            "answer {}/2^{} {} {} {} {}",
            search.name, k, self.name, element, complexity, count
        );
    }

    /// The last step again, where three of them are within the time.
    fn repeat(&mut self, search: &Search, seconds: f64) {
        if self.times[0] * 3.0 <= seconds {
            self.run(search, search.steps[self.done - 1]);
        }
    }
}

/// Runs all of them, each program with about so many seconds.
pub fn run(seconds: f64) {
    for search in &SEARCHES {
        let mut programs = programs();
        for _ in search.steps {
            for program in &mut programs {
                program.step(search, seconds);
            }
        }
        for _ in 1..3 {
            for program in &mut programs {
                program.repeat(search, seconds);
            }
        }
        for program in programs {
            let k = search.steps[program.done - 1];
            let element = median(program.times) * 1e9 / (1u64 << k) as f64;
            println!(
                "search {} {} {} {:.3}",
                search.name, program.name, k, element
            );
        }
    }
}
