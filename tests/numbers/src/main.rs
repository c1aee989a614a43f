//! The number reader beside the one before it, taking turns in one run: nanoseconds and, where
//! valgrind is there, instructions. `numbers [ROUNDS [ROW]]`; of each stretch the quickest round
//! counts. ROW is a part of the rows' names.

#[path = "../../bench/src/condition_work.rs"]
mod condition_work;
mod library;
#[path = "../../bench/src/sid_work.rs"]
mod sid_work;
#[path = "../../bench/src/work.rs"]
#[allow(dead_code)]
mod work;

use std::env;
use std::hint::black_box;
use std::process::Command;
use std::time::Instant;

use library::{Lent, Reading, Side, SIDES};
use model::{write_number, MIN_BUFFER};
use work::{all, Work};

const U32: u64 = 0xFFFF_FFFF;
const U64: u64 = u64::MAX;

/// Numbers, and calls, between two looks at the clock.
const STRETCH: u64 = 40_000;
const CALLS: usize = 100;

/// What is measured: a sum of jobs, each so many times.
struct Row {
    name: &'static str,
    jobs: fn() -> Vec<(f64, Job)>,
}

enum Job {
    /// A body that is read again and again.
    Read { how: Reading, body: Vec<u8>, count: u64 },
    /// A list of feeds, each after so many of an empty chunk.
    Feed { work: Work, empty: usize },
}

const ROWS: [Row; 14] = [
    Row { name: "fields, one byte", jobs: || read(Reading::Fields, 1, 64) },
    Row { name: "fields, two bytes", jobs: || read(Reading::Fields, 2, 64) },
    Row { name: "fields, five bytes", jobs: || read(Reading::Fields, 5, 64) },
    Row { name: "fields, ten bytes", jobs: || read(Reading::Words, 10, 64) },
    Row { name: "entries, one byte", jobs: || read(Reading::Entries, 1, 128) },
    Row { name: "entries, two bytes", jobs: || read(Reading::Entries, 2, 128) },
    Row { name: "entries, five bytes", jobs: || read(Reading::Entries, 5, 128) },
    Row { name: "skipped list, one byte", jobs: || read(Reading::Skip(U32), 1, 2000) },
    Row { name: "skipped list of 4, one byte", jobs: || read(Reading::Skip(U32), 1, 4) },
    Row { name: "skipped list, two bytes", jobs: || read(Reading::Skip(U32), 2, 1000) },
    Row { name: "skipped list, five bytes", jobs: || read(Reading::Skip(U32), 5, 400) },
    Row { name: "skipped list, ten bytes", jobs: || read(Reading::Skip(U64), 10, 200) },
    Row { name: "a shift, whole calls", jobs: || vec![(1.0, shift(0))] },
    Row { name: "a shift, less empty calls", jobs: || vec![(2.0, shift(0)), (-1.0, shift(1))] },
];

/// So many numbers of so many bytes.
fn read(how: Reading, bytes: u32, count: u64) -> Vec<(f64, Job)> {
    let least = if bytes == 1 { 0 } else { 128u64.pow(bytes - 1) };
    let mut body = vec![];
    for i in 0..count {
        write_number(least + i % 128, &mut body);
    }
    assert_eq!(body.len() as u64, count * u64::from(bytes));
    vec![(1.0, Job::Read { how, body, count })]
}

fn shift(empty: usize) -> Job {
    let is_shift = |work: &Work| work.name == "whole requests, a shift";
    Job::Feed { work: all().into_iter().find(is_shift).expect("a shift"), empty }
}

impl Job {
    /// How many numbers, or frames, a round has.
    fn size(&self) -> u64 {
        match self {
            Job::Read { count, .. } => STRETCH / count * count,
            Job::Feed { work, .. } => work.feeds().len() as u64,
        }
    }

    /// One round; gives the seconds of each stretch, and a mixture of the results.
    fn round(&self, side: Side) -> (Vec<f64>, u64) {
        let (mut times, mut mixed) = (vec![], 0u64);
        match self {
            Job::Read { how, body, count } => {
                let begun = Instant::now();
                for _ in 0..STRETCH / count {
                    mixed = mixed.rotate_left(1) ^ side.read(*how, black_box(body), *count);
                }
                times.push(begun.elapsed().as_secs_f64());
            }
            Job::Feed { work, empty } => {
                let (mut lent, mut answer) = (Lent::new(&work.memory), [0; MIN_BUFFER]);
                let mut feeds = work.feeds().peekable();
                while feeds.peek().is_some() {
                    let begun = Instant::now();
                    for (station, chunk) in feeds.by_ref().take(CALLS) {
                        for _ in 0..*empty {
                            mixed ^= side.feed(station, &[], &mut answer, &mut lent);
                        }
                        let seen = side.feed(station, chunk, &mut answer, &mut lent);
                        mixed = mixed.rotate_left(5) ^ seen;
                    }
                    times.push(begun.elapsed().as_secs_f64());
                }
            }
        }
        (times, mixed)
    }

    /// Nanoseconds before and now.
    fn times(&self, rounds: usize) -> [f64; 2] {
        let mut least = SIDES.map(|side| self.round(side).0);
        for _ in 0..rounds {
            let turns = SIDES.map(|side| self.round(side));
            assert_eq!(turns[0].1, turns[1].1, "results differ");
            for (least, (times, _)) in least.iter_mut().zip(turns) {
                least.iter_mut().zip(times).for_each(|(least, time)| *least = least.min(time));
            }
        }
        least.map(|times| times.iter().sum::<f64>() * 1e9 / self.size() as f64)
    }

    /// Instructions before and now, by runs of this program under valgrind: of a round, and of six.
    fn instructions(&self, row: usize, job: usize) -> Option<[f64; 2]> {
        let count = |side: usize, rounds: usize| {
            let run = Command::new("valgrind")
                .args(["--tool=callgrind", "--callgrind-out-file=/dev/null"])
                .arg(env::current_exe().ok()?)
                .arg("count")
                .args([row, job, side, rounds].map(|number| number.to_string()))
                .output()
                .ok()?;
            let said = String::from_utf8_lossy(&run.stderr).into_owned();
            let (_, after) = said.split_once("Collected : ")?;
            after.split_whitespace().next()?.parse::<u64>().ok()
        };
        let of = |side| Some((count(side, 6)? - count(side, 1)?) as f64 / (5 * self.size()) as f64);
        Some([of(0)?, of(1)?])
    }
}

/// The sum of what each job of a row gives.
fn sum(jobs: &[(f64, Job)], of: impl Fn(usize, &Job) -> Option<[f64; 2]>) -> Option<[f64; 2]> {
    jobs.iter().enumerate().try_fold([0.0; 2], |sum, (index, (times, job))| {
        let [before, now] = of(index, job)?;
        Some([sum[0] + times * before, sum[1] + times * now])
    })
}

/// A round, so many times, for valgrind.
fn repeat(words: &[String]) {
    let number = |at: usize| words[at].parse::<usize>().expect("a number");
    let (_, job) = (ROWS[number(0)].jobs)().swap_remove(number(1));
    for _ in 0..number(3) {
        black_box(job.round(SIDES[number(2)]));
    }
}

fn main() {
    let words: Vec<String> = env::args().skip(1).collect();
    if words.first().is_some_and(|word| word == "count") {
        return repeat(&words[1..]);
    }
    let rounds = words.first().map_or(300, |word| word.parse().expect("how many rounds"));
    let part = words.get(1).map_or("", String::as_str);
    println!("of a number, in a shift of a call; of each stretch the quickest of {rounds} rounds");
    println!("                                   ns                     instructions");
    println!(
        "                            before      now  before/now   before      now  before/now"
    );
    for (index, row) in ROWS.iter().enumerate().filter(|(_, row)| row.name.contains(part)) {
        let jobs = (row.jobs)();
        let times = sum(&jobs, |_, job| Some(job.times(rounds)));
        let instructions = sum(&jobs, |at, job| job.instructions(index, at));
        print!("{:27}", row.name);
        for (figures, digits) in [(times, 2), (instructions, 1)] {
            match figures {
                Some([before, now]) => {
                    print!(" {before:7.digits$} {now:8.digits$} {:11.2}", before / now)
                }
                None => print!("       -        -           -"),
            }
        }
        println!();
    }
}
