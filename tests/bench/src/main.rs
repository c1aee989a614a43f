//! Nanoseconds of a call: the broker, the rival, and one reading of the same lent bytes, taking
//! turns in one run. `bench [ROUNDS [ROW]]`; of each hundred calls the quickest round counts. ROW is
//! a part of the rows' names.

use std::hint::black_box;
use std::time::Instant;

use bench::work::{all, Work};
use bench::Rival;
use compare::Lent;
use gen::Broker;
use model::MIN_BUFFER;

/// Calls between two looks at the clock.
const STRETCH: usize = 100;

/// Seconds of each stretch.
type Times = Vec<f64>;

/// Feeds the list once; gives the times and a mixture of all results and answers.
fn feed_all(
    work: &Work,
    mut feed: impl FnMut(u32, &[u8], &mut [u8]) -> (u32, usize, usize),
) -> (Times, u64) {
    let (mut answer, mut sum) = ([0; MIN_BUFFER], 0u64);
    let mut times = Vec::new();
    let mut feeds = work.feeds().peekable();
    while feeds.peek().is_some() {
        let begun = Instant::now();
        for (station, chunk) in feeds.by_ref().take(STRETCH) {
            let (refusal, used, answered) = feed(station, chunk, &mut answer);
            let last = answer[..answered].last().copied().unwrap_or(0);
            let seen = (u64::from(refusal), used as u64, answered as u64, u64::from(last));
            sum = sum.rotate_left(5) ^ (seen.0 << 40 | seen.1 << 20 | seen.2 << 8 | seen.3);
        }
        times.push(begun.elapsed().as_secs_f64());
    }
    (times, sum)
}

/// Reads the memory once for each call of the list.
fn read_all(work: &Work, rival: &Rival) -> Times {
    let stretch = |_| {
        let begun = Instant::now();
        for _ in 0..STRETCH {
            black_box(black_box(rival).read_once());
        }
        begun.elapsed().as_secs_f64()
    };
    (0..work.feeds().len().div_ceil(STRETCH)).map(stretch).collect()
}

/// One round; both do the same and leave the same.
fn round(work: &Work) -> [Times; 3] {
    let (mut lent, mut rival) = (Lent::without_margins(&work.memory), Rival::lend(&work.memory));
    let broker = feed_all(work, |station, chunk, answer| lent.call_feed(station, chunk, answer));
    let other = feed_all(work, |station, chunk, answer| rival.call_feed(station, chunk, answer));
    assert_eq!(broker.1, other.1, "{}: results differ", work.name);
    assert!(lent.bytes() == rival.bytes(), "{}: memory differs", work.name);
    [broker.0, other.0, read_all(work, &rival)]
}

/// Nanoseconds of a call of the broker, the rival and the floor.
fn measure(work: &Work, rounds: usize) -> [f64; 3] {
    let mut least = round(work);
    for _ in 1..rounds {
        for (least, times) in least.iter_mut().zip(round(work)) {
            for (least, time) in least.iter_mut().zip(times) {
                *least = least.min(time);
            }
        }
    }
    least.map(|times| times.iter().sum::<f64>() * 1e9 / work.feeds().len() as f64)
}

fn main() {
    let mut words = std::env::args().skip(1);
    let rounds = words.next().map_or(200, |word| word.parse().expect("how many rounds"));
    let row = words.next().unwrap_or_default();
    println!("ns per call; of each {STRETCH} calls the quickest of {rounds} rounds");
    println!(
        "                                 broker    rival    floor  broker/rival  broker/floor"
    );
    for work in all().iter().filter(|work| work.name.contains(&row)) {
        let [broker, rival, floor] = measure(work, rounds);
        let (name, ratio, over) = (work.name, broker / rival, broker / floor);
        println!("{name:30} {broker:8.0} {rival:8.0} {floor:8.0} {ratio:13.2} {over:13.2}");
    }
}
