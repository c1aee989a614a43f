//! The model itself meets demand 3's last part, and scripts break streams often enough to show it.

use gen::{check_cuts, each_seed, record, state, Event};
use model::{Memory, Model, STATIONS};

#[test]
fn cutting_changes_nothing() {
    each_seed(0..20, |seed, rng| {
        let start = if seed % 2 == 0 { Model::start() } else { state(rng) };
        check_cuts::<Memory>(seed, &start, 200);
    });
}

#[test]
fn scripts_break_streams_and_answer_10_once() {
    let mut breaks = 0;
    for seed in 0..20 {
        let record = record(seed, &Model::start(), 400);
        let broken = record.answers.iter().filter(|(_, answer)| *answer == [1, 10]).count();
        let mended = record.events.iter().filter(|(_, event)| *event == Event::Reconnect).count();
        assert!(broken <= mended + STATIONS, "seed {seed}");
        breaks += broken;
    }
    println!("{breaks} breaks in 8,000 calls");
    assert!(breaks > 50);
}
