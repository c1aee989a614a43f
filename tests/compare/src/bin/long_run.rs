//! The comparison on as many seeds as asked: `long_run SEEDS [FIRST]`.

use compare::{conditions, damages, lists, program, put_back, sids, Lent};
use gen::{check_cuts, each_seed, Counts, PutBackCounts};
use model::Model;

fn main() {
    let mut words = std::env::args().skip(1).map(|word| word.parse().expect("a number"));
    let seeds: u64 = words.next().expect("how many seeds");
    let first: u64 = words.next().unwrap_or(0);
    let part = |share: u64| first..first + seeds.div_ceil(share);

    let mut counts = Counts::default();
    lists::compare::<Lent>(part(1), &mut counts);
    println!("{} lists of {} calls\n{counts}", seeds, lists::CALLS);
    conditions::compare_random::<Lent>(part(1), &mut Counts::default());
    println!("{} lists of {} requests, most of them conditions", seeds, lists::FEW_CALLS);
    sids::compare_random::<Lent>(part(1), &mut Counts::default());
    println!("{} lists of {} requests, most of them with SIDs", seeds, lists::FEW_CALLS);
    let mut put_backs = PutBackCounts::default();
    put_back::compare::<Lent>(part(4), &mut put_backs);
    println!("{} lists, {put_backs}", seeds.div_ceil(4));
    let valid = damages::compare_poked::<Lent>(part(1));
    println!("{seeds} changed memories, {valid} of them still valid");
    each_seed(part(4), |seed, _| check_cuts::<Lent>(seed, &Model::start(), lists::CALLS));
    println!("{} lists cut in four ways", seeds.div_ceil(4));
    let answered = program::compare_sessions(part(4));
    println!("{} sessions of the program, {answered} bytes of answers", seeds.div_ceil(4));
    println!("all as the model has it");
}
