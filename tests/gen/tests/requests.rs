//! What the generator writes is what the model reads.

use gen::{body, fields, flat, state, Rng};
use model::{Request, MAX_BODY, STATIONS};

#[test]
fn a_request_read_and_written_again_is_the_same() {
    let mut whole = 0;
    for seed in 0..20_000 {
        let mut rng = Rng::new(seed);
        let model = state(&mut rng);
        let station = rng.below(STATIONS);
        let body = body(&mut rng, &model, station);
        assert!((1..=MAX_BODY).contains(&body.len()), "seed {seed}");
        if let Some(request) = Request::read(&body) {
            assert_eq!(flat(&fields(&request)), body, "seed {seed}");
            whole += 1;
        }
    }
    assert!(whole > 18_000, "{whole}");
}

#[test]
fn equal_seeds_give_equal_requests() {
    for seed in 0..200 {
        let draw = || {
            let mut rng = Rng::new(seed);
            let model = state(&mut rng);
            (body(&mut rng, &model, 0), model)
        };
        assert_eq!(draw(), draw());
    }
}
