//! SIDs on a broker and on the model: known bytes, SIDs of every length and cut anywhere, tables filled to
//! their end, and random requests.

use std::ops::Range;

use gen::{each_seed, fields, flat, run_with_sids, state, with_sids, Broker, Counts};
use model::{framed, Mask, Model, Request, Sid, MAX_SUB_AUTHORITIES, SIDS};

use crate::lists::{both, Both, FEW_CALLS};

/// S-1-5-18, S-1-5-7, and S-1-1-0, which is new.
const SYSTEM: [u8; 12] = [1, 1, 0, 0, 0, 0, 0, 5, 18, 0, 0, 0];
const ANONYMOUS: [u8; 12] = [1, 1, 0, 0, 0, 0, 0, 5, 7, 0, 0, 0];
const EVERYONE: [u8; 12] = [1, 1, 0, 0, 0, 0, 0, 1, 0, 0, 0, 0];
/// Session 9, integrity 0, no privileges and no groups; and with one.
const NO_GROUPS: [u8; 5] = [9, 0, 0, 0, 0];
const ONE_GROUP: [u8; 5] = [9, 0, 0, 0, 1];

/// S-1-5-18 with another byte.
fn changed(at: usize, byte: u8) -> [u8; 12] {
    let mut packed = SYSTEM;
    packed[at] = byte;
    packed
}

/// Bodies one after the other, and the answer to each. Handle 1 is on the first token.
fn known() -> Vec<(Vec<u8>, Vec<u8>)> {
    let create = |user: &[u8], rest: &[u8]| [&[14], user, rest].concat();
    let with_group =
        |user: &[u8], group: &[u8], with: u8| [&[14], user, &ONE_GROUP, group, &[with]].concat();
    let restrict = |handle: u8, sids: &[[u8; 12]]| {
        [vec![15, handle, 0, 0, 0, sids.len() as u8], sids.concat()].concat()
    };
    let (refused, handle) = (|status| vec![1, status], |number| vec![2, 0, number]);
    vec![
        (vec![3, 32, 9, 0, 0, 0, 0], refused(5)),
        (create(&changed(0, 2), &NO_GROUPS), refused(1)),
        (create(&changed(1, 16), &NO_GROUPS), refused(1)),
        (create(&SYSTEM[..11], &[]), refused(1)),
        (with_group(&EVERYONE, &EVERYONE, 0), refused(5)),
        (vec![3, 32, 9, 0, 0, 0, 0], refused(5)),
        (with_group(&EVERYONE, &EVERYONE, 2), handle(2)),
        (vec![4, 2, 1, 9], vec![2, 0, 32]),
        (vec![4, 2, 2, 9], vec![4, 0, 1, 32, 6]),
        (vec![3, 32, 9, 0, 0, 0, 1, 33, 2], refused(5)),
        (vec![3, 32, 9, 0, 0, 0, 1, 32, 2], handle(3)),
        (create(&SYSTEM, &NO_GROUPS), handle(4)),
        (vec![4, 4, 1, 9], vec![2, 0, 18]),
        (restrict(2, &[ANONYMOUS, EVERYONE, ANONYMOUS]), handle(5)),
        (vec![4, 5, 10, 9], vec![5, 0, 3, 7, 32, 7]),
        (restrict(5, &[changed(8, 19), SYSTEM]), refused(5)),
        (restrict(5, &[changed(8, 19), ANONYMOUS]), handle(6)),
        (vec![4, 6, 10, 9], vec![4, 0, 2, 7, 7]),
        (vec![10, 5, 0, 0, 0, 2, 7, 33], handle(7)),
        (vec![10, 5, 0, 0, 0, 2, 7, 34], refused(5)),
        (restrict(2, &[SYSTEM; 17]), refused(8)),
        (restrict(9, &[SYSTEM]), refused(2)),
        (vec![1, 8], handle(8)),
        (restrict(8, &[SYSTEM]), refused(3)),
    ]
}

/// Known bodies get the known answers.
pub fn compare_known<B: Broker>() {
    let mut both = Both::<B>::start();
    both.feed(0, &[3, 1, 0xEF, 3]);
    for (body, answer) in known() {
        assert_eq!(both.feed(0, &framed(&body)).answer, answer, "{body:02X?}");
    }
}

/// The body of request 14 with this user and these groups.
fn create(user: Sid, groups: &[Sid]) -> Vec<u8> {
    let groups = groups.iter().map(|&sid| (sid, 2)).collect();
    let (session, integrity, present, default) = (9, 0, 0, 0);
    let request = Request::CreatePacked { user, session, integrity, present, default, groups };
    framed(&flat(&fields(&request)))
}

/// The body of request 15 with these SIDs.
fn restrict(handle: u32, sids: &[Sid]) -> Vec<u8> {
    let (write_restricted, remove, deny, sids) = (0, 0, vec![], sids.to_vec());
    let request = Request::RestrictPacked { handle, write_restricted, remove, deny, sids };
    framed(&flat(&fields(&request)))
}

/// SIDs of every length: new and old, cut anywhere, with another revision or count, and each byte changed.
pub fn compare_lengths<B: Broker>() {
    for count in 0..=MAX_SUB_AUTHORITIES {
        let given: Vec<u32> = (1..=count as u32).map(|sub| sub << (sub % 29)).collect();
        let sid = Sid::new([0, 1, 0, 2, 0, 3], &given).expect("at most 15");
        let frame = create(sid, &[sid]);
        let mut both = Both::<B>::start();
        assert_eq!(both.feed(0, &frame).answer, [2, 0, 1]);
        let start = both.model.clone();
        let again = |frame: &[u8]| {
            let mut both = Both::<B>::at(start.clone());
            both.feed(0, frame).answer
        };
        assert_eq!(again(&frame), [2, 0, 2]);
        let body = &frame[1 + usize::from(frame[0] > 127)..];
        for end in 1..body.len() {
            assert_eq!(again(&framed(&body[..end])), [1, 1], "{count} cut at {end}");
        }
        for at in 1..1 + sid.packed().len() {
            for byte in [body[at].wrapping_add(1), body[at] ^ 0x80, 0, 16, 255] {
                let mut body = body.to_vec();
                body[at] = byte;
                again(&framed(&body));
            }
        }
    }
}

/// One SID after the other up to a full table, which refuses a new one and finds each old one; by 14 and by
/// 15. After each, requests 3 and 10 are asked for the last number and for the next.
pub fn compare_filled<B: Broker>() {
    let sid = |at: u32| {
        let authority = [9, 9, 9, 9, 9, at as u8];
        Sid::new(authority, &vec![at; at as usize % 16]).expect("at most 15")
    };
    for packed in [14, 15] {
        let mut both = Both::<B>::start();
        assert_eq!(both.feed(0, &framed(&[1, 0xEF, 3])).answer, [2, 0, 1]);
        let mut made = 1;
        let mut ask = |frame: &[u8]| {
            let answer = both.feed(0, frame).answer;
            if answer[1] == 0 {
                made += 1;
                let mut close = vec![2];
                model::write_number(made, &mut close);
                assert_eq!(both.feed(0, &framed(&close)).answer, [1, 0]);
            }
            answer[1]
        };
        let frame = |at: u32| match packed {
            14 => create(sid(at), &[]),
            _ => restrict(1, &[sid(at)]),
        };
        for at in 0..SIDS as u32 - 2 {
            assert_eq!(ask(&frame(at)), 0, "{at}");
            for (number, expected) in [(32 + at, 0), (33 + at, 5)] {
                let by_number = Request::Restrict {
                    handle: 1,
                    write_restricted: 0,
                    remove: 0,
                    deny: vec![],
                    sids: vec![number],
                };
                assert_eq!(ask(&framed(&flat(&fields(&by_number)))), expected, "{number}");
            }
        }
        for at in 0..SIDS as u32 {
            assert_eq!(ask(&frame(at)), if at < 254 { 0 } else { 8 }, "{at}");
        }
    }
}

/// As many new SIDs as there is room for and one more, many at once: of a restricted source, so that all
/// but one are dropped.
pub fn compare_many<B: Broker>() {
    let short = |at: usize| Sid::new([7, 7, 7, 7, 7, at as u8], &[]).expect("none");
    for room in [1, 2, 100, 240, SIDS - 2] {
        let mut model = Model::start();
        (0..SIDS - 2 - room).for_each(|at| _ = model.sids.enter(Sid::nt(1000 + at as u32)));
        for more in [0, 1] {
            let mut both = Both::<B>::at(model.clone());
            both.feed(0, &framed(&[1, Mask::ALL.0 as u8, 3]));
            assert_eq!(both.feed(0, &restrict(1, &[Sid::nt(7)])).answer, [2, 0, 2]);
            let mut sids: Vec<Sid> = (0..(room + more).min(250)).map(short).collect();
            sids.push(Sid::nt(7));
            let fits = sids.len() - 1 <= room;
            assert_eq!(both.feed(0, &restrict(2, &sids)).answer[1], if fits { 0 } else { 8 });
        }
    }
}

/// A short list for each seed, most of it with SIDs.
pub fn compare_random<B: Broker>(seeds: Range<u64>, counts: &mut Counts) {
    each_seed(seeds, |seed, rng| {
        let first = if seed % 4 == 0 { state(rng) } else { with_sids(rng) };
        let mut broker = B::lend(&first.memory());
        run_with_sids(seed, first, FEW_CALLS, |step| {
            both(&mut broker, step);
            counts.step(step);
        });
    });
}
