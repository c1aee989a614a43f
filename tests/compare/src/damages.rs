//! Memory that is not valid, or not of its sizes, on a broker and on the model.

use gen::{each_seed, poke, state, Broker, Call};
use model::{
    control_word, station_word, token_word, Elevation, Group, HandleRecord, Memory, Model, Token,
    TokenType, CONTROL_WORDS, DACL_BYTES, HANDLE_ROWS, MIN_BUFFER, NO_ROOT, PAIRS, PAIR_ROW, PARTS,
    PENDING_BYTES, SIDS, SID_ROW, STATIONS, STATION_ROW, TOKEN_ROW, TOKEN_WORDS,
};

use crate::lists::{on_memory, same_bytes};

/// The last station, and the first that there is not.
const LAST: u32 = STATIONS as u32 - 1;
const NONE: u32 = STATIONS as u32;

/// An empty chunk: what comes back says only whether the memory is valid.
pub fn empty_feed() -> Call {
    Call::Feed { station: 0, chunk: vec![], buffer_len: MIN_BUFFER }
}

/// Feeds and reconnects that memory not valid refuses with 13.
pub fn refused_calls() -> Vec<Call> {
    let feed = |station, chunk: &[u8]| {
        let chunk = chunk.to_vec();
        Call::Feed { station, chunk, buffer_len: MIN_BUFFER }
    };
    let reconnect = |station| Call::Reconnect { station };
    let feeds = [feed(0, &[2, 1, 8]), feed(LAST, &[0]), feed(3, &[0x80])];
    [vec![empty_feed()], feeds.to_vec(), vec![reconnect(0), reconnect(LAST)]].concat()
}

/// Feeds and reconnects that 11 or 12 refuses before.
pub fn refused_before() -> Vec<(u32, Call)> {
    let feed = |station, buffer_len| Call::Feed { station, chunk: vec![2, 1, 8], buffer_len };
    vec![
        (11, feed(NONE, MIN_BUFFER)),
        (11, feed(u32::MAX, 0)),
        (12, feed(0, MIN_BUFFER - 1)),
        (12, feed(LAST, 0)),
        (11, Call::Reconnect { station: NONE }),
        (11, Call::Reconnect { station: u32::MAX }),
    ]
}

/// The broker refuses the memory by 13 in every call, and by 11 and 12 first.
pub fn is_refused<B: Broker>(memory: &Memory, place: &str) {
    for call in refused_calls() {
        assert_eq!(on_memory::<B>(memory, &call).refusal, 13, "{place}: {call:?}");
    }
    for (refusal, call) in refused_before() {
        assert_eq!(on_memory::<B>(memory, &call).refusal, refusal, "{place}: {call:?}");
    }
}

/// Start on any memory: the start, or 13 where a size is wrong.
pub fn starts<B: Broker>(memory: &Memory, place: &str) {
    let (mut broker, mut model) = (B::lend(memory), memory.clone());
    assert_eq!(broker.start(), model.start(), "{place}");
    same_bytes(&broker.bytes(), &model.bytes(), place);
}

/// The memory with each part made shorter and longer, and what was done to it.
pub fn of_other_sizes(memory: &Memory) -> Vec<(String, Memory)> {
    type Resize = fn(&mut Memory, usize);
    let resize: [(usize, Resize); PARTS.len()] = [
        (TOKEN_WORDS, |memory, size| memory.tokens.resize(size, 0)),
        (DACL_BYTES, |memory, size| memory.dacls.resize(size, 0)),
        (HANDLE_ROWS, |memory, size| memory.handles.resize(size, HandleRecord::default())),
        (CONTROL_WORDS, |memory, size| memory.control.resize(size, 0)),
        (PENDING_BYTES, |memory, size| memory.pending.resize(size, 0)),
    ];
    let mut memories = Vec::new();
    for (part, (size, resize)) in PARTS.into_iter().zip(resize) {
        for other in [0, 1, size / 2, size - 1, size + 1, size + 2, 2 * size, 3 * size] {
            let mut memory = memory.clone();
            resize(&mut memory, other);
            memories.push((format!("{other} {part}"), memory));
        }
    }
    memories
}

/// Another root for each token of random memories: valid up to its number, refused above it.
pub fn compare_roots<B: Broker>(seeds: std::ops::Range<u64>) {
    each_seed(seeds, |_, rng| {
        let memory = state(rng).memory();
        for row in (0..TOKEN_WORDS).step_by(TOKEN_ROW) {
            let number = memory.tokens[row + token_word::NUMBER];
            if number == 0 {
                continue;
            }
            let valid = [NO_ROOT, number - 1, number].map(|root| (root, 0));
            let refused = [number + 1, u64::MAX].map(|root| (root, 13));
            for (root, refusal) in valid.into_iter().chain(refused) {
                let mut memory = memory.clone();
                memory.tokens[row + token_word::ROOT] = root;
                let fed = on_memory::<B>(&memory, &empty_feed());
                assert_eq!(fed.refusal, refusal, "token {number}, root {root}");
            }
        }
    });
}

/// Every token, and numbers of none, for a station that acts for none, at every level and above: valid
/// for an impersonation token up to its own.
pub fn compare_clients<B: Broker>(seeds: std::ops::Range<u64>) {
    each_seed(seeds, |_, rng| {
        let model = state(rng);
        let memory = model.memory();
        let free = (0..STATIONS).find(|&at| model.stations[at].client.is_none());
        let Some(station) = free else { return };
        let row = control_word::STATIONS + STATION_ROW * station;
        let live = model.tokens.iter().flatten().map(|token| token.number);
        for number in live.chain([0, model.next_token, u64::MAX]) {
            let most = match model.token(number) {
                Some(token) if token.kind == TokenType::Impersonation => Some(token.level as u64),
                Some(_) => None,
                None => (number == 0).then_some(0),
            };
            for level in [0, 1, 2, 3, 4, 1 << 32, u64::MAX] {
                let mut memory = memory.clone();
                memory.control[row + station_word::CLIENT] = number;
                memory.control[row + station_word::CLIENT_LEVEL] = level;
                let refusal = if most.is_some_and(|most| level <= most) { 0 } else { 13 };
                let fed = on_memory::<B>(&memory, &empty_feed());
                assert_eq!(fed.refusal, refusal, "token {number}, level {level}");
            }
        }
    });
}

/// Every two tokens, and numbers of none, in the first free place for a pair and in the last, for each
/// token's session and for none: valid for a session without a pair, and for two primary tokens of it and
/// of one user that are Full and Limited. Gives how many pairs were valid.
pub fn compare_pairs<B: Broker>(seeds: std::ops::Range<u64>) -> usize {
    let mut valid = 0;
    each_seed(seeds, |_, rng| {
        let model = less_a_pair(state(rng));
        let free: Vec<usize> = (0..PAIRS).filter(|&at| model.pairs[at].is_none()).collect();
        let (Some(&first), Some(&last)) = (free.first(), free.last()) else { return };
        let numbers: Vec<u64> = model.tokens.iter().flatten().map(|token| token.number).collect();
        let numbers = [numbers, vec![0, model.next_token]].concat();
        for (elevated, filtered) in
            numbers.iter().flat_map(|&first| numbers.iter().map(move |&second| (first, second)))
        {
            let session = model.token(elevated).map_or(0, |token| token.session);
            for (place, session) in [(first, session), (first, session ^ 1), (last, session)] {
                let row = [session, elevated, filtered];
                let mut memory = model.memory();
                let words = &mut memory.control[control_word::PAIRS + PAIR_ROW * place..];
                words[..PAIR_ROW].copy_from_slice(&row);
                let is_valid = may_be_placed(&model, row);
                let fed = on_memory::<B>(&memory, &empty_feed());
                assert_eq!(fed.refusal, if is_valid { 0 } else { 13 }, "place {place}: {row:?}");
                valid += usize::from(is_valid && elevated != 0);
            }
        }
    });
    valid
}

/// The state without its last pair, where that is not all that refers to its tokens.
fn less_a_pair(model: Model) -> Model {
    let mut less = model.clone();
    let last = less.pairs.iter_mut().rev().find_map(Option::take);
    let are_kept = last.is_some_and(|pair| pair.tokens().iter().all(|&t| less.is_referred_to(t)));
    if are_kept {
        less
    } else {
        model
    }
}

/// Whether the words may stand in a free place.
fn may_be_placed(model: &Model, [session, elevated, filtered]: [u64; 3]) -> bool {
    let pairs: Vec<_> = model.pairs.iter().flatten().collect();
    if elevated == 0 {
        return session == 0 && filtered == 0;
    }
    let (Some(elevated), Some(filtered)) = (model.token(elevated), model.token(filtered)) else {
        return false;
    };
    let [full, limited] =
        [(elevated, Elevation::Full), (filtered, Elevation::Limited)].map(|(token, elevation)| {
            let is_of_session = token.session == session && token.kind == TokenType::Primary;
            token.elevation == elevation && is_of_session
        });
    pairs.iter().all(|pair| pair.session != session)
        && full
        && limited
        && elevated.user == filtered.user
}

/// Each word of the table of random memories changed: its count and places to all values about those that
/// they may have, the rows by each byte. The broker and the model agree. Gives how many were still valid.
pub fn compare_tables<B: Broker>(seeds: std::ops::Range<u64>) -> usize {
    let mut valid = 0;
    each_seed(seeds, |_, rng| {
        let memory = state(rng).memory();
        let mut with = |at: usize, value: u64| {
            let mut memory = memory.clone();
            memory.control[at] = value;
            valid += usize::from(on_memory::<B>(&memory, &empty_feed()).refusal == 0);
        };
        let count = memory.control[control_word::SID_COUNT] as usize;
        for value in [0, 1, 2, count - 1, count, count + 1, SIDS, SIDS + 1, 1 << 32, usize::MAX] {
            with(control_word::SID_COUNT, value as u64);
        }
        for place in [0, 1, count - 1, count, count + 1, rng.below(SIDS), SIDS - 1] {
            let at = control_word::SID_PLACES + place.min(SIDS - 1);
            for value in [0, 1, place, count - 1, count, SIDS - 1, SIDS, 1 << 32] {
                with(at, value as u64);
            }
        }
        for row in [0, 1, 2, count - 1, count, rng.below(SIDS), SIDS - 1] {
            let row = control_word::SID_ROWS + SID_ROW * row.min(SIDS - 1);
            for byte in 0..SID_ROW * size_of::<u64>() {
                let at = row + byte / size_of::<u64>();
                let bits = rng.pick(&[1, 0x80, 0xFF]) << (8 * (byte % size_of::<u64>()));
                with(at, memory.control[at] ^ bits);
            }
        }
    });
    valid
}

/// Every number about those in the table as a token's user, group and restricting SID: valid exactly for
/// those in it.
pub fn compare_numbers<B: Broker>(seeds: std::ops::Range<u64>) {
    each_seed(seeds, |_, rng| {
        let model = state(rng);
        let is_free = |token: &&Token| model.partner(token.number).is_none();
        let Some(token) = model.tokens.iter().flatten().find(is_free).cloned() else { return };
        let last = 29 + model.sids.sids().len() as u32;
        let about = [last.saturating_sub(1), last, last + 1, last + 2];
        for sid in
            [0, 6, 7, 8, 17, 18, 19, 31, 32, 33, 284, 285, 286, u32::MAX].into_iter().chain(about)
        {
            let attributes = Group::OWNER;
            let others = [
                Token { user: sid, ..token.clone() },
                Token {
                    groups: with_last(&token.groups, Group { sid, attributes }),
                    ..token.clone()
                },
                Token { restricting: with_last(&token.restricting, sid), ..token.clone() },
            ];
            for other in others {
                let mut changed = model.clone();
                let slot = changed.tokens.iter_mut().flatten().find(|t| t.number == token.number);
                *slot.expect("it lives") = other;
                let fed = on_memory::<B>(&changed.memory(), &empty_feed());
                assert_eq!(fed.refusal, if model.sids.has(sid) { 0 } else { 13 }, "{sid}");
            }
        }
    });
}

/// The list with this at its end, or in the place of the last where there are some.
fn with_last<T: Clone>(list: &[T], last: T) -> Vec<T> {
    match list.split_last() {
        Some((_, rest)) => [rest, &[last]].concat(),
        None => vec![last],
    }
}

/// Random memories with a value or two changed anywhere: the broker and the model agree. Gives how
/// many were still valid.
pub fn compare_poked<B: Broker>(seeds: std::ops::Range<u64>) -> usize {
    let mut valid = 0;
    each_seed(seeds, |_, rng| {
        let mut memory = state(rng).memory();
        for _ in 0..=rng.below(2) {
            poke(rng, &mut memory);
        }
        valid += usize::from(on_memory::<B>(&memory, &empty_feed()).refusal == 0);
    });
    valid
}
