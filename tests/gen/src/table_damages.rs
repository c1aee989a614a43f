//! Damages to the SID table, and to the SID numbers that tokens keep; each breaks one rule of valid
//! memory, but for counts below two.

use model::{control_word, token_word, Sid, Token, ATTRIBUTES_BIT, SIDS, SID_ROW};

use crate::damage::Target;
use crate::sids::unknown_number;

type Row = [u64; SID_ROW];

/// The rows of the table.
fn rows(t: &Target) -> Vec<Row> {
    t.model.sids.sids().iter().map(Sid::row).collect()
}

/// Writes the table anew, with the places by rising rows.
fn set_rows(t: &mut Target, rows: &[Row]) {
    let mut places: Vec<usize> = (0..rows.len()).collect();
    places.sort_by_key(|&place| rows[place]);
    t.memory.control[control_word::SID_COUNT..].fill(0);
    t.memory.control[control_word::SID_COUNT] = rows.len() as u64;
    for (at, (place, row)) in places.into_iter().zip(rows).enumerate() {
        *self::place(t, at) = place as u64;
        t.memory.control[control_word::SID_ROWS + at * SID_ROW..][..SID_ROW].copy_from_slice(row);
    }
}

/// The word of a place.
fn place<'a>(t: &'a mut Target, at: usize) -> &'a mut u64 {
    &mut t.memory.control[control_word::SID_PLACES + at]
}

/// One of the rows that were not there at the start.
fn entered(t: &mut Target) -> Option<usize> {
    let places: Vec<usize> = (2..t.model.sids.sids().len()).collect();
    t.rng.pick_any(&places)
}

/// An entered row comes to be as `change` has it.
fn with_row(t: &mut Target, change: impl FnOnce(&mut Target, &mut Row)) -> Option<()> {
    let (mut rows, at) = (rows(t), entered(t)?);
    change(t, &mut rows[at]);
    set_rows(t, &rows);
    Some(())
}

pub(crate) fn no_sids(t: &mut Target) -> Option<()> {
    set_rows(t, &[]);
    Some(())
}

pub(crate) fn one_sid(t: &mut Target) -> Option<()> {
    set_rows(t, &[Sid::nt(7).row()]);
    let other = t.model.tokens.iter().flatten().any(|token| sids_of(token).any(|sid| sid != 7));
    other.then_some(())
}

/// All rows are taken, and the count says more.
pub(crate) fn count_past_the_table(t: &mut Target) -> Option<()> {
    t.memory.control[control_word::SID_COUNT] = t.rng.pick(&[257, 258, 1 << 32, u64::MAX]);
    (t.model.sids.sids().len() == SIDS).then_some(())
}

/// One of the two SIDs of the start is another.
pub(crate) fn other_first(t: &mut Target) -> Option<()> {
    let mut rows = rows(t);
    let at = t.rng.below(2);
    let other = Sid::nt(t.rng.pick(&[6, 8, 17, 19, 7 << 8, 18 << 24]));
    rows[at] = t.rng.pick(&[other, Sid::nt(0), Sid::new([0; 6], &[7])?]).row();
    let is_new = !self::rows(t).contains(&rows[at]);
    set_rows(t, &rows);
    is_new.then_some(())
}

pub(crate) fn exchanged_first(t: &mut Target) -> Option<()> {
    let mut rows = rows(t);
    rows.swap(0, 1);
    set_rows(t, &rows);
    Some(())
}

pub(crate) fn other_revision(t: &mut Target) -> Option<()> {
    with_row(t, |t, row| row[0] = row[0] & !0xFF | t.rng.pick(&[0, 2, 3, 0x81]))
}

/// The count of a row with all sub-authorities that there are is 16 or more.
pub(crate) fn count_past_15(t: &mut Target) -> Option<()> {
    with_row(t, |t, row| row[0] = row[0] & !0xFF00 | t.rng.pick(&[16, 17, 0x80, 0xFF]) << 8)
}

/// What stands past the last sub-authority is not 0.
pub(crate) fn past_the_last(t: &mut Target) -> Option<()> {
    let (mut rows, at) = (rows(t), entered(t)?);
    let used = 2 + t.model.sids.sids()[at].sub_authorities().len();
    let half = t.rng.pick(&[used, used + t.rng.clone().below(2 * SID_ROW - used)]);
    rows[at][half / 2] |= t.rng.bit(32) << (32 * (half % 2));
    set_rows(t, &rows);
    Some(())
}

/// The count is one more, and the row is zero.
pub(crate) fn row_of_zeros(t: &mut Target) -> Option<()> {
    let rows = [rows(t), vec![[0; SID_ROW]]].concat();
    (rows.len() <= SIDS).then(|| set_rows(t, &rows))
}

pub(crate) fn equal_rows(t: &mut Target) -> Option<()> {
    let (mut rows, at) = (rows(t), entered(t)?);
    let other = t.rng.below(rows.len());
    rows[at] = rows[other];
    set_rows(t, &rows);
    (at != other).then_some(())
}

pub(crate) fn swapped_places(t: &mut Target) -> Option<()> {
    let at = t.rng.below(t.model.sids.sids().len() - 1);
    let other = *place(t, at + 1);
    *place(t, at + 1) = std::mem::replace(place(t, at), other);
    Some(())
}

pub(crate) fn wrong_place(t: &mut Target) -> Option<()> {
    let count = t.model.sids.sids().len();
    let at = t.rng.below(count);
    let (now, any) = (*place(t, at), t.rng.below(count) as u64);
    let wrong = t.rng.pick(&[any, any, count as u64, 255, 256, 1 << 32 | now, u64::MAX]);
    *place(t, at) = wrong;
    (wrong != now).then_some(())
}

pub(crate) fn place_behind(t: &mut Target) -> Option<()> {
    let behind: Vec<usize> = (t.model.sids.sids().len()..SIDS).collect();
    let any = t.rng.pick_any(&behind)?;
    let at = t.rng.pick(&[any, behind[0], SIDS - 1]);
    *place(t, at) = t.rng.bit(64);
    Some(())
}

pub(crate) fn row_behind(t: &mut Target) -> Option<()> {
    let behind: Vec<usize> = (t.model.sids.sids().len() * SID_ROW..SIDS * SID_ROW).collect();
    let any = t.rng.pick_any(&behind)?;
    let at = t.rng.pick(&[any, behind[0], SIDS * SID_ROW - 1]);
    t.memory.control[control_word::SID_ROWS + at] = t.rng.bit(64);
    Some(())
}

/// The last SID, which no token has, is no longer counted and still there.
pub(crate) fn count_one_less(t: &mut Target) -> Option<()> {
    let (mut all, last) = (rows(t), *t.model.sids.numbers().last()?);
    let at = control_word::SID_ROWS + (all.len() - 1) * SID_ROW;
    let row = all.pop()?;
    set_rows(t, &all);
    t.memory.control[at..][..SID_ROW].copy_from_slice(&row);
    let is_kept = t.model.tokens.iter().flatten().any(|token| sids_of(token).any(|s| s == last));
    (!is_kept && all.len() >= 2).then_some(())
}

/// All SIDs of a token.
fn sids_of(token: &Token) -> impl Iterator<Item = u32> + '_ {
    let groups = token.groups.iter().map(|group| group.sid);
    groups.chain(token.restricting.iter().copied()).chain([token.user])
}

/// The user of a token in no pair, whose users are alike.
pub(crate) fn unknown_user(t: &mut Target) -> Option<()> {
    let model = t.model;
    let is_free = |token: &Token| model.partner(token.number).is_none();
    let (slot, number) = (t.slot(is_free)?, unknown_number(t.rng, &model.sids).into());
    *t.word(slot, token_word::USER) = t.rng.pick(&[number, number, 18 | 1 << 32, u64::MAX]);
    Some(())
}

pub(crate) fn unknown_group(t: &mut Target) -> Option<()> {
    let slot = t.slot(|token| !token.groups.is_empty())?;
    let at = t.rng.below(t.token(slot)?.groups.len());
    let number: u64 = unknown_number(t.rng, &t.model.sids).into();
    let attributes = *t.group(slot, at) >> ATTRIBUTES_BIT << ATTRIBUTES_BIT;
    *t.group(slot, at) = attributes | number;
    Some(())
}

pub(crate) fn unknown_restricting(t: &mut Target) -> Option<()> {
    let slot = t.slot(|token| !token.restricting.is_empty())?;
    let at = t.rng.below(t.token(slot)?.restricting.len());
    let number = unknown_number(t.rng, &t.model.sids).into();
    *t.restricting(slot, at) = t.rng.pick(&[number, number, 18 | 1 << 32, u64::MAX]);
    Some(())
}
