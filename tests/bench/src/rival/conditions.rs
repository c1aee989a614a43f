//! Request 18: one pass over the condition's bytes, with the meaning found on the way.

use super::groups::in_word;
use super::layout::{
    condition, right, word, ALL_PRIVILEGES, ENABLED, GROUPS, MAX_DEPTH, MAX_GROUPS, TOKEN_ROW,
};
use super::memory::{Memory, Row};
use super::reader::{refuse, Body, Reader, MORE};
use super::requests::Served;
use super::sids::Sids;

/// What is asked where there is no token: all is read, nothing is met.
static NO_TOKEN: Row = [0; TOKEN_ROW];

impl Memory<'_> {
    pub fn evaluate(&mut self, station: usize, reader: &mut Reader, out: &mut Body) -> Served {
        let handle = reader.u32();
        let bytes = reader.rest()?;
        let found = self.granted(station, handle, right::QUERY);
        let row = found.as_ref().map_or(&NO_TOKEN, |&(_, slot)| &self.tokens[slot]);
        let mut walk = Walk::new(row, bytes);
        let met = walk.condition();
        refuse(1, met.is_some() && walk.at == bytes.len())?;
        found?;
        refuse(5, !walk.unknown)?;
        out.number(met.unwrap_or(false).into());
        Ok(())
    }
}

/// A list that is not at its end.
#[derive(Clone, Copy)]
struct List {
    /// Conditions left.
    left: u32,
    /// Lists and negations around it, and itself.
    depth: u32,
    /// What decides it: false for all of, true for any of; and whether that came.
    decides: bool,
    decided: bool,
    /// Whether an odd number of negations is before it.
    negated: bool,
}

/// What the outermost condition stands in: any of one.
const OUTERMOST: List = List { left: 1, depth: 0, decides: true, decided: false, negated: false };

impl List {
    #[inline(always)]
    fn take(&mut self, met: bool) {
        self.decided |= met == self.decides;
        self.left -= 1;
    }

    #[inline(always)]
    fn met(self) -> bool {
        (self.decided == self.decides) != self.negated
    }
}

/// What a condition's own numbers say.
enum Read {
    /// A leaf or an empty list, met or not.
    Met(bool),
    /// A list with something in it.
    List(List),
}

/// A walk over a condition's bytes, and the token that it is asked of.
struct Walk<'a> {
    bytes: &'a [u8],
    at: usize,
    /// Whether there was an unknown privilege.
    unknown: bool,
    enabled: u64,
    groups: &'a [u64],
    sids: Option<Sids>,
}

/// From so many bytes on it pays to hash the groups' SIDs first.
const LONG: usize = 48;

// All is inlined, so that the walk stays in registers.
impl<'a> Walk<'a> {
    fn new(row: &'a Row, bytes: &'a [u8]) -> Self {
        let groups = &row[GROUPS][..(row[word::GROUP_COUNT] as usize).min(MAX_GROUPS)];
        let sids = (bytes.len() >= LONG && !groups.is_empty()).then(|| Sids::new(groups));
        Walk { bytes, at: 0, unknown: false, enabled: row[word::ENABLED], groups, sids }
    }

    /// The meaning; `None` where the bytes are no condition.
    #[inline(always)]
    fn condition(&mut self) -> Option<bool> {
        let (mut open, mut lists) = ([OUTERMOST; MAX_DEPTH], 0);
        let mut list = OUTERMOST;
        loop {
            self.leaves(&mut list);
            let mut met = match self.read(list.depth)? {
                Read::Met(met) => met,
                Read::List(inner) => {
                    open[lists] = list;
                    lists += 1;
                    list = inner;
                    continue;
                }
            };
            loop {
                list.take(met);
                if list.left > 0 {
                    break;
                }
                met = list.met();
                if lists == 0 {
                    return Some(met);
                }
                lists -= 1;
                list = open[lists];
            }
        }
    }

    /// Takes the list's next leaves, but for its last condition, while they have two bytes.
    #[inline(always)]
    fn leaves(&mut self, list: &mut List) {
        let most = if list.depth < MAX_DEPTH as u32 { list.left - 1 } else { 0 };
        let (pairs, _) = self.bytes[self.at..].as_chunks();
        let pairs = &pairs[..pairs.len().min(most as usize)];
        let mut taken = self.privileges(list, pairs);
        for &[kind, value] in &pairs[taken..] {
            let met = match kind {
                _ if value >= MORE => break,
                condition::PRIVILEGE => self.privilege(value.into()),
                condition::GROUP => self.group(value.into()),
                condition::ALL_OF if value == 0 => true,
                condition::ANY_OF if value == 0 => false,
                _ => break,
            };
            list.decided |= met == list.decides;
            taken += 1;
        }
        list.left -= taken as u32;
        self.at += 2 * taken;
    }

    /// How many of the list's next leaves are privileges: all their bits at once.
    #[inline(always)]
    fn privileges(&mut self, list: &mut List, pairs: &[[u8; 2]]) -> usize {
        let (mut named, mut numbers, mut count) = (0, 0, 0);
        for &[kind, value] in pairs {
            if kind != condition::PRIVILEGE || value >= MORE {
                break;
            }
            named |= 1u64 << (u32::from(value) % u64::BITS);
            numbers |= u32::from(value);
            count += 1;
        }
        let deciding = if list.decides { self.enabled } else { !self.enabled };
        list.decided |= named & deciding != 0;
        self.unknown |= named & !ALL_PRIVILEGES != 0 || numbers >= u64::BITS;
        count
    }

    /// Reads a condition within so many others, with the negations before it.
    #[inline(always)]
    fn read(&mut self, around: u32) -> Option<Read> {
        let (mut depth, mut negated) = (around + 1, false);
        while let Some(&condition::NEGATED) = self.bytes.get(self.at) {
            (depth, negated) = (depth + 1, !negated);
            self.at += 1;
        }
        if depth > MAX_DEPTH as u32 {
            return None;
        }
        let kind = *self.bytes.get(self.at)?;
        let (value, at) = number(self.bytes, self.at + 1)?;
        self.at = at;
        Some(match kind {
            condition::PRIVILEGE => Read::Met(self.privilege(value) != negated),
            condition::GROUP => Read::Met(self.group(value) != negated),
            condition::ALL_OF | condition::ANY_OF => {
                let decides = kind == condition::ANY_OF;
                match value {
                    0 => Read::Met(decides == negated),
                    left => Read::List(List { left, depth, decides, decided: false, negated }),
                }
            }
            _ => return None,
        })
    }

    #[inline(always)]
    fn privilege(&mut self, privilege: u32) -> bool {
        let bit = 1u64.checked_shl(privilege).unwrap_or(0);
        self.unknown |= bit & ALL_PRIVILEGES == 0;
        self.enabled & bit != 0
    }

    #[inline(always)]
    fn group(&self, sid: u32) -> bool {
        match &self.sids {
            Some(sids) => sids.has(sid),
            None => {
                let enabled = in_word(ENABLED);
                let (of_sid, same) = (enabled | u64::from(sid), enabled | u64::from(u32::MAX));
                self.groups.iter().any(|group| group & same == of_sid)
            }
        }
    }
}

/// The number at a place, and the place behind it; `None` unless it is in its layout.
#[inline(always)]
fn number(bytes: &[u8], at: usize) -> Option<(u32, usize)> {
    match *bytes.get(at)? {
        byte @ ..MORE => Some((byte.into(), at + 1)),
        _ => long_number(&bytes[at..]).map(|(value, length)| (value, at + length)),
    }
}

/// Most bytes of a number, and the top bits of a word's bytes.
const NUMBER_BYTES: usize = 5;
const TOPS: u64 = u64::from_ne_bytes([MORE; 8]);

/// The number at the begin, of two bytes or more, and how many it has.
fn long_number(bytes: &[u8]) -> Option<(u32, usize)> {
    let word = match bytes.first_chunk() {
        Some(chunk) => u64::from_le_bytes(*chunk),
        None => {
            let mut chunk = [MORE; 8];
            chunk[..bytes.len()].copy_from_slice(bytes);
            u64::from_le_bytes(chunk)
        }
    };
    let length = 1 + ((!word & TOPS).trailing_zeros() / u8::BITS) as usize;
    if length > NUMBER_BYTES {
        return None;
    }
    let last = word >> (u8::BITS as usize * (length - 1)) & 0xFF;
    let own = word & (u64::MAX >> (u64::BITS as usize - u8::BITS as usize * length));
    let seven = |at: u32| own >> at & (0x7F << (at * 7));
    let value = seven(0) | seven(1) | seven(2) | seven(3) | seven(4);
    (last != 0 && value <= u32::MAX.into()).then_some((value as u32, length))
}
