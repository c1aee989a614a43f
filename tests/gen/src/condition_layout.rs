//! The layout of conditions: the numbers that one is written in, and what is wrong with bytes that are
//! none. That is found here once more, after document 02 alone.

use model::{Condition, MAX_BODY, MORE};
use Flaw::*;

/// How deep a condition may be.
pub(crate) const DEEPEST: usize = 8;

/// What a number is in a condition.
#[derive(Clone, Copy, Debug, PartialEq, Eq)]
pub(crate) enum Role {
    Kind,
    Count,
    Privilege,
    Sid,
}

/// The numbers of a condition, in order.
pub(crate) fn numbers(condition: &Condition) -> Vec<(Role, u64)> {
    let list = |kind: u32, list: &[Condition]| {
        vec![(Role::Kind, kind.into()), (Role::Count, list.len() as u64)]
    };
    let leaf = |kind: u32, role, value: u32| vec![(Role::Kind, kind.into()), (role, value.into())];
    let mut numbers = match condition {
        Condition::AllOf(inner) => list(Condition::ALL_OF, inner),
        Condition::AnyOf(inner) => list(Condition::ANY_OF, inner),
        Condition::Negated(_) => vec![(Role::Kind, Condition::NEGATED.into())],
        Condition::Privilege(number) => leaf(Condition::PRIVILEGE, Role::Privilege, *number),
        Condition::Group(sid) => leaf(Condition::GROUP, Role::Sid, *sid),
    };
    numbers.extend(condition.inner().iter().flat_map(self::numbers));
    numbers
}

/// Whether there is a privilege of this number.
pub(crate) fn is_known(privilege: u64) -> bool {
    (2..=36).contains(&privilege)
}

/// What is first wrong with bytes that are no condition.
#[derive(Clone, Copy, Debug, PartialEq, Eq, PartialOrd, Ord)]
pub(crate) enum Flaw {
    /// They end within or before a number that is no list's next.
    Cut,
    /// They end before all that a list counts.
    CountBeyond,
    /// The same, and no body could hold what is missing.
    HugeCount,
    UnknownKind,
    /// Something stands ninth, in a negation or in a list.
    DeepNegation,
    DeepList,
    LongForm,
    /// A number has more than 32 bits.
    TooLarge,
    BytesLeft,
}

pub(crate) const FLAWS: [Flaw; 9] = [
    Cut,
    CountBeyond,
    HugeCount,
    UnknownKind,
    DeepNegation,
    DeepList,
    LongForm,
    TooLarge,
    BytesLeft,
];

/// Takes a number of 32 bits.
pub(crate) fn number(bytes: &mut &[u8]) -> Result<u64, Flaw> {
    let length = 1 + bytes.iter().position(|&byte| byte < MORE).ok_or(Cut)?;
    let (number, rest) = bytes.split_at(length);
    *bytes = rest;
    let is_shortest = length == 1 || number[length - 1] != 0;
    let low = number.iter().take(9).rev();
    let value = low.fold(0, |value, &byte| value << 7 | u64::from(byte & !MORE));
    match (is_shortest, length <= 5 && value <= u32::MAX.into()) {
        (false, _) => Err(LongForm),
        (_, false) => Err(TooLarge),
        _ => Ok(value),
    }
}

/// What an open list or negation still waits for.
struct Open {
    left: u64,
    is_list: bool,
}

/// A walk over bytes that should be one condition.
pub(crate) struct Walk<'a> {
    bytes: &'a [u8],
    /// Whether a privilege came that there is not.
    pub passed_unknown: bool,
}

impl<'a> Walk<'a> {
    pub fn new(bytes: &'a [u8]) -> Self {
        Walk { bytes, passed_unknown: false }
    }

    /// The first flaw; `None` for a condition. It goes on byte by byte, whatever a count says.
    pub fn flaw(&mut self) -> Option<Flaw> {
        let mut open = vec![Open { left: 1, is_list: false }];
        while let Some(last) = open.last_mut() {
            if last.left == 0 {
                open.pop();
                continue;
            }
            let (missing, is_list) = (last.left, last.is_list);
            last.left -= 1;
            if open.len() > DEEPEST {
                return Some(if is_list { DeepList } else { DeepNegation });
            }
            if self.bytes.is_empty() {
                return Some(match is_list {
                    false => Cut,
                    true if missing > MAX_BODY as u64 => HugeCount,
                    true => CountBeyond,
                });
            }
            match self.condition() {
                Ok(more) => open.push(more),
                Err(flaw) => return Some(flaw),
            }
        }
        (!self.bytes.is_empty()).then_some(BytesLeft)
    }

    /// Takes a condition's own numbers; gives what it waits for.
    fn condition(&mut self) -> Result<Open, Flaw> {
        let kind = number(&mut self.bytes)?;
        match kind {
            1 | 2 => Ok(Open { left: number(&mut self.bytes)?, is_list: true }),
            3 => Ok(Open { left: 1, is_list: false }),
            4 | 5 => {
                let value = number(&mut self.bytes)?;
                self.passed_unknown |= kind == 4 && !is_known(value);
                Ok(Open { left: 0, is_list: false })
            }
            _ => Err(UnknownKind),
        }
    }
}
