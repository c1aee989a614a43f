//! Putting back what request 5 changed.

use alloc::vec::Vec;
use core::fmt;

use crate::codec::{List, PrivilegeEntry, Reply, Request};
use crate::names::ALL_PRIVILEGES;
use crate::previous::PreviousPrivileges;
use crate::refusal::Refusal;
use crate::terms::has_bit;

/// What puts back what a request 5 changed, made from the request and its answer.
///
/// It has an entry for each privilege that the request named: enable where it was enabled before,
/// else disable. As long as no other success of request 5 was on the token, of whatever station and
/// by whatever handle, it is proved to succeed on any live handle of the token that has right
/// ADJUST_PRIVILEGES, sent by the handle's station, and to make the token's present, enabled and
/// default privileges what they were. Which privileges the token has used stays. docs/RESTORE.md has
/// a worked example.
///
/// ```
/// use obriska::{Broker, Restore};
///
/// let mut broker = Broker::start();
/// broker.feed(0, &[0x02, 0x01, 0x28])?; // handle 1, on SYSTEM's token
/// broker.feed(0, &[0x05, 0x05, 0x01, 0x01, 0x13, 0x00])?; // Shutdown is disabled
///
/// let enable = [0x05, 0x05, 0x01, 0x01, 0x13, 0x02]; // for a while, it is enabled
/// let answers = broker.feed(0, &enable)?;
/// let restore = Restore::new(&enable, answers[0].bytes())?;
/// assert!(broker.token(1).expect("SYSTEM's").privileges.enables(19));
///
/// assert_eq!(restore.request(1), [0x05, 0x05, 0x01, 0x01, 0x13, 0x00]);
/// broker.feed(0, &restore.request(1))?;
/// assert!(!broker.token(1).expect("SYSTEM's").privileges.enables(19));
/// # Ok::<(), Box<dyn std::error::Error>>(())
/// ```
#[derive(Clone, Debug, PartialEq, Eq, Hash)]
pub struct Restore {
    entries: Vec<PrivilegeEntry>,
}

/// Why nothing is put back by a request and its answer.
#[derive(Clone, Copy, Debug, PartialEq, Eq)]
#[non_exhaustive]
pub enum RestoreError {
    /// The first bytes are not one whole request 5 that may succeed.
    Request,
    /// The second bytes are not the report of such a request.
    Report,
    /// The request was refused, and so it changed nothing.
    Refused(Refusal),
    /// It was a reset: it names no privilege, and its report is of them all.
    Reset,
    /// It was to remove this privilege, the first such one: no request gives one back.
    Removal(u32),
}

impl Restore {
    /// What puts back what this request changed, by its answer: both are whole frames, with their
    /// lengths, as they were sent.
    ///
    /// # Errors
    ///
    /// Where there is nothing to put back, or where it is not promised: after a refusal, a reset or
    /// a removal; and where the bytes are not a request 5 and its answer.
    pub fn new(request: &[u8], answer: &[u8]) -> Result<Self, RestoreError> {
        let reply = Reply::read(&REQUEST_5, answer);
        if let Some(refusal) = reply.ok().and_then(|reply| reply.refusal()) {
            return Err(RestoreError::Refused(refusal));
        }
        let entries = read_request(request).ok_or(RestoreError::Request)?;
        let named = named_by(&entries)?;
        let Ok(Reply::Privileges(previous)) = reply else {
            return Err(RestoreError::Report);
        };
        if !is_report(&entries, named, previous) {
            return Err(RestoreError::Report); // of another request
        }
        let entries = entries.iter().map(|entry| undoing(previous, entry.privilege));
        Ok(Restore { entries: entries.collect() })
    }

    /// The request that puts it back, on a handle of the token, with its length before it.
    ///
    /// It is a request 5 with a report of its own: what puts *that* back is the change again.
    pub fn request(&self, handle: u32) -> Vec<u8> {
        let request = Request::Privileges { handle, entries: self.entries[..].into() };
        request.to_bytes().expect("a body holds an entry for each privilege")
    }
}

/// Whether a success of these entries may report so: of what they name, with nothing enabled that was
/// absent, before it or by it.
fn is_report(entries: &[PrivilegeEntry], named: u64, previous: PreviousPrivileges) -> bool {
    let PreviousPrivileges { present, enabled, .. } = previous;
    let was_there = |entry: &PrivilegeEntry| {
        entry.attributes != PrivilegeEntry::ENABLE || has_bit(present, entry.privilege)
    };
    present & !named == 0 && enabled & !present == 0 && entries.iter().all(was_there)
}

/// How an answer is read that is to be a report: that of any request 5.
const REQUEST_5: Request = Request::Privileges { handle: 0, entries: List::EMPTY };

/// What makes a privilege as it was.
fn undoing(previous: PreviousPrivileges, privilege: u32) -> PrivilegeEntry {
    if has_bit(previous.enabled, privilege) {
        PrivilegeEntry::enable(privilege)
    } else {
        PrivilegeEntry::disable(privilege)
    }
}

/// The entries of a whole request 5, one at least.
fn read_request(frame: &[u8]) -> Option<Vec<PrivilegeEntry>> {
    match Request::read(frame) {
        Ok(Request::Privileges { entries, .. }) if !entries.is_empty() => {
            Some(entries.iter().collect())
        }
        _ => None,
    }
}

/// The bits of the privileges that the entries enable and disable, each named once.
fn named_by(entries: &[PrivilegeEntry]) -> Result<u64, RestoreError> {
    if *entries == [PrivilegeEntry::RESET] {
        return Err(RestoreError::Reset);
    }
    let mut named = 0;
    for &PrivilegeEntry { privilege, attributes } in entries {
        match attributes {
            PrivilegeEntry::DISABLE | PrivilegeEntry::ENABLE => (),
            PrivilegeEntry::REMOVE => return Err(RestoreError::Removal(privilege)),
            _ => return Err(RestoreError::Request),
        }
        let bit = 1_u64.checked_shl(privilege).unwrap_or(0);
        if ALL_PRIVILEGES & !named & bit == 0 {
            return Err(RestoreError::Request);
        }
        named |= bit;
    }
    Ok(named)
}

impl fmt::Display for RestoreError {
    fn fmt(&self, f: &mut fmt::Formatter<'_>) -> fmt::Result {
        match self {
            RestoreError::Request => f.write_str("it is no whole request 5 that may succeed"),
            RestoreError::Report => f.write_str("the answer is not the request's report"),
            RestoreError::Refused(refusal) => {
                write!(f, "the request changed nothing: {refusal}")
            }
            RestoreError::Reset => f.write_str("it was a reset, which names no privilege"),
            RestoreError::Removal(privilege) => {
                write!(f, "it was to remove privilege {privilege}, and no request gives one back")
            }
        }
    }
}

#[cfg(feature = "std")]
impl std::error::Error for RestoreError {}

#[cfg(test)]
mod tests {
    use super::*;
    use crate::number;

    const DISABLE_TCB: [u8; 6] = [5, 5, 1, 1, 7, 0];
    const WAS_ENABLED: [u8; 6] = [5, 0, 0x80, 1, 0x80, 1];

    #[test]
    fn there_is_an_entry_for_each_one_named_in_the_requests_order() {
        let request = [11, 5, 1, 4, 36, 2, 7, 0, 20, 0, 2, 2];
        let mut answer = vec![9, 0];
        number::write(1 << 36 | 1 << 7 | 1 << 2, &mut answer);
        number::write(1 << 7 | 1 << 2, &mut answer);
        let restore = Restore::new(&request, &answer).expect("its report");
        assert_eq!(restore.request(1), [11, 5, 1, 4, 36, 0, 7, 2, 20, 0, 2, 2]);
    }

    #[test]
    fn a_handle_may_have_any_number() {
        let restore = Restore::new(&DISABLE_TCB, &WAS_ENABLED).expect("its report");
        assert_eq!(restore.request(127), [5, 5, 127, 1, 7, 2]);
        assert_eq!(restore.request(300), [6, 5, 0xAC, 2, 1, 7, 2]);
        let largest = restore.request(u32::MAX);
        assert_eq!(largest, [9, 5, 0xFF, 0xFF, 0xFF, 0xFF, 0x0F, 1, 7, 2]);
    }

    #[test]
    fn what_is_no_request_5_puts_nothing_back() {
        let requests: [&[u8]; 12] = [
            &[],
            &[5, 1, 1, 7, 0],          // without its length
            &[5, 5, 1, 1, 7],          // cut short
            &[5, 5, 1, 1, 7, 0, 0],    // a byte too many
            &[5, 6, 1, 1, 7, 0],       // request 6
            &[5, 5, 1, 2, 7, 0],       // a count beyond its entries
            &[6, 5, 1, 1, 7, 0, 8],    // half an entry more
            &[3, 5, 1, 0],             // no entries
            &[6, 5, 1, 1, 0x87, 0, 0], // not the shortest form
            &[5, 5, 1, 1, 7, 3],       // an unknown action
            &[5, 5, 1, 1, 37, 0],      // no privilege
            &[7, 5, 1, 2, 7, 0, 7, 2], // named twice
        ];
        for request in requests {
            let restore = Restore::new(request, &WAS_ENABLED);
            assert_eq!(restore, Err(RestoreError::Request), "{request:?}");
        }
    }

    #[test]
    fn what_is_not_its_report_puts_nothing_back() {
        let answers: [&[u8]; 7] = [
            &[],
            &[0],
            &[3, 0, 0x80, 1],          // one word
            &[5, 0, 0x80, 1, 0x80],    // cut short
            &[3, 99, 0, 0],            // no status
            &[5, 0, 0x80, 2, 0x80, 1], // of another privilege too
            &[4, 0, 0, 0x80, 1],       // enabled though absent
        ];
        for answer in answers {
            let restore = Restore::new(&DISABLE_TCB, answer);
            assert_eq!(restore, Err(RestoreError::Report), "{answer:?}");
        }
        let enable_tcb = [5, 5, 1, 1, 7, 2];
        let was_absent = [3, 0, 0, 0]; // an absent one is not enabled
        assert_eq!(Restore::new(&enable_tcb, &was_absent), Err(RestoreError::Report));
    }

    #[test]
    fn an_error_says_why() {
        let reset = [9, 5, 1, 1, 0, 0x80, 0x80, 0x80, 0x80, 8];
        let removal = [7, 5, 1, 2, 19, 0, 7, 4];
        let text = |request: &[u8], answer: &[u8]| {
            Restore::new(request, answer).expect_err("nothing is put back").to_string()
        };
        let texts = [
            text(&reset, &WAS_ENABLED),
            text(&removal, &WAS_ENABLED),
            text(&removal, &[1, 3]),
            text(&DISABLE_TCB, &[1, 0]),
            text(&[1, 13], &[3, 0, 0, 0]),
        ];
        let expected = [
            "it was a reset, which names no privilege",
            "it was to remove privilege 7, and no request gives one back",
            "the request changed nothing: refused 3: the handle lacks the right",
            "the answer is not the request's report",
            "it is no whole request 5 that may succeed",
        ];
        assert_eq!(texts, expected);
    }
}
