//! Conditions on a token, as request 18 has them.

use alloc::{boxed::Box, vec::Vec};
use core::fmt;

use crate::codec::condition::kind;
use crate::codec::{Request, WriteError};
use crate::limits::{MAX_BODY, MAX_DEPTH};
use crate::names;
use crate::number;

/// The longest condition: a body has the request's number and a handle before it.
const MAX_BYTES: usize = MAX_BODY - 2;

/// A condition on a token: what it takes to see a page of a screen, say.
///
/// Request 18 evaluates it on the token of a handle with right QUERY and answers 1 or 0. No token
/// changes, not even which privileges it has used. It is printed as `obriska-talk` reads it;
/// docs/CONDITIONS.md has a worked example.
///
/// ```
/// use obriska::{Broker, Condition};
///
/// let page = Condition::all([
///     Condition::enabled(7),
///     Condition::any([Condition::group(20), Condition::not(Condition::enabled(19))]),
/// ]);
/// let text = "all(enabled SeTcbPrivilege, any(group 20, not enabled SeShutdownPrivilege))";
/// assert_eq!(page.to_string(), text);
///
/// let mut broker = Broker::start();
/// broker.feed(0, &[0x02, 0x01, 0x28])?; // handle 1, on SYSTEM's token
/// let answers = broker.feed(0, &page.request(1)?)?;
/// assert_eq!(Condition::read_answer(answers[0].fields()), Some(false));
/// broker.feed(0, &[0x05, 0x05, 0x01, 0x01, 0x13, 0x00])?; // Shutdown is disabled
/// let answers = broker.feed(0, &page.request(1)?)?;
/// assert_eq!(Condition::read_answer(answers[0].fields()), Some(true));
/// # Ok::<(), Box<dyn std::error::Error>>(())
/// ```
#[derive(Clone, Debug, PartialEq, Eq, Hash)]
#[non_exhaustive]
pub enum Condition {
    /// Each of them holds; of none, it does.
    All(Vec<Condition>),
    /// One of them holds at least; of none, it does not.
    Any(Vec<Condition>),
    /// It does not hold.
    Not(Box<Condition>),
    /// The privilege is enabled; absent and disabled ones are not. The broker refuses one that is
    /// not among [`names::PRIVILEGES`], wherever it stands, by [`Field`](crate::Refusal::Field).
    Enabled(u32),
    /// A group of the SID that has this number is enabled: not a deny-only one, the user or a
    /// restricting SID.
    Group(u32),
}

/// Why no request has a condition.
#[derive(Clone, Copy, Debug, PartialEq, Eq)]
#[non_exhaustive]
pub enum ConditionError {
    /// It is deeper than [`MAX_DEPTH`].
    TooDeep,
    /// The request's body would be longer than [`MAX_BODY`].
    TooLong,
}

impl Condition {
    /// Each of them holds.
    pub fn all(conditions: impl IntoIterator<Item = Condition>) -> Self {
        Condition::All(conditions.into_iter().collect())
    }

    /// One of them holds at least.
    pub fn any(conditions: impl IntoIterator<Item = Condition>) -> Self {
        Condition::Any(conditions.into_iter().collect())
    }

    /// It does not hold.
    #[allow(clippy::should_implement_trait)] // a kind's own name, beside `all` and `any`
    pub fn not(condition: Condition) -> Self {
        Condition::Not(Box::new(condition))
    }

    /// The privilege of this number is enabled.
    pub fn enabled(privilege: u32) -> Self {
        Condition::Enabled(privilege)
    }

    /// A group of the SID that has this number is enabled.
    pub fn group(sid: u32) -> Self {
        Condition::Group(sid)
    }

    /// How deep it is: one more than the deepest condition in it; 1 if there is none.
    ///
    /// ```
    /// use obriska::Condition;
    /// assert_eq!(Condition::all([]).depth(), 1);
    /// assert_eq!(Condition::not(Condition::group(20)).depth(), 2);
    /// ```
    pub fn depth(&self) -> usize {
        match self {
            Condition::All(inner) | Condition::Any(inner) => {
                1 + inner.iter().map(Condition::depth).max().unwrap_or(0)
            }
            Condition::Not(inner) => 1 + inner.depth(),
            Condition::Enabled(_) | Condition::Group(_) => 1,
        }
    }

    /// Its bytes, as they stand behind the handle in a request.
    ///
    /// ```
    /// use obriska::Condition;
    /// let page = Condition::all([Condition::enabled(7), Condition::not(Condition::group(300))]);
    /// assert_eq!(page.to_bytes()?, [1, 2, 4, 7, 3, 5, 0xAC, 0x02]);
    /// # Ok::<(), obriska::ConditionError>(())
    /// ```
    pub fn to_bytes(&self) -> Result<Vec<u8>, ConditionError> {
        if self.depth() > MAX_DEPTH {
            return Err(ConditionError::TooDeep);
        }
        let mut bytes = Vec::new();
        self.write(&mut bytes);
        if bytes.len() > MAX_BYTES {
            return Err(ConditionError::TooLong);
        }
        Ok(bytes)
    }

    /// The request that evaluates it on a handle's token, with its length before it.
    ///
    /// ```
    /// use obriska::Condition;
    /// assert_eq!(Condition::enabled(7).request(1)?, [0x04, 0x12, 0x01, 0x04, 0x07]);
    /// # Ok::<(), obriska::ConditionError>(())
    /// ```
    pub fn request(&self, handle: u32) -> Result<Vec<u8>, ConditionError> {
        let request = Request::Evaluate { handle, condition: self.into() };
        request.to_bytes().map_err(|error| match error {
            WriteError::TooDeep => ConditionError::TooDeep,
            _ => ConditionError::TooLong,
        })
    }

    /// Whether it held, by the fields of the answer; `None` unless they are 1 or 0, as those of
    /// request 18's refusals are not.
    pub fn read_answer(fields: &[u8]) -> Option<bool> {
        match fields {
            [0] => Some(false),
            [1] => Some(true),
            _ => None,
        }
    }

    pub(crate) fn write(&self, bytes: &mut impl Extend<u8>) {
        match self {
            Condition::All(inner) => write_list(kind::ALL, inner, bytes),
            Condition::Any(inner) => write_list(kind::ANY, inner, bytes),
            Condition::Not(inner) => {
                number::write(kind::NOT, bytes);
                inner.write(bytes);
            }
            Condition::Enabled(privilege) => {
                write_pair([kind::ENABLED, (*privilege).into()], bytes)
            }
            Condition::Group(sid) => write_pair([kind::GROUP, (*sid).into()], bytes),
        }
    }
}

fn write_list(kind: u64, conditions: &[Condition], bytes: &mut impl Extend<u8>) {
    write_pair([kind, conditions.len() as u64], bytes);
    conditions.iter().for_each(|condition| condition.write(bytes));
}

fn write_pair(numbers: [u64; 2], bytes: &mut impl Extend<u8>) {
    numbers.iter().for_each(|&number| number::write(number, bytes));
}

impl fmt::Display for Condition {
    fn fmt(&self, f: &mut fmt::Formatter<'_>) -> fmt::Result {
        match self {
            Condition::All(inner) => fmt_list("all", inner, f),
            Condition::Any(inner) => fmt_list("any", inner, f),
            Condition::Not(inner) => write!(f, "not {inner}"),
            Condition::Enabled(privilege) => match names::name(&names::PRIVILEGES, *privilege) {
                Some(name) => write!(f, "enabled {name}"),
                None => write!(f, "enabled {privilege}"),
            },
            Condition::Group(sid) => write!(f, "group {sid}"),
        }
    }
}

fn fmt_list(name: &str, conditions: &[Condition], f: &mut fmt::Formatter<'_>) -> fmt::Result {
    write!(f, "{name}(")?;
    for (index, condition) in conditions.iter().enumerate() {
        let separator = if index == 0 { "" } else { ", " };
        write!(f, "{separator}{condition}")?;
    }
    f.write_str(")")
}

impl fmt::Display for ConditionError {
    fn fmt(&self, f: &mut fmt::Formatter<'_>) -> fmt::Result {
        match self {
            ConditionError::TooDeep => write!(f, "the condition is over {MAX_DEPTH} deep"),
            ConditionError::TooLong => write!(f, "the request is over {MAX_BODY} bytes"),
        }
    }
}

#[cfg(feature = "std")]
impl std::error::Error for ConditionError {}

#[cfg(test)]
mod tests {
    use super::*;

    /// `not` so many times around it.
    fn nested(times: usize, innermost: Condition) -> Condition {
        (0..times).fold(innermost, |inner, _| Condition::not(inner))
    }

    #[test]
    fn every_kind_has_its_bytes_its_text_and_its_depth() {
        let cases: [(Condition, &[u8], &str, usize); 8] = [
            (Condition::all([]), &[1, 0], "all()", 1),
            (Condition::any([]), &[2, 0], "any()", 1),
            (
                Condition::enabled(36),
                &[4, 36],
                "enabled SeDelegateSessionUserImpersonatePrivilege",
                1,
            ),
            (Condition::enabled(37), &[4, 37], "enabled 37", 1),
            (Condition::group(u32::MAX), &[5, 0xFF, 0xFF, 0xFF, 0xFF, 0x0F], "group 4294967295", 1),
            (Condition::not(Condition::any([])), &[3, 2, 0], "not any()", 2),
            (Condition::all([Condition::group(128)]), &[1, 1, 5, 0x80, 1], "all(group 128)", 2),
            (
                Condition::any([Condition::group(1), nested(2, Condition::group(2))]),
                &[2, 2, 5, 1, 3, 3, 5, 2],
                "any(group 1, not not group 2)",
                4,
            ),
        ];
        for (condition, bytes, text, depth) in cases {
            assert_eq!(condition.to_bytes().as_deref(), Ok(bytes));
            assert_eq!((condition.to_string().as_str(), condition.depth()), (text, depth));
        }
    }

    #[test]
    fn eight_deep_is_written_and_nine_deep_is_not() {
        for innermost in [Condition::all([]), Condition::any([]), Condition::enabled(7)] {
            let deepest = nested(MAX_DEPTH - 1, innermost.clone());
            assert_eq!((deepest.depth(), deepest.to_bytes().is_ok()), (MAX_DEPTH, true));
            let deeper = [nested(MAX_DEPTH, innermost), Condition::all([deepest])];
            for condition in deeper {
                assert_eq!(condition.to_bytes(), Err(ConditionError::TooDeep));
                assert_eq!(condition.request(1), Err(ConditionError::TooDeep));
            }
        }
    }

    #[test]
    fn a_request_is_as_long_as_a_body_may_be() {
        let groups = |count| vec![Condition::group(1); count];
        let longest = Condition::any([groups(1020), vec![Condition::group(128)]].concat());
        assert_eq!(longest.to_bytes().map(|bytes| bytes.len()), Ok(2046));
        assert_eq!(longest.request(127).map(|frame| frame.len()), Ok(2050));
        assert_eq!(longest.request(128), Err(ConditionError::TooLong));
        assert_eq!(Condition::any(groups(1022)).to_bytes(), Err(ConditionError::TooLong));
    }

    #[test]
    fn an_answer_is_1_or_0() {
        let read = |fields: &[u8]| Condition::read_answer(fields);
        assert_eq!([read(&[1]), read(&[0])], [Some(true), Some(false)]);
        assert_eq!([read(&[]), read(&[2]), read(&[1, 0])], [None; 3]);
    }
}
