//! The layout of requests 14 and 15: what is first wrong with a packed SID of theirs. That is found here
//! once more, after document 02 alone.

use model::Reader;
use Flaw::*;

/// What is wrong with bytes that should be a packed SID.
#[derive(Clone, Copy, Debug, PartialEq, Eq, PartialOrd, Ord)]
pub(crate) enum Flaw {
    /// They end before the authority's end.
    CutHead,
    Revision,
    /// One sub-authority more than there may be.
    Count16,
    CountMore,
    /// They end before the last sub-authority's end.
    CutShort,
}

pub(crate) const FLAWS: [Flaw; 5] = [CutHead, Revision, Count16, CountMore, CutShort];

/// The first flaw of a SID in the body, and whether it is the first SID; `None` if something else is
/// wrong before, or nothing.
pub(crate) fn flaw(body: &[u8]) -> Option<(Flaw, bool)> {
    let mut rest = Reader::new(body);
    match rest.u32()? {
        14 => {
            if let Some(flaw) = sid_flaw(&mut rest) {
                return Some((flaw, true));
            }
            let _fields = (rest.u64()?, rest.u32()?, rest.u64()?, rest.u64()?);
            for _ in 0..rest.u32()? {
                if let Some(flaw) = sid_flaw(&mut rest) {
                    return Some((flaw, false));
                }
                rest.u32()?;
            }
        }
        15 => {
            let _fields = (rest.u32()?, rest.u32()?, rest.u64()?);
            let (denied, count) = (rest.u32()?, rest.u32()?);
            rest.list(denied)?;
            for at in 0..count {
                if let Some(flaw) = sid_flaw(&mut rest) {
                    return Some((flaw, at == 0));
                }
            }
        }
        _ => {}
    }
    None
}

/// Takes a SID, or gives what is wrong with it.
fn sid_flaw(rest: &mut Reader) -> Option<Flaw> {
    let Some(head) = rest.take(8) else { return Some(CutHead) };
    match (head[0], head[1]) {
        (1, count @ 0..=15) => rest.take(4 * usize::from(count)).is_none().then_some(CutShort),
        (1, 16) => Some(Count16),
        (1, _) => Some(CountMore),
        _ => Some(Revision),
    }
}
