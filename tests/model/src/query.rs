//! Request 4: reports on a token.

use crate::number::write_number;
use crate::refusal::Refusal;
use crate::rights::Mask;
use crate::state::Model;
use crate::token::Token;

/// The last class; the first is 1.
pub const LAST_CLASS: u32 = 13;

impl Model {
    /// 4: the report of a class, when it fits the capacity.
    pub(crate) fn query(
        &self,
        station: usize,
        handle: u32,
        class: u32,
        capacity: u32,
    ) -> Result<Vec<u8>, Refusal> {
        let handle = self.granted(station, handle, Mask::QUERY)?;
        let report = report(self.live(handle.token), class).ok_or(Refusal::Field)?;
        let size = report.len() as u32;
        Refusal::Capacity(size).unless(size <= capacity)?;
        Ok(report)
    }
}

/// The report's bytes; `None` for an unknown class.
fn report(token: &Token, class: u32) -> Option<Vec<u8>> {
    if class == 6 {
        let mut report = bytes(&[token.dacl.len() as u64]);
        report.extend_from_slice(&token.dacl);
        return Some(report);
    }
    numbers(token, class).map(|numbers| bytes(&numbers))
}

/// The numbers of every report but the DACL's.
fn numbers(token: &Token, class: u32) -> Option<Vec<u64>> {
    let privileges = token.privileges;
    Some(match class {
        1 => vec![token.user.into()],
        2 => groups(token),
        3 => {
            vec![privileges.present, privileges.enabled, privileges.default, privileges.used]
        }
        4 => vec![token.sid_at(token.owner).into()],
        5 => vec![token.sid_at(token.primary_group).into()],
        7 => vec![token.kind as u64],
        8 => vec![token.level as u64],
        9 => vec![token.number, token.session, token.modified, token.kind as u64, token.root],
        10 => counted(token.restricting.iter().map(|&sid| sid.into()).collect(), 1),
        11 => vec![token.scope.into()],
        12 => vec![token.elevation as u64],
        13 => vec![token.integrity.into()],
        _ => return None,
    })
}

fn groups(token: &Token) -> Vec<u64> {
    let pairs = token.groups.iter().flat_map(|group| [group.sid.into(), group.attributes.into()]);
    counted(pairs.collect(), 2)
}

/// The number of entries before them, each of `width` numbers.
fn counted(entries: Vec<u64>, width: usize) -> Vec<u64> {
    let count = (entries.len() / width) as u64;
    [vec![count], entries].concat()
}

fn bytes(numbers: &[u64]) -> Vec<u8> {
    let mut bytes = Vec::new();
    for &number in numbers {
        write_number(number, &mut bytes);
    }
    bytes
}
