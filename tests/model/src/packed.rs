//! Requests with packed SIDs: 14 and 15, which are 3 and 10 once the SIDs have numbers.

use crate::refusal::Refusal;
use crate::sid::Sid;
use crate::state::Model;

impl Model {
    /// 14: a new token; the user's SID comes first, then the groups' ones.
    pub(crate) fn create_packed(
        &mut self,
        station: usize,
        (user, session, integrity): (Sid, u64, u32),
        privileges: (u64, u64),
        groups: &[(Sid, u32)],
    ) -> Result<u32, Refusal> {
        let mut table = self.sids.clone();
        let user = table.enter(user);
        let groups: Vec<_> =
            groups.iter().map(|&(sid, attributes)| (table.enter(sid), attributes)).collect();
        self.create(station, table, (user, session, integrity), privileges, &groups)
    }

    /// 15: a restricted copy; all its SIDs are entered, also those that a restricted source lacks.
    pub(crate) fn restrict_packed(
        &mut self,
        station: usize,
        handle: u32,
        less: (u32, u64),
        deny: &[u32],
        sids: &[Sid],
    ) -> Result<u32, Refusal> {
        let mut table = self.sids.clone();
        let numbers: Vec<u32> = sids.iter().map(|&sid| table.enter(sid)).collect();
        self.restrict(station, table, handle, less, deny, &numbers)
    }
}
