//! Requests for lists in which what was is put back.

use model::{Privileges, Request, DISABLE, ENABLE, FIRST_PRIVILEGE, LAST_PRIVILEGE};

use crate::wishes::Wish;

/// The requests that adjust a token otherwise.
const OTHERS: [usize; 3] = [6, 7, 8];

impl Wish<'_> {
    /// Often request 5 with enable and disable entries only, or another that adjusts a token.
    pub fn switching(&mut self) -> Request {
        match self.rng.below(10) {
            0..=2 => self.switch(),
            3 => {
                let kind = self.rng.pick(&OTHERS);
                self.request_of(kind)
            }
            _ => self.request(),
        }
    }

    /// Request 5 for a few privileges or for all; enables, disables or does both.
    fn switch(&mut self) -> Request {
        let handle = self.handle(5);
        let words = self.token(handle).map_or(Privileges::default(), |token| token.privileges);
        let all: Vec<u32> = (FIRST_PRIVILEGE..=LAST_PRIVILEGE).collect();
        let most = if self.rng.percent(20) { all.len() } else { 1 + self.rng.below(5) };
        let named = self.rng.shuffled(&all).into_iter().take(most);
        let enabling = self.rng.pick(&[0, 50, 50, 80, 100]);
        let mut entry = |privilege: u32| {
            let is_present = words.present >> privilege & 1 == 1;
            let enables = is_present && self.rng.percent(enabling);
            (privilege, if enables { ENABLE } else { DISABLE })
        };
        let entries = named.map(&mut entry).collect();
        Request::Privileges { handle: handle.number, entries }
    }
}
