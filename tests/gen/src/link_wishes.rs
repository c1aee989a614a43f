//! Requests to link: two of the station's handles, with each ground against them as likely.

use std::collections::BTreeMap;

use model::{Mask, Request, TCB};

use crate::links::{grounds, Ground};
use crate::wishes::Wish;

/// The number of the request.
const LINK: usize = 16;

/// Two handles and a session.
type Choice = (u32, u32, u64);

impl Wish<'_> {
    /// Mostly two handles that can be linked; else two with something against them, or other handles.
    pub(crate) fn link(&mut self) -> Request {
        let choices = self.choices();
        let good = choices.get(&vec![]).filter(|_| self.rng.percent(60));
        let other: Vec<&Vec<Choice>> = choices.values().collect();
        let from = good.or_else(|| self.rng.pick_any(&other));
        let chosen = from.map(|choices| self.choice(choices));
        let odd = self.rng.pick(&[999, 9, 0, u64::MAX]);
        let (elevated, filtered, session) = chosen.unwrap_or((0, 0, odd));
        let [elevated, filtered] = [elevated, filtered].map(|handle| self.or_other(handle));
        let session = if self.rng.percent(5) { odd } else { session };
        Request::Link { elevated, filtered, session }
    }

    /// One of the choices; of a session that has a pair as likely as of one that has none, and with the
    /// pair's own tokens as likely as with others.
    fn choice(&mut self, choices: &[Choice]) -> Choice {
        let pairs = self.model.pairs;
        let kind = |choice: &Choice| {
            let pair = pairs.iter().flatten().find(|pair| pair.session == choice.2)?;
            let is_own = |number| {
                let own = self.own_handles();
                let handle = own.into_iter().find(|handle| handle.number == number);
                handle.is_some_and(|handle| pair.tokens().contains(&handle.token))
            };
            Some([choice.0, choice.1].map(is_own))
        };
        let mut kinds: BTreeMap<_, Vec<Choice>> = BTreeMap::new();
        for choice in choices {
            kinds.entry(kind(choice)).or_default().push(*choice);
        }
        let kinds: Vec<_> = kinds.into_values().collect();
        let at = self.rng.below(kinds.len());
        self.rng.pick(&kinds[at])
    }

    /// The handle, if there is one; now and then one without the right, or any.
    fn or_other(&mut self, handle: u32) -> u32 {
        let mut lacking = self.own_handles();
        lacking.retain(|handle| !Mask::DUPLICATE.within(Mask(handle.mask)));
        let lacking = self.rng.pick_any(&lacking).filter(|_| self.rng.percent(15));
        let any = handle == 0 || self.rng.percent(6);
        let other = lacking.or_else(|| any.then(|| self.handle(LINK)));
        other.map_or(handle, |other| other.number)
    }

    /// Whether the station may link, and has two handles that can be linked.
    pub(crate) fn can_link(&self) -> bool {
        let own = self.model.primary(self.station);
        own.privileges.holds(TCB) && self.choices().contains_key(&vec![])
    }

    /// Two handles with the right and the session of either, by what is against them.
    fn choices(&self) -> BTreeMap<Vec<Ground>, Vec<Choice>> {
        let mut own = self.own_handles();
        own.retain(|handle| Mask::DUPLICATE.within(Mask(handle.mask)));
        let mut choices: BTreeMap<_, Vec<Choice>> = BTreeMap::new();
        for first in &own {
            for second in &own {
                let (Some(elevated), Some(filtered)) = (self.token(*first), self.token(*second))
                else {
                    continue;
                };
                for session in [elevated.session, filtered.session] {
                    let choice = (first.number, second.number, session);
                    let against = grounds(elevated, filtered, session);
                    choices.entry(against).or_default().push(choice);
                }
            }
        }
        choices
    }
}
