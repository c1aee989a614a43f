//! Conditions to ask of a token: of every kind and depth, met and not, up to a whole body.

use model::{
    number_length, Condition, Group, Token, FIRST_PRIVILEGE, LAST_PRIVILEGE, MAX_BODY, MAX_DEPTH,
};
use Condition::{AllOf, AnyOf, Negated, Privilege};

use crate::condition_layout::numbers;
use crate::condition_meaning::is_met;
use crate::rng::Rng;

/// SIDs that some tokens have.
const SIDS: [u32; 9] = [7, 18, 50, 60, 61, 70, 0, 127, u32::MAX];
/// Privileges that there are not.
const UNKNOWN: [u32; 8] = [0, 1, 1, 37, 37, 63, 64, u32::MAX];
/// How likely each depth is, from 1 on; three are too deep.
const DEPTHS: [usize; 11] = [2, 3, 3, 3, 3, 3, 6, 16, 12, 2, 1];

/// Bytes of a body before the condition.
fn head(handle: u32) -> usize {
    1 + number_length(handle.into())
}

/// Bytes that the condition is written in.
fn size(condition: &Condition) -> usize {
    numbers(condition).iter().map(|&(_, number)| number_length(number)).sum()
}

/// What conditions are drawn from.
pub(crate) struct Draw<'a> {
    pub rng: &'a mut Rng,
    /// The token that is asked, if there is one.
    pub token: Option<&'a Token>,
}

impl Draw<'_> {
    /// A condition for a request with this handle; now and then with an unknown privilege.
    pub fn condition(&mut self, handle: u32) -> Condition {
        let mut condition = match self.rng.below(100) {
            0..=34 => self.bare(),
            35..=74 => {
                let depth = 1 + self.rng.weighted(&DEPTHS);
                self.tree(depth)
            }
            75..=94 => self.decided(),
            _ => self.full(MAX_BODY - head(handle)),
        };
        if self.rng.percent(12) {
            self.place_unknown(&mut condition);
        }
        condition
    }

    /// A leaf, mostly alone: what it is told by the answer.
    fn bare(&mut self) -> Condition {
        let mut condition = self.leaf();
        for _ in 0..self.rng.weighted(&[4, 2, 1]) {
            condition = self.shell(condition);
        }
        condition
    }

    /// The condition in a negation or in a list of one.
    fn shell(&mut self, condition: Condition) -> Condition {
        match self.rng.below(4) {
            0 => AllOf(vec![condition]),
            1 => AnyOf(vec![condition]),
            _ => Negated(Box::new(condition)),
        }
    }

    /// A condition so deep.
    fn tree(&mut self, depth: usize) -> Condition {
        if depth == 1 {
            return self.leaf();
        }
        let deepest = self.tree(depth - 1);
        let others = self.rng.weighted(&[4, 3, 2, 1]);
        if others == 0 {
            return self.shell(deepest);
        }
        let mut list = vec![deepest];
        for _ in 0..others {
            let depth = 1 + self.rng.below(depth / 2);
            let other = self.tree(depth);
            list.insert(self.rng.below(list.len() + 1), other);
        }
        self.list(list)
    }

    fn list(&mut self, list: Vec<Condition>) -> Condition {
        if self.rng.percent(50) {
            AllOf(list)
        } else {
            AnyOf(list)
        }
    }

    /// A list that one condition decides, or none; any place as likely.
    fn decided(&mut self) -> Condition {
        let is_any = self.rng.percent(50);
        let count = 2 + self.rng.below(3);
        let place = self.rng.below(count + 1);
        let leaves = (0..count).map(|at| self.leaf_that_is((at == place) == is_any)).collect();
        let list = if is_any { AnyOf(leaves) } else { AllOf(leaves) };
        if self.rng.percent(30) {
            self.shell(list)
        } else {
            list
        }
    }

    /// A condition of exactly so many bytes: a list of leaves, within a few others.
    fn full(&mut self, bytes: usize) -> Condition {
        let shells = self.rng.below(MAX_DEPTH - 2);
        let negations = self.rng.below(shells + 1);
        let lists = shells - negations;
        let is_any = self.rng.percent(50);
        let leaves = self.leaves(bytes - negations - 2 * lists - 3, is_any);
        let mut condition = if is_any { AnyOf(leaves) } else { AllOf(leaves) };
        for _ in 0..negations {
            condition = Negated(Box::new(condition));
        }
        for _ in 0..lists {
            condition = self.list(vec![condition]);
        }
        condition
    }

    /// Leaves of exactly so many bytes, of which at most the last decides the list.
    fn leaves(&mut self, bytes: usize, is_any: bool) -> Vec<Condition> {
        let (mut left, mut leaves) = (bytes, Vec::new());
        let short = |is_met: bool| if is_met { AllOf(vec![]) } else { AnyOf(vec![]) };
        while left > 3 {
            let leaf = self.leaf_that_is(!is_any);
            let leaf = if size(&leaf) + 2 > left { short(!is_any) } else { leaf };
            left -= size(&leaf);
            leaves.push(leaf);
        }
        let last = self.rng.percent(50) == is_any;
        leaves.push(if left == 2 { short(last) } else { Negated(Box::new(short(!last))) });
        leaves
    }

    /// A privilege, a group or a list of none.
    fn leaf(&mut self) -> Condition {
        match self.rng.weighted(&[10, 14, 1, 1]) {
            0 => Privilege(self.privilege()),
            1 => Condition::Group(self.sid()),
            2 => AllOf(vec![]),
            _ => AnyOf(vec![]),
        }
    }

    /// A leaf that the token meets or not, as asked.
    fn leaf_that_is(&mut self, met: bool) -> Condition {
        for _ in 0..8 {
            let leaf = self.leaf();
            if self.token.is_some_and(|token| is_met(&leaf, token) == met) {
                return leaf;
            }
        }
        if met {
            AllOf(vec![])
        } else {
            AnyOf(vec![])
        }
    }

    /// A privilege that the token has enabled, has disabled, hasn't, the first, the last or any.
    fn privilege(&mut self) -> u32 {
        let words = self.token.map(|token| token.privileges).unwrap_or_default();
        let any = FIRST_PRIVILEGE + self.rng.below(35) as u32;
        let of = match self.rng.below(6) {
            0 | 1 => words.enabled,
            2 => words.present & !words.enabled,
            3 => !words.present,
            4 => return self.rng.pick(&[FIRST_PRIVILEGE, LAST_PRIVILEGE]),
            _ => return any,
        };
        let named: Vec<u32> =
            (FIRST_PRIVILEGE..=LAST_PRIVILEGE).filter(|n| of >> n & 1 == 1).collect();
        self.rng.pick_any(&named).unwrap_or(any)
    }

    /// The SID of a group, enabled or not, deny-only or the last; of the user; a restricting one; any.
    fn sid(&mut self) -> u32 {
        let (common, other) = (self.rng.pick(&SIDS), self.rng.word() as u32 >> self.rng.below(32));
        let any = self.rng.pick(&[common, other]);
        let Some(token) = self.token else { return any };
        let groups = |is_it: fn(&Group) -> bool| -> Vec<u32> {
            token.groups.iter().filter(|group| is_it(group)).map(|group| group.sid).collect()
        };
        let sids = match self.rng.below(8) {
            0 | 1 => groups(|group| group.has(Group::ENABLED)),
            2 => groups(|group| !group.has(Group::ENABLED)),
            3 => groups(|group| group.has(Group::DENY_ONLY)),
            4 => token.groups.last().map(|group| group.sid).into_iter().collect(),
            5 => vec![token.user],
            6 => token.restricting.clone(),
            _ => vec![],
        };
        self.rng.pick_any(&sids).unwrap_or(any)
    }

    /// Puts a privilege that there is not in the place of some leaf.
    fn place_unknown(&mut self, condition: &mut Condition) {
        match condition {
            AllOf(list) | AnyOf(list) if !list.is_empty() => {
                let at = self.rng.below(list.len());
                self.place_unknown(&mut list[at]);
            }
            Negated(inner) => self.place_unknown(inner),
            leaf => *leaf = Privilege(self.rng.pick(&UNKNOWN)),
        }
    }
}
