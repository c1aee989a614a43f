//! The cases of putting back what was, and how often each came.

use std::collections::BTreeMap;
use std::fmt;

use model::{Handle, Model, ALL_PRIVILEGES};
use Case::*;

use crate::put_back::{PutBack, Switch};

/// What may come between a request 5 and what puts it back.
#[derive(Clone, Copy, Debug, PartialEq, Eq, PartialOrd, Ord)]
pub(crate) enum Between {
    /// A success of request 5 on another token.
    OtherToken,
    /// A refused request 5 on the token.
    Refused,
    /// Successes of 6, 7 and 8 on the token.
    Groups,
    Scope,
    Default,
    /// It was duplicated or restricted.
    Copied,
    /// It became a station's token, one that a station acts for, or one of a pair.
    Installed,
    ActedFor,
    Linked,
}

/// What is put back, on which handle, and after what; a request is of several cases.
#[derive(Clone, Copy, Debug, PartialEq, Eq, PartialOrd, Ord)]
pub(crate) enum Case {
    /// Some privileges were enabled, some disabled, both, or nothing was changed.
    Enabled,
    Disabled,
    Mixed,
    Unchanged,
    /// An absent privilege was named.
    Absent,
    /// All that exist were named.
    AllNamed,
    /// The handle of the request that is put back, another of its station, or another station's.
    SameHandle,
    OtherHandle,
    OtherStation,
    /// A handle made since.
    NewHandle,
    /// The handle of the request that is put back is no more.
    FirstClosed,
    /// The token got used marks since.
    Used,
    Came(Between),
}

const CASES: [Case; 21] = [
    Enabled,
    Disabled,
    Mixed,
    Unchanged,
    Absent,
    AllNamed,
    SameHandle,
    OtherHandle,
    OtherStation,
    NewHandle,
    FirstClosed,
    Used,
    Came(Between::OtherToken),
    Came(Between::Refused),
    Came(Between::Groups),
    Came(Between::Scope),
    Came(Between::Default),
    Came(Between::Copied),
    Came(Between::Installed),
    Came(Between::ActedFor),
    Came(Between::Linked),
];

impl Case {
    /// The cases of putting this back on the handle.
    pub fn all_of(model: &Model, switch: &Switch, handle: Handle) -> Vec<Case> {
        let token = model.token(handle.token).expect("its handle lives");
        let named = switch.named.iter().fold(0, |named, &privilege| named | 1u64 << privilege);
        let first = |live: &Handle| live.number == switch.handle;
        let others = [
            (Absent, named & !switch.before.present != 0),
            (AllNamed, named == ALL_PRIVILEGES),
            (NewHandle, handle.number >= switch.next_handle),
            (FirstClosed, !model.handles.iter().flatten().any(first)),
            (Used, token.privileges.used != switch.after.used),
        ];
        let others = others.into_iter().filter_map(|(case, is_it)| is_it.then_some(case));
        let between = switch.between.iter().map(|&between| Came(between));
        [change(switch), by(switch, handle)].into_iter().chain(others).chain(between).collect()
    }
}

/// What is to be put back.
fn change(switch: &Switch) -> Case {
    let (before, after) = (switch.before.enabled, switch.after.enabled);
    match [after & !before, before & !after] {
        [0, 0] => Unchanged,
        [_, 0] => Enabled,
        [0, _] => Disabled,
        _ => Mixed,
    }
}

/// Whose handle it is.
fn by(switch: &Switch, handle: Handle) -> Case {
    match handle {
        _ if handle.station as usize != switch.station => OtherStation,
        _ if handle.number != switch.handle => OtherHandle,
        _ => SameHandle,
    }
}

/// The counts; printed as a list.
#[derive(Default)]
pub struct PutBackCounts {
    all: usize,
    cases: BTreeMap<Case, usize>,
}

impl PutBackCounts {
    /// Counts one.
    pub fn count(&mut self, put_back: &PutBack) {
        self.all += 1;
        for &case in &put_back.cases {
            *self.cases.entry(case).or_default() += 1;
        }
    }

    fn of(&self, case: Case) -> usize {
        self.cases.get(&case).copied().unwrap_or(0)
    }

    /// Each case came so often at least.
    pub fn check(&self, least: usize) {
        for case in CASES {
            let count = self.of(case);
            assert!(count >= least, "{case:?}: {count}");
        }
    }
}

impl fmt::Display for PutBackCounts {
    fn fmt(&self, f: &mut fmt::Formatter) -> fmt::Result {
        write!(f, "put back {} times", self.all)?;
        for case in CASES {
            write!(f, "  {case:?}: {}", self.of(case))?;
        }
        Ok(())
    }
}
