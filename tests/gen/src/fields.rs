//! A request as a list of fields, to be written or damaged field by field.

use model::{write_number, Condition, Request, Sid};

use crate::condition_layout;

/// One field of a body.
#[derive(Clone, Debug, PartialEq, Eq)]
pub enum Field {
    /// A number in its shortest form.
    Number(u64),
    /// Bytes as they are.
    Bytes(Vec<u8>),
}

impl Field {
    /// The field's bytes.
    pub fn bytes(&self) -> Vec<u8> {
        match self {
            Field::Bytes(bytes) => bytes.clone(),
            Field::Number(number) => {
                let mut bytes = Vec::new();
                write_number(*number, &mut bytes);
                bytes
            }
        }
    }
}

/// The bytes of all the fields.
pub fn flat(fields: &[Field]) -> Vec<u8> {
    fields.iter().flat_map(Field::bytes).collect()
}

/// The fields of a request, its number first.
pub fn fields(request: &Request) -> Vec<Field> {
    match request {
        Request::Open { mask } => numbers(&[1, (*mask).into()]),
        Request::Close { handle } => numbers(&[2, (*handle).into()]),
        Request::Create { user, session, integrity, present, default, groups } => {
            let head = [3, (*user).into(), *session, (*integrity).into(), *present, *default];
            [numbers(&head), counted(groups)].concat()
        }
        Request::Query { handle, class, capacity } => {
            numbers(&[4, (*handle).into(), (*class).into(), (*capacity).into()])
        }
        Request::Privileges { handle, entries } => {
            [numbers(&[5, (*handle).into()]), counted(entries)].concat()
        }
        Request::Groups { handle, entries } => {
            [numbers(&[6, (*handle).into()]), counted(entries)].concat()
        }
        Request::Scope { handle, value } => numbers(&[7, (*handle).into(), (*value).into()]),
        Request::Default { handle, owner, group, flag, dacl } => {
            let head = [8, (*handle).into(), (*owner).into(), (*group).into(), (*flag).into()];
            [numbers(&head), counted_bytes(dacl)].concat()
        }
        Request::Duplicate { handle, kind, level, mask } => {
            numbers(&[9, (*handle).into(), (*kind).into(), (*level).into(), (*mask).into()])
        }
        Request::Restrict { handle, write_restricted, remove, deny, sids } => {
            let head = [10, (*handle).into(), (*write_restricted).into(), *remove];
            [numbers(&head), counted_lists(deny, sids)].concat()
        }
        Request::Install { handle } => numbers(&[11, (*handle).into()]),
        Request::Impersonate { handle } => numbers(&[12, (*handle).into()]),
        Request::Revert => numbers(&[13]),
        Request::CreatePacked { user, session, integrity, present, default, groups } => {
            let head = [*session, (*integrity).into(), *present, *default, groups.len() as u64];
            let groups = groups.iter().flat_map(|(sid, with)| [packed(sid), number(*with)]);
            [vec![number(14), packed(user)], numbers(&head), groups.collect()].concat()
        }
        Request::RestrictPacked { handle, write_restricted, remove, deny, sids } => {
            let head = [15, (*handle).into(), (*write_restricted).into(), *remove];
            let counts = [deny.len() as u64, sids.len() as u64];
            let deny = deny.iter().map(|&index| number(index)).collect();
            let sids = sids.iter().map(packed).collect();
            [numbers(&head), numbers(&counts), deny, sids].concat()
        }
        Request::Link { elevated, filtered, session } => {
            numbers(&[16, (*elevated).into(), (*filtered).into(), *session])
        }
        Request::GetLinked { handle } => numbers(&[17, (*handle).into()]),
        Request::Evaluate { handle, condition } => of_condition(*handle, condition),
    }
}

fn number(number: u32) -> Field {
    Field::Number(number.into())
}

fn packed(sid: &Sid) -> Field {
    Field::Bytes(sid.packed())
}

fn numbers(numbers: &[u64]) -> Vec<Field> {
    numbers.iter().map(|&number| Field::Number(number)).collect()
}

fn of_condition(handle: u32, condition: &Condition) -> Vec<Field> {
    let condition = condition_layout::numbers(condition).into_iter().map(|(_, number)| number);
    let all: Vec<u64> = [18, handle.into()].into_iter().chain(condition).collect();
    numbers(&all)
}

fn counted_bytes(bytes: &[u8]) -> Vec<Field> {
    vec![Field::Number(bytes.len() as u64), Field::Bytes(bytes.to_vec())]
}

/// Both counts before both lists.
fn counted_lists(first: &[u32], second: &[u32]) -> Vec<Field> {
    let counts = [first, second].map(|list| list.len() as u64);
    let items = first.iter().chain(second).map(|&item| item.into());
    let all: Vec<u64> = counts.into_iter().chain(items).collect();
    numbers(&all)
}

fn counted(pairs: &[(u32, u32)]) -> Vec<Field> {
    let flat = pairs.iter().flat_map(|&(first, second)| [first.into(), second.into()]);
    let all: Vec<u64> = [pairs.len() as u64].into_iter().chain(flat).collect();
    numbers(&all)
}
