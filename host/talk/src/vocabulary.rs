//! Names of values, as they are typed and as they are printed.

use obriska::names::{self, Named};
use obriska::NO_ROOT;

use crate::words::{Mistake, Word};

/// The reports of a query.
pub const CLASSES: [Named; 13] = [
    (1, "user"),
    (2, "groups"),
    (3, "privileges"),
    (4, "owner"),
    (5, "primary-group"),
    (6, "dacl"),
    (7, "type"),
    (8, "level"),
    (9, "statistics"),
    (10, "restricting"),
    (11, "scope"),
    (12, "elevation"),
    (13, "integrity"),
];
/// Token types.
pub const TYPES: [Named; 2] = [(1, "primary"), (2, "impersonation")];
/// Impersonation levels.
pub const LEVELS: [Named; 4] =
    [(0, "anonymous"), (1, "identification"), (2, "impersonation"), (3, "delegation")];
/// Elevation types.
pub const ELEVATIONS: [Named; 3] = [(1, "default"), (2, "full"), (3, "limited")];
/// What may be asked of a privilege.
pub const ACTIONS: [Named; 3] = [(0, "disable"), (2, "enable"), (4, "remove")];
/// What may be asked of a group.
pub const SWITCHES: [Named; 2] = [(0, "disable"), (1, "enable")];

/// The number of a name, or a number of 32 bits as it stands.
pub fn number(word: Word, what: &str, names: &[Named]) -> Result<u32, Mistake> {
    if word.as_number().is_some() {
        return word.u32(what);
    }
    let found = names.iter().find(|named| normal(named.1) == normal(word.text));
    found.map(|named| named.0).ok_or_else(|| {
        word.mistake(format_args!("{} is no {what}: {}", word.quoted(), self::names(names)))
    })
}

/// The names of all values.
pub fn all() -> Vec<&'static str> {
    let values: [&[Named]; 11] = [
        &CLASSES,
        &TYPES,
        &LEVELS,
        &ELEVATIONS,
        &ACTIONS,
        &SWITCHES,
        &names::RIGHTS,
        &names::GROUP_ATTRIBUTES,
        &names::INTEGRITY,
        &names::SIDS,
        &names::PRIVILEGES,
    ];
    values.concat().into_iter().map(|named| named.1).collect()
}

/// The names alone.
pub fn names(names: &[Named]) -> String {
    names.iter().map(|named| named.1).collect::<Vec<_>>().join(", ")
}

/// The number of a privilege: tcb, SeTcbPrivilege and 7 are the same.
pub fn privilege(word: Word) -> Result<u32, Mistake> {
    number(word, "privilege", &names::PRIVILEGES).map_err(|mistake| Mistake {
        message: match word.as_number() {
            Some(_) => mistake.message,
            None => format!("{} is no privilege: say its name or number", word.quoted()),
        },
        ..mistake
    })
}

/// A SID by its number, or by one of the few names.
pub fn sid(word: Word) -> Result<u32, Mistake> {
    number(word, "SID", &names::SIDS).map_err(|mistake| Mistake {
        message: match word.as_number() {
            Some(_) => mistake.message,
            None => {
                let names = names(&names::SIDS);
                format!("{} is no SID: say S-1-5-18, its number, or {names}", word.quoted())
            }
        },
        ..mistake
    })
}

/// The numbers of some names, joined.
fn joined(word: Word, separator: char, what: &str, names: &[Named]) -> Result<u32, Mistake> {
    let parts = word.split(separator).into_iter();
    parts.map(|part| number(part, what, names)).try_fold(0, |all, part| Ok(all | part?))
}

/// Rights such as query,duplicate, or all.
pub fn rights(word: Word) -> Result<u32, Mistake> {
    if word.text == "all" {
        return Ok(names::ALL_RIGHTS);
    }
    joined(word, ',', "right", &names::RIGHTS)
}

/// Attributes such as mandatory+enabled-by-default.
pub fn attributes(word: Word) -> Result<u32, Mistake> {
    joined(word, '+', "attribute", &names::GROUP_ATTRIBUTES)
}

/// A word of privileges such as tcb,debug, or all.
pub fn privilege_word(word: Word) -> Result<u64, Mistake> {
    if word.text == "all" {
        return Ok(names::ALL_PRIVILEGES);
    }
    let last = u64::BITS - 1;
    let bit = |part: Word| match privilege(part)? {
        number if number <= last => Ok(1_u64 << number),
        _ => Err(part.mistake(format_args!("{} is over {last}, a word's last bit", part.text))),
    };
    word.split(',').into_iter().map(bit).try_fold(0, |all, part| Ok(all | part?))
}

/// A name without case, hyphens and the Se..Privilege around it.
fn normal(name: &str) -> String {
    let kept = name.chars().filter(|c| c.is_alphanumeric());
    let name = kept.collect::<String>().to_lowercase();
    let short = name.strip_prefix("se").and_then(|rest| rest.strip_suffix("privilege"));
    short.map_or(name.clone(), str::to_string)
}

/// The name of a number, or the number itself.
pub fn text(names: &[Named], number: u64) -> String {
    let name = u32::try_from(number).ok().and_then(|number| names::name(names, number));
    name.map_or(number.to_string(), str::to_string)
}

/// A token's root: the number of another token or its own, if it has one.
pub fn root_text(root: u64) -> String {
    match root {
        NO_ROOT => "none".to_string(),
        root => root.to_string(),
    }
}

/// An integrity level with its name.
pub fn integrity_text(integrity: u64) -> String {
    let name = text(&names::INTEGRITY, integrity);
    if name == integrity.to_string() {
        name
    } else {
        format!("{integrity} ({name})")
    }
}

/// The rights of a mask.
pub fn rights_text(mask: u32) -> String {
    if mask == names::ALL_RIGHTS {
        return "all".to_string();
    }
    bits_text(&names::RIGHTS, mask)
}

/// The names of the bits that are set.
pub fn bits_text(names: &[Named], bits: u32) -> String {
    let set = names.iter().filter(|named| named.0 & bits == named.0);
    let set: Vec<_> = set.map(|named| named.1).collect();
    if set.is_empty() {
        "none".to_string()
    } else {
        set.join(", ")
    }
}

/// The privileges of a word by name and number; of almost all, those that are not there.
pub fn privileges_text(word: u64) -> String {
    let absent = names::ALL_PRIVILEGES & !word;
    if word == 0 {
        "none".to_string()
    } else if absent == 0 {
        "all (2 to 36)".to_string()
    } else if absent.count_ones() < 8 {
        format!("all but {}", privilege_names(absent))
    } else {
        privilege_names(word)
    }
}

fn privilege_names(word: u64) -> String {
    let set = names::PRIVILEGES.iter().filter(|named| word >> named.0 & 1 == 1);
    set.map(|named| privilege_text(named.0.into())).collect::<Vec<_>>().join(", ")
}

/// A privilege by name and number.
pub fn privilege_text(privilege: u64) -> String {
    format!("{} {privilege}", text(&names::PRIVILEGES, privilege))
}

#[cfg(test)]
mod tests {
    use super::*;

    #[test]
    fn a_privilege_has_its_name_and_its_number() {
        for name in ["tcb", "SeTcbPrivilege", "SE_TCB_PRIVILEGE", "7", "0x7"] {
            assert_eq!(privilege(Word::line(name)), Ok(7));
        }
        assert_eq!(privilege(Word::line("security")), Ok(8));
        assert_eq!(privilege(Word::line("create-token")), Ok(2));
        assert_eq!(privilege(Word::line("37")), Ok(37));
        assert!(privilege(Word::line("tcbb")).is_err());
    }

    #[test]
    fn a_sids_number_may_be_a_name() {
        assert_eq!(sid(Word::line("1000")), Ok(1000));
        assert_eq!(sid(Word::line("system")), Ok(18));
        let message = |text| sid(Word::line(text)).unwrap_err().message;
        assert_eq!(
            message("bob"),
            "'bob' is no SID: say S-1-5-18, its number, or Anonymous, SYSTEM"
        );
        assert_eq!(message("4294967296"), "4294967296 is over 4294967295");
    }

    #[test]
    fn no_two_names_are_the_same_when_typed() {
        for names in [&names::PRIVILEGES[..], &names::RIGHTS, &CLASSES, &names::GROUP_ATTRIBUTES] {
            for (number, name) in names {
                assert_eq!(super::number(Word::line(name), "", names), Ok(*number));
            }
        }
    }

    #[test]
    fn joined_names_are_one_number() {
        assert_eq!(rights(Word::line("query,adjust-privileges")), Ok(0x28));
        assert_eq!(rights(Word::line("all")), Ok(0x1EF));
        assert_eq!(rights(Word::line("query,0x10")), Ok(0x18));
        assert_eq!(rights(Word::line("query,quary")).unwrap_err().column, 7);
        assert_eq!(attributes(Word::line("mandatory+enabled-by-default")), Ok(3));
        assert_eq!(privilege_word(Word::line("tcb,create-token")), Ok(0x84));
        assert!(privilege_word(Word::line("64")).is_err());
    }

    #[test]
    fn privileges_are_printed_shortly() {
        assert_eq!(privileges_text(0), "none");
        assert_eq!(privileges_text(names::ALL_PRIVILEGES), "all (2 to 36)");
        assert_eq!(privileges_text(names::ALL_PRIVILEGES & !0x80), "all but SeTcbPrivilege 7");
        assert_eq!(privileges_text(0x84), "SeCreateTokenPrivilege 2, SeTcbPrivilege 7");
    }
}
