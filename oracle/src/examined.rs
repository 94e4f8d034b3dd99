//! The profiles of named cases that are about profiles: a list that the port's program `profiles` reads, and what the Rust says to it.
//!
//! The list is profiles one after the other: a byte and as many bytes of its name, then its length in four bytes, the lowest first, and its bytes.

use std::fmt::Write;

use crate::named;
use crate::records::{load, u32_at};

#[derive(Debug, Clone, PartialEq, Eq)]
pub struct Examined {
    pub name: String,
    pub profile: Vec<u8>,
}

/// The profiles of all named cases that look at numbers 1 to 6.
pub fn all() -> Vec<Examined> {
    let families = ["profile", "field", "lowest first"];
    let cases = named::all().into_iter().filter(|c| families.iter().any(|f| c.name.starts_with(f)));
    cases.map(|c| Examined { name: c.name, profile: c.case.profile }).collect()
}

/// The list of these profiles.
pub fn write(all: &[Examined]) -> Vec<u8> {
    let mut list = Vec::new();
    for one in all {
        list.push(u8::try_from(one.name.len()).expect("a name of at most 255 bytes"));
        list.extend(one.name.as_bytes());
        list.extend(u32::try_from(one.profile.len()).expect("a length of a profile").to_le_bytes());
        list.extend(&one.profile);
    }
    list
}

/// The profiles of a list.
pub fn read(list: &[u8]) -> Result<Vec<Examined>, String> {
    let mut all = Vec::new();
    let mut left = list;
    while let [length, behind @ ..] = left {
        let (name, behind) = behind.split_at_checked(usize::from(*length)).ok_or("the list ends in a name")?;
        let (length, behind) = behind.split_at_checked(4).ok_or("the list ends in a length")?;
        let (profile, behind) =
            behind.split_at_checked(u32_at(length, 0) as usize).ok_or("the list ends in a profile")?;
        let name = String::from_utf8(name.to_vec()).map_err(|e| e.to_string())?;
        all.push(Examined { name, profile: profile.to_vec() });
        left = behind;
    }
    Ok(all)
}

/// What the Rust says: a line for each profile, its name and the number with which it is declined, 0 if it is accepted.
pub fn expected(all: &[Examined]) -> String {
    let mut out = String::new();
    for one in all {
        writeln!(out, "{}: {}", one.name, load(&one.profile).err().unwrap_or(0)).unwrap();
    }
    out
}
