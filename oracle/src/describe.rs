//! `most_common` of describe.rs, the one function of it that the bridge needs.

/// The most frequent name; a tie goes to the one seen first.
pub fn most_common<'a>(names: impl Iterator<Item = &'a str>) -> Option<String> {
    let names: Vec<&str> = names.collect();
    let mut best: Option<(&str, usize)> = None;
    for n in &names {
        let count = names.iter().filter(|m| *m == n).count();
        if best.is_none_or(|(_, c)| count > c) {
            best = Some((n, count));
        }
    }
    best.map(|(n, _)| n.to_string())
}
