//! Expectations of named cases, as text.
//!
//! An expectation is in the words of `replay`. It is a list of blocks, each begun by the line of a step
//! (`event 3 done ...`) or of the profile (`profile refused 2`); what a block says must hold of that step, and
//! steps that have no block are free. In every line a `*` stands for any letters. The message, call and saved
//! lines under a step's line are all of them, in order, but a line `...` stands for any number of lines; with
//! none of them given, they are free. `= LINE` says that the session's text has this line after the step,
//! `! LINE` that it does not.

use crate::recording::{replay_steps, Case, Shown};

/// Whether `text` is `pattern`, where `*` stands for any letters.
pub fn fits(pattern: &str, text: &str) -> bool {
    match pattern.split_once('*') {
        None => pattern == text,
        Some((front, rest)) => {
            let Some(left) = text.strip_prefix(front) else { return false };
            (0..=left.len()).any(|i| left.is_char_boundary(i) && fits(rest, &left[i..]))
        }
    }
}

/// Whether `lines` are as `patterns` say, where `...` stands for any number of lines.
fn lines_fit(patterns: &[&str], lines: &[&str]) -> bool {
    match patterns.split_first() {
        None => lines.is_empty(),
        Some((&"...", rest)) => (0..=lines.len()).any(|i| lines_fit(rest, &lines[i..])),
        Some((first, rest)) => lines.split_first().is_some_and(|(l, more)| fits(first, l) && lines_fit(rest, more)),
    }
}

/// What is wrong with a case, if anything.
pub fn check(case: &Case, expects: &str) -> Result<(), String> {
    let shown = replay_steps(case);
    let mut blocks: Vec<Vec<&str>> = Vec::new();
    for line in expects.lines().map(str::trim).filter(|l| !l.is_empty()) {
        if ["event ", "restore ", "profile "].iter().any(|p| line.starts_with(p)) {
            blocks.push(vec![line]);
        } else {
            blocks.last_mut().ok_or_else(|| format!("no step before: {line}"))?.push(line);
        }
    }
    if blocks.is_empty() {
        return Err("nothing is expected".into());
    }
    for block in blocks {
        check_block(&shown, &block)?;
    }
    Ok(())
}

fn check_block(shown: &[Shown], block: &[&str]) -> Result<(), String> {
    let head = block[0];
    let step = if head.starts_with("profile ") {
        shown.first()
    } else {
        let number = head.split(' ').nth(1).and_then(|n| n.parse::<usize>().ok());
        shown.get(number.ok_or_else(|| format!("which step? {head}"))?)
    };
    let step = step.ok_or_else(|| format!("no such step: {head}"))?;
    let all: Vec<&str> = step.lines.lines().collect();
    let wrong = |what: &str| format!("expected {what}\nbut got\n{}{}", step.lines, step.session);
    if !fits(head, all[0]) {
        return Err(wrong(head));
    }
    let body: Vec<&str> = block[1..].iter().copied().filter(|l| !l.starts_with("= ") && !l.starts_with("! ")).collect();
    if !body.is_empty() && !lines_fit(&body, &all[1..]) {
        return Err(wrong(&body.join("\n")));
    }
    for line in &block[1..] {
        let has = |pattern: &str| step.session.lines().any(|l| fits(pattern, l));
        if line.strip_prefix("= ").is_some_and(|l| !has(l)) || line.strip_prefix("! ").is_some_and(has) {
            return Err(wrong(line));
        }
    }
    Ok(())
}
