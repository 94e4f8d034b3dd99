//! Fenced blocks and tables of a document, and the hexadecimal digits in them.

/// What stands between two fences, and what the first says behind its three quotes.
#[derive(Debug)]
pub struct Block<'a> {
    /// Where the block is, for a failure.
    pub line: usize,
    pub words: Vec<&'a str>,
    pub text: String,
}

/// All fenced blocks, in order.
pub fn blocks(document: &str) -> Vec<Block<'_>> {
    let mut blocks = Vec::new();
    let mut open: Option<Block> = None;
    for (n, line) in document.lines().enumerate() {
        match (line.strip_prefix("```"), &mut open) {
            (Some(""), Some(_)) => blocks.extend(open.take()),
            (Some(info), None) => {
                open = Some(Block { line: n + 1, words: info.split_whitespace().collect(), text: String::new() });
            }
            (Some(_), Some(block)) => panic!("line {}: a fence within the block of line {}", n + 1, block.line),
            (None, Some(block)) => block.text.extend([line, "\n"]),
            (None, None) => {}
        }
    }
    assert!(open.is_none(), "a block without an end");
    blocks
}

/// The bytes of a block: two digits each, `28 x 00` and `17 x ( .. )` for what is repeated, `;` before a comment.
pub fn bytes(block: &Block) -> Vec<u8> {
    let words: Vec<&str> =
        block.text.lines().flat_map(|line| line.split(';').next().expect("a part").split_whitespace()).collect();
    let mut left = &words[..];
    let mut bytes = Vec::new();
    while !left.is_empty() {
        bytes.extend(item(&mut left).unwrap_or_else(|why| panic!("line {}: {why}", block.line)));
    }
    bytes
}

/// A byte, or what is repeated.
fn item(left: &mut &[&str]) -> Result<Vec<u8>, String> {
    match **left {
        [times, "x", "(", ref rest @ ..] => {
            *left = rest;
            let mut group = Vec::new();
            while left.first() != Some(&")") {
                group.extend(item(left)?);
            }
            *left = &left[1..];
            Ok(group.repeat(count(times)?))
        }
        [times, "x", byte, ref rest @ ..] => {
            *left = rest;
            Ok(vec![digits(byte)?; count(times)?])
        }
        [byte, ref rest @ ..] => {
            *left = rest;
            Ok(vec![digits(byte)?])
        }
        [] => Err("a bracket without an end".into()),
    }
}

fn count(word: &str) -> Result<usize, String> {
    word.parse().map_err(|_| format!("{word} is no count"))
}

fn digits(word: &str) -> Result<u8, String> {
    let two = word.len() == 2 && word.bytes().all(|b| b.is_ascii_hexdigit());
    two.then(|| u8::from_str_radix(word, 16).expect("two digits")).ok_or_else(|| format!("{word} is no byte"))
}

/// The rows of each table whose heading begins so.
pub fn tables<'a>(document: &'a str, heading: &str) -> Vec<Vec<Vec<&'a str>>> {
    let cells = |line: &'a str| line.trim_matches('|').split('|').map(str::trim).collect::<Vec<_>>();
    let start = format!("| {heading} |");
    let lines: Vec<&str> = document.lines().collect();
    let starts = (0..lines.len()).filter(|&n| lines[n].starts_with(&start));
    let rows =
        |n: usize| lines[n + 2..].iter().take_while(|line| line.starts_with('|')).map(|line| cells(line)).collect();
    starts.map(rows).collect()
}

/// The rows of the only table whose heading begins so.
pub fn table<'a>(document: &'a str, heading: &str) -> Vec<Vec<&'a str>> {
    let mut all = tables(document, heading);
    assert_eq!(all.len(), 1, "one table of {heading}");
    all.remove(0)
}
