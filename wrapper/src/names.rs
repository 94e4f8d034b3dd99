//! The host's table of names: texts and their numbers.

use std::collections::HashMap;
use std::error::Error;
use std::fmt;

use crate::ABSENT;

/// The two names that have a number from the start, each at its number.
const FIXED: [&str; 2] = ["", "scene"];

/// Texts and their numbers, which only grows: a text that has a number keeps it.
///
/// Saved records hold the numbers of banks' names, so a text needs the same number in the next run. Keep [`text`] beside
/// the saved records, and read it at the start before a profile is made. Write it before the saved records that count on
/// it.
///
/// 0 is the empty text, 1 is `scene`, and [`ABSENT`] is no text's number; 65,533 are free.
///
/// ```
/// use zelwydro::Names;
///
/// let mut names = Names::new();
/// let stage = names.number("STAGE")?;
/// assert_eq!((stage, names.number("scene")?, names.number("")?), (2, 1, 0));
/// let again = Names::parse(&names.to_text()).expect("what was written");
/// assert_eq!(again.find("STAGE"), Some(stage));
/// # Ok::<(), zelwydro::NamesFull>(())
/// ```
///
/// [`text`]: Names::to_text
#[derive(Debug, Clone, PartialEq, Eq)]
pub struct Names {
    /// Each text at its number.
    texts: Vec<String>,
    numbers: HashMap<String, u16>,
}

/// There is no number left for another text.
#[derive(Debug, Clone, Copy, PartialEq, Eq)]
pub struct NamesFull;

impl fmt::Display for NamesFull {
    fn fmt(&self, f: &mut fmt::Formatter) -> fmt::Result {
        f.write_str("the table of names is full: 65,533 texts have a number")
    }
}

impl Error for NamesFull {}

/// Why lines are no table of names. Numbers of saved records that were made with it are then worth nothing: start without
/// both.
#[derive(Debug, Clone, Copy, PartialEq, Eq)]
pub struct NamesFault {
    /// Which line, from 1.
    pub line: usize,
    /// What is wrong with it.
    pub why: NamesWhy,
}

/// What is wrong with a line of a table of names.
#[derive(Debug, Clone, Copy, PartialEq, Eq)]
pub enum NamesWhy {
    /// It has no newline at its end: it was cut off.
    CutOff,
    /// It does not begin with the number behind the last line's and a space, or the numbers are used up.
    Number,
    /// A backslash in its text stands before something else than a backslash, `n` or `r`, or a carriage return is bare.
    Backslash,
    /// Its text has a number already.
    Twice,
}

impl fmt::Display for NamesFault {
    fn fmt(&self, f: &mut fmt::Formatter) -> fmt::Result {
        let why = match self.why {
            NamesWhy::CutOff => "it is cut off",
            NamesWhy::Number => "it does not begin with the next number and a space",
            NamesWhy::Backslash => {
                "a backslash stands before something else than a backslash, n or r, or a carriage return is bare"
            }
            NamesWhy::Twice => "its text has a number already",
        };
        write!(f, "line {} of the names: {why}", self.line)
    }
}

impl Error for NamesFault {}

impl Default for Names {
    fn default() -> Names {
        Names::new()
    }
}

impl Names {
    /// The empty text and `scene`.
    pub fn new() -> Names {
        let mut names = Names { texts: Vec::new(), numbers: HashMap::new() };
        FIXED.iter().for_each(|text| names.push(text));
        names
    }

    /// The number of a text, which is given one if it has none.
    pub fn number(&mut self, text: &str) -> Result<u16, NamesFull> {
        if let Some(number) = self.find(text) {
            return Ok(number);
        }
        let number = self.next().ok_or(NamesFull)?;
        self.push(text);
        Ok(number)
    }

    /// The number of a text that has one.
    pub fn find(&self, text: &str) -> Option<u16> {
        self.numbers.get(text).copied()
    }

    /// The text of a number that was given.
    pub fn text(&self, number: u16) -> Option<&str> {
        self.texts.get(usize::from(number)).map(String::as_str)
    }

    /// How many texts have a number, the empty one and `scene` among them.
    pub fn count(&self) -> usize {
        self.texts.len()
    }

    /// The table as lines: number, space, text, newline, without the two that are fixed. In a text `\\`, `\n` and `\r`
    /// stand for a backslash, a newline and a carriage return.
    pub fn to_text(&self) -> String {
        self.lines_from(FIXED.len())
    }

    /// The lines of the texts behind the first `count`, to be appended to a file that has those: what
    /// [`count`](Names::count) said when it was written.
    pub fn lines_from(&self, count: usize) -> String {
        let lines = self.texts.iter().enumerate().skip(count.max(FIXED.len()));
        lines.map(|(number, text)| format!("{number} {}\n", escaped(text))).collect()
    }

    /// The table of such lines.
    pub fn parse(text: &str) -> Result<Names, NamesFault> {
        let mut names = Names::new();
        for (n, line) in text.split_inclusive('\n').enumerate() {
            names.line(line).map_err(|why| NamesFault { line: n + 1, why })?;
        }
        Ok(names)
    }

    fn line(&mut self, line: &str) -> Result<(), NamesWhy> {
        let line = line.strip_suffix('\n').ok_or(NamesWhy::CutOff)?;
        let (number, text) = line.split_once(' ').ok_or(NamesWhy::Number)?;
        // As it is written, so that a table is never two texts.
        let expected = self.next().ok_or(NamesWhy::Number)?;
        if number != expected.to_string() {
            return Err(NamesWhy::Number);
        }
        let text = unescaped(text).ok_or(NamesWhy::Backslash)?;
        if self.find(&text).is_some() {
            return Err(NamesWhy::Twice);
        }
        self.push(&text);
        Ok(())
    }

    /// The number of the next text, if one is left.
    fn next(&self) -> Option<u16> {
        u16::try_from(self.texts.len()).ok().filter(|&number| number != ABSENT)
    }

    fn push(&mut self, text: &str) {
        let number = self.next().expect("the caller saw that one is left");
        self.numbers.insert(text.to_string(), number);
        self.texts.push(text.to_string());
    }
}

fn escaped(text: &str) -> String {
    text.replace('\\', "\\\\").replace('\n', "\\n").replace('\r', "\\r")
}

/// The text of a line, if it is one.
fn unescaped(line: &str) -> Option<String> {
    let mut text = String::new();
    let mut letters = line.chars();
    while let Some(letter) = letters.next() {
        text.push(match letter {
            '\\' => match letters.next()? {
                '\\' => '\\',
                'n' => '\n',
                'r' => '\r',
                _ => return None,
            },
            // A carriage return at a line's end comes of an editor, and would be another text.
            '\r' => return None,
            _ => letter,
        });
    }
    Some(text)
}
