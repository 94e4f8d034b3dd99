//! Named cases that the stored recording of the port's program `replay` has behind its random ones. Those are chosen for
//! the branches that they pass, and some changes of the program `mutants` show at an edge that none of them meets: these
//! cases, few and small ones, catch the rest. `mutants --stored` tells whether the two together catch all.

use crate::named;
use crate::recording::Case;

/// Their names, in the order of the recording.
const NAMES: &[&str] = &[
    "a last move right at the level is no crossing",
    "0.02 away is near",
    "a hair more than 0.02 away is far",
    "a changed live list clears the marks of its own bank only",
    "eleven: the 257th silenced target is declined, by solo and by mute, before any call",
    "eleven: distinct others only, the own target counts where a peer shares it",
    "a loaded scene forgets which faders were muted before the solo",
    "restore: 18 records",
    "bench: flash 63 shows",
    "all phases at once before the end: six sent, then only the end",
    "the bank lamp: select lights the bank's own square, rows of eight banks flash",
    "two global entries of one kind: the lamp is the last one's, the press the first one's",
    "a yes/no byte of 2",
    "live list: numbers equal",
    // A ninth of the recording, but no smaller profile shows that one of 65,536 bytes is let pass.
    "profile: 65,536 bytes",
    "profile three: kinds fall",
    "equal bank names, both with a position: saving takes the last",
    "rec without an action, the default is scene, its target absent: it runs as a command of no name, or loads",
    "field settings: 128 in unused byte 16",
];

/// The cases of these names.
pub fn cases() -> Result<Vec<Case>, String> {
    let all = named::all();
    let case = |name: &&str| all.iter().find(|c| c.name == *name).map(|c| c.case.clone());
    NAMES.iter().map(|name| case(name).ok_or_else(|| format!("no case has the name: {name}"))).collect()
}
