//! `recorded`: writes named cases as a table of antt, for the definition of an event to be computed on (crates/recorded/specs/Table.antt).

fn main() {
    print!("{}", oracle::table::text());
}
