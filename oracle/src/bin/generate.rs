//! `generate SEED COUNT OUTFILE`: writes a recording of COUNT random cases; case I has seed SEED + I.

use std::io::Write;

use oracle::generate::cases;

fn main() -> Result<(), String> {
    let arguments: Vec<String> = std::env::args().skip(1).collect();
    let [seed, count, file] = arguments.as_slice() else { return Err("generate SEED COUNT OUTFILE".into()) };
    let seed: u64 = seed.parse().map_err(|_| "SEED is a number")?;
    let count: u32 = count.parse().map_err(|_| "COUNT is a number")?;
    let out = std::fs::File::create(file).map_err(|e| format!("{file}: {e}"))?;
    let mut out = std::io::BufWriter::new(out);
    for case in cases(seed, count) {
        out.write_all(&case.bytes()).map_err(|e| format!("{file}: {e}"))?;
    }
    out.flush().map_err(|e| format!("{file}: {e}"))
}
