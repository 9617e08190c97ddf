//! Draws cases from a seed and writes them to standard output (docs/CASES.md): `draw SEED COUNT`.

use independent::draw::Draw;
use std::io::{self, BufWriter, Write};

fn main() -> io::Result<()> {
    let mut arguments = std::env::args().skip(1).map(|text| text.parse::<u64>());
    let (Some(Ok(seed)), Some(Ok(count)), None) = (arguments.next(), arguments.next(), arguments.next())
    else {
        eprintln!("draw SEED COUNT");
        std::process::exit(2);
    };
    let mut draw = Draw::new(seed);
    let mut out = BufWriter::new(io::stdout().lock());
    for _ in 0..count {
        out.write_all(&draw.case())?;
    }
    out.flush()
}
