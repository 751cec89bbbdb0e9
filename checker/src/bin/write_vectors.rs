//! Writes the checker's own vectors into `vectors/`, with the model's transcripts as their outputs.

use std::path::Path;
use std::{fs, io};

fn main() -> io::Result<()> {
    let folder = Path::new(env!("CARGO_MANIFEST_DIR")).join("../vectors");
    for (name, input) in checker::trial::vectors::vectors() {
        fs::write(folder.join(name).with_extension("in"), &input)?;
        fs::write(folder.join(name).with_extension("out"), checker::transcript(&input))?;
        println!("{name}: {} bytes", input.len());
    }
    Ok(())
}
