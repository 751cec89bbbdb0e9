//! Every input in `vectors/` gives its output.

use std::fs;
use std::path::{Path, PathBuf};

use checker::proved::Proved;
use checker::trial::implementation::{Model, Program};

fn folder() -> PathBuf {
    Path::new(env!("CARGO_MANIFEST_DIR")).join("../vectors")
}

/// Holds what a program prints on every input against the output.
fn every_input_gives_its_output(program: &mut impl Program) {
    let mut inputs = 0;
    for entry in fs::read_dir(folder()).expect("vectors/ is there") {
        let path = entry.expect("a file").path();
        if path.extension().is_some_and(|extension| extension == "in") {
            let input = fs::read(&path).expect("an input");
            let output = fs::read(path.with_extension("out")).expect("its output");
            assert!(program.transcript(&input) == output, "{}", path.display());
            inputs += 1;
        }
    }
    println!("{inputs} vectors");
    assert!(inputs > 60, "only {inputs} vectors");
}

#[test]
fn the_model_gives_every_output() {
    every_input_gives_its_output(&mut Model);
}

#[test]
fn the_proved_library_gives_every_output() {
    every_input_gives_its_output(&mut Proved::default());
}

/// The checker's own vectors are those that `write_vectors` would write.
#[test]
fn own_vectors_are_written() {
    for (name, input) in checker::trial::vectors::vectors() {
        let path = folder().join(name).with_extension("in");
        assert!(fs::read(&path).is_ok_and(|bytes| bytes == input), "{}", path.display());
    }
}
