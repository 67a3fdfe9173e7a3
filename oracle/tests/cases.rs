//! Each `cases/NAME.in` is answered with exactly the bytes of `cases/NAME.out`, which were written by hand from the rules.

use std::fs;
use std::path::{Path, PathBuf};

fn inputs() -> Vec<PathBuf> {
    let folder = Path::new(env!("CARGO_MANIFEST_DIR")).join("cases");
    let files = fs::read_dir(folder).expect("the folder of cases").map(|file| file.expect("a case").path());
    files.filter(|path| path.extension().is_some_and(|extension| extension == "in")).collect()
}

#[test]
fn every_case_is_answered_as_written() {
    let inputs = inputs();
    assert!(!inputs.is_empty());
    for input in inputs {
        let given = fs::read(&input).expect("an input");
        let expected = fs::read_to_string(input.with_extension("out")).expect("an output for each input");
        assert_eq!(oracle::lines::run(&given), expected, "{}", input.display());
    }
}
