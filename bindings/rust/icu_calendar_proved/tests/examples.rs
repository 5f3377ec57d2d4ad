//! The programs of `examples/`, with what they print.

use std::path::{Path, PathBuf};
use std::process::Command;
use std::{env, fs};

/// Returns the folder of built examples, which `cargo test` builds before the tests.
fn built() -> PathBuf {
    let test = env::current_exe().unwrap();
    test.parent().unwrap().parent().unwrap().join("examples")
}

#[test]
fn programs_print_what_they_should() {
    let folder = Path::new(env!("CARGO_MANIFEST_DIR")).join("examples");
    let mut count = 0;
    for entry in fs::read_dir(folder).unwrap() {
        let path = entry.unwrap().path();
        if path.extension().map_or(true, |it| it != "out") {
            continue;
        }
        let name = path.file_stem().unwrap();
        let run = Command::new(built().join(name)).output();
        let run = run.expect(
            "built by `cargo test` without the name of a test, or by `cargo build --examples`",
        );
        assert!(
            run.status.success(),
            "{name:?}: {}",
            String::from_utf8_lossy(&run.stderr)
        );
        assert_eq!(
            String::from_utf8_lossy(&run.stdout),
            fs::read_to_string(&path).unwrap(),
            "{name:?}"
        );
        count += 1;
    }
    assert!(count >= 12, "{count} programs");
}
