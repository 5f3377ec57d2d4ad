//! The cases of `cases/`, answered through dates.

mod common;

use std::fs;

/// Compares the answers of this crate's dates with those of a file. Malformed lines are the program's own business.
fn compare(name: &str) {
    let read = |end: &str| fs::read(common::top().join(format!("cases/{name}.{end}"))).unwrap();
    let (requests, answers) = (read("in"), read("out"));
    let (requests, answers) = (
        String::from_utf8_lossy(&requests),
        String::from_utf8_lossy(&answers),
    );
    let asked = requests
        .lines()
        .filter(|line| !line.is_empty() && !line.starts_with('#'));
    let mut compared = 0;
    for (line, wanted) in asked.zip(answers.lines()) {
        if wanted.starts_with("err line") {
            continue;
        }
        assert_eq!(
            common::answer(line, |name| common::computed(name).unwrap()),
            wanted,
            "{name}: {line}"
        );
        compared += 1;
    }
    assert!(compared > 200, "{name}: {compared} requests");
}

#[test]
fn first_path() {
    compare("first_path");
}

#[test]
fn arithmetic() {
    compare("arithmetic");
}

#[test]
fn bags() {
    compare("bags");
}

#[test]
fn grammar() {
    compare("grammar");
}

#[test]
fn solar() {
    compare("solar");
}

#[test]
fn hebrew() {
    compare("hebrew");
}

#[test]
fn hijri() {
    compare("hijri");
}

#[test]
fn east_asian() {
    compare("east_asian");
}

#[test]
fn type1() {
    compare("type1");
}
