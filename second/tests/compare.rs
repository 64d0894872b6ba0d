//! The comparison with built programs: programs that answer as this one does show
//! no difference, and one that answers otherwise is told.

use std::fs;
use std::os::unix::fs::PermissionsExt;
use std::path::{Path, PathBuf};
use std::process::{Command, Output};

/// A folder with a script for each program that asks the second program itself.
fn folder(name: &str) -> PathBuf {
    let folder = std::env::temp_dir().join(format!("second-compare-{name}-{}", std::process::id()));
    fs::create_dir_all(&folder).expect("a folder");
    for (program, command) in [
        ("verdict", "verdict"),
        ("checks", "checks"),
        ("rewrite", "rewrite"),
        ("explanations", "list"),
        ("replay", "replay"),
    ] {
        let call = format!("exec '{}' {command} \"$@\"", env!("CARGO_BIN_EXE_second"));
        script(&folder, program, &call);
    }
    folder
}

fn script(folder: &Path, name: &str, line: &str) {
    let path = folder.join(name);
    fs::write(&path, format!("#!/bin/sh\n{line}\n")).expect("a script");
    fs::set_permissions(&path, fs::Permissions::from_mode(0o755)).expect("its mode");
}

fn compare(folder: &Path) -> Output {
    Command::new(env!("CARGO_BIN_EXE_second"))
        .args(["compare", "7", "20"])
        .arg(folder)
        .output()
        .expect("the program runs")
}

#[test]
fn the_same_answers_show_no_difference() {
    let folder = folder("same");
    let output = compare(&folder);
    let said = String::from_utf8_lossy(&output.stdout);
    assert_eq!(said, "20 cases, 100 answers, 0 differences\n");
    assert_eq!(output.status.code(), Some(0));
    fs::remove_dir_all(folder).expect("the folder goes");
}

#[test]
fn another_answer_is_told() {
    let folder = folder("other");
    script(&folder, "verdict", "echo safe");
    let output = compare(&folder);
    let said = String::from_utf8_lossy(&output.stdout);
    assert!(said.contains("case 0: verdict"), "{said}");
    assert!(
        said.ends_with("20 cases, 100 answers, 20 differences\n"),
        "{said}"
    );
    assert_eq!(output.status.code(), Some(1));
    fs::remove_dir_all(folder).expect("the folder goes");
}

#[test]
fn a_missing_program_is_an_error() {
    let folder = folder("missing");
    fs::remove_file(folder.join("replay")).expect("it was there");
    let output = compare(&folder);
    assert_eq!(output.status.code(), Some(1));
    assert!(!output.stderr.is_empty());
    fs::remove_dir_all(folder).expect("the folder goes");
}
