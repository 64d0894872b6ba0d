//! The built program: what each command prints, and its exit status.

use std::io::Write;
use std::path::PathBuf;
use std::process::{Command, Output, Stdio};

use second::bench;
use second::case;
use second::corpus::{Corpus, Kind};
use second::known::{counter_case, hub, hub_case, longest};
use second::make;

fn call(arguments: &[&str], input: &[u8]) -> Output {
    let mut child = Command::new(env!("CARGO_BIN_EXE_second"))
        .args(arguments)
        .stdin(Stdio::piped())
        .stdout(Stdio::piped())
        .stderr(Stdio::piped())
        .spawn()
        .expect("the program starts");
    // Where the command line is wrong nobody reads the input.
    let _ = child.stdin.take().expect("a pipe").write_all(input);
    child.wait_with_output().expect("the program ends")
}

fn prints(arguments: &[&str], input: &[u8], expected: &str) {
    let output = call(arguments, input);
    assert_eq!(
        String::from_utf8_lossy(&output.stdout),
        expected,
        "{arguments:?}"
    );
    assert_eq!(output.status.code(), Some(0), "{arguments:?}");
    assert!(output.stderr.is_empty(), "{arguments:?}");
}

fn hub_file(log: &[u8]) -> Vec<u8> {
    case::bytes(&hub(log))
}

#[test]
fn verdicts() {
    prints(
        &["verdict"],
        &hub_file(&[0, 3]),
        "ambiguous\nF 3 0 2 4\nC 3 0 1 3\n",
    );
    prints(&["verdict"], &hub_file(&[]), "safe\nC 0\n");
    let h6 = case::bytes(&hub_case(6));
    prints(&["verdict"], &h6, "faulty\nF 3 0 2 4\n");
    prints(&["verdict"], &hub_file(&[0, 3])[..82], "refused 2 81\n");
    prints(&["verdict"], &[], "refused 2 0\n");
    let mut longer = case::bytes(&longest());
    longer.resize(100_000, 7);
    prints(&["verdict"], &longer, "refused 2 2496\n");
    let mut log = vec![1; 8];
    let round: Vec<String> = (0..255u32)
        .map(|n| n.trailing_ones().to_string())
        .chain(["8".into()])
        .collect();
    let rounds = vec![round.join(" "); 8].join(" ");
    prints(
        &["verdict"],
        &case::bytes(&counter_case(8, &log)),
        &format!("safe\nC 2048 {rounds}\n"),
    );
    log.push(2);
    prints(
        &["verdict"],
        &case::bytes(&counter_case(8, &log)),
        "refused 11 2049\n",
    );
}

#[test]
fn listings() {
    let h4 = hub_file(&[0, 3]);
    prints(&["list", "3"], &h4, "C 3 0 1 3\nF 3 0 2 4\nend\n");
    prints(&["list", "2"], &h4, "end\n");
    prints(&["list", "24"], &h4, "C 3 0 1 3\nF 3 0 2 4\nend\n");
    prints(&["list", "25"], &h4, "refused 12 0\n");
    prints(&["list", "18446744073709551615"], &[], "refused 12 0\n");
    prints(
        &["list", "5"],
        &hub_file(&[0, 3, 0]),
        "C 4 0 1 3 0\nC 5 0 1 3 0 1\nC 5 0 1 3 0 2\nend\n",
    );
    prints(&["list", "0"], &hub_file(&[]), "C 0\nend\n");
    prints(&["list", "0"], &[], "refused 2 0\n");
}

#[test]
fn single_calls_of_the_listing() {
    let h4 = hub_file(&[0, 3]);
    prints(&["next", "3"], &h4, "C 3 0 1 3\n");
    prints(&["next", "3", "after"], &h4, "C 3 0 1 3\n");
    prints(&["next", "3", "after", "0", "1", "3"], &h4, "F 3 0 2 4\n");
    prints(&["next", "3", "after", "0", "2", "4"], &h4, "end\n");
    prints(
        &["next", "3", "after", "0", "2", "4", "0"],
        &h4,
        "refused 13 0\n",
    );
    prints(&["next", "3", "after", "5"], &h4, "refused 13 0\n");
    prints(&["next", "25", "after", "5"], &h4, "refused 12 0\n");
    prints(&["next", "3", "after", "5"], &[], "refused 2 0\n");
    prints(&["next", "5", "after"], &hub_file(&[]), "end\n");
}

#[test]
fn replays() {
    let h4 = hub_file(&[0, 3]);
    let whole = "fired 3\nmarking 0 0 1 | 0 0 1\nfinal\nrun ended\nexplains\n";
    prints(&["replay", "65535", "0", "2", "4"], &h4, whole);
    let spent = "fired 1\nmarking 0 1 0 | 1 0 0\nnot final\nbudget spent\nno\n";
    prints(&["replay", "1", "0", "2", "4"], &h4, spent);
    let stuck = "fired 0\nmarking 1 0 0 | 1 0 0\nnot final\nnot firable\nno\n";
    prints(&["replay", "1", "255"], &h4, stuck);
    let mut passes = hub(&[0, 3]);
    passes.system.transitions[3].outputs = vec![0, 1];
    let over = "fired 1\nmarking 1 1 0 | 1 0 0\nnot final\ncap passed\nno\n";
    prints(&["replay", "9", "3", "3"], &case::bytes(&passes), over);
    prints(
        &["replay", "0"],
        &hub_file(&[]),
        "fired 0\nmarking 1 0 0 | 1 0 0\nnot final\nrun ended\nexplains\n",
    );
    prints(&["replay", "0"], &[], "refused 2 0\n");
}

#[test]
fn rewriting_and_checks() {
    let h4 = hub_file(&[0, 3]);
    assert_eq!(call(&["rewrite"], &h4).stdout, h4);
    let long = case::bytes(&longest());
    assert_eq!(call(&["rewrite"], &long).stdout, long);
    prints(&["rewrite"], &long[..2_495], "refused 2 2494\n");
    prints(&["rewrite"], &[], "refused 2 0\n");
    prints(&["checks"], &h4, "accepted 4\n");
    prints(&["checks"], &long, "accepted 1\n");
    prints(&["checks"], &hub_file(&[1]), "refused 2 76\n");
    // A log that nothing explains is accepted: 10 is not among these checks.
    prints(&["checks"], &hub_file(&[0, 0]), "accepted 4\n");
    for arguments in [
        &["rewrite"][..],
        &["checks"],
        &["list", "3"],
        &["replay", "3", "0"],
        &["next", "3"],
    ] {
        let mut longer = long.clone();
        longer.resize(100_000, b'E');
        prints(arguments, &longer, "refused 2 2496\n");
    }
}

/// A folder of this test's own, which is not there yet.
fn new_folder(name: &str) -> PathBuf {
    std::env::temp_dir().join(format!("second-{name}-{}", std::process::id()))
}

#[test]
fn making_files() {
    let folder = new_folder("made");
    let name = folder.to_str().expect("a plain name");
    prints(&["make", "7", "25", name], &[], "");
    for index in 0..25 {
        let file = std::fs::read(folder.join(format!("{index:04}.case"))).expect("a made file");
        assert_eq!(file, make::file(7, index));
    }
    assert_eq!(std::fs::read_dir(&folder).expect("the folder").count(), 25);
    std::fs::remove_dir_all(&folder).expect("the folder goes");
}

/// Two makings, in two processes, give the same bytes: all kinds, one after the
/// other.
#[test]
fn making_the_corpus() {
    let folder = new_folder("corpus");
    let name = folder.to_str().expect("a plain name");
    prints(&["corpus", name], &[], "");
    let [entries, expected] = ["corpus", "expected"]
        .map(|name| std::fs::read(folder.join(name)).expect("a file of the corpus"));
    let of_kinds = Kind::ALL.map(Corpus::of);
    let all = of_kinds.iter().flat_map(|one| &one.entries);
    assert!(entries.iter().eq(all));
    let all = of_kinds.iter().flat_map(|one| one.expected.as_bytes());
    assert!(expected.iter().eq(all));
    assert_eq!(std::fs::read_dir(&folder).expect("the folder").count(), 2);
    std::fs::remove_dir_all(&folder).expect("the folder goes");
}

#[test]
fn named_cases() {
    assert_eq!(call(&["bench", "hub"], &[]).stdout, hub_file(&[0, 3]));
    let worst = case::bytes(&bench::worst(24));
    assert_eq!(call(&["bench", "worst", "24"], &[]).stdout, worst);
    prints(&["checks"], &worst, "accepted 512\n");
}

#[test]
fn wrong_calls() {
    let wrong: [&[&str]; 33] = [
        &[],
        &[""],
        &["help"],
        &["verdict", "1"],
        &["rewrite", "x"],
        &["checks", ""],
        &["list"],
        &["list", ""],
        &["list", "-1"],
        &["list", "+1"],
        &["list", "three"],
        &["list", "18446744073709551616"],
        &["list", "3", "4"],
        &["next"],
        &["next", "3", "0"],
        &["next", "3", "before", "0"],
        &["next", "3", "after", "256"],
        &["next", "3", "after", "x"],
        &["replay"],
        &["replay", "65536"],
        &["replay", "1", "256"],
        &["replay", "1", "-1"],
        &["make", "1", "2"],
        &["make", "x", "2", "folder"],
        &["make", "1", "2", "folder", "more"],
        &["corpus"],
        &["corpus", "folder", "more"],
        &["bench"],
        &["bench", "worst"],
        &["bench", "worst", "41"],
        &["bench", "ring"],
        &["bench", "hub", "4"],
        &["bench", "worst", "4", "4"],
    ];
    for arguments in wrong {
        let output = call(arguments, &hub_file(&[]));
        assert_eq!(output.status.code(), Some(2), "{arguments:?}");
        assert!(output.stdout.is_empty(), "{arguments:?}");
        let said = String::from_utf8_lossy(&output.stderr).into_owned();
        assert!(
            said.starts_with("usage: ") && said.lines().count() == 1,
            "{arguments:?}"
        );
    }
}
