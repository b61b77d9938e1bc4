//! The golden files: writing them, and seeing every change of them.

use cases::{golden, Case};
use compare::golden::{check, files, stored, strays, write};
use compare::printed::printed;
use compare::programs::fault::Fault;
use compare::programs::scratch::Scratch;
use compare::tally::Check;
use reader::Program;
use std::fs;
use std::path::{Path, PathBuf};

/// The folder for a test's own files.
fn folder(name: &str) -> PathBuf {
    let folder = Path::new(env!("CARGO_TARGET_TMPDIR")).join(name);
    let _ = fs::remove_dir_all(&folder);
    fs::create_dir_all(&folder).unwrap();
    folder
}

/// Names of the failed checks with their faults.
fn failed(folder: &Path, cases: &[Case]) -> Vec<(String, Fault)> {
    faults(check(folder, cases))
}

fn faults(checks: Vec<Check>) -> Vec<(String, Fault)> {
    let checks = checks.into_iter();
    checks
        .filter_map(|check| Some((check.name, check.fault?)))
        .collect()
}

#[test]
fn every_change_of_a_golden_file_shows() {
    let folder = folder("golden");
    let cases: Vec<Case> = golden().into_iter().take(3).collect();
    for case in &cases {
        write(&folder, files(case)).unwrap();
    }
    assert_eq!(check(&folder, &cases).len(), 12);
    assert_eq!(failed(&folder, &cases), []);

    let listing = folder.join("paper/listing.station");
    let contents = fs::read(&listing).unwrap();
    fs::write(&listing, &contents[1..]).unwrap();
    let faults = failed(&folder, &cases);
    assert_eq!(faults.len(), 1);
    assert_eq!(faults[0].0, "golden file paper/listing.station");
    assert!(matches!(faults[0].1, Fault::Differs(_)));

    fs::remove_file(&listing).unwrap();
    let faults = failed(&folder, &cases);
    assert!(matches!(&faults[..], [(_, Fault::Unreadable(_))]));

    fs::write(&listing, contents).unwrap();
    assert_eq!(failed(&folder, &cases), []);

    // A case that is no more leaves its files behind.
    let faults = failed(&folder, &cases[1..]);
    assert_eq!(faults.len(), 4);
    assert!(faults.iter().all(|(_, fault)| *fault == Fault::Stray));
    let strays = strays(&folder, &cases[1..]).unwrap();
    assert!(strays
        .iter()
        .all(|path| path.with_extension("") == Path::new("paper/listing")));

    // A page for the reader is no case's file.
    fs::write(folder.join("README.md"), "").unwrap();
    assert_eq!(failed(&folder, &cases), []);
}

/// What is said of a refused line has a file; nothing said has none.
#[test]
fn what_is_said_is_a_file() {
    let folder = folder("said");
    let named = |name: &str| {
        let case = golden().into_iter().find(|case| case.name == name);
        [case.expect(name)]
    };
    let refused = named("refusals/odd");
    write(&folder, files(&refused[0])).unwrap();
    assert_eq!(check(&folder, &refused).len(), 5);
    assert_eq!(failed(&folder, &refused), []);
    let said = folder.join("refusals/odd.said");
    let lines = ["station", "reading", "model"].map(|name| {
        format!("{name}: standard input: line 2: the count of digits is 5, which is odd\n")
    });
    assert_eq!(fs::read_to_string(&said).unwrap(), lines.concat());
    fs::write(folder.join("refusals/empty.said"), "").unwrap();
    let faults = failed(&folder, &refused);
    assert!(matches!(&faults[..], [(_, Fault::Stray)]));

    assert_eq!(files(&named("paper/listing")[0]).len(), 4);

    // A stream for `accept` has its input, what is printed and what is said.
    let [accepted] = named("accept/across-a-line");
    let [cut] = named("accept/cut-at-a-line-end");
    let names = |case: &Case| -> Vec<String> {
        let files = files(case).into_iter();
        files.map(|(path, _)| path.display().to_string()).collect()
    };
    let ends = ["in", "accept", "said"];
    let expected = ends.map(|end| format!("accept/cut-at-a-line-end.{end}"));
    assert_eq!(names(&cut), expected);
    assert_eq!(names(&accepted).len(), 2);
    let said =
        "accept: standard input: bit 5: the input ends inside the command that begins here\n";
    assert_eq!(files(&cut)[2].1, said.as_bytes());
}

/// The files of a case, with their contents.
fn files_of(name: &str) -> Vec<(String, String)> {
    let case = golden().into_iter().find(|case| case.name == name);
    let files = files(&case.expect(name)).into_iter();
    let files = files.map(|(path, contents)| {
        let contents = String::from_utf8(contents).unwrap();
        (path.display().to_string(), contents)
    });
    files.collect()
}

fn file(name: &str, contents: &str) -> (String, String) {
    (name.to_string(), contents.to_string())
}

/// A text of orders has its input, what is printed and what is said.
#[test]
fn files_of_orders() {
    let fit = [
        file("compose/lv1.in", "lv1\n"),
        file("compose/lv1.compose", "E8\n"),
    ];
    assert_eq!(files_of("compose/lv1"), fit);
    let said = "compose: standard input: line 2: the timing table asks for 2 zeros ahead of this \
                command, and the line gives 1\n";
    let close = [
        file("compose/close-bcr-1.in", "bcr\nbcr 1\n"),
        file("compose/close-bcr-1.compose", "!0A 00000002\n"),
        file("compose/close-bcr-1.said", said),
    ];
    assert_eq!(files_of("compose/close-bcr-1"), close);
}

/// Lines for `reply` have their words too.
#[test]
fn files_of_a_reply() {
    let whole = [
        file("reply/whole-ahead-of-a-wrong-line.in", "1D7F\nx\n"),
        file("reply/whole-ahead-of-a-wrong-line.args", "1\n"),
        file(
            "reply/whole-ahead-of-a-wrong-line.reply",
            "whole 0001\n>80\n",
        ),
    ];
    assert_eq!(files_of("reply/whole-ahead-of-a-wrong-line"), whole);
    let said = "reply: standard input: cut short: 3 of 16 bits\n";
    let cut = [
        file("reply/cut-no-last-line-feed.in", "1D\n7F\n00FF"),
        file("reply/cut-no-last-line-feed.args", "16\n"),
        file("reply/cut-no-last-line-feed.reply", "cut short 0003\n>A0\n"),
        file("reply/cut-no-last-line-feed.said", said),
    ];
    assert_eq!(files_of("reply/cut-no-last-line-feed"), cut);
}

/// The stored runs show a frame, a refusal, more than a block, a file to its
/// end, and the state at the end of the input.
#[test]
fn stored_runs() {
    let folder = folder("stored");
    stored::write_all(&folder).unwrap();
    let checks = stored::check(&folder);
    // The runs of `station` and `accept` end with a refusal, and have a status.
    assert!(checks.len() == 16 && faults(checks).is_empty());
    let read = |name: &str| fs::read_to_string(folder.join(name)).unwrap();
    let (input, output) = (read("station/stdin"), read("station/stdout"));
    assert!((65_537..75_000).contains(&input.len()) && output.len() < 20_000);
    // The block's edge cuts a line with bits of a frame.
    assert!(!input[..65_536].ends_with('\n') && input.as_bytes()[65_536] != b'\n');
    assert!(output.contains("\n>C3A5F1\n"));
    let last = output.lines().last().unwrap();
    assert!(last.starts_with("!07 ") && output.matches("\n>").count() >= 7);
    assert_eq!([read("station/status"), read("accept/status")], ["1\n"; 2]);

    assert_eq!(read("reading/args"), "capture.hex\n");
    let (file, listing) = (read("reading/data/capture.hex"), read("reading/stdout"));
    assert!(!listing.contains(['!', '>']));
    // The last line, which no line feed ends, has records.
    let (whole, last) = file.rsplit_once('\n').unwrap();
    let without = printed(Program::Reading, whole.as_bytes());
    assert!(!last.is_empty() && listing.len() == without.len() + 4 * 28);

    let (input, output) = (read("accept/stdin"), read("accept/stdout"));
    assert!((65_537..75_000).contains(&input.len()));
    assert!(!input[..65_536].ends_with('\n') && input.as_bytes()[65_536] != b'\n');
    // Too close, and far from the first bit; the refused line is not reached.
    assert!(
        output.starts_with("!0F 00000004") && output.lines().count() == 1,
        "{output}"
    );
    assert!(input.ends_with("\nx\n"));

    let (input, output) = (read("compose/stdin"), read("compose/stdout"));
    assert!((65_537..75_000).contains(&input.len()) && output.len() < 60_000);
    assert!(!input[..65_536].ends_with('\n') && input.as_bytes()[65_536] != b'\n');
    // Every command, and digits only.
    for name in [
        "lv1",
        "sync 4",
        "wr-fifo ",
        "rd-front-end ",
        "wr-receiver ",
        "global-reset-fe ",
    ] {
        assert!(input.contains(&format!("\n{name}")), "{name}");
    }
    assert!(output.lines().all(|line| line.len() <= 64) && !output.contains('!'));

    let state = read("model/stdout");
    assert!(!state.contains('!') && state.contains("\nword ") && state.contains("\nl1id 06\n"));
}

/// That of `reply` has its word, and a reply on either side of a block's edge.
#[test]
fn the_stored_run_of_reply() {
    let folder = folder("stored-reply");
    stored::write_all(&folder).unwrap();
    let read = |name: &str| fs::read_to_string(folder.join(name)).unwrap();
    let (input, output) = (read("reply/stdin"), read("reply/stdout"));
    assert!((65_537..75_000).contains(&input.len()));
    assert!(!input[..65_536].ends_with('\n') && input.as_bytes()[65_536] != b'\n');
    // The refused line is not reached.
    assert!(input[..65_536].contains("\n1D00") && input.ends_with("\nx\n"));
    assert_eq!(read("reply/args"), "100\n");
    assert!(output.starts_with("whole 0064\n>") && output.len() == 13 + 26);
}

#[test]
fn every_change_of_a_stored_run_shows() {
    let folder = folder("stored-changed");
    stored::write_all(&folder).unwrap();
    for name in ["model/stdout", "reading/args", "reading/data/capture.hex"] {
        let contents = fs::read(folder.join(name)).unwrap();
        fs::write(folder.join(name), "").unwrap();
        let faults = faults(stored::check(&folder));
        assert!(matches!(&faults[..], [(_, Fault::Differs(_))]), "{name}");
        fs::write(folder.join(name), contents).unwrap();
    }
    // What another run has left behind.
    for name in [
        "reading/stdin",
        "reading/data/other",
        "model/args",
        "model/status",
    ] {
        fs::write(folder.join(name), "").unwrap();
        let faults = faults(stored::check(&folder));
        assert!(matches!(&faults[..], [(_, Fault::Stray)]), "{name}");
        stored::write_all(&folder).unwrap();
        assert!(!folder.join(name).exists(), "{name}");
    }
}

#[test]
fn a_missing_folder_shows() {
    let folder = folder("missing").join("none");
    assert_eq!(failed(&folder, &golden()[..1]).len(), 5);
}

#[test]
fn scratch_is_removed() {
    let scratch = Scratch::new().unwrap();
    let case = &golden()[0];
    let file = scratch.file(case).unwrap();
    let file = scratch.folder().join(file);
    assert_eq!(fs::read(&file).unwrap(), case.input);
    drop(scratch);
    assert!(!file.exists());
}
