//! The comparison rejects programs that are wrong in one way, each in a
//! situation that shows it (`examples/wrong.rs`).

mod common;

use cases::fixed;
use common::wrong_program;
use compare::programs::case;
use compare::programs::ended::End;
use compare::programs::fault::Fault;
use compare::programs::scratch::Scratch;
use compare::programs::sent;
use compare::programs::situations::{situations, Means};
use compare::programs::started;
use compare::programs::under_test::UnderTest;
use compare::tally::Check;
use reader::Program;
use std::fs;
use std::os::unix::fs::symlink;
use std::path::{Path, PathBuf};
use std::sync::{Mutex, OnceLock};
use std::time::Duration;

/// A folder with the programs that are wrong in this way.
fn folder(way: &str) -> PathBuf {
    static WRONG: OnceLock<PathBuf> = OnceLock::new();
    static MAKING: Mutex<()> = Mutex::new(());
    let wrong = WRONG.get_or_init(wrong_program);
    let folder = Path::new(env!("CARGO_TARGET_TMPDIR"))
        .join("ways")
        .join(way);
    let _making = MAKING.lock();
    fs::create_dir_all(&folder).unwrap();
    for program in Program::ALL {
        let link = folder.join(program.name());
        let _ = fs::remove_file(&link);
        symlink(wrong, link).unwrap();
    }
    folder
}

/// Programs that are wrong in one way, and the folder in which they are run.
struct Wrong {
    programs: UnderTest,
    scratch: Scratch,
    means: Means,
}

impl Wrong {
    fn new(way: &str, has_status: bool) -> Wrong {
        let scratch = Scratch::new().unwrap();
        Wrong {
            programs: UnderTest::new(&folder(way), has_status),
            means: Means::prepare(&scratch).unwrap(),
            scratch,
        }
    }

    fn checks_of(&self, name: &str) -> Vec<Check> {
        let all = situations(self.means);
        let situation = all.iter().find(|situation| situation.name == name);
        started::check(&self.programs, situation.expect(name), &self.scratch)
    }

    /// The faults, in a situation, of the three programs that list records.
    fn starts(&self, name: &str) -> Vec<Option<Fault>> {
        let checks = self.checks_of(name);
        Program::LISTING
            .map(|program| fault_of(program, &checks))
            .into()
    }

    /// The fault of one program in a situation.
    fn started(&self, program: Program, name: &str) -> Option<Fault> {
        fault_of(program, &self.checks_of(name))
    }

    /// The faults of all programs on a case by one delivery.
    fn delivered(&self, name: &str, how: &str) -> Vec<Check> {
        let case = fixed().into_iter().find(|case| case.name == name);
        let checks = case::check(&self.programs, &case.expect(name), &self.scratch);
        let delivered = checks.into_iter().filter(|check| check.name.ends_with(how));
        delivered.collect()
    }

    /// Those of the three that list records.
    fn reads(&self, name: &str, how: &str) -> Vec<Option<Fault>> {
        let checks = self.delivered(name, how);
        Program::LISTING
            .map(|program| fault_of(program, &checks))
            .into()
    }

    /// That of one program.
    fn given(&self, program: Program, name: &str, how: &str) -> Option<Fault> {
        fault_of(program, &self.delivered(name, how))
    }

    /// That of `station`, behind `compose`, on a text of orders.
    fn sends(&self, name: &str) -> Option<Fault> {
        let case = fixed().into_iter().find(|case| case.name == name);
        let checks = sent::check(&self.programs, &case.expect(name), &self.scratch);
        fault_of(Program::Station, &checks)
    }
}

/// The fault of the one check of a program.
fn fault_of(program: Program, checks: &[Check]) -> Option<Fault> {
    let start = format!("{}, ", program.name());
    let mut of_program = checks.iter().filter(|check| check.name.starts_with(&start));
    let check = of_program.next().expect("a check of the program");
    assert!(of_program.next().is_none(), "{start}");
    check.fault.clone()
}

fn differ(faults: &[Option<Fault>]) -> bool {
    faults
        .iter()
        .all(|fault| matches!(fault, Some(Fault::Differs(_))))
}

fn say(faults: &[Option<Fault>]) -> bool {
    faults
        .iter()
        .all(|fault| matches!(fault, Some(Fault::Says(_))))
}

/// The program with nothing wrong passes where the others fail.
#[test]
fn the_right_program_passes() {
    let right = Wrong::new("right", true);
    for name in [
        "- for standard input",
        "named file",
        "named file, refused",
        "wrong words [\"-x\"]",
        "a missing file",
        "standard input a folder",
        "a read fails at 10 of 14",
        "a read fails at 0 of 14, named",
        "interrupted, good",
        "interrupted 5 times, good",
        "interrupted 5 times, large, whole blocks",
        "writes take nothing at 28, good",
        "writes take nothing at 30, interrupted",
        "closing is interrupted, good",
        "standard error with standard output, refused",
    ] {
        assert_eq!(right.starts(name), [None, None, None], "{name}");
    }
    for how in [
        "as a file",
        "through a pipe",
        "a byte at a time",
        "interrupted calls",
    ] {
        assert_eq!(right.reads("paper/listing", how), [None, None, None]);
        assert_eq!(right.reads("refusals/odd", how), [None, None, None]);
    }
}

#[test]
fn one_that_writes_each_block_twice() {
    let wrong = Wrong::new("writes-twice", true);
    assert!(differ(&wrong.reads("paper/listing", "as a file")));
    assert!(differ(&wrong.starts("--help")));
}

#[test]
fn one_that_speaks_on_a_good_run() {
    let wrong = Wrong::new("speaks", true);
    assert!(say(&wrong.reads("paper/listing", "as a file")));
    let faults = wrong.starts("standard error with standard output, good");
    assert!(differ(&faults));
}

#[test]
fn one_that_says_nothing_on_a_failure() {
    let wrong = Wrong::new("silent", true);
    for name in [
        "named file, refused",
        "wrong words [\"-x\"]",
        "a missing file",
        "standard input a folder",
        "standard output full, good",
        "a read fails at 10 of 14",
    ] {
        assert!(say(&wrong.starts(name)), "{name}");
    }
    assert!(say(&wrong.reads("refusals/odd", "as a file")));
}

#[test]
fn one_that_exits_0_on_a_refusal() {
    let ends = |status| {
        let (expected, got) = (End::Status(status), End::Status(0));
        vec![Some(Fault::Ends { expected, got }); 3]
    };
    let wrong = Wrong::new("no-status", true);
    let none = Wrong::new("no-status", false);
    let right = Wrong::new("right", false);
    for (name, status) in [
        ("named file, refused", 1),
        ("wrong words [\"-x\"]", 2),
        ("a missing file", 3),
        ("standard output full, good", 3),
    ] {
        assert_eq!(wrong.starts(name), ends(status), "{name}");
        // That is right of programs without a status, and no other is.
        assert_eq!(none.starts(name), [None, None, None], "{name}");
        let faults = right.starts(name);
        assert!(faults.iter().all(|f| matches!(f, Some(Fault::Ends { .. }))));
    }
    assert_eq!(wrong.reads("refusals/odd", "as a file"), ends(1));
}

/// It is right where each line comes whole.
#[test]
fn one_that_forgets_the_beginning_of_a_line_at_each_read() {
    let wrong = Wrong::new("forgets", true);
    let listing = |how| wrong.reads("paper/listing", how);
    assert_eq!(listing("as a file"), [None, None, None]);
    assert!(differ(&listing("interrupted calls")));
    // A line that a block's edge cuts.
    let long = wrong.reads("refusals/200000-digits", "as a file");
    assert!(say(&long), "{long:?}");
}

#[test]
fn one_that_opens_anew_at_each_read() {
    let wrong = Wrong::new("opens-anew", true);
    assert!(differ(&wrong.starts("named file")));
    assert!(differ(&wrong.reads("paper/listing", "as a named file")));
}

#[test]
fn one_that_hangs_after_a_failed_read() {
    let mut wrong = Wrong::new("hangs-after-a-failed-read", true);
    wrong.programs.run_limit = Duration::from_secs(1);
    let faults = wrong.starts("a read fails at 10 of 14");
    assert_eq!(faults, vec![Some(Fault::Hangs(None)); 3]);
}

/// Its `model` prints the state, the others say nothing.
#[test]
fn one_that_takes_a_failed_read_for_the_end() {
    let wrong = Wrong::new("takes-a-failed-read-for-the-end", true);
    let faults = wrong.starts("a read fails at 7 of 14");
    assert!(say(&faults[..2]) && differ(&faults[2..]), "{faults:?}");
}

#[test]
fn one_that_fails_when_interrupted() {
    let wrong = Wrong::new("fails-when-interrupted", true);
    assert!(differ(&wrong.starts("interrupted, good")));
    assert!(differ(&wrong.reads("paper/listing", "interrupted calls")));
}

/// Of its reads or of its writes; a third interruption shows it.
#[test]
fn one_that_gives_up_after_two_interruptions() {
    for way in ["gives-up-reading", "gives-up-writing"] {
        let wrong = Wrong::new(way, true);
        assert_eq!(wrong.starts("interrupted, good"), [None, None, None]);
        for name in [
            "interrupted 5 times, good",
            "interrupted 5 times, good, whole blocks",
            "interrupted 5 times, large, whole blocks",
        ] {
            assert!(differ(&wrong.starts(name)), "{way}, {name}");
        }
    }
    let wrong = Wrong::new("gives-up-writing", true);
    assert!(differ(&wrong.starts("interrupted 5 times, --help")));
}

#[test]
fn one_that_takes_an_interrupted_read_for_the_end() {
    let wrong = Wrong::new("takes-an-interrupted-read-for-the-end", true);
    assert!(differ(&wrong.starts("interrupted, good")));
    assert!(differ(&wrong.starts("interrupted 5 times, named")));
    assert!(differ(&wrong.reads("paper/listing", "interrupted calls")));
    // A read that fails is still one that has failed.
    let failed = wrong.starts("a read fails at 10 of 14");
    assert_eq!(failed, [None, None, None]);
}

#[test]
fn one_that_lists_on_standard_error() {
    let wrong = Wrong::new("lists-on-standard-error", true);
    assert!(differ(&wrong.starts("- for standard input")));
    assert!(differ(&wrong.starts("--help")));
    assert!(differ(&wrong.reads("paper/listing", "as a file")));
    // Where both are the same it does not show.
    let joined = wrong.starts("standard error with standard output, good");
    assert_eq!(joined, [None, None, None]);
}

#[test]
fn one_that_writes_again_what_is_not_taken() {
    let mut wrong = Wrong::new("insists", true);
    wrong.programs.run_limit = Duration::from_secs(1);
    let faults = wrong.starts("writes take nothing at 28, good");
    assert_eq!(faults, vec![Some(Fault::Hangs(None)); 3]);
}

#[test]
fn one_that_drops_the_rest_of_a_short_write() {
    let wrong = Wrong::new("drops-the-rest-of-a-write", true);
    assert!(differ(&wrong.starts("interrupted, good")));
    assert!(differ(&wrong.reads("paper/listing", "interrupted calls")));
    assert!(say(&wrong.starts("writes take nothing at 0, good")));
}

fn differs(fault: Option<Fault>) -> bool {
    matches!(fault, Some(Fault::Differs(_)))
}

fn says(fault: Option<Fault>) -> bool {
    matches!(fault, Some(Fault::Says(_)))
}

fn ends(fault: Option<Fault>) -> bool {
    matches!(fault, Some(Fault::Ends { .. }))
}

/// `accept` by the right program, and by ones that are wrong where it shows.
#[test]
fn wrong_ways_to_accept() {
    let right = Wrong::new("right", true);
    for name in [
        "stream accepted, named",
        "stream unknown, named",
        "stream cut, named",
        "stream too close, a read fails at 7",
        "stream cut, interrupted 5 times",
        "stream unknown, a write takes nothing at 5",
        "stream a line inside a pattern, named",
        "large stream unknown, named",
        "wrong words [\"-x\"]",
        "--help",
    ] {
        assert_eq!(right.started(Program::Accept, name), None, "{name}");
    }
    for name in ["paper/listing", "accept/every-pair", "accept/cut-bcr-5"] {
        assert_eq!(
            right.given(Program::Accept, name, "as a file"),
            None,
            "{name}"
        );
    }
    let wrong = Wrong::new("writes-twice", true);
    assert!(differs(
        wrong.started(Program::Accept, "stream unknown, named")
    ));
    assert!(differs(wrong.given(
        Program::Accept,
        "accept/cut-bcr-5",
        "as a file"
    )));
    let wrong = Wrong::new("silent", true);
    assert!(says(wrong.started(Program::Accept, "stream cut, named")));
    assert!(says(wrong.given(
        Program::Accept,
        "accept/close-bcr-1-bcr",
        "as a file"
    )));
    let wrong = Wrong::new("no-status", true);
    assert!(ends(
        wrong.started(Program::Accept, "stream too close, named")
    ));
    assert!(ends(wrong.given(
        Program::Accept,
        "accept/unknown-at-once",
        "as a file"
    )));
    // It takes each pattern that goes on in another read for a cut one.
    let wrong = Wrong::new("takes-an-interrupted-read-for-the-end", true);
    let whole = "stream accepted, interrupted 1 times";
    assert_eq!(
        wrong.started(Program::Accept, whole),
        None,
        "it is read as empty"
    );
    let cut = wrong.started(Program::Accept, "stream cut, interrupted 1 times");
    assert!(differs(cut));
    let wrong = Wrong::new("takes-a-failed-read-for-the-end", true);
    assert!(differs(
        wrong.started(Program::Accept, "stream cut, a read fails at 6")
    ));
    let failed = wrong.started(Program::Accept, "stream accepted, a read fails at 3");
    assert!(says(failed));
    let wrong = Wrong::new("forgets", true);
    let cut = wrong.given(Program::Accept, "accept/blocks-accepted", "as a file");
    assert!(cut.is_some());
    let wrong = Wrong::new("lists-on-standard-error", true);
    assert!(differs(
        wrong.started(Program::Accept, "stream unknown, named")
    ));
    assert_eq!(
        wrong.started(Program::Accept, "stream accepted, named"),
        None
    );
}

const REPLY: Program = Program::Reply;

/// The same of `compose`.
#[test]
fn wrong_ways_to_compose() {
    const COMPOSE: Program = Program::Compose;
    let right = Wrong::new("right", true);
    for name in [
        "orders composed, named",
        "orders wrong, named",
        "orders too close, a read fails at 5",
        "orders composed, interrupted 5 times",
        "orders composed, a write takes nothing at 5",
        "orders too long, named",
        "orders with character 09 in a frame",
        "large orders composed, interrupted",
        "wrong words [\"-x\"]",
        "--help",
    ] {
        assert_eq!(right.started(COMPOSE, name), None, "{name}");
    }
    for name in [
        "paper/listing",
        "compose/lv1",
        "compose/close-bcr",
        "compose/wrong-name",
    ] {
        assert_eq!(right.given(COMPOSE, name, "as a file"), None, "{name}");
    }
    assert_eq!(right.sends("compose/just-the-zeros"), None);

    let wrong = Wrong::new("writes-twice", true);
    assert!(differs(wrong.started(COMPOSE, "orders composed, named")));
    assert!(differs(wrong.given(
        COMPOSE,
        "compose/close-bcr",
        "as a file"
    )));
    assert!(differs(wrong.sends("compose/just-the-zeros")));
    let wrong = Wrong::new("silent", true);
    assert!(says(wrong.started(COMPOSE, "orders too long, named")));
    assert!(says(wrong.given(
        COMPOSE,
        "compose/wrong-name",
        "as a file"
    )));
    let wrong = Wrong::new("no-status", true);
    assert!(ends(wrong.started(COMPOSE, "orders too close, named")));
    assert!(ends(wrong.given(
        COMPOSE,
        "compose/wrong-name",
        "as a file"
    )));
    // A text that has ended for it is composed.
    let wrong = Wrong::new("takes-an-interrupted-read-for-the-end", true);
    let interrupted = wrong.started(COMPOSE, "orders composed, interrupted 1 times");
    assert!(differs(interrupted));
    let wrong = Wrong::new("takes-a-failed-read-for-the-end", true);
    assert!(differs(
        wrong.started(COMPOSE, "orders composed, a read fails at 13")
    ));
    assert!(says(
        wrong.started(COMPOSE, "orders no orders, a read fails at 3")
    ));
    let wrong = Wrong::new("forgets", true);
    assert_eq!(wrong.given(COMPOSE, "compose/lv1", "as a file"), None);
    assert!(differs(wrong.given(
        COMPOSE,
        "compose/a-block",
        "as a file"
    )));
    assert!(differs(wrong.sends("compose/a-block")));
    let wrong = Wrong::new("drops-the-rest-of-a-write", true);
    assert!(differs(
        wrong.started(COMPOSE, "orders composed, interrupted 1 times")
    ));
    let wrong = Wrong::new("lists-on-standard-error", true);
    assert!(differs(wrong.started(COMPOSE, "orders composed, named")));
}

/// The same of `reply`: the right program.
#[test]
fn the_right_way_to_reply() {
    let right = Wrong::new("right", true);
    for name in [
        "reply whole, named",
        "reply whole ahead of a wrong line, a read fails at 9",
        "reply cut short, interrupted 5 times",
        "reply with no header, a write takes nothing at 5",
        "reply with an odd line, named",
        "reply of 0016 bits, standard input",
        "reply with wrong words [\"8192\"]",
        "reply with a count and a long word",
        "reply with character 31 in the count",
        "large reply whole with a block, a read fails at 65536",
        "the greatest reply, a write fails at 2060",
        "wrong words [\"-x\"]",
        "--help",
    ] {
        assert_eq!(right.started(REPLY, name), None, "{name}");
    }
    for name in ["paper/listing", "reply/whole-in-a-line", "reply/edge-15"] {
        assert_eq!(right.given(REPLY, name, "as a file"), None, "{name}");
    }
}

/// And wrong ones.
#[test]
fn wrong_ways_to_reply() {
    let given =
        |wrong: &Wrong, name: &str| wrong.given(REPLY, &format!("reply/{name}"), "as a file");
    let wrong = Wrong::new("writes-twice", true);
    assert!(differs(wrong.started(REPLY, "reply whole, named")));
    assert!(differs(given(&wrong, "cut-one-bit-missing")));
    let wrong = Wrong::new("speaks", true);
    assert!(says(wrong.started(REPLY, "reply whole, named")));
    let wrong = Wrong::new("silent", true);
    assert!(says(wrong.started(REPLY, "reply cut short, named")));
    assert!(says(wrong.started(REPLY, "reply with wrong words []")));
    assert!(says(given(&wrong, "no-header-zeros")));
    let wrong = Wrong::new("no-status", true);
    assert!(ends(wrong.started(REPLY, "reply with no header, named")));
    assert!(ends(wrong.started(REPLY, "reply with wrong words [\"0\"]")));
    assert!(ends(given(&wrong, "cut-at-the-header")));
    // A reply that has ended for it is cut short.
    let wrong = Wrong::new("takes-an-interrupted-read-for-the-end", true);
    let interrupted = wrong.started(REPLY, "reply whole, interrupted 1 times");
    assert!(differs(interrupted));
    let wrong = Wrong::new("takes-a-failed-read-for-the-end", true);
    let failed = wrong.started(REPLY, "reply whole, a read fails at 5");
    assert!(differs(failed));
    // A block's edge, but not behind the end of the reply.
    let wrong = Wrong::new("forgets", true);
    assert_eq!(given(&wrong, "whole-across-a-line"), None);
    assert!(differs(given(&wrong, "edge-09")) && differs(given(&wrong, "edge-12")));
    assert_eq!(given(&wrong, "edge-16"), None);
    let wrong = Wrong::new("drops-the-rest-of-a-write", true);
    assert!(differs(
        wrong.started(REPLY, "reply whole, interrupted 1 times")
    ));
    let wrong = Wrong::new("lists-on-standard-error", true);
    assert!(differs(wrong.started(REPLY, "reply whole, named")));
}

/// Rust's own start ignores SIGPIPE, and the stand-in closes without a look.
#[test]
fn ends_by_a_signal_and_closings_are_looked_at() {
    let right = Wrong::new("right", true);
    let faults = right.starts("standard output a closed pipe, SIGPIPE not ignored, good");
    let (expected, got) = (End::Signal(13), End::Status(3));
    assert_eq!(faults, vec![Some(Fault::Ends { expected, got }); 3]);
    assert!(say(&right.starts("closing fails, good")));
}
