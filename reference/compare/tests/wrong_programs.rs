//! The comparison passes the programs themselves and rejects wrong ones.

mod common;

use cases::{fixed, Case};
use common::readers_programs;
use compare::programs::case;
use compare::programs::ended::End;
use compare::programs::fault::Fault;
use compare::programs::live;
use compare::programs::scratch::Scratch;
use compare::programs::sent;
use compare::programs::under_test::UnderTest;
use compare::tally::Tally;
use reader::Program;
use std::collections::BTreeMap;
use std::fs::{self, Permissions};
use std::os::unix::fs::PermissionsExt;
use std::path::{Path, PathBuf};
use std::sync::OnceLock;
use std::time::Duration;

/// Scripts that stand in for all programs; REAL is the program itself.
const SCRIPTS: [(&str, &str); 24] = [
    ("real", "exec REAL \"$@\""),
    ("drops-a-line", "REAL \"$@\" | sed 2d"),
    ("hangs", "exec sleep 1000"),
    ("hangs-after-its-output", "REAL \"$@\"; exec sleep 1000 >&-"),
    ("prints-for-ever", "exec yes"),
    (
        "reads-all-first",
        "d=$(cat; echo x); printf %s \"${d%x}\" | REAL \"$@\"",
    ),
    ("reads-after-a-refusal", "REAL \"$@\"; s=$?; cat; exit $s"),
    ("crashes", "REAL \"$@\"; kill -SEGV $$"),
    ("fails", "REAL \"$@\"; exit 3"),
    ("accepts-all", "cat \"$@\" >/dev/null"),
    // It takes each line for a stream of its own.
    (
        "judges-lines-alone",
        "cat \"$@\" | while read -r l; do echo \"$l\" | REAL || exit 1; done",
    ),
    // Wrong composers: one that takes names in upper case, and ones that see
    // no resets, no zeros ahead, and no bits of a frame but ones.
    ("knows-upper-case", "cat \"$@\" | tr A-Z a-z | REAL"),
    (
        "sees-no-reset",
        "cat \"$@\" | sed s/global-reset-mcc/en-data-take/ | REAL",
    ),
    (
        "sees-no-zeros",
        "cat \"$@\" | sed -E 's/^(lv1|bcr|ecr|cal|sync) [0-9]+/\\1/' | REAL",
    ),
    (
        "sends-ones",
        "cat \"$@\" | sed -E '/front-end|receiver/s/ [0-9A-F]+/ FFFF/' | REAL",
    ),
    // Wrong readers of replies, whose words are a count and maybe a file: one
    // that refuses a wrong line behind a whole reply, ones that print or read
    // a count as another, ones that print too much or too little, one that
    // ends with 0 though a reply is cut short, and ones that take a hit header,
    // lower case, or the last line alone.
    (
        "looks-behind",
        "d=$(cat \"${2:--}\"; echo x); d=${d%x}
         n=$(printf %s \"$d\" | grep -n '[^0-9A-F]' | head -n 1 | cut -d: -f1)
         [ -z \"$n\" ] || { printf '!07 %08X\\n' \"$n\"; exit 1; }
         printf %s \"$d\" | REAL \"$1\"",
    ),
    (
        "counts-in-decimal",
        "REAL \"$@\" | while read -r l; do case $l in
         whole*|cut*) printf '%s %04d\\n' \"${l% *}\" \"0x${l##* }\";;
         *) echo \"$l\";; esac; done",
    ),
    (
        "expects-hexadecimal",
        "n=$((0x$1)); shift; REAL \"$n\" \"$@\"",
    ),
    (
        "prints-empty-frames",
        "REAL \"$@\" | sed -E 's/^(cut short 0000|no header)$/&\\n>/'",
    ),
    ("keeps-cut-bits", "REAL \"$@\" | sed '/^cut/{n;d}'"),
    (
        "passes-cut-replies",
        "d=$(REAL \"$@\"); s=$?; echo \"$d\"; case $d in cut*) s=0;; esac; exit $s",
    ),
    (
        "takes-hit-headers",
        "cat \"${2:--}\" | sed s/^1F/1D/ | REAL \"$1\"",
    ),
    (
        "takes-lower-case",
        "cat \"${2:--}\" | tr a-f A-F | REAL \"$1\"",
    ),
    (
        "reads-the-last-line",
        "cat \"${2:--}\" | tail -n 1 | REAL \"$1\"",
    ),
];

/// Their folders. All are written ahead of the first start of a program: a
/// file open for writing cannot be run, not even by another thread.
fn scripts() -> &'static Path {
    static FOLDER: OnceLock<PathBuf> = OnceLock::new();
    FOLDER.get_or_init(|| {
        let folder = Path::new(env!("CARGO_TARGET_TMPDIR")).join("scripts");
        let real = readers_programs();
        for (name, script) in SCRIPTS {
            fs::create_dir_all(folder.join(name)).unwrap();
            for program in Program::ALL.map(Program::name) {
                let path = folder.join(name).join(program);
                let real = real.join(program).display().to_string();
                let script = script.replace("REAL", &format!("'{real}'"));
                fs::write(&path, format!("#!/bin/sh\n{script}\n")).unwrap();
                fs::set_permissions(&path, Permissions::from_mode(0o755)).unwrap();
            }
        }
        folder
    })
}

fn patient(script: &str) -> UnderTest {
    UnderTest::new(&scripts().join(script), true)
}

/// With limits that a right program keeps to all the same.
fn impatient(script: &str) -> UnderTest {
    let mut programs = patient(script);
    programs.run_limit = Duration::from_millis(400);
    programs.line_limit = Duration::from_millis(400);
    programs
}

fn named(name: &str) -> Case {
    static ALL: OnceLock<Vec<Case>> = OnceLock::new();
    let all = ALL.get_or_init(fixed);
    all.iter().find(|case| case.name == name).unwrap().clone()
}

fn faults(programs: &UnderTest, name: &str) -> Vec<Option<Fault>> {
    let scratch = Scratch::new().unwrap();
    let checks = case::check(programs, &named(name), &scratch);
    checks.into_iter().map(|check| check.fault).collect()
}

fn live_faults(programs: &UnderTest) -> Vec<Option<Fault>> {
    let checks = live::cases()
        .into_iter()
        .flat_map(|live| live::check(programs, &live));
    checks.map(|check| check.fault).collect()
}

#[test]
fn the_programs_themselves_pass() {
    let programs = patient("real");
    for name in [
        "paper/listing",
        "frames/wr-9",
        "refusals/odd",
        "lines/empty-input",
        "accept/across-empty-lines",
        "accept/cut-no-last-line-feed",
        "accept/close-across-a-line",
        "accept/line-odd-inside-a-pattern",
        "reply/whole-ahead-of-a-wrong-line",
        "reply/cut-no-last-line-feed",
        "reply/no-header-zeros",
        "reply/line-odd-after-the-header",
    ] {
        // Five programs, five deliveries; and `compose`, which refuses it.
        assert_eq!(faults(&programs, name), vec![None; 26], "{name}");
    }
    assert!(live_faults(&programs).iter().all(Option::is_none));
    // Long inputs are not written a byte at a time.
    for name in [
        "refusals/200000-digits",
        "frames/receiver-65528",
        "reply/edge-15",
        "reply/greatest-apart-then-wrong",
    ] {
        assert_eq!(faults(&programs, name), vec![None; 21], "{name}");
    }
    for name in [
        "compose/just-the-zeros",
        "compose/close-sync",
        "compose/wrong-fields-missing",
    ] {
        // Five programs that refuse it, and `compose` by five deliveries.
        assert_eq!(faults(&programs, name), vec![None; 10], "{name}");
    }
    assert_eq!(faults(&programs, "compose/longest-frames"), vec![None; 9]);
}

#[test]
fn wrong_output_is_reported_with_its_place() {
    let programs = patient("drops-a-line");
    let scratch = Scratch::new().unwrap();
    let checks = case::check(&programs, &named("paper/listing"), &scratch);
    assert_eq!(checks.len(), 26);
    let mut tally = Tally::default();
    tally.add(checks);
    let first = "FAILED station, paper/listing, as a file: differs at byte 40, line 2: \
                 expected \"000000000015 01 05 00000015\\n\", got \"00000000001C 01 07 0005011C\\n\"";
    let text = tally.to_string();
    assert_eq!(text.lines().next(), Some(first));
    assert!(text.ends_with("\n0 passed, 26 failed"));
}

#[test]
fn output_without_end_is_cut_off() {
    // One that is not cut off would be given up as hanging.
    for fault in faults(&patient("prints-for-ever"), "paper/listing") {
        assert!(matches!(fault, Some(Fault::Differs(_))), "{fault:?}");
    }
}

#[test]
fn a_program_that_hangs_is_killed_and_given_up() {
    let mut programs = impatient("hangs");
    programs.run_limit = Duration::from_millis(100);
    let first = faults(&programs, "paper/listing");
    // By program; `compose` is started once.
    let starts = [5, 5, 5, 5, 1, 5].into_iter().flat_map(|count| 0..count);
    assert_eq!(starts.clone().count(), first.len());
    for (number, fault) in starts.zip(&first) {
        // Each is given up after three.
        match number {
            0..=2 => assert!(matches!(fault, Some(Fault::Hangs(Some(_)))), "{fault:?}"),
            _ => assert_eq!(fault, &Some(Fault::GivenUp)),
        }
    }
    let again = faults(&programs, "frames/wr-9");
    assert_eq!(again[..20], vec![Some(Fault::GivenUp); 20]);
}

#[test]
fn a_program_that_hangs_after_its_output_is_killed_too() {
    let faults = faults(&impatient("hangs-after-its-output"), "paper/listing");
    let hang = faults
        .iter()
        .filter(|fault| **fault == Some(Fault::Hangs(None)));
    let given_up = faults
        .iter()
        .filter(|fault| **fault == Some(Fault::GivenUp));
    assert_eq!((hang.count(), given_up.count()), (16, 10));
}

#[test]
fn a_crash_and_another_status_show() {
    let expected = End::Status(0);
    for (script, got) in [("crashes", End::Signal(11)), ("fails", End::Status(3))] {
        let programs = patient(script);
        let ends = |count| vec![Some(Fault::Ends { expected, got }); count];
        // `accept` refuses the listing's input.
        assert_eq!(faults(&programs, "paper/listing")[..15], ends(15));
        assert_eq!(faults(&programs, "accept/one-trigger")[..20], ends(20));
        assert_eq!(faults(&programs, "compose/lv1")[4..9], ends(5));
    }
}

#[test]
fn a_program_that_is_not_there_shows() {
    for fault in faults(&patient("none"), "paper/listing") {
        assert!(matches!(fault, Some(Fault::NotStarted(_))), "{fault:?}");
    }
}

/// One that reads all its input first is right on files and closed pipes.
#[test]
fn a_lagging_program_fails_on_a_live_pipe_only() {
    let programs = impatient("reads-all-first");
    let listing = &live::cases()[0];
    for check in live::check(&programs, listing) {
        assert_eq!(check.fault, Some(Fault::LagsAtLine(1)), "{}", check.name);
    }
    let programs = patient("reads-all-first");
    assert_eq!(faults(&programs, "refusals/odd"), vec![None; 26]);
    assert_eq!(faults(&programs, "accept/cut-bcr-5"), vec![None; 26]);
    assert_eq!(faults(&programs, "reply/whole-in-a-line"), vec![None; 26]);
    assert_eq!(faults(&programs, "compose/close-bcr"), vec![None; 10]);
}

/// For `compose` that is right, but for a refused line, and for `reply` but for
/// that and a whole reply: it ends the run, though the pipe stays open.
#[test]
fn a_lagging_compose_or_reply_fails_on_a_pipe_left_open() {
    let mut seen = 0;
    for live in live::cases() {
        if !matches!(live.programs[..], [Program::Compose | Program::Reply]) {
            continue;
        }
        for check in live::check(&impatient("reads-all-first"), &live) {
            let lags = matches!(check.fault, Some(Fault::LagsAtLine(_)));
            assert_eq!(lags, live.left_open, "{}", check.name);
            assert!(lags || check.fault.is_none(), "{}", check.name);
            seen += usize::from(lags);
        }
    }
    assert_eq!(seen, 4 + 6);
}

/// A refused line ends the run, though the pipe stays open.
#[test]
fn reading_on_after_a_refused_line_fails_on_a_live_pipe() {
    for mut live in live::cases() {
        live.programs
            .retain(|program| Program::LISTING.contains(program));
        let (make, expected) = if live.left_open {
            (impatient as fn(&str) -> UnderTest, Some(Fault::Hangs(None)))
        } else {
            (patient as fn(&str) -> UnderTest, None)
        };
        for check in live::check(&make("reads-after-a-refusal"), &live) {
            assert_eq!(check.fault, expected, "{}", check.name);
        }
    }
}

/// The same of a pattern at fault, of a refused order, and of a whole reply:
/// what `accept`, `compose` or `reply` reads on is printed, or it hangs.
#[test]
fn the_others_reading_on_fail_on_a_live_pipe() {
    let mut seen = BTreeMap::new();
    for mut live in live::cases() {
        live.programs
            .retain(|program| !Program::LISTING.contains(program));
        let expected = match live.left_open {
            true => impatient("reads-after-a-refusal"),
            false => patient("reads-after-a-refusal"),
        };
        for (program, check) in live.programs.iter().zip(live::check(&expected, &live)) {
            assert!(!live.left_open || check.fault.is_some(), "{}", check.name);
            *seen.entry(program.name()).or_insert(0) += usize::from(live.left_open);
        }
    }
    let expected = [("accept", 6), ("compose", 4), ("reply", 6)];
    assert_eq!(seen, BTreeMap::from(expected));
}

/// One that accepts everything, and one that begins anew at each line.
#[test]
fn a_wrong_accept_shows_in_the_cases() {
    // Those of `accept` come behind the fifteen of the three that list records.
    let of_accept = |script: &str, name: &str| faults(&patient(script), name)[15..20].to_vec();
    for name in [
        "accept/unknown-at-once",
        "accept/cut-at-a-line-end",
        "accept/close-across-a-line",
        "accept/line-wrong-after-accepted",
    ] {
        for fault in of_accept("accepts-all", name) {
            assert!(
                matches!(fault, Some(Fault::Differs(_))),
                "{name}, {fault:?}"
            );
        }
    }
    assert_eq!(
        of_accept("accepts-all", "accept/every-pair"),
        [const { None }; 5]
    );
    for name in [
        "accept/across-a-line",
        "accept/close-across-a-line",
        "accept/cut-by-lines-sync",
    ] {
        for fault in of_accept("judges-lines-alone", name) {
            assert!(
                matches!(fault, Some(Fault::Differs(_))),
                "{name}, {fault:?}"
            );
        }
    }
}

/// One that composes nothing, and ones that each take something for something
/// else.
#[test]
fn a_wrong_compose_shows_in_the_cases() {
    // Those of `compose` come behind those of the four before it.
    let of_compose = |script: &str, name: &str| {
        let name = format!("compose/{name}");
        faults(&patient(script), &name)[4..9].to_vec()
    };
    for (script, names) in [
        ("accepts-all", &["lv1", "wrong-name", "close-bcr"][..]),
        (
            "knows-upper-case",
            &["wrong-name-upper-case", "wrong-name-mixed-case"],
        ),
        (
            "sees-no-reset",
            &[
                "cnt-after-a-reset",
                "global-reset-mcc",
                "wrong-frame-bits-after-a-reset",
            ],
        ),
        (
            "sees-no-zeros",
            &["zeros-ahead", "just-the-zeros", "first-11-zeros"],
        ),
        (
            "sends-ones",
            &["wr-front-end", "wr-receiver", "frame-all-digits"],
        ),
    ] {
        for name in names {
            for fault in of_compose(script, name) {
                let differs = matches!(fault, Some(Fault::Differs(_)));
                assert!(differs, "{script}, {name}, {fault:?}");
            }
        }
        // Where it has nothing to be wrong with.
        let right = of_compose(script, "empty-input");
        assert_eq!(right, [const { None }; 5], "{script}");
    }
}

/// What `compose` prints is read by `station`; either may be the wrong one.
#[test]
fn a_wrong_compose_shows_in_what_station_reads() {
    let fault_of = |script: &str, name: &str| {
        let scratch = Scratch::new().unwrap();
        let checks = sent::check(&patient(script), &named(name), &scratch);
        let faults: Vec<Option<Fault>> = checks.into_iter().map(|check| check.fault).collect();
        faults
    };
    let name = "compose/just-the-zeros";
    assert_eq!(fault_of("real", name), [None]);
    assert_eq!(fault_of("real", "compose/empty-input"), [None]);
    // Refused texts are not sent.
    assert_eq!(fault_of("real", "compose/close-bcr"), []);
    for (script, name) in [
        ("accepts-all", name),
        ("drops-a-line", name),
        ("sees-no-zeros", "compose/zeros-ahead"),
        ("sees-no-reset", "compose/global-reset-mcc"),
        ("sends-ones", "compose/wr-receiver"),
        ("knows-upper-case", name),
    ] {
        let faults = fault_of(script, name);
        assert!(
            matches!(faults[..], [Some(Fault::Differs(_))]),
            "{script}, {faults:?}"
        );
    }
}

/// The faults of `reply` on a case of its own, by five deliveries: those of the
/// others come ahead.
fn of_reply(script: &str, name: &str) -> Vec<Option<Fault>> {
    faults(&patient(script), &format!("reply/{name}"))[21..].to_vec()
}

/// Wrong readers of replies, cases that show it, and one that does not.
const WRONG_REPLIES: [(&str, &[&str], &str); 8] = [
    (
        "looks-behind",
        &["whole-ahead-of-a-wrong-line", "whole-ahead-of-a-wrong-end"],
        "whole-lines-behind",
    ),
    (
        "counts-in-decimal",
        &["count-15-all", "count-16-more"],
        "count-9-all",
    ),
    (
        "expects-hexadecimal",
        &["count-16-all", "count-16-fewer"],
        "count-9-all",
    ),
    (
        "prints-empty-frames",
        &["cut-at-the-header", "no-header-zeros"],
        "whole-in-a-line",
    ),
    (
        "keeps-cut-bits",
        &["cut-one-bit-missing", "count-1-more"],
        "whole-in-a-line",
    ),
    ("takes-hit-headers", &["no-header-hit-4"], "whole-in-a-line"),
    (
        "takes-lower-case",
        &["line-wrong-after-the-header"],
        "whole-ahead-of-a-lower-case-line",
    ),
    (
        "reads-the-last-line",
        &["whole-across-a-line", "line-odd-at-once"],
        "whole-in-a-line",
    ),
];

/// Each takes something for something else, or prints it so.
#[test]
fn a_wrong_reply_shows_in_the_cases() {
    for (script, wrong, right) in WRONG_REPLIES {
        for name in wrong {
            for fault in of_reply(script, name) {
                let differs = matches!(fault, Some(Fault::Differs(_)));
                assert!(differs, "{script}, {name}, {fault:?}");
            }
        }
        let faults = of_reply(script, right);
        assert_eq!(faults, [const { None }; 5], "{script}");
    }
}

/// A reply that is cut short ends with 1.
#[test]
fn a_reply_that_passes_cut_replies_shows() {
    let (expected, got) = (End::Status(1), End::Status(0));
    for name in ["cut-at-the-header", "cut-no-last-line-feed", "count-8-more"] {
        let ends = Some(Fault::Ends { expected, got });
        assert_eq!(of_reply("passes-cut-replies", name), vec![ends; 5]);
    }
    for name in ["whole-in-a-line", "no-header-zeros", "line-odd-at-once"] {
        let faults = of_reply("passes-cut-replies", name);
        assert_eq!(faults, [const { None }; 5], "{name}");
    }
}
