//! The comparison's own logic.

use compare::programs::difference::difference;
use compare::programs::ended::End;
use compare::programs::expected::Expected;
use compare::programs::fault::{judge, Fault};
use compare::programs::pool;
use compare::programs::running::Run;
use compare::tally::{Check, Tally};
use std::time::Duration;

#[test]
fn differences() {
    let message = |expected: &str, got: &str| {
        difference(expected.as_bytes(), got.as_bytes()).map(|difference| difference.to_string())
    };
    assert_eq!(message("", ""), None);
    assert_eq!(message("a\nb\n", "a\nb\n"), None);
    for (expected, got, text) in [
        ("a\n", "", "byte 1, line 1: expected \"a\\n\", got the end"),
        ("", "a\n", "byte 1, line 1: expected the end, got \"a\\n\""),
        (
            "a\nb\n",
            "a\n",
            "byte 3, line 2: expected \"b\\n\", got the end",
        ),
        (
            "ab\ncd\n",
            "ab\nce\n",
            "byte 5, line 2: expected \"cd\\n\", got \"ce\\n\"",
        ),
        (
            "ab\n",
            "ab",
            "byte 3, line 1: expected \"ab\\n\", got the end",
        ),
        (
            "ab\n",
            "ab\r\n",
            "byte 3, line 1: expected \"ab\\n\", got \"ab\\r\\n\"",
        ),
        (
            "a\n",
            "a\0",
            "byte 2, line 1: expected \"a\\n\", got \"a\\x00\"",
        ),
    ] {
        assert_eq!(message(expected, got), Some(format!("differs at {text}")));
    }
    // Of a long line only what is about the place.
    let (long, other) = ("x".repeat(20_000), "x".repeat(10_000));
    let message = message(&long, &format!("{other}y{other}")).unwrap();
    assert!(message.len() < 200);
    assert!(message.contains("byte 10001, line 1") && message.contains("xy"));
}

/// The fault of a run that is to print "a", to say "b" and to end so.
fn fault(expected: End, printed: &str, said: &str, end: Option<End>) -> Option<Fault> {
    let expected = Expected {
        printed: b"a\n".to_vec(),
        said: b"b\n".to_vec(),
        own_reason: false,
        end: expected,
    };
    let run = Run {
        printed: printed.as_bytes().to_vec(),
        said: said.as_bytes().to_vec(),
        end,
    };
    judge(&expected, &run)
}

#[test]
fn judgements() {
    let ends = [
        End::Status(0),
        End::Status(1),
        End::Status(13),
        End::Signal(11),
        End::Signal(13),
    ];
    for expected in ends {
        assert_eq!(fault(expected, "a\n", "b\n", Some(expected)), None);
        let hangs = fault(expected, "a\n", "b\n", None);
        assert_eq!(hangs, Some(Fault::Hangs(None)));
        let hangs = fault(expected, "a", "b\n", None);
        assert!(matches!(hangs, Some(Fault::Hangs(Some(_)))));
        for got in ends {
            let ends = (got != expected).then_some(Fault::Ends { expected, got });
            assert_eq!(fault(expected, "a\n", "b\n", Some(got)), ends);
            // What it printed comes first, then what it said.
            for said in ["b\n", ""] {
                let differs = fault(expected, "b\n", said, Some(got));
                assert!(matches!(differs, Some(Fault::Differs(_))));
            }
            for said in ["", "b", "b\nb\n", "c\n"] {
                let says = fault(expected, "a\n", said, Some(got));
                assert!(matches!(says, Some(Fault::Says(_))));
            }
        }
    }
}

/// One line that begins so; the rest is the program's own.
#[test]
fn a_reason_of_its_own() {
    let end = End::Status(3);
    let expected = Expected {
        printed: b"a\n".to_vec(),
        said: b"x: standard output: ".to_vec(),
        own_reason: true,
        end,
    };
    let fault = |said: &str| {
        let run = Run {
            printed: b"a\n".to_vec(),
            said: said.as_bytes().to_vec(),
            end: Some(end),
        };
        judge(&expected, &run)
    };
    for right in ["Success", "nothing is taken", ":"] {
        assert_eq!(fault(&format!("x: standard output: {right}\n")), None);
    }
    for wrong in [
        "",
        "x: standard output: ",
        "x: standard output: \n",
        "x: standard output: Success",
        "x: standard output: Success\n\n",
        "x: standard output: Success\nx: standard output: Success\n",
        "y: standard output: Success\n",
        "x: standard input: Success\n",
    ] {
        assert!(matches!(fault(wrong), Some(Fault::Says(_))), "{wrong:?}");
    }
}

#[test]
fn faults_in_words() {
    let says = fault(End::Status(1), "a\n", "", Some(End::Status(1))).unwrap();
    let text = "standard error differs at byte 1, line 1: expected \"b\\n\", got the end";
    assert_eq!(says.to_string(), text);
    let ends = fault(End::Status(1), "a\n", "b\n", Some(End::Signal(11))).unwrap();
    let text = "ends with signal 11, expected exit status 1; its output is right";
    assert_eq!(ends.to_string(), text);
}

#[test]
fn without_a_status_it_is_0() {
    let expected = |end| Expected {
        printed: Vec::new(),
        said: Vec::new(),
        own_reason: false,
        end,
    };
    for (end, without) in [
        (End::Status(0), End::Status(0)),
        (End::Status(3), End::Status(0)),
        (End::Signal(13), End::Signal(13)),
    ] {
        assert_eq!(expected(end).without_status(), expected(without));
    }
}

#[test]
fn tallies() {
    let check = |fault| Check {
        name: "x".to_string(),
        fault,
    };
    let mut tally = Tally::default();
    assert!(tally.all_passed());
    tally.add(vec![check(None), check(None)]);
    assert_eq!(tally.to_string(), "2 passed, 0 failed");
    tally.add(vec![check(Some(Fault::Stray))]);
    let text = "FAILED x: belongs to no case\n2 passed, 1 failed";
    assert_eq!(tally.to_string(), text);
    assert!(!tally.all_passed());
    tally.add(vec![check(Some(Fault::GivenUp)); 99]);
    let text = tally.to_string();
    assert_eq!(text.lines().count(), 42);
    assert!(text.ends_with("\nand 60 more\n2 passed, 100 failed"));
    tally.note("Not all is compared.");
    assert!(tally
        .to_string()
        .starts_with("Not all is compared.\nFAILED x"));
}

#[test]
fn results_keep_the_order_of_the_jobs() {
    let jobs: Vec<u64> = (0..500).collect();
    let results = pool::each(&jobs, |&job| {
        std::thread::sleep(Duration::from_micros(job % 7 * 100));
        job * 2
    });
    assert!(results.into_iter().eq((0..500).map(|job| job * 2)));
}
