//! Fit and refused lines.

use crate::Case;

/// Name and input.
const FIT: [(&str, &[u8]); 5] = [
    ("empty-input", b""),
    ("empty-lines", b"\n\nB5C074\n\nE0B080\n\n"),
    ("line-feeds-only", b"\n\n\n"),
    ("no-last-line-feed", b"B5C074\nE0B080"),
    ("all-digits", b"0123456789ABCDEF\n"),
];

/// Name and input, which ends at a refused line.
const REFUSED: [(&str, &[u8]); 27] = [
    ("lower-case", b"B5C074\ne0b080\n"),
    ("lower-case-last-digit", b"B5C074\nE0B08a\n"),
    ("after-f", b"B5C074\nE0B08G\n"),
    ("carriage-return", b"B5C074\r\nE0B080\r\n"),
    ("carriage-return-alone", b"B5C074\n\r\n"),
    ("space-ahead", b"B5C074\n E0B080\n"),
    ("space-inside", b"B5C074\nE0 B080\n"),
    ("space-after", b"B5C074\nE0B080 \n"),
    ("tabulator", b"B5C074\nE0\tB080\n"),
    ("nul", b"B5C074\nE0B0\x0080\n"),
    ("nul-alone", b"\x00"),
    ("high-byte", b"B5C074\nE0B080\x80\n"),
    ("high-bytes", b"B5C074\n\xFF\xFE\xC3\x84\n"),
    ("odd", b"B5C074\nE0B08\n"),
    ("odd-no-line-feed", b"B5C074\nE0B08"),
    ("one-digit", b"B5C074\nE0B080\nE\n"),
    ("odd-and-wrong", b"B5C074\nE0B0x\n"),
    ("wrong-no-line-feed", b"B5C074\nE0B080x"),
    ("two-refused", b"B5C074\nE0B08\nx\n"),
    ("fault-on-line-1", b"B5C07\nE0B080\n"),
    ("lines-after-a-refused-one", b"B5C074\nx\nE0B080\n"),
    ("space-then-lower-case", b"B5C074\nE0 b0\n"),
    ("lower-case-then-return", b"B5C074\nE0b\r\n"),
    ("tabulator-last", b"B5C074\nE0B080\t"),
    ("upper-case-z", b"B5C074\nZ\n"),
    ("many-wrong", b"B5C074\nno capture at all\n"),
    ("prefix", b"0xB5C074\n"),
];

/// Digits and what follows them in the line.
const DIGITS: [(usize, &str); 20] = [
    (64, ""),
    (65, ""),
    (66, ""),
    (64, "x"),
    (65, "x"),
    (66, "x"),
    (128, ""),
    (200_000, ""),
    (200_000, "x"),
    (200_001, ""),
    (63, ""),
    (67, ""),
    (3_000, ""),
    (3_001, "x"),
    (65_528, "x"),
    (65_529, "x"),
    (65_530, ""),
    (65_535, "x"),
    (65_536, "x"),
    (131_073, ""),
];

/// Bytes of the input ahead of which a refused line's first wrong character,
/// or its last digit, stands: about the edges of blocks.
const EDGES: [usize; 6] = [4_096, 65_535, 65_536, 65_537, 131_072, 131_073];

pub fn cases() -> Vec<Case> {
    let fit = FIT.map(|(name, input)| Case::new(format!("lines/{name}"), input));
    let refused = REFUSED.map(|(name, input)| Case::new(format!("refusals/{name}"), input));
    let mut cases: Vec<Case> = fit.into_iter().chain(refused).collect();
    cases.extend(DIGITS.map(|(digits, end)| many_digits(digits, end)));
    for (name, end) in [("odd", "A\n"), ("wrong", "0x\n"), ("odd-no-line-feed", "A")] {
        for ahead in [255, 65_535, 65_540, 69_999] {
            let input = format!("{}{end}", "\n".repeat(ahead));
            cases.push(Case::new(
                format!("refusals/line-{}-{name}", ahead + 1),
                input,
            ));
        }
    }
    cases.extend(EDGES.into_iter().flat_map(at_an_edge));
    cases.into_iter().map(golden_if_short_text).collect()
}

/// Full lines, and one whose end is cut by the edge of a block: wrong in its
/// last character ahead of that, in its first one after it, or odd.
fn at_an_edge(edge: usize) -> Vec<Case> {
    // Triggers all over, so that a line that is taken twice, or not, shows.
    let line = "EF7BDEF7BD".repeat(6) + "EF7B\n";
    let ahead = "B5C000\n".to_string() + &line.repeat(edge / line.len() + 1);
    let ahead = &ahead[..edge];
    let case = |name: &str, end: &str| {
        let input = format!("{ahead}{end}");
        Case::new(format!("refusals/edge-{edge}-{name}"), input)
    };
    // As the line stands there, its digits so far may be odd or even.
    let digits = ahead.rsplit('\n').next().map_or(0, str::len);
    let odd = if digits % 2 == 1 { "AA" } else { "A" };
    vec![
        case("wrong", "xEF\nE8\n"),
        case("wrong-after-a-digit", "E\rz\nE8\n"),
        case("odd", &format!("{odd}\nE8\n")),
    ]
}

fn many_digits(digits: usize, end: &str) -> Case {
    let subject = if digits == 64 && end.is_empty() {
        "lines"
    } else {
        "refusals"
    };
    let wrong = if end.is_empty() { "" } else { "-and-wrong" };
    // LV1 after LV1, so that a digit taken would show.
    let line = "EF7BDEF7BD".repeat(digits / 10 + 1);
    let input = format!("B5C074\n{}{end}\n", &line[..digits]);
    Case::new(format!("{subject}/{digits}-digits{wrong}"), input)
}

fn golden_if_short_text(case: Case) -> Case {
    let text = |&c: &u8| (b' '..=b'~').contains(&c) || b"\n\r\t".contains(&c);
    let golden = case.input.len() < 100 && case.input.iter().all(text);
    case.golden_if(golden)
}
