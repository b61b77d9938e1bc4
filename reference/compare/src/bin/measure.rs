//! Measures two programs end to end, in turns in one run: ten mebibytes of
//! hexadecimal lines, of zeros and of dense commands. Prints the fastest turn
//! of each in megabits a second, the ratio, and the peak memory.
//!
//! Usage: measure OURS THEIRS

use std::io::Write;
use std::process::{Command, ExitCode, Stdio};
use std::time::Instant;
use std::{env, fs, io, thread};

const DIGITS: usize = 10 << 20;
const LINE: usize = 64;
const TURNS: usize = 5;

/// One run: seconds, kilobytes at the peak, bytes written.
struct Run {
    seconds: f64,
    peak: u64,
    written: u64,
}

fn run(program: &str, input: &[u8]) -> io::Result<Run> {
    let began = Instant::now();
    let mut child = Command::new(program)
        .stdin(Stdio::piped())
        .stdout(Stdio::piped())
        .spawn()?;
    let mut output = child.stdout.take().expect("piped");
    let reader = thread::spawn(move || io::copy(&mut output, &mut io::sink()));
    let mut stdin = child.stdin.take().expect("piped");
    stdin.write_all(input)?;
    stdin.flush()?;
    let peak = peak_of(child.id());
    drop(stdin);
    let written = reader.join().expect("no panic")?;
    child.wait()?;
    let seconds = began.elapsed().as_secs_f64();
    Ok(Run {
        seconds,
        peak,
        written,
    })
}

/// The most memory that a process has held so far, in kilobytes.
fn peak_of(process: u32) -> u64 {
    let status = fs::read_to_string(format!("/proc/{process}/status")).unwrap_or_default();
    status
        .lines()
        .find_map(|l| l.strip_prefix("VmHWM:"))
        .and_then(|l| l.split_whitespace().next())
        .and_then(|n| n.parse().ok())
        .unwrap_or(0)
}

fn lines(mut digit: impl FnMut(usize) -> u8) -> Vec<u8> {
    let mut input = Vec::with_capacity(DIGITS + DIGITS / LINE);
    for k in 0..DIGITS {
        input.push(digit(k));
        if k % LINE == LINE - 1 {
            input.push(b'\n');
        }
    }
    input
}

/// EnDataTake, then commands as dense as the timing table allows.
fn dense() -> Vec<u8> {
    let commands = "11101101100001001011001001110110110100010110001011101";
    let mut bits = "10110101110000000".bytes().chain(commands.bytes().cycle());
    lines(|_| {
        let nibble = (0..4).fold(0, |n, _| {
            n << 1 | (bits.next().expect("endless") - b'0') as usize
        });
        b"0123456789ABCDEF"[nibble]
    })
}

fn main() -> ExitCode {
    let programs: Vec<String> = env::args().skip(1).collect();
    let [ours, theirs] = programs.as_slice() else {
        eprintln!("usage: measure OURS THEIRS");
        return ExitCode::FAILURE;
    };
    for (name, input) in [("zeros", lines(|_| b'0')), ("dense", dense())] {
        let mut best = [f64::MAX; 2];
        let mut peak = [0; 2];
        let mut written = [0; 2];
        for _ in 0..TURNS {
            for (k, program) in [ours, theirs].into_iter().enumerate() {
                match run(program, &input) {
                    Ok(r) => {
                        best[k] = best[k].min(r.seconds);
                        peak[k] = r.peak.max(peak[k]);
                        written[k] = r.written;
                    }
                    Err(e) => {
                        eprintln!("{program}: {e}");
                        return ExitCode::FAILURE;
                    }
                }
            }
        }
        let megabits = 4.0 * DIGITS as f64 / 1e6;
        for (k, program) in [ours, theirs].into_iter().enumerate() {
            println!(
                "{name}: {program}: {:.0} Mbit/s, {} KB at the peak, {} bytes written",
                megabits / best[k],
                peak[k],
                written[k]
            );
        }
        println!("{name}: time of ours / theirs: {:.2}", best[0] / best[1]);
    }
    ExitCode::SUCCESS
}
