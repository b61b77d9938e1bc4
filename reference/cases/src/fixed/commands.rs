//! Every command in and out of RunMode.

use super::{in_run_mode, run_mode_name};
use crate::{Case, Stream};

const LV1: [&str; 6] = ["11101", "11100", "11111", "11001", "10101", "01101"];

pub fn cases() -> Vec<Case> {
    let mut cases = Vec::new();
    for run_mode in [true, false] {
        let mut add = |name: String, stream: Stream| {
            // Two LV1 after it show RunMode and the counters.
            let stream = stream.zeros(5).lv1().lv1();
            let name = format!("commands/{name}-{}", run_mode_name(run_mode));
            cases.push(Case::stream(name, &stream));
        };
        for bits in LV1 {
            add(format!("lv1-{bits}"), in_run_mode(run_mode).pattern(bits));
            let playback = Stream::new()
                .wr_register(0, 0x0040)
                .raw(&in_run_mode(run_mode).bits);
            add(format!("lv1-{bits}-playback"), playback.pattern(bits));
        }
        // Body 1011, a Slow header, takes the rest as its fields.
        for body in 0..16 {
            let stream = in_run_mode(run_mode).lv1().lv1();
            add(format!("fast-{body:X}"), stream.fast(body));
        }
        for field3 in 0..16 {
            // Registers ended at 6 by document 01's default plan, and end at
            // 10 by document 02's, F-9.
            for field4 in [0, 6, 7, 10, 11, 15] {
                let stream = in_run_mode(run_mode).lv1().slow(field3, field4);
                let stream = stream.pattern(field5(field3)).en_data_take();
                add(format!("slow-{field3:X}-{field4:X}"), stream);
            }
        }
    }
    cases
}

/// Some Field 5 of the fixed length; CNT is 0 for the variable ones.
fn field5(field3: u8) -> &'static str {
    match field3 {
        0 | 1 => "1010_0101_1100_0011",
        2 | 3 => "110_1010_0101_1100_0011_1111_0000",
        10 => "1001",
        _ => "",
    }
}
