//! The day program: what it prints for the samples and for other input, against the reference.

use compare::calls::{day_text, program};
use reference::calls;
use reference::gen::raw::longest_log;
use reference::gen::{damage, logs, Rng};
use std::path::Path;
use std::process::{Command, Stdio};

fn agree(input: &[u8]) {
    assert_eq!(day_text(input), calls::day_text(input));
}

#[test]
fn log_d_prints_12_15_12_72() {
    let root = Path::new(env!("CARGO_MANIFEST_DIR")).join("../../samples/d.log");
    assert_eq!(day_text(&std::fs::read(root).expect("samples/d.log")), b"12 15 12 72\n");
}

#[test]
fn every_sample() {
    let samples = Path::new(env!("CARGO_MANIFEST_DIR")).join("../../samples");
    let mut count = 0;
    for entry in std::fs::read_dir(samples).expect("samples") {
        let path = entry.expect("a file").path();
        if path.extension().is_some_and(|ending| ending == "log") {
            agree(&std::fs::read(path).expect("a sample"));
            count += 1;
        }
    }
    assert!(count >= 13, "{count} samples");
}

#[test]
fn lengths_at_the_limit() {
    // 4,096 records of one gram, 4,095 of them held by the first: stamp 1 + 31 × 4,095.
    let mut log = longest_log();
    assert_eq!(day_text(&log), b"4096 2 4096 126946\n");
    agree(&log);
    log.push(0);
    assert_eq!(day_text(&log), b"refused 2\n");
    agree(&log);
    for length in [0, 1, 5, 65_535, 65_536, 65_537, 65_538, 200_000] {
        agree(&vec![0; length]);
    }
}

#[test]
fn random_logs_and_damaged_ones() {
    let mut rng = Rng::new(0x7a11);
    for _ in 0..150 {
        let log = logs::any_log(&mut rng, 40);
        let bytes = logs::encode_mixed(&mut rng, &log);
        agree(&bytes);
        agree(&damage::damage(&mut rng, &bytes));
    }
}

#[test]
fn all_small_days() {
    for n in 1..=5 {
        let logs = calls::small_days(n, 54_912).expect("n from 1 to 8");
        logs.chunks_exact(16 * n as usize).for_each(agree);
    }
    // All after one another are no log: three records in a line, and two within one.
    assert_eq!(day_text(&calls::small_days(3, 96).expect("n from 1 to 8")), b"refused 8\n");
}

#[test]
fn input_that_cannot_be_read_is_told_on_standard_error() {
    let folder = std::fs::File::open(env!("CARGO_MANIFEST_DIR")).expect("a folder");
    let output = Command::new(program()).stdin(Stdio::from(folder)).output().expect("the program ends");
    assert!(output.stdout.is_empty());
    assert!(!output.stderr.is_empty());
}
