//! The committed files are the ones that the program writes, and the lines that can
//! be worked out by hand are those.

use reference::calls::day_text;
use samples::{all, page};
use std::path::PathBuf;

fn directory() -> PathBuf {
    PathBuf::from(env!("CARGO_MANIFEST_DIR")).join("../../samples")
}

#[test]
fn the_committed_files_are_these() {
    let samples = all();
    for sample in &samples {
        let committed = std::fs::read(directory().join(sample.name)).unwrap();
        assert_eq!(committed, sample.bytes, "{}", sample.name);
    }
    let committed = std::fs::read_to_string(directory().join("README.md")).unwrap();
    assert_eq!(committed, page(&samples));
}

#[test]
fn lines_worked_out_by_hand() {
    let lines = [
        // Document 02.
        ("d.log", "12 15 12 72\n"),
        ("d-batches.log", "12 15 12 72\n"),
        // Net 430 - 120 + 220; heaviest 300; eaten 400 + 0 + 220; stamp 31 × 31 × (430 - 120 +
        // 220) = 961 × 530.
        ("returns.log", "530 300 620 509330\n"),
        // Net -120 + 220; heaviest 260; eaten 0 + 220, and with the old floor -120 + 220; stamp
        // 31 × 31 × 100.
        ("short-below-zero.log", "100 260 220 96100\n"),
        ("full-below-zero.log", "100 260 100 96100\n"),
        ("quiet.log", "0 0 0 0\n"),
        ("level-gap.log", "refused 7\n"),
        ("two-days.log", "refused 8\n"),
        ("cut-short.log", "refused 11\n"),
        ("unreadable.log", "refused 3\n"),
        ("empty.log", "refused 10\n"),
    ];
    for (name, line) in lines {
        let samples = all();
        let sample = samples.iter().find(|sample| sample.name == name).unwrap();
        assert_eq!(day_text(&sample.bytes), line.as_bytes(), "{name}");
    }
}

#[test]
fn the_deep_log() {
    let samples = all();
    let deep = samples.iter().find(|sample| sample.name == "deep.log").unwrap();
    // 64 records of one gram; the stamp adds the powers of 31 from 0 to 63.
    let mut stamp: u32 = 0;
    for _ in 0..64 {
        stamp = stamp.wrapping_mul(31).wrapping_add(1);
    }
    let line = format!("64 64 64 {stamp}\n");
    assert_eq!(day_text(&deep.bytes), line.as_bytes());
}
