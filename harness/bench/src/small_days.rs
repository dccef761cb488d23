//! All small days of each n, into a buffer that is long enough for n = 8.

use crate::rows::micros;
use std::hint::black_box;
use tulghimo::raw;

/// The logs of an n.
fn logs_of(n: u32, out: &mut [u8]) -> usize {
    let length = raw::small_days(n, out);
    assert!(length > 0, "n = {n}: {length}");
    length as usize / (16 * n as usize)
}

/// A table in microseconds, a row for each n; and in nanoseconds for each record that is opened.
pub fn bench() {
    let mut out = vec![0; raw::LONGEST_SMALL_DAYS];
    println!("\n| All small days, n | logs | µs | ns an opened record |\n|---|---|---|---|");
    for n in 1..=8 {
        let logs = logs_of(n, &mut out);
        let time = micros(|_| {
            black_box(raw::small_days(black_box(n), &mut out));
        });
        println!("| {n} | {logs} | {time:.2} | {:.1} |", time * 1e3 / (logs as f64 * f64::from(n)));
    }
}

#[cfg(test)]
mod tests {
    use super::*;

    #[test]
    fn what_is_timed_writes_all_logs() {
        let mut out = vec![0; raw::LONGEST_SMALL_DAYS];
        let counts: Vec<usize> = (1..=8).map(|n| logs_of(n, &mut out)).collect();
        assert_eq!(counts, [1, 1, 2, 5, 14, 42, 132, 429]);
    }
}
