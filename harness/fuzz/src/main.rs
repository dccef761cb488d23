//! Random inputs to every call of the proved library, each answer, each lent byte and each byte of a state compared with the reference;
//! chunks that differ in batches only, on which its calls must agree among themselves; rows of which some summaries were made while
//! short records had the old floor, which must come to the recursion where each record has the floor with which it was summarised; and
//! two runs of farms' calls, in which a farm whose calls are the same must be told the same until a send of its own gets 21 in just one.
//!
//!     cargo run --release -p fuzz -- [--seconds N] [--seed S] [--threads T] [--rounds R]
//!     cargo run --release -p fuzz -- --replay CALL MODE BYTES BYTES
//!
//! For small_days MODE is n, and the first BYTES are the length of a buffer, the low byte first; for backwards the second BYTES are y,
//! eight of them, likewise, for sheet the page, four of them, and for common the two record numbers, four of each; for sent_before the
//! two BYTES are a log and the row of its chunks. For farms_send and farms_end_of_day MODE is the farm; the first BYTES are the state
//! of a valley station, for farms_fresh too, and the second a summary, or the length of a buffer, two bytes. For two_runs the two BYTES
//! are the runs. A dash stands for no bytes.
//!
//! Rounds go by rising seed from S on until N seconds have passed, R rounds are made or too many differences are found. A
//! difference is printed with the words that replay it, and makes the exit status 1.

mod answers;
mod calls;
mod inputs;

use answers::{compared, put, Answers};
use calls::CALLS;
use std::process::ExitCode;
use std::sync::atomic::{AtomicU64, Ordering};
use std::time::{Duration, Instant};

const USAGE: &str = "usage: fuzz [--seconds N] [--seed S] [--threads T] [--rounds R] | fuzz --replay CALL MODE BYTES BYTES";

/// No further round begins after as many differences.
const MOST_DIFFERENCES: u64 = 20;

struct Settings {
    seconds: u64,
    seed: u64,
    threads: u64,
    rounds: u64,
}

fn settings(words: &[String]) -> Option<Settings> {
    let mut settings = Settings { seconds: 60, seed: 1, threads: 1, rounds: u64::MAX };
    for pair in words.chunks(2) {
        let [name, value] = pair else {
            return None;
        };
        let value = value.parse().ok()?;
        match name.as_str() {
            "--seconds" => settings.seconds = value,
            "--seed" => settings.seed = value,
            "--threads" => settings.threads = value,
            "--rounds" => settings.rounds = value,
            _ => return None,
        }
    }
    Some(settings)
}

/// Rounds until the time or the rounds are used up; each takes the next seed.
fn rounds(settings: &Settings, begun: &AtomicU64, differences: &AtomicU64) -> Vec<Answers> {
    let end = Instant::now() + Duration::from_secs(settings.seconds);
    let mut answers = vec![Answers::default(); CALLS.len()];
    while Instant::now() < end && differences.load(Ordering::Relaxed) < MOST_DIFFERENCES {
        let round = begun.fetch_add(1, Ordering::Relaxed);
        if round >= settings.rounds {
            break;
        }
        let seed = settings.seed.wrapping_add(round);
        for input in inputs::inputs(seed) {
            for difference in put(CALLS, &input, &mut answers) {
                differences.fetch_add(1, Ordering::Relaxed);
                println!("DIFFERENCE, seed {seed}: {difference}");
            }
        }
    }
    answers
}

/// All threads' rounds, added.
fn run(settings: &Settings) -> Vec<Answers> {
    let (begun, differences) = (AtomicU64::new(0), AtomicU64::new(0));
    let mut sum = vec![Answers::default(); CALLS.len()];
    std::thread::scope(|scope| {
        let threads: Vec<_> = (0..settings.threads).map(|_| scope.spawn(|| rounds(settings, &begun, &differences))).collect();
        for thread in threads {
            for (sum, answers) in sum.iter_mut().zip(thread.join().expect("a thread that ends")) {
                sum.add(&answers);
            }
        }
    });
    sum
}

fn report(answers: &[Answers]) -> u64 {
    println!("{:<16} {:>12} {:>12}  refused", "call", "calls", "results");
    let mut sum = Answers::default();
    for (call, answers) in CALLS.iter().zip(answers) {
        let refused: Vec<String> = call.refuses.iter().map(|&number| format!("{number}: {}", answers.refused[number])).collect();
        println!("{:<16} {:>12} {:>12}  {}", call.name, answers.calls, answers.results, refused.join(", "));
        sum.add(answers);
    }
    println!("{} calls, {} differences", sum.calls, sum.differences);
    sum.differences
}

fn replay(words: &[String]) -> ExitCode {
    let Some((call, input)) = calls::replayed(words) else {
        eprintln!("{USAGE}");
        return ExitCode::from(2);
    };
    match compared(call, &input) {
        Ok(answers) => {
            println!("{} agrees, answers {answers:?}", call.name);
            ExitCode::SUCCESS
        }
        Err(why) => {
            println!("DIFFERENCE: {why}");
            ExitCode::FAILURE
        }
    }
}

fn main() -> ExitCode {
    // A difference is a panic that is caught: one line without the way to it.
    std::panic::set_hook(Box::new(|panic| eprintln!("{panic}")));
    let words: Vec<String> = std::env::args().skip(1).collect();
    if words.first().is_some_and(|word| word == "--replay") {
        return replay(&words[1..]);
    }
    let Some(settings) = settings(&words) else {
        eprintln!("{USAGE}");
        return ExitCode::from(2);
    };
    println!("seed {}, {} s, {} threads", settings.seed, settings.seconds, settings.threads);
    if report(&run(&settings)) == 0 {
        ExitCode::SUCCESS
    } else {
        ExitCode::FAILURE
    }
}
