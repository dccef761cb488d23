//! The sample logs: each a file name, what it is, and its bytes.

use reference::calls::day_text;
use reference::gen::Rng;
use reference::record::{encode_close, encode_full, encode_short, encode_with_batch, Open};

pub struct Sample {
    pub name: &'static str,
    pub what: &'static str,
    pub bytes: Vec<u8>,
}

/// A full open record.
fn open(depth: usize, value: i64, floor: i64, ceiling: i64) -> Vec<u8> {
    encode_full(&Open { depth, value, floor, ceiling })
}

/// A record of full length that holds the given ones.
fn around(depth: usize, value: i64, floor: i64, ceiling: i64, held: &[Vec<u8>]) -> Vec<u8> {
    [open(depth, value, floor, ceiling), held.concat(), encode_close(depth)].concat()
}

/// A short record that holds nothing.
fn leaf(depth: usize, grams: i64) -> Vec<u8> {
    [encode_short(depth, grams), encode_close(depth)].concat()
}

fn sample(name: &'static str, what: &'static str, bytes: Vec<u8>) -> Sample {
    Sample { name, what, bytes }
}

/// All samples, in the order of the page.
pub fn all() -> Vec<Sample> {
    let mut samples = well_formed();
    samples.extend(refused());
    samples
}

fn well_formed() -> Vec<Sample> {
    vec![
        sample("d.log", "log D of document 01", log_d()),
        sample("d-batches.log", "log D, its first two records with the batch of their bags", log_d_with_batches()),
        sample(
            "weekday.log",
            "a site of four raceways with three tanks each, three meals of three drops, \
             some with returns; full and short records",
            weekday(),
        ),
        sample(
            "returns.log",
            "three tanks with pellets sent back, which count as they are, although their floor is 0: \
             one tank above its ceiling, one below its floor, one between; full records, as the returns desk sends them",
            returns(),
        ),
        sample(
            "short-below-zero.log",
            "short records: a site of two tanks; from one of them 120 g more came back than were fed, \
             and it counts 0, the floor of a short record",
            below_zero(encode_short),
        ),
        sample(
            "full-below-zero.log",
            "the same in full records with the old floor of short ones, -1,000,000,000: that tank counts -120",
            below_zero(with_old_floor),
        ),
        sample("quiet.log", "a site of three raceways with two tanks each, where nothing was fed", quiet()),
        sample("deep.log", "64 records of one gram, each holding the next: depth 0 to 63", deep()),
    ]
}

fn refused() -> Vec<Sample> {
    vec![
        sample("level-gap.log", "log D without its first close: neighbours do not meet", level_gap()),
        sample("two-days.log", "log D twice over: level 0 between two records", log_d().repeat(2)),
        sample("cut-short.log", "the quiet day without its last record: ends above level 0", cut_short()),
        sample("unreadable.log", "log D with its last byte missing", unreadable()),
        sample("empty.log", "no bytes", Vec::new()),
    ]
}

/// Document 01: "open 0 value 10 floor 0 ceiling 100; open 1 value 5 floor 0 ceiling
/// 4; close 1; open 1 value -3 floor 0 ceiling 100; close 1; close 0".
fn log_d() -> Vec<u8> {
    around(0, 10, 0, 100, &[around(1, 5, 0, 4, &[]), around(1, -3, 0, 100, &[])])
}

/// Document 02, L2: lengths 22 and 18.
fn log_d_with_batches() -> Vec<u8> {
    let first = encode_with_batch(&Open { depth: 0, value: 10, floor: 0, ceiling: 100 }, 70_001);
    let second = encode_with_batch(&Open { depth: 1, value: 5, floor: 0, ceiling: 4 }, 70_002);
    [first, second, encode_close(1), around(1, -3, 0, 100, &[]), encode_close(0)].concat()
}

/// Depth 0 the site, 1 raceways, 2 tanks, 3 meals, 4 drops. A tank eats 9,000 grams
/// at most.
fn weekday() -> Vec<u8> {
    let mut rng = Rng::new(2006);
    let mut depth_1 = Vec::new();
    for _ in 0..4 {
        let mut depth_2 = Vec::new();
        for _ in 0..3 {
            let depth_3: Vec<Vec<u8>> = (0..3).map(|_| few_leaves(&mut rng)).collect();
            depth_2.push(around(2, 0, 0, 9_000, &depth_3));
        }
        depth_1.push(around(1, 0, 0, 40_000, &depth_2));
    }
    around(0, 0, 0, 1_000_000_000, &depth_1)
}

/// A record of depth 3 with three drops of 600 to 1,400 grams; once in three times
/// some of it comes back.
fn few_leaves(rng: &mut Rng) -> Vec<u8> {
    let mut leaves: Vec<Vec<u8>> = (0..3).map(|_| leaf(4, 10 * rng.between(60, 140))).collect();
    if rng.one_in(3) {
        leaves.push(leaf(4, -rng.between(20, 400)));
    }
    around(3, 0, 0, 4_000, &leaves)
}

/// Document 02, L3: "Uneaten pellets come back as a negative record that holds nothing,
/// with a floor of 0". First 300 + 250 - 120 = 430, above the ceiling of 400; then 80 -
/// 200 = -120, below the floor of 0; then 260 - 40 = 220. L8: the returns desk "counted on
/// the old floor", and sends length 18.
fn returns() -> Vec<u8> {
    let fed = |grams: i64| [with_old_floor(2, grams), encode_close(2)].concat();
    let back = |grams: i64| around(2, -grams, 0, 400, &[]);
    let above = [fed(300), fed(250), back(120)];
    let below = [fed(80), back(200)];
    let between = [fed(260), back(40)];
    around(0, 0, 0, 100_000, &[&above[..], &below, &between].map(|held| around(1, 0, 0, 400, held)))
}

/// A full open record with the floor that document 01 gave short ones, and with their ceiling.
fn with_old_floor(depth: usize, value: i64) -> Vec<u8> {
    open(depth, value, -1_000_000_000, 1_000_000_000)
}

/// Document 02, L8. A site of two tanks: 80 - 200 = -120, and 260 - 40 = 220. All opens are
/// written in one way.
fn below_zero(opened: fn(usize, i64) -> Vec<u8>) -> Vec<u8> {
    let of = |depth, grams, held: &[Vec<u8>]| [opened(depth, grams), held.concat(), encode_close(depth)].concat();
    let tank = |fed, back: i64| of(1, 0, &[of(2, fed, &[]), of(2, -back, &[])]);
    of(0, 0, &[tank(80, 200), tank(260, 40)])
}

fn quiet() -> Vec<u8> {
    let depth_2 = around(2, 0, 0, 9_000, &[]).repeat(2);
    let depth_1 = around(1, 0, 0, 40_000, &[depth_2]).repeat(3);
    around(0, 0, 0, 1_000_000_000, &[depth_1])
}

fn deep() -> Vec<u8> {
    let down = (0..64).flat_map(|depth| encode_short(depth, 1));
    let up = (0..64).rev().flat_map(encode_close);
    down.chain(up).collect()
}

/// The first close of log D stands after two full open records.
fn level_gap() -> Vec<u8> {
    let mut log = log_d();
    log.drain(36..42);
    log
}

/// A close has 6 bytes.
fn cut_short() -> Vec<u8> {
    let mut log = quiet();
    log.truncate(log.len() - 6);
    log
}

fn unreadable() -> Vec<u8> {
    let mut log = log_d();
    log.pop();
    log
}

/// The page about the samples.
pub fn page(samples: &[Sample]) -> String {
    let mut page = String::from(
        "# Sample logs\n\n\
         Each file is one log, as the day program reads it from standard input. The line \
         is what the program prints for it: net, heaviest, eaten and stamp, or a refusal. \
         The line of `d.log` stands in document 02, the others are the reference \
         tally's.\n\n\
         | File | Bytes | What it is | Line |\n\
         |---|---|---|---|\n",
    );
    for sample in samples {
        let line = String::from_utf8(day_text(&sample.bytes)).expect("text");
        page.push_str(&format!("| `{}` | {} | {} | `{}` |\n", sample.name, sample.bytes.len(), sample.what, line.trim_end()));
    }
    page.push_str(
        "\n`cargo run -p samples -- ../samples`, from `harness/`, writes the files and this \
         page; a test there holds them to what is committed.\n",
    );
    page
}
