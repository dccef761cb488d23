//! "The row of demand 3": a log, its cut, a mode and a list of merges, carried through by the library from the chunks to the figure. What
//! must come of it is read off the uncut log and its stretches.

use compare::calls;
use reference::gen::raw::{close, log_d, short};
use reference::gen::{logs, Rng};
use reference::log::fault;
use reference::mode::Mode;
use reference::plan::{encode_plan, plan_by_records};
use reference::record::{records_of, Record};
use reference::replay::{Answer, Call, Step, Stretches};
use reference::tree::log_figure;
use reference::work::levels_folded;

const AMPLE: usize = 8192;

/// What the log comes to: its figure, or its lowest fault.
fn outcome(mode: Mode, log: &[Record]) -> Result<i64, u8> {
    fault(log).map_or_else(|| Ok(log_figure(mode, log)), Err)
}

/// Plan and work of the row before any merge. They take 2 to 64 summaries.
fn before_any_merge(mode: Mode, chunks: &[Vec<Record>], row: &[u8]) {
    if !(2..=64).contains(&chunks.len()) {
        assert_eq!((calls::work(row), calls::plan(row, AMPLE)), (Err(4), Err(4)));
        return;
    }
    let outcome = outcome(mode, &chunks.concat());
    let lines = plan_by_records(chunks);
    let worked = outcome.map(|figure| (figure, lines.len() as i64, levels_folded(&lines) as i64));
    assert_eq!(calls::work(row), worked);
    let bytes = encode_plan(&lines);
    assert_eq!(calls::plan(row, AMPLE), outcome.map(|_| bytes.clone()));
    if let Some(short) = bytes.len().checked_sub(1) {
        assert_eq!(calls::plan(row, short), outcome.and(Err(12)));
    }
}

/// One merge of the list by the library. What it writes takes the place of what was merged; a refusal leaves the row as it was.
fn merge(row: &mut Vec<Vec<u8>>, step: &Step) -> Answer {
    let range = step.place..step.place + step.count;
    let written = match step.call {
        Call::Merge => calls::merge(&row[step.place], &row[step.place + 1], step.capacity),
        Call::MergeRow => calls::merge_row(&row[range.clone()].concat(), step.capacity),
    }?;
    let length = written.len();
    row.splice(range, [written]);
    Ok(length)
}

/// The claim on one log, cut, mode and list, the chunks in these bytes. Gives the answers of the list and, where one summary is left,
/// what finish says of it.
fn claim(mode: Mode, chunks: &[Vec<u8>], steps: &[Step]) -> (Vec<Answer>, Option<Result<i64, u8>>) {
    let records: Vec<Vec<Record>> = chunks.iter().map(|chunk| records_of(chunk).expect("readable")).collect();
    let summary = |chunk: &Vec<u8>| calls::summarise(chunk, mode.number(), AMPLE).expect("a chunk");
    let mut row: Vec<Vec<u8>> = chunks.iter().map(summary).collect();
    before_any_merge(mode, &records, &row.concat());
    let log = records.concat();
    let mut stretches = Stretches { mode, stretches: records };
    let mut answers = Vec::new();
    for step in steps {
        let answer = merge(&mut row, step);
        assert_eq!(answer, stretches.step(step), "{step:?}");
        assert_eq!(row, stretches.row(), "{step:?}");
        answers.push(answer);
    }
    let finished = (row.len() == 1).then(|| calls::finish(&row[0]));
    if let Some(finished) = finished {
        assert_eq!(finished, outcome(mode, &log));
    }
    (answers, finished)
}

fn step(call: Call, place: usize, count: usize, capacity: usize) -> Step {
    Step { call, place, count, capacity }
}

#[test]
fn one_list_on_log_d() {
    // Cut after each record; eaten, so that floors and ceilings count.
    let steps = [
        // open 0: 44 bytes. close 1: 32. Both levels of "open 1; close 1" are at the peak: 24.
        step(Call::Merge, 1, 2, 23),
        step(Call::Merge, 1, 2, 24),
        // open 0 over a closed record, which it holds: 44.
        step(Call::MergeRow, 0, 2, 43),
        step(Call::MergeRow, 0, 2, 44),
        // close 1; close 0: two left values, 40.
        step(Call::Merge, 2, 2, 100),
        step(Call::MergeRow, 0, 3, 0),
        step(Call::MergeRow, 0, 3, 24),
    ];
    let (answers, finished) = claim(Mode::Eaten, &log_d(), &steps);
    assert_eq!(answers, [Err(12), Ok(24), Err(12), Ok(44), Ok(40), Err(12), Ok(24)]);
    assert_eq!(finished, Some(Ok(12)));
}

#[test]
fn one_list_on_two_days() {
    // open 0, close 0 twice over, cut between all: two hills of 24 bytes that meet at level 0, a spoilt one of 16, and 8 in the end.
    let chunks = [short(0, 1), close(0), short(0, 1), close(0)];
    let two = |place, capacity| step(Call::Merge, place, 2, capacity);
    let (answers, finished) = claim(Mode::Net, &chunks, &[two(0, 24), two(1, 24), two(0, 15), two(0, 16)]);
    assert_eq!(answers, [Ok(24), Ok(24), Err(12), Ok(16)]);
    assert_eq!(finished, Some(Err(8)));
}

/// The claim on a log cut at random into so many chunks, with a list of merges drawn at random. Whether it had a refusal, and whether
/// one was left.
fn random_claim(rng: &mut Rng, log: &[Record], count: usize) -> (bool, bool) {
    let mode = rng.pick(&Mode::ALL);
    let chunks = logs::cut(rng, log, count);
    let steps = logs::merge_list(rng, mode, &chunks);
    let bytes: Vec<Vec<u8>> = chunks.iter().map(|chunk| logs::encode_mixed(rng, chunk)).collect();
    let (answers, finished) = claim(mode, &bytes, &steps);
    (answers.contains(&Err(12)), finished.is_some())
}

#[test]
fn lists_on_well_formed_logs() {
    let mut rng = Rng::new(0xd31);
    let (mut with_refusals, mut to_one) = (0, 0);
    for round in 0..600 {
        let (opened, most) = if round % 20 == 0 { (300, 64) } else { (40, 9) };
        let log = logs::any_log(&mut rng, opened);
        let count = 2 + rng.below(most - 1);
        let (refused, finished) = random_claim(&mut rng, &log, count);
        with_refusals += usize::from(refused);
        to_one += usize::from(finished);
    }
    assert!(with_refusals > 200 && to_one > 300, "{with_refusals} {to_one}");
}

#[test]
fn lists_on_logs_with_a_fault() {
    let mut rng = Rng::new(0xd32);
    // 9 takes 25 chunks at the least: `lists_on_100_000_opened_and_one_more`, `lists_that_carry_a_9`.
    for number in [7, 8, 10, 11] {
        for _ in 0..150 {
            let log = logs::with_fault(&mut rng, number);
            assert_eq!(fault(&log), Some(number));
            let count = 1 + rng.below(9);
            random_claim(&mut rng, &log, count);
        }
    }
}

#[test]
fn lists_on_rows_that_no_one_call_takes() {
    let mut rng = Rng::new(0xd33);
    let mut to_one = 0;
    for count in [1, 65, 66, 100, 150, 200] {
        for _ in 0..20 {
            let log = logs::any_log(&mut rng, 200);
            to_one += usize::from(random_claim(&mut rng, &log, count).1);
        }
    }
    assert!(to_one > 60, "{to_one}");
}

/// A flat log of so many opened records of one gram, in chunks of `size` records, an even number. Each chunk but the last ends within a
/// record that the next one closes. Beside them three blank ones: at both ends and after the tenth.
fn flat_chunks(opened: usize, size: usize) -> Vec<Vec<u8>> {
    let mut records = vec![short(0, 1)];
    records.extend((1..opened).flat_map(|_| [short(1, 1), close(1)]));
    records.push(close(0));
    let mut chunks: Vec<Vec<u8>> = records.chunks(size).map(<[_]>::concat).collect();
    chunks.insert(10, Vec::new());
    chunks.insert(0, Vec::new());
    chunks.push(Vec::new());
    chunks
}

/// What the log above comes to, by counting: 9 above 100,000. Else its net is one gram a record, which is all eaten, its heaviest line
/// 1 + 1, its stamp 1 + 31 for each record that the first one holds.
fn flat_outcome(mode: Mode, opened: usize) -> Result<i64, u8> {
    let grams = opened as i64;
    let figure = match mode {
        Mode::Net | Mode::Eaten => grams,
        Mode::Heaviest => 2,
        Mode::Stamp => 1 + 31 * (grams - 1),
    };
    if opened > 100_000 {
        Err(9)
    } else {
        Ok(figure)
    }
}

#[test]
fn lists_on_100_000_opened_and_one_more() {
    // 8,190 records of 10 and 6 bytes have 65,520, so there are 25 chunks and the three blank ones. A hill has 24 bytes, a spoilt one 16.
    for (opened, length) in [(100_000, 24), (100_001, 16)] {
        let chunks = flat_chunks(opened, 8190);
        assert_eq!(chunks.len(), 28);
        let steps = [
            // 19 chunks and two blank ones: the first record and the last are still open, 24 + 20 × 2.
            step(Call::MergeRow, 0, 21, 64),
            // Two chunks from the middle: one record to close and one still open, 24 + 8 + 20.
            step(Call::Merge, 1, 2, 52),
            step(Call::MergeRow, 0, 7, length - 1),
            step(Call::MergeRow, 0, 7, length),
        ];
        for mode in Mode::ALL {
            let (answers, finished) = claim(mode, &chunks, &steps);
            assert_eq!(answers, [Ok(64), Ok(52), Err(12), Ok(length)]);
            assert_eq!(finished, Some(flat_outcome(mode, opened)));
        }
    }
}

#[test]
fn lists_that_carry_a_9() {
    // 110 chunks of some 1,000 opened records and three blank ones: more than the plan and the work take, and more than one call merges.
    let chunks = flat_chunks(110_000, 2000);
    assert_eq!(chunks.len(), 113);
    let steps = [
        step(Call::MergeRow, 0, 64, 64),
        // 62 chunks and 41 more have some 103,000: spoilt before the end of the log, and what comes after does not mend it.
        step(Call::MergeRow, 0, 42, 15),
        step(Call::MergeRow, 0, 42, 16),
        step(Call::Merge, 1, 2, 52),
        step(Call::Merge, 0, 2, 15),
        step(Call::Merge, 0, 2, 16),
        step(Call::MergeRow, 0, 7, 16),
    ];
    for mode in Mode::ALL {
        let (answers, finished) = claim(mode, &chunks, &steps);
        assert_eq!(answers, [Ok(64), Err(12), Ok(16), Ok(52), Err(12), Ok(16), Ok(16)]);
        assert_eq!(finished, Some(flat_outcome(mode, 110_000)));
    }
}
