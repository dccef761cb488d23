//! The inputs of a round: logs, cuts, lists of merges, day tables, runs, pages, pairs of records, calls on a valley station's state,
//! forged and damaged bytes, from the generators of the reference.

use crate::calls::{run_bytes, Input, Takes};
use compare::agree::State;
use reference::calls;
use reference::farms::{fresh, FARMS, SLOT};
use reference::gen::raw::{run_length, MODES};
use reference::gen::{damage, farms, forged, logs, pages, pairs, runs, tables, Rng};
use reference::layout::encode;
use reference::ledger::Call;
use reference::log::opened;
use reference::mode::Mode;
use reference::record::Record;
use reference::replay::Stretches;
use reference::table::encode_table;

/// As long as the longest result: the log of 2,730 lines.
const AMPLE: usize = 65_520;

fn chunk(mode: u32, bytes: Vec<u8>) -> Input {
    Input { takes: Takes::Chunk, mode, first: bytes, second: Vec::new() }
}

fn piece(bytes: Vec<u8>) -> Input {
    Input { takes: Takes::Piece, mode: 0, first: bytes, second: Vec::new() }
}

fn pieces(left: Vec<u8>, right: Vec<u8>) -> Input {
    Input { takes: Takes::Pieces, mode: 0, first: left, second: right }
}

fn row(bytes: Vec<u8>) -> Input {
    Input { takes: Takes::Row, mode: 0, first: bytes, second: Vec::new() }
}

fn table(bytes: Vec<u8>) -> Input {
    Input { takes: Takes::Table, mode: 0, first: bytes, second: Vec::new() }
}

/// A chunk and one that differs from it in batches only.
fn twins(rng: &mut Rng, mode: u32, bytes: Vec<u8>) -> Input {
    let second = logs::rebatched(rng, &bytes);
    Input { takes: Takes::Twins, mode, first: bytes, second }
}

/// A log, and the row of its chunks.
fn sent_before(mode: Mode, log: Vec<u8>, row: Vec<u8>) -> Input {
    Input { takes: Takes::SentBefore, mode: mode.number(), first: log, second: row }
}

/// An n, and a buffer of a length.
fn number(n: u32, capacity: u16) -> Input {
    Input { takes: Takes::Number, mode: n, first: capacity.to_le_bytes().to_vec(), second: Vec::new() }
}

/// A run and an outer figure.
fn run(bytes: Vec<u8>, y: i64) -> Input {
    Input { takes: Takes::Run, mode: 0, first: bytes, second: y.to_le_bytes().to_vec() }
}

/// A log, a mode and a page.
fn page(mode: u32, log: Vec<u8>, page: u32) -> Input {
    Input { takes: Takes::Page, mode, first: log, second: page.to_le_bytes().to_vec() }
}

/// A log and two record numbers.
fn pair(log: Vec<u8>, numbers: [u32; 2]) -> Input {
    Input { takes: Takes::Pair, mode: 0, first: log, second: numbers.map(u32::to_le_bytes).concat() }
}

/// A state to be made fresh in a mode.
fn fresh_in(mode: u32, state: &State) -> Input {
    Input { takes: Takes::Fresh, mode, first: state.to_vec(), second: Vec::new() }
}

/// A farm's call on a state.
fn farm_call(state: &State, call: &Call) -> Input {
    let (takes, second) = match call {
        Call::Send { summary, .. } => (Takes::Send, summary.clone()),
        Call::EndOfDay { capacity, .. } => (Takes::EndOfDay, (*capacity as u16).to_le_bytes().to_vec()),
    };
    Input { takes, mode: call.farm(), first: state.to_vec(), second }
}

/// The inputs that a seed gives.
pub fn inputs(seed: u64) -> Vec<Input> {
    let rng = &mut Rng::new(seed);
    match rng.below(23) {
        0 => whole_log(rng),
        1 => faulty_log(rng),
        2 | 3 => cut_log(rng),
        4 => merge_list(rng),
        5 | 6 => forged_pieces(rng),
        7 => forged_row(rng),
        8 => day_table(rng),
        9 => refused_table(rng),
        10 => one_record(rng),
        11 => other_batches(rng),
        12 => small_days(rng),
        13 => forged_runs(rng),
        14 => written_runs(rng),
        15 => log_with_ties(rng),
        16 => old_and_new_chunks(rng),
        17 => sheets(rng),
        18 => pairs_of_records(rng),
        19 => farm_run(rng),
        20 => any_state(rng),
        21 => two_runs(rng),
        _ => noise(rng),
    }
}

/// The input as it is, and with one thing changed in each of its bytes.
fn with_damage(rng: &mut Rng, input: Input) -> Vec<Input> {
    let mut first = input.clone();
    first.first = damage::damage(rng, &input.first);
    let mut second = input.clone();
    second.second = damage::damage(rng, &input.second);
    if input.takes == Takes::Pieces {
        vec![input, first, second]
    } else {
        vec![input, first]
    }
}

/// A mode, once in ten times none that is in use: a third of these are 3, which was.
fn any_mode(rng: &mut Rng) -> u32 {
    let mode = u32::from(rng.pick(&MODES));
    let other = rng.bits() as u32;
    if rng.one_in(10) {
        rng.pick(&[3, 3, 3, 0, 6, 256 + mode, 65_536 + mode, u32::MAX, other])
    } else {
        mode
    }
}

/// A size: mostly small, now and then a large one.
fn size(rng: &mut Rng, small: usize, large: usize) -> usize {
    let most = if rng.one_in(25) { large } else { small };
    1 + rng.below(most)
}

fn whole_log(rng: &mut Rng) -> Vec<Input> {
    let most = size(rng, 60, 4000);
    let log = logs::any_log(rng, most);
    let input = chunk(any_mode(rng), logs::encode_mixed(rng, &log));
    with_damage(rng, input)
}

/// A log in which several records on the way down the heaviest line have the same figure, or nearly.
fn log_with_ties(rng: &mut Rng) -> Vec<Input> {
    let most = rng.pick(&[12, 60, 60, 600]);
    let log = logs::log_with_ties(rng, most);
    let input = chunk(any_mode(rng), logs::encode_mixed(rng, &log));
    with_damage(rng, input)
}

fn faulty_log(rng: &mut Rng) -> Vec<Input> {
    let fault = rng.pick(&[7, 8, 10, 11]);
    let log = logs::with_fault(rng, fault);
    let input = chunk(any_mode(rng), logs::encode_mixed(rng, &log));
    with_damage(rng, input)
}

/// Pages of a log of a few pages, of a small one or of one with a fault, each as it is and with damage to the log.
fn sheets(rng: &mut Rng) -> Vec<Input> {
    let most = size(rng, 60, 4000);
    let log = match rng.below(8) {
        0 => logs::log_or_faulty(rng, most),
        1 => logs::log_with_ties(rng, 60),
        _ => pages::paged_log(rng),
    };
    let bytes = logs::encode_mixed(rng, &log);
    let mut inputs = Vec::new();
    for _ in 0..4 {
        let input = page(any_mode(rng), bytes.clone(), pages::page(rng, opened(&log) as usize));
        inputs.extend(with_damage(rng, input));
    }
    inputs
}

/// Pairs of records of a log, or of one with a fault, either way round, and with damage to the log.
fn pairs_of_records(rng: &mut Rng) -> Vec<Input> {
    let most = size(rng, 60, 4000);
    let log = logs::log_or_faulty(rng, most);
    let bytes = logs::encode_mixed(rng, &log);
    let mut inputs = Vec::new();
    for _ in 0..8 {
        let [a, b] = pairs::pair(rng, &log);
        inputs.push(pair(bytes.clone(), [b, a]));
        inputs.extend(with_damage(rng, pair(bytes.clone(), [a, b])));
    }
    inputs
}

/// A well-formed log, or one with a fault, cut into chunks.
fn chunks(rng: &mut Rng) -> Vec<Vec<Record>> {
    if rng.one_in(20) {
        let count = 1 + size(rng, 8, 63);
        return logs::longest_plan(rng, count);
    }
    let most = size(rng, 40, 400);
    let log = if rng.one_in(6) {
        let fault = rng.pick(&[7, 8, 10, 11]);
        logs::with_fault(rng, fault)
    } else {
        logs::any_log(rng, most)
    };
    let count = 1 + size(rng, 8, 64);
    logs::cut(rng, &log, count)
}

/// Chunks, their summaries, neighbours and the row of them all.
fn cut_log(rng: &mut Rng) -> Vec<Input> {
    let mode = rng.pick(&Mode::ALL);
    let mut summaries = Vec::new();
    let mut inputs = Vec::new();
    for records in chunks(rng) {
        let bytes = logs::encode_mixed(rng, &records);
        summaries.push(calls::summarise(&bytes, mode.number(), AMPLE).expect("readable records"));
        inputs.extend(with_damage(rng, chunk(mode.number(), bytes)));
    }
    inputs.extend(of_summaries(rng, mode, summaries));
    inputs
}

/// Chunks of which some were summarised while short records had the old floor, mostly in mode 5: the log, in which each record has
/// the floor with which it was summarised, with the row, and all that is asked of summaries.
fn old_and_new_chunks(rng: &mut Rng) -> Vec<Input> {
    let mode = rng.pick(&[Mode::Eaten, Mode::Eaten, Mode::Eaten, Mode::Net, Mode::Heaviest, Mode::Stamp]);
    let records = chunks(rng);
    let sent = logs::encode_mostly_short(rng, &records);
    let sent = logs::some_sent_before(rng, &sent);
    let summary = |chunk: &Vec<u8>| calls::summarise(chunk, mode.number(), AMPLE).expect("readable records");
    let summaries: Vec<Vec<u8>> = sent.iter().map(summary).collect();
    let mut inputs: Vec<Input> = sent.iter().map(|bytes| chunk(mode.number(), bytes.clone())).collect();
    // More than 64 are no row.
    if summaries.len() <= 64 {
        inputs.push(sent_before(mode, sent.concat(), summaries.concat()));
    }
    inputs.extend(of_summaries(rng, mode, summaries));
    inputs
}

/// Summaries one by one, by neighbours and as a row; the row also damaged, cut short, with a piece that does not belong, with one of a
/// mode out of use, and with one whose levels take more than 8 bits.
fn of_summaries(rng: &mut Rng, mode: Mode, mut summaries: Vec<Vec<u8>>) -> Vec<Input> {
    let mut inputs = Vec::new();
    for two in summaries.windows(2).take(4) {
        inputs.extend(with_damage(rng, pieces(two[0].clone(), two[1].clone())));
        inputs.extend(with_damage(rng, piece(two[0].clone())));
    }
    let whole = summaries.concat();
    let short = whole[..rng.below(whole.len() + 1)].to_vec();
    inputs.extend(with_damage(rng, row(whole)));
    inputs.push(row(short));
    if !summaries.is_empty() {
        let place = rng.below(summaries.len());
        let other = rng.pick(&[mode, Mode::Net, Mode::Heaviest, Mode::Eaten, Mode::Stamp]);
        summaries[place] = encode(&forged::summary(rng, other));
        inputs.push(row(summaries.concat()));
        for wrong in [forged::out_of_use(rng), forged::past_a_byte(rng, mode)] {
            let place = rng.below(summaries.len());
            let before = std::mem::replace(&mut summaries[place], wrong);
            inputs.push(row(summaries.concat()));
            summaries[place] = before;
        }
    }
    inputs
}

/// Each merge of a list on the row as it then stands. The row is kept by the stretches, whose summaries are made afresh.
fn merge_list(rng: &mut Rng) -> Vec<Input> {
    let mode = rng.pick(&Mode::ALL);
    let chunks = chunks(rng);
    let steps = logs::merge_list(rng, mode, &chunks);
    let mut stretches = Stretches { mode, stretches: chunks };
    let mut inputs = vec![row(stretches.row().concat())];
    for step in &steps {
        let lent = &stretches.row()[step.place..step.place + step.count];
        inputs.push(row(lent.concat()));
        inputs.push(pieces(lent[0].clone(), lent[1].clone()));
        let _ = stretches.step(step);
    }
    inputs.extend(stretches.row().into_iter().map(piece));
    inputs
}

/// Two accepted summaries that mostly meet, or any two; and each beside one of a mode out of use, and one whose levels take more than
/// 8 bits.
fn forged_pieces(rng: &mut Rng) -> Vec<Input> {
    let mode = rng.pick(&Mode::ALL);
    let other = if rng.one_in(4) { rng.pick(&Mode::ALL) } else { mode };
    let stray = rng.pick(&[2, 20, 1000]);
    let mut two: Vec<Vec<u8>> = forged::neighbours(rng, mode, 2, stray).iter().map(encode).collect();
    if rng.one_in(4) {
        two[1] = encode(&forged::summary(rng, other));
    }
    let mut inputs = with_damage(rng, piece(two[0].clone()));
    let [left, right] = [two.remove(0), two.remove(0)];
    for wrong in [forged::out_of_use(rng), forged::past_a_byte(rng, mode)] {
        inputs.extend([piece(wrong.clone()), pieces(left.clone(), wrong.clone()), pieces(wrong, right.clone())]);
    }
    inputs.extend(with_damage(rng, pieces(left, right)));
    inputs
}

/// A row of accepted summaries: without a fault, or as they come.
fn forged_row(rng: &mut Rng) -> Vec<Input> {
    let mode = rng.pick(&Mode::ALL);
    let few = 1 + rng.below(9);
    let count = rng.pick(&[few, few, few, few, 63, 64, 65, 66]);
    let summaries = if rng.one_in(3) {
        let stray = rng.pick(&[2, 20, 400]);
        forged::neighbours(rng, mode, count, stray)
    } else {
        forged::row(rng, mode, count)
    };
    of_summaries(rng, mode, summaries.iter().map(encode).collect())
}

/// A table that a log can have, as it is and with damage to its lines or its bytes, and the log that is written from it.
fn day_table(rng: &mut Rng) -> Vec<Input> {
    let count = size(rng, 40, tables::MOST_LINES);
    let lines = tables::any_table(rng, count);
    let bytes = encode_table(&lines);
    let log = calls::write_log(&bytes, AMPLE).expect("a table that a log can have");
    let mut inputs = vec![table(tables::damaged(rng, &lines))];
    inputs.extend(with_damage(rng, table(bytes)));
    let log = chunk(any_mode(rng), log);
    inputs.extend(with_damage(rng, log));
    inputs
}

/// A table that is refused, and the same with damage.
fn refused_table(rng: &mut Rng) -> Vec<Input> {
    let refusal = rng.pick(&[2, 3, 10, 13]);
    let input = table(tables::with_refusal(rng, refusal));
    with_damage(rng, input)
}

/// A record alone, whole or nearly so, and as it would be with another batch.
fn one_record(rng: &mut Rng) -> Vec<Input> {
    let bytes = damage::nearly_a_record(rng);
    let mode = any_mode(rng);
    vec![twins(rng, mode, bytes.clone()), chunk(mode, bytes)]
}

/// The chunks of a log, as they are and damaged, each with one that differs in batches only.
fn other_batches(rng: &mut Rng) -> Vec<Input> {
    let mut inputs = Vec::new();
    for records in chunks(rng) {
        let bytes = logs::encode_mixed(rng, &records);
        let damaged = damage::damage(rng, &bytes);
        let mode = any_mode(rng);
        inputs.extend([bytes, damaged].map(|bytes| twins(rng, mode, bytes)));
    }
    inputs
}

/// An n from 1 to 8, now and then a large one; and any other, next to these or one of them with a bit more. A buffer of any length,
/// or of about the length that some n takes.
fn small_days(rng: &mut Rng) -> Vec<Input> {
    let n = if rng.one_in(25) { 7 + rng.below(2) } else { 1 + rng.below(6) } as u32;
    let any = rng.bits() as u32;
    let other = rng.pick(&[0, 9, 10, n + 8, n + 16, n + 256, n + 65_536, n + (1 << 31), n << 8, u32::MAX, any]);
    let length = rng.pick(&[0, 16, 32, 96, 320, 1_120, 4_032, 14_784, 54_912]);
    let near = (length + rng.below(5)).saturating_sub(2);
    let any = rng.below(65_536);
    let capacity = rng.pick(&[near, near, any]) as u16;
    vec![number(n, capacity), number(other, capacity)]
}

/// A run as it is and damaged, and bytes that are nearly one; each with a figure that its mode may be asked about, and with any.
fn forged_runs(rng: &mut Rng) -> Vec<Input> {
    let mode = rng.pick(&MODES);
    let good = runs::any_run(rng, mode);
    let damaged = damage::damage(rng, &good);
    let mut inputs = Vec::new();
    for bytes in [good, damaged, runs::nearly_a_run(rng)] {
        inputs.extend([runs::figure(rng, mode), runs::any_y(rng)].map(|y| run(bytes.clone(), y)));
    }
    inputs
}

/// A row of a cut log, or of summaries that no chunk makes, and the first of its runs, as they are and damaged.
fn written_runs(rng: &mut Rng) -> Vec<Input> {
    let mode = rng.pick(&Mode::ALL);
    let summaries: Vec<Vec<u8>> = if rng.one_in(2) {
        let count = 2 + rng.below(8);
        forged::row(rng, mode, count).iter().map(encode).collect()
    } else {
        Stretches { mode, stretches: chunks(rng) }.row()
    };
    let lent = summaries.concat();
    let number = mode.number() as u16;
    let mut inputs = Vec::new();
    for bytes in calls::runs(&lent, AMPLE).unwrap_or_default().chunks(run_length(number)).take(8) {
        let y = [runs::figure(rng, number), runs::any_y(rng)];
        inputs.extend(y.map(|y| run(bytes.to_vec(), y)));
        inputs.push(run(damage::damage(rng, bytes), y[0]));
    }
    // The library's runs are held to these.
    inputs.push(row(lent));
    inputs
}

/// Calls on a state, each on what those before it left; now and then also on that state with damage to a slot.
fn calls_on(rng: &mut Rng, mut state: State, calls_made: &[Call]) -> Vec<Input> {
    let mut inputs = Vec::new();
    for call in calls_made {
        inputs.push(farm_call(&state, call));
        if rng.one_in(8) {
            inputs.push(farm_call(&with_damaged_slot(rng, &state), call));
        }
        let _ = match call {
            Call::Send { farm, summary } => calls::farms_send(&mut state, *farm, summary).err(),
            Call::EndOfDay { farm, capacity } => calls::farms_end_of_day(&mut state, *farm, *capacity).err(),
        };
    }
    // What is left is made fresh, as it is and with damage.
    for state in [with_damaged_slot(rng, &state), state] {
        inputs.extend([(); 2].map(|()| fresh_in(any_mode(rng), &state)));
    }
    inputs
}

/// The state with one thing changed at the start of a slot. Bytes that are moved stay within the slot.
fn with_damaged_slot(rng: &mut Rng, state: &State) -> State {
    let mut damaged = *state;
    let slot = &mut damaged[SLOT * rng.below(FARMS)..][..SLOT];
    let start = rng.pick(&[6, 16, 24, 100]);
    let mut bytes = damage::damage(rng, &slot[..start]);
    bytes.extend(&slot[start..]);
    bytes.resize(SLOT, 0);
    slot.copy_from_slice(&bytes);
    damaged
}

/// A run of farms' calls, from a fresh state on.
fn farm_run(rng: &mut Rng) -> Vec<Input> {
    let count = size(rng, 60, 300);
    let run = farms::run(rng, count);
    calls_on(rng, fresh(run.mode), &run.calls)
}

/// Calls on a state that no call need have written.
fn any_state(rng: &mut Rng) -> Vec<Input> {
    let (mode, state) = farms::state(rng);
    let served = farms::farms(rng);
    let calls_made = farms::calls(rng, mode, &served, state, 12);
    calls_on(rng, state, &calls_made)
}

/// Two runs in which a farm's calls are the same.
fn two_runs(rng: &mut Rng) -> Vec<Input> {
    let count = size(rng, 60, 300);
    let two = farms::two_runs(rng, count);
    let [first, second] = [0, 1].map(|which| run_bytes(&two.runs[which].calls));
    vec![Input { takes: Takes::TwoRuns, mode: two.runs[0].mode.number(), first, second }]
}

/// Bytes without any order, short and long.
fn noise(rng: &mut Rng) -> Vec<Input> {
    let longest = rng.pick(&[8, 24, 80]);
    let bytes = damage::noise(rng, longest);
    let long = vec![bytes.len() as u8; rng.pick(&[65_535, 65_536, 65_537, 70_000])];
    let mut inputs = vec![piece(bytes.clone()), row(bytes.clone()), pieces(bytes.clone(), damage::noise(rng, longest))];
    inputs.extend([table(bytes.clone()), run(bytes.clone(), runs::any_y(rng)), page(any_mode(rng), bytes.clone(), 0)]);
    let state = fresh(rng.pick(&Mode::ALL));
    let sent = |summary: &[u8]| farm_call(&state, &Call::Send { farm: 0, summary: summary.to_vec() });
    inputs.extend([pair(bytes.clone(), [0, 1]), sent(&bytes), chunk(any_mode(rng), bytes)]);
    if rng.one_in(50) {
        inputs.extend([chunk(any_mode(rng), long.clone()), page(any_mode(rng), long.clone(), 0), sent(&long)]);
        inputs.extend([pair(long.clone(), [0, u32::MAX]), piece(long.clone()), row(long)]);
    }
    inputs
}

#[cfg(test)]
mod tests {
    use super::*;
    use crate::calls::{farm_calls, record_numbers};
    use reference::backwards::question_15;
    use reference::bytes::unsigned;
    use reference::common::common_of;
    use reference::farms;
    use reference::gen::logs::OLD_FLOOR;
    use reference::heaviest_line::line_of;
    use reference::layout::decode;
    use reference::ledger::{Ledger, Told};
    use reference::log::{fault, held, opens};
    use reference::plan::plan_by_levels;
    use reference::record::{records_of, Open};
    use reference::row;
    use reference::run::{run_of, Run};
    use reference::summary::{Case, Summary};
    use reference::tree::{figure, log_figure, subtree};
    use std::collections::BTreeSet;

    /// Counts those that are found.
    fn add<const N: usize>(seen: &mut [usize; N], found: [bool; N]) {
        seen.iter_mut().zip(found).for_each(|(count, found)| *count += usize::from(found));
    }

    /// The runs of a row between neighbours, which have nothing inside; none where it is not a row of mode 5 with a figure.
    fn with_nothing_inside(bytes: &[u8]) -> Vec<Run> {
        let row: Option<Vec<Summary>> = row::pieces(bytes).into_iter().map(decode).collect();
        let eaten = |row: &Vec<Summary>| row.iter().all(|summary| summary.mode == Mode::Eaten) && row::fault(row).is_none();
        let Some(row) = row.filter(eaten) else {
            return Vec::new();
        };
        plan_by_levels(&row).iter().filter(|line| line.i + 1 == line.j).map(|line| run_of(&row, line)).collect()
    }

    #[test]
    fn nothing_is_inside_on_every_side_of_floor_and_ceiling() {
        let (mut above, mut below, mut bound, mut free) = (0, 0, 0, 0);
        for input in (0..4000).flat_map(inputs).filter(|input| input.takes == Takes::Row) {
            for run in with_nothing_inside(&input.first) {
                let Run::Eaten { z, l, h, .. } = run else { panic!("a run of mode 5") };
                above += usize::from(z > h);
                below += usize::from(z < l);
                bound += usize::from(z == l || z == h);
                free += usize::from(l < z && z < h);
            }
        }
        assert!([above, below, bound, free].iter().all(|&count| count > 20), "{above} {below} {bound} {free}");
    }

    #[test]
    fn rows_come_to_what_neither_floor_alone_gives() {
        // Mode 5, no fault: the figure where each record has its own floor is that of all new ones, of all old ones, of both, of neither.
        let mut seen = [[0; 2]; 2];
        let of_mode_5 = |input: &Input| input.takes == Takes::SentBefore && input.mode == 5;
        for input in (0..20_000).flat_map(inputs).filter(of_mode_5) {
            let log = records_of(&input.first).expect("readable records");
            if fault(&log).is_none() {
                let eaten = |from: i64, to: i64| {
                    let floor = |open: Open| if open.floor == from { Open { floor: to, ..open } } else { open };
                    log_figure(Mode::Eaten, &logs::changed(&log, floor))
                };
                let figure = eaten(0, 0);
                let [new, old] = [eaten(OLD_FLOOR, 0), eaten(0, OLD_FLOOR)].map(|other| usize::from(other == figure));
                seen[new][old] += 1;
            }
        }
        assert!(seen.iter().flatten().all(|&count| count > 10), "{seen:?}");
    }

    #[test]
    fn every_n_from_0_to_9_is_tried_and_some_with_more_bits() {
        let (mut tried, mut with_more_bits) = ([0; 10], 0);
        for input in (0..12_000).flat_map(inputs).filter(|input| input.takes == Takes::Number) {
            match tried.get_mut(input.mode as usize) {
                Some(count) => *count += 1,
                None => with_more_bits += usize::from((1..=8).contains(&(input.mode % 256))),
            }
        }
        assert!(tried.iter().all(|&count| count > 5) && with_more_bits > 50, "{tried:?} {with_more_bits}");
    }

    #[test]
    fn runs_of_every_mode_are_taken_and_refused() {
        // For each mode how often 15, and how often anything else.
        let mut seen = [[0; 2]; 4];
        for input in (0..4000).flat_map(inputs).filter(|input| input.takes == Takes::Run) {
            let is_run = question_15(&input.first).is_ok();
            if let Some(place) = input.first.get(4).and_then(|&mode| MODES.iter().position(|&other| other == u16::from(mode))) {
                seen[place][usize::from(is_run)] += 1;
            }
        }
        assert!(seen.iter().flatten().all(|&count| count > 100), "{seen:?}");
    }

    /// The steps of a log's heaviest line at which a later record has the same figure as the one that is taken.
    fn ties(log: &[Record]) -> usize {
        let places: Vec<usize> = line_of(log).into_iter().map(|number| opens(log)[number]).collect();
        let figure = |place: usize| figure(Mode::Heaviest, &subtree(log, place));
        let is_tie = |pair: &&[usize]| held(log, pair[0]).iter().any(|&other| other > pair[1] && figure(other) == figure(pair[1]));
        places.windows(2).filter(is_tie).count()
    }

    #[test]
    fn heaviest_lines_are_short_long_and_with_ties() {
        // Lines of one record, of 64, and with a tie at one step, at two and at more.
        let mut seen = [0; 5];
        for input in (0..4000).flat_map(inputs).filter(|input| input.takes == Takes::Chunk) {
            let records = records_of(&input.first).filter(|records| fault(records).is_none());
            if let Some(log) = records.filter(|_| input.first.len() <= 65_536) {
                let (length, ties) = (line_of(&log).len(), ties(&log));
                add(&mut seen, [length == 1, length == 64, ties == 1, ties == 2, ties > 2]);
            }
        }
        assert!(seen.iter().all(|&count| count > 2) && seen[2..].iter().all(|&count| count > 20), "{seen:?}");
    }

    #[test]
    fn pages_are_there_past_the_end_and_wrap() {
        // In each mode: the first page, a later one, the next after the last, and one that would be there if 60 times it had 32 bits.
        let mut seen = [[0; 4]; 4];
        for input in (0..8000).flat_map(inputs).filter(|input| input.takes == Takes::Page) {
            let log = records_of(&input.first).filter(|log| fault(log).is_none() && input.first.len() <= 65_536);
            let place = MODES.iter().position(|&mode| u32::from(mode) == input.mode);
            if let (Some(log), Some(place)) = (log, place) {
                let (count, page) = (opened(&log), unsigned(&input.second));
                let past = 60 * page >= count;
                let found = [page == 0, page > 0 && !past, past && 60 * (page - 1) < count, past && 60 * page % (1 << 32) < count];
                add(&mut seen[place], found);
            }
        }
        assert!(seen.iter().flatten().all(|&count| count > 20), "{seen:?}");
    }

    #[test]
    fn pairs_are_equal_held_apart_and_not_there() {
        // Of logs without a fault: equal; the first holds the second, or the other way round; neither does; the first is not there, the
        // second, both; and one would be there if it had 16 bits. Of logs with a fault: both are there, or not.
        let mut seen = [0; 10];
        for input in (0..8000).flat_map(inputs).filter(|input| input.takes == Takes::Pair) {
            let log = records_of(&input.first).filter(|log| !log.is_empty() && input.first.len() <= 65_536);
            if let Some(log) = log {
                add(&mut seen, kinds_of_pair(&log, record_numbers(&input.second)));
            }
        }
        assert!(seen.iter().all(|&count| count > 20), "{seen:?}");
    }

    fn kinds_of_pair(log: &[Record], [a, b]: [u32; 2]) -> [bool; 10] {
        let there = |number: u32| u64::from(number) < opened(log);
        let (good, both) = (fault(log).is_none(), there(a) && there(b));
        let common = (good && both).then(|| common_of(log, [a, b]));
        let is = |number: u32| common == Some(number) && a != b;
        let wraps = |number: u32| !there(number) && there(number % (1 << 16));
        [
            common.is_some() && a == b,
            is(a),
            is(b),
            common.is_some_and(|number| number != a && number != b),
            good && !there(a) && there(b),
            good && there(a) && !there(b),
            good && !there(a) && !there(b),
            good && (wraps(a) || wraps(b)),
            !good && both,
            !good && !both,
        ]
    }

    /// The state that a call is given.
    fn state(input: &Input) -> State {
        input.first[..].try_into().expect("a state")
    }

    /// The opened records of each farm.
    fn counts(state: &State) -> Vec<u64> {
        farms::held(state).into_iter().map(farms::opened).collect()
    }

    /// What each farm draws that draws anything.
    fn drawn(counts: &[u64]) -> Vec<u64> {
        counts.iter().filter(|&&count| count > 10_000).map(|count| count - 10_000).collect()
    }

    #[test]
    fn sends_come_to_each_limit_and_one_beyond() {
        // Of sends with opened records: the farm is left with 9,999, 10,000 and 10,001; all draw 19,999, 20,000 or 20,001, of which the
        // last is refused, and one farm draws, two or three, or more; and one is taken that is within its own while all is drawn.
        let (mut own, mut common, mut within) = ([0; 3], [[0; 3]; 3], 0);
        for input in (0..12_000).flat_map(inputs).filter(|input| input.takes == Takes::Send && input.mode <= 7) {
            let mut left = counts(&state(&input));
            let before: u64 = drawn(&left).iter().sum();
            let told = calls::farms_send(&mut state(&input), input.mode, &input.second);
            let sent = farms::opened(&input.second);
            if sent > 0 && matches!(told, Ok(()) | Err(21)) {
                let taken = told.is_ok();
                let farm = &mut left[input.mode as usize];
                *farm += sent;
                add(&mut own, [9_999, 10_000, 10_001].map(|edge| taken && *farm == edge));
                within += usize::from(taken && before == 20_000 && *farm <= 10_000);
                let drawn = drawn(&left);
                let sum: u64 = drawn.iter().sum();
                if let Some(several) = [1..=1, 2..=3, 4..=8].iter().position(|range| range.contains(&drawn.len())) {
                    add(&mut common[several], [19_999, 20_000, 20_001].map(|edge| sum == edge && taken == (edge <= 20_000)));
                }
            }
        }
        assert!(own.iter().chain(common.iter().flatten()).all(|&count| count > 20) && within > 20, "{own:?} {common:?} {within}");
    }

    #[test]
    fn states_are_those_of_runs_and_such_as_no_call_wrote() {
        // The farm's slot: a blank, a spoilt summary, a hill, the longest one, no summary, one of another mode than what is sent. The
        // state: another slot is no summary, the excess is above 20,000, and small in 32 bits.
        let mut seen = [0; 9];
        let on_state = |input: &Input| matches!(input.takes, Takes::Send | Takes::EndOfDay) && input.mode <= 7;
        for input in (0..8000).flat_map(inputs).filter(on_state) {
            let state = state(&input);
            let slots = farms::held(&state);
            let own = decode(slots[input.mode as usize]);
            let case = own.as_ref().map(|own| &own.case);
            let sent = decode(&input.second).filter(|_| input.takes == Takes::Send);
            let excess: u64 = drawn(&counts(&state)).iter().sum();
            let found = [
                case == Some(&Case::Blank),
                matches!(case, Some(Case::Spoilt(_))),
                matches!(case, Some(Case::Hill(_))),
                own.is_some() && slots[input.mode as usize].len() == SLOT,
                own.is_none(),
                own.as_ref().zip(sent).is_some_and(|(own, sent)| own.mode != sent.mode),
                own.is_some() && slots.iter().any(|slot| decode(slot).is_none()),
                excess > 20_000,
                excess >> 32 > 0 && excess % (1 << 32) <= 20_000,
            ];
            add(&mut seen, found);
        }
        assert!(seen.iter().all(|&count| count > 20), "{seen:?}");
    }

    /// The calls of a run, each with what it is told.
    fn with_told(mode: Mode, run: &[Call]) -> Vec<(&Call, Told)> {
        let mut ledger = Ledger::fresh(mode);
        run.iter().map(|call| (call, ledger.tell(call))).collect()
    }

    #[test]
    fn two_runs_part_at_21_in_either() {
        // A farm is told the same without 21, and with it; 21 in the first run alone, and in the second; and it is none that is there.
        let mut seen = [0; 5];
        for input in (0..12_000).flat_map(inputs).filter(|input| input.takes == Takes::TwoRuns) {
            let mode = Mode::ALL.into_iter().find(|mode| mode.number() == input.mode).expect("a mode in use");
            let runs = [farm_calls(&input.first), farm_calls(&input.second)];
            let told = [with_told(mode, &runs[0]), with_told(mode, &runs[1])];
            for farm in runs[0].iter().map(Call::farm).collect::<BTreeSet<u32>>() {
                let own = [0, 1].map(|which: usize| told[which].iter().filter(|(call, _)| call.farm() == farm).collect::<Vec<_>>());
                let [first, second] = &own;
                if first.iter().map(|(call, _)| call).eq(second.iter().map(|(call, _)| call)) {
                    let parting = first.iter().zip(second).find(|(one, other)| one.1 != other.1);
                    let at_21 = first.iter().any(|(_, told)| *told == Err(21));
                    let found = [
                        parting.is_none() && !at_21 && farm <= 7,
                        parting.is_none() && at_21,
                        parting.is_some_and(|(one, _)| one.1 == Err(21)),
                        parting.is_some_and(|(_, other)| other.1 == Err(21)),
                        farm > 7,
                    ];
                    add(&mut seen, found);
                }
            }
        }
        assert!(seen.iter().all(|&count| count > 20), "{seen:?}");
    }

    #[test]
    fn mode_3_is_an_argument_and_within_summaries() {
        let mut seen = [0; 7];
        let within = |pieces: &[&[u8]]| pieces.iter().any(|piece| piece.len() >= 6 && piece[4..6] == [3, 0]);
        for input in (0..8000).flat_map(inputs) {
            let (place, found) = match input.takes {
                Takes::Chunk => (0, input.mode == 3),
                Takes::Page => (1, input.mode == 3),
                Takes::Fresh => (2, input.mode == 3),
                Takes::Piece => (3, within(&[&input.first])),
                Takes::Pieces => (4, within(&[&input.first, &input.second])),
                Takes::Row => (5, within(&row::pieces(&input.first))),
                Takes::Send => (6, within(&[&input.second])),
                _ => continue,
            };
            seen[place] += usize::from(found);
        }
        assert!(seen.iter().all(|&count| count > 50), "{seen:?}");
    }
}
