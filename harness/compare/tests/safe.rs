//! The safe functions of the crate `tulghimo`: what they answer, in the types of their users, against the reference.

use reference::calls;
use reference::farms::{FARMS_STATE, SLOT};
use reference::gen::raw::{self as by_hand, longest_log};
use reference::gen::{damage, farms, forged, logs, pages, pairs, runs, tables, Rng};
use reference::layout::encode;
use reference::ledger::Call;
use reference::log::opened;
use reference::mode;
use reference::plan::{encode_plan, Line};
use reference::record::Open;
use reference::table::encode_table;
use tulghimo::{raw, Farms, Kind, Mode, Refusal, Run, TableLine};

/// As long as the longest result: the log of 2,730 lines.
const AMPLE: usize = 65_520;

/// Results as they are, refusals by number.
fn by_number<T>(answer: Result<T, Refusal>) -> Result<T, u8> {
    answer.map_err(Refusal::number)
}

fn agree_on_log(log: &[u8]) {
    let read = by_number(tulghimo::read_record(log)).map(|r| {
        let kind = if r.kind == Kind::Open { 1 } else { 2 };
        [kind, r.length as i64, r.depth.into(), r.value.into(), r.floor.into(), r.ceiling.into(), r.batch.into()]
    });
    assert_eq!(read, calls::read_record(log));
    let day = by_number(tulghimo::day(log)).map(|f| [f.net, f.heaviest, f.eaten, f.stamp.into()]);
    assert_eq!(day, calls::day(log));
    let table = by_number(tulghimo::read_table(log)).map(|lines| encode_table(&lines.iter().map(plain).collect::<Vec<_>>()));
    assert_eq!(table, calls::read_table(log, AMPLE));
    let line =
        by_number(tulghimo::heaviest_line(log)).map(|numbers| numbers.iter().flat_map(|n| n.to_le_bytes()).collect::<Vec<u8>>());
    assert_eq!(line, calls::heaviest_line(log, AMPLE));
    agree_on_pair(log, [1, 2]);
}

fn agree_on_pair(log: &[u8], [a, b]: [u32; 2]) {
    assert_eq!(by_number(tulghimo::common(log, a, b)), calls::common(log, a, b), "records {a} and {b}");
}

/// A line with the reference's types.
fn plain(line: &TableLine) -> Open {
    let [value, floor, ceiling] = [line.value, line.floor, line.ceiling].map(i64::from);
    Open { depth: line.depth.into(), value, floor, ceiling }
}

/// The lines of a table, whether it is taken or not; bytes after the last whole one are left out.
fn lines(table: &[u8]) -> Vec<TableLine> {
    let grams = |bytes: &[u8]| i32::from_le_bytes(bytes.try_into().expect("4 bytes"));
    let of_one = |line: &[u8]| TableLine {
        depth: u16::from_le_bytes([line[0], line[1]]),
        value: grams(&line[2..6]),
        floor: grams(&line[6..10]),
        ceiling: grams(&line[10..14]),
    };
    table.chunks_exact(14).map(of_one).collect()
}

fn agree_on_table(table: &[u8]) {
    let whole_lines = &table[..table.len() / 14 * 14];
    assert_eq!(by_number(tulghimo::write_log(&lines(table))), calls::write_log(whole_lines, AMPLE));
}

#[test]
fn random_tables_and_refused_ones() {
    let mut rng = Rng::new(0x5afd);
    for round in 0..500 {
        let lines = if round % 50 == 0 { tables::MOST_LINES } else { 40 };
        let table = tables::any_table(&mut rng, lines);
        agree_on_table(&encode_table(&table));
        agree_on_table(&tables::damaged(&mut rng, &table));
        let refusal = rng.pick(&[2, 3, 10, 13]);
        agree_on_table(&tables::with_refusal(&mut rng, refusal));
    }
    agree_on_log(&longest_log());
}

fn agree_on_page(log: &[u8], mode: Mode, page: u32) {
    let text = by_number(tulghimo::sheet(log, mode, page)).map(String::into_bytes);
    assert_eq!(text, calls::sheet(log, mode.number(), page, AMPLE), "page {page}");
}

fn agree_on_chunk(chunk: &[u8], mode: Mode) {
    agree_on_page(chunk, mode, 0);
    let summary = by_number(tulghimo::summarise(chunk, mode));
    assert_eq!(summary, calls::summarise(chunk, mode.number(), AMPLE));
    if let Ok(summary) = summary {
        assert_eq!(by_number(tulghimo::finish(&summary)), calls::finish(&summary));
    }
}

#[test]
fn random_logs_and_their_chunks() {
    let mut rng = Rng::new(0x5afe);
    for _ in 0..500 {
        let log = logs::any_log(&mut rng, 40);
        let bytes = logs::encode_mixed(&mut rng, &log);
        agree_on_log(&bytes);
        agree_on_log(&damage::damage(&mut rng, &bytes));
        for chunk in logs::cut(&mut rng, &log, 3) {
            let bytes = logs::encode_mixed(&mut rng, &chunk);
            agree_on_log(&bytes);
            let mode = rng.pick(&Mode::ALL);
            agree_on_chunk(&bytes, mode);
            agree_on_chunk(&damage::damage(&mut rng, &bytes), mode);
        }
    }
}

#[test]
fn heaviest_lines_with_ties_and_long_ones() {
    let mut rng = Rng::new(0x5b01);
    let mut longest = 0;
    for round in 0..300 {
        let log = logs::log_with_ties(&mut rng, if round % 10 == 0 { 1500 } else { 60 });
        let bytes = logs::encode_mixed(&mut rng, &log);
        agree_on_log(&bytes);
        longest = longest.max(tulghimo::heaviest_line(&bytes).expect("a well-formed log").len());
    }
    assert_eq!(longest, 64);
}

#[test]
fn sheets_of_several_pages() {
    let mut rng = Rng::new(0x5b02);
    for round in 0..500 {
        let log = pages::paged_log(&mut rng);
        let bytes = logs::encode_mixed(&mut rng, &log);
        let mode = Mode::ALL[round % 4];
        let page = pages::page(&mut rng, opened(&log) as usize);
        agree_on_page(&bytes, mode, page);
        agree_on_page(&damage::damage(&mut rng, &bytes), mode, page);
    }
    for page in (0..=70).chain([71_582_789, 1 << 30, u32::MAX]) {
        agree_on_page(&longest_log(), Mode::Net, page);
    }
}

#[test]
fn pairs_of_records() {
    let mut rng = Rng::new(0x5b03);
    for round in 0..500 {
        let log = logs::log_or_faulty(&mut rng, if round % 40 == 0 { 1500 } else { 60 });
        let bytes = logs::encode_mixed(&mut rng, &log);
        let both = pairs::pair(&mut rng, &log);
        agree_on_pair(&bytes, both);
        agree_on_pair(&damage::damage(&mut rng, &bytes), both);
    }
    for number in [0, 1, 4094, 4095, 4096, 65_536, 1 << 31, u32::MAX] {
        agree_on_pair(&longest_log(), [number, 4095]);
        agree_on_pair(&longest_log(), [number, number]);
    }
}

/// A call on a station and on the reference's state, with a buffer that is long enough. Both are told the same.
fn agree_on_farm(station: &mut Farms, state: &mut [u8; FARMS_STATE], call: &Call) {
    match call {
        Call::Send { farm, summary } => {
            assert_eq!(by_number(station.send(*farm, summary)), calls::farms_send(state, *farm, summary), "farm {farm}");
        }
        Call::EndOfDay { farm, .. } => {
            assert_eq!(by_number(station.end_of_day(*farm)), calls::farms_end_of_day(state, *farm, SLOT), "farm {farm}");
        }
    }
}

/// A station and the reference's state, both fresh in a mode.
fn fresh_station(mode: mode::Mode) -> (Farms, [u8; FARMS_STATE]) {
    let number = mode.number();
    let mut state = [0; FARMS_STATE];
    assert_eq!(calls::farms_fresh(number, &mut state), Ok(()));
    (Farms::fresh(Mode::try_from(number).expect("a mode in use")), state)
}

#[test]
fn runs_of_eight_farms() {
    let mut rng = Rng::new(0x5b04);
    for _ in 0..200 {
        let run = farms::run(&mut rng, 50);
        let (mut station, mut state) = fresh_station(run.mode);
        for call in &run.calls {
            agree_on_farm(&mut station, &mut state, call);
        }
        // Of all farms at last, and of one that is not there.
        for farm in 0..9 {
            agree_on_farm(&mut station, &mut state, &Call::EndOfDay { farm, capacity: SLOT });
        }
        assert!(station == fresh_station(run.mode).0);
    }
}

#[test]
fn stations_are_equal_where_their_states_are() {
    let mut rng = Rng::new(0x5b05);
    let mut seen = [0; 2];
    for _ in 0..60 {
        let run = farms::run(&mut rng, 20);
        let (mut station, mut state) = fresh_station(run.mode);
        let mut all = vec![fresh_station(rng.pick(&mode::Mode::ALL))];
        for call in &run.calls {
            all.push((station.clone(), state));
            agree_on_farm(&mut station, &mut state, call);
        }
        for (other, bytes) in &all {
            assert_eq!(station == *other, state == *bytes);
            seen[usize::from(state == *bytes)] += 1;
        }
        // A copy goes on alone: the station stays as it is meanwhile.
        let mut copy = station.clone();
        agree_on_farm(&mut copy, &mut state.clone(), &Call::EndOfDay { farm: 3, capacity: SLOT });
        agree_on_farm(&mut station, &mut state, &Call::EndOfDay { farm: 3, capacity: SLOT });
        assert!(copy == station);
        // No byte of a farm's is printed.
        assert_eq!(format!("{station:?}"), "Farms { .. }");
    }
    assert!(seen.iter().all(|&count| count > 50), "{seen:?}");
}

/// The bytes of a run, put together here. It must give the same itself.
fn run_bytes(run: &Run) -> Vec<u8> {
    let numbers = match *run {
        Run::Net { a } => vec![a, 0, 0],
        Run::Heaviest { z, a, b } => vec![z, a.unwrap_or(i64::MIN), b],
        Run::Eaten { z, a, l, h } => vec![z, a, l, h],
        Run::Stamp { m, q } => vec![m.into(), q.into(), 0],
    };
    let bytes = by_hand::run(run.mode().number() as u16, &numbers);
    assert_eq!(run.bytes(), bytes);
    bytes
}

fn agree_on_row(row: &[u8]) {
    assert_eq!(by_number(tulghimo::merge_row(row)), calls::merge_row(row, AMPLE));
    let plan = by_number(tulghimo::plan(row)).map(|lines| {
        let plain = |line: &tulghimo::Line| {
            let [i, j, lowest, highest] = [line.i, line.j, line.lowest, line.highest].map(usize::from);
            Line { i, j, lowest, highest }
        };
        encode_plan(&lines.iter().map(plain).collect::<Vec<_>>())
    });
    assert_eq!(plan, calls::plan(row, AMPLE));
    let runs = by_number(tulghimo::runs(row)).map(|runs| runs.iter().flat_map(run_bytes).collect::<Vec<u8>>());
    assert_eq!(runs, calls::runs(row, AMPLE));
    let work = by_number(tulghimo::work(row)).map(|work| (work.figure, work.joins.into(), work.levels.into()));
    assert_eq!(work, calls::work(row));
}

#[test]
fn forged_rows_and_damaged_ones() {
    let mut rng = Rng::new(0x5aff);
    for round in 0..600 {
        let mode = rng.pick(&mode::Mode::ALL);
        let count = if round % 20 == 0 { 64 } else { 2 + rng.below(6) };
        let row = if round % 4 == 0 { forged::neighbours(&mut rng, mode, count, 20) } else { forged::row(&mut rng, mode, count) };
        let row: Vec<Vec<u8>> = row.iter().map(encode).collect();
        assert_eq!(by_number(tulghimo::merge(&row[0], &row[1])), calls::merge(&row[0], &row[1], AMPLE));
        agree_on_row(&row.concat());
        agree_on_row(&damage::damage(&mut rng, &row.concat()));
    }
}

#[test]
fn all_small_days() {
    for n in [0, 1, 2, 3, 4, 5, 6, 7, 8, 9, 257, 65_544, u32::MAX] {
        assert_eq!(by_number(tulghimo::small_days(n)), calls::small_days(n, AMPLE), "n = {n}");
    }
}

#[test]
fn runs_backwards() {
    let mut rng = Rng::new(0x5b00);
    for round in 0..2000 {
        let run = runs::any_run(&mut rng, by_hand::MODES[round % 4]);
        for bytes in [damage::damage(&mut rng, &run), runs::nearly_a_run(&mut rng), run] {
            let y = runs::any_y(&mut rng);
            assert_eq!(by_number(tulghimo::backwards(&bytes, y)), calls::backwards(&bytes, y), "y = {y}: {bytes:?}");
        }
    }
}

/// A name as C writes it: TooLong, TOO_LONG.
fn in_capitals(name: &str) -> String {
    let letter = |c: char| if c.is_uppercase() { format!("_{c}") } else { c.to_uppercase().to_string() };
    name.chars().map(letter).collect::<String>().trim_start_matches('_').to_string()
}

#[test]
fn the_header_has_the_same_numbers() {
    let header = include_str!("../../../include/tulghimo.h");
    let refusals = Refusal::ALL.map(|refusal| {
        let name = in_capitals(&format!("{refusal:?}"));
        (format!("REFUSED_{name} = {}", refusal.number()), refusal.reason())
    });
    // The constant with its whole number: no further digit follows.
    let has = |text: &str, constant: &str| text.split(constant).skip(1).any(|rest| !rest.starts_with(|c: char| c.is_ascii_digit()));
    for (constant, reason) in refusals {
        let constant = format!("TULGHIMO_{constant}");
        assert!(header.lines().any(|line| has(line, &constant) && line.contains(reason)), "{constant}");
    }
    for mode in Mode::ALL {
        let constant = format!("TULGHIMO_{} = {}", in_capitals(&format!("{mode:?}")), mode.number());
        assert!(has(header, &constant), "{constant}");
    }
    assert!(header.contains(&format!("TULGHIMO_LONGEST_SUMMARY = {},", raw::LONGEST_SUMMARY)));
    assert_eq!((raw::LONGEST_PLAN, raw::LONGEST_RUNS), (1500, 4750));
    assert_eq!((raw::LONGEST_TABLE_TAKEN, raw::LONGEST_LOG_WRITTEN, raw::LONGEST_TABLE_READ), (38_220, 65_520, 57_344));
    assert_eq!((raw::LONGEST_SMALL_DAYS, raw::LONGEST_HEAVIEST_LINE, raw::LONGEST_PAGE), (54_912, 256, 1620));
    assert_eq!(raw::FARMS_STATE, 14_304);
    for constant in [
        "LONGEST_CHUNK = 65536,",
        "LINE = 12,",
        "LONGEST_PLAN = 125 * TULGHIMO_LINE,",
        "RUN = 30,",
        "EATEN_RUN = 38,",
        "LONGEST_RUNS = 125 * TULGHIMO_EATEN_RUN,",
        "TABLE_LINE = 14,",
        "LONGEST_TABLE_TAKEN = 2730 * TULGHIMO_TABLE_LINE,",
        "LONGEST_LOG_WRITTEN = 2730 * (18 + 6),",
        "LONGEST_TABLE_READ = 4096 * TULGHIMO_TABLE_LINE,",
        "LONGEST_SMALL_DAYS = 429 * 8 * (10 + 6),",
        "LONGEST_HEAVIEST_LINE = 64 * 4,",
        "SHEET_LINE = 27,",
        "LONGEST_PAGE = 60 * TULGHIMO_SHEET_LINE,",
        "FARMS_STATE = 8 * TULGHIMO_LONGEST_SUMMARY ",
    ] {
        assert!(header.contains(&format!("TULGHIMO_{constant}")), "{constant}");
    }
}

#[test]
fn modes_by_number() {
    for number in [0, 1, 2, 3, 4, 5, 6, 257, 65_537, 65_541, u32::MAX] {
        let mode = Mode::try_from(number);
        assert_eq!(mode.map(Mode::number), if [1, 2, 4, 5].contains(&number) { Ok(number) } else { Err(Refusal::Mode) });
    }
    assert_eq!(Mode::ALL.map(Mode::number), by_hand::MODES.map(u32::from));
}
