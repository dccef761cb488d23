//! The calls, with buffers of their own.

use crate::{raw, Figures, Kind, Line, Mode, Record, Refusal, Run, TableLine, Work};

/// The number that a C function answers (0, a length or a record number), or the refusal that it stands for.
pub(crate) fn answer(status: i64) -> Result<usize, Refusal> {
    match usize::try_from(status) {
        Ok(number) => Ok(number),
        Err(_) => Err(Refusal::from_number(-status).expect("a refusal has a number from 1 to 21")),
    }
}

/// The bytes that a call writes into a buffer that is long enough.
pub(crate) fn written(capacity: usize, call: impl FnOnce(&mut [u8]) -> i64) -> Result<Vec<u8>, Refusal> {
    let mut out = vec![0; capacity];
    let length = answer(call(&mut out))?;
    out.truncate(length);
    Ok(out)
}

/// The numbers that a call writes.
fn numbers<const N: usize>(call: impl FnOnce(&mut [i64; N]) -> i64) -> Result<[i64; N], Refusal> {
    let mut numbers = [0; N];
    answer(call(&mut numbers))?;
    Ok(numbers)
}

/// Reads the first record of a chunk. Later bytes are not judged. Refused: 3.
///
/// ```
/// use tulghimo::{example, read_record, Kind, Record, Refusal};
///
/// let open = Record { kind: Kind::Open, length: 18, depth: 0, value: 10, floor: 0, ceiling: 100, batch: 0 };
/// assert_eq!(read_record(example::LOG_D), Ok(open));
///
/// // The same record of length 22, with the batch 70,000 of its bag.
/// let with_batch = [&[22, 0], &example::LOG_D[2..18], &70_000u32.to_le_bytes()].concat();
/// assert_eq!(read_record(&with_batch), Ok(Record { length: 22, batch: 70_000, ..open }));
/// assert_eq!(read_record(&with_batch[..21]), Err(Refusal::Unreadable));
///
/// // And of length 10: its floor is 0, and its ceiling 1,000,000,000.
/// let short = [&[10, 0], &example::LOG_D[2..10]].concat();
/// assert_eq!(read_record(&short), Ok(Record { length: 10, floor: 0, ceiling: 1_000_000_000, ..open }));
/// ```
pub fn read_record(chunk: &[u8]) -> Result<Record, Refusal> {
    let [kind, length, depth, value, floor, ceiling, batch] = numbers(|fields| raw::read_record(chunk, fields))?;
    // The call's ranges: length 6, 10, 18 or 22, depth 0 to 63, grams within ±1,000,000,000, batch 0 to 2^32 - 1.
    Ok(Record {
        kind: if kind == 1 { Kind::Open } else { Kind::Close },
        length: length as usize,
        depth: depth as u8,
        value: value as i32,
        floor: floor as i32,
        ceiling: ceiling as i32,
        batch: batch as u32,
    })
}

/// The summary of a chunk of at most 65,536 bytes. It carries the floor and the ceiling of each record that the chunk opens and does
/// not close: a summary that was made while short records had the old floor, -1,000,000,000, keeps its meaning. Refused: 2, 3.
///
/// ```
/// use tulghimo::{example, summarise, Mode};
///
/// let (one, two) = example::two_stretches();
/// let (one, two) = (summarise(one, Mode::Net)?, summarise(two, Mode::Net)?);
/// assert_eq!((one.len(), two.len()), (64, 40));
/// // The second stretch closes two records: the values on its left are 0 and -3.
/// assert_eq!(two[16..24], 0i64.to_le_bytes());
/// assert_eq!(two[24..32], (-3i64).to_le_bytes());
/// # Ok::<(), tulghimo::Refusal>(())
/// ```
pub fn summarise(chunk: &[u8], mode: Mode) -> Result<Vec<u8>, Refusal> {
    written(raw::LONGEST_SUMMARY, |out| raw::summarise(chunk, mode.number(), out))
}

/// Two summaries merged: the summary of the joined chunks, the left one first. That they are neighbours is for the caller to know
/// ([why](crate#what-the-caller-must-see-to)). Refused: 5, 6.
///
/// ```
/// use tulghimo::{example, finish, merge, summarise, Mode};
///
/// let (one, two) = example::two_stretches();
/// for (mode, figure) in Mode::ALL.into_iter().zip([12, 15, 12, 72]) {
///     let merged = merge(&summarise(one, mode)?, &summarise(two, mode)?)?;
///     assert_eq!(merged, summarise(example::LOG_D, mode)?);
///     assert_eq!(finish(&merged), Ok(figure));
/// }
/// # Ok::<(), tulghimo::Refusal>(())
/// ```
pub fn merge(left: &[u8], right: &[u8]) -> Result<Vec<u8>, Refusal> {
    written(raw::LONGEST_SUMMARY, |out| raw::merge(left, right, out))
}

/// A row of 2 to 64 summaries, end to end in one slice and in log order, merged. That each is there, once and in its place, is for
/// the caller to know ([why](crate#what-the-caller-must-see-to)). Refused: 4, 5, 6.
///
/// ```
/// use tulghimo::{example, merge_row, summarise, Mode, Refusal};
///
/// let (one, two) = example::two_stretches();
/// let row = [summarise(one, Mode::Net)?, summarise(&[], Mode::Net)?, summarise(two, Mode::Net)?];
/// assert_eq!(merge_row(&row.concat()), summarise(example::LOG_D, Mode::Net));
/// assert_eq!(merge_row(&row[0]), Err(Refusal::PieceCount));
/// # Ok::<(), Refusal>(())
/// ```
pub fn merge_row(row: &[u8]) -> Result<Vec<u8>, Refusal> {
    written(raw::LONGEST_SUMMARY, |out| raw::merge_row(row, out))
}

/// The join plan of a row of 2 to 64 summaries, end to end in one slice and in log order. Refused: 4 to 11.
///
/// ```
/// use tulghimo::{example, plan, summarise, Line, Mode};
///
/// let (one, two) = example::two_stretches();
/// let row = [summarise(one, Mode::Net)?, summarise(two, Mode::Net)?].concat();
/// assert_eq!(plan(&row), Ok(vec![Line { i: 0, j: 1, lowest: 0, highest: 1 }]));
/// # Ok::<(), tulghimo::Refusal>(())
/// ```
pub fn plan(row: &[u8]) -> Result<Vec<Line>, Refusal> {
    let lines = written(raw::LONGEST_PLAN, |out| raw::plan(row, out))?;
    Ok(lines.chunks_exact(Line::LENGTH).map(Line::read).collect())
}

/// The runs of a row's join plan, one for each line in plan order. Refused: 4 to 11.
///
/// ```
/// use tulghimo::{example, runs, summarise, Mode, Run};
///
/// let (one, two) = example::two_stretches();
/// let of_d = [
///     Run::Net { a: 12 },
///     Run::Heaviest { z: 15, a: Some(7), b: 15 },
///     // With nothing inside, 5 holds nothing and is not lowered to 4: 10 + 5 - 3.
///     Run::Eaten { z: 12, a: 12, l: 7, h: 11 },
///     Run::Stamp { m: 961, q: 72 },
/// ];
/// for (mode, run) in Mode::ALL.into_iter().zip(of_d) {
///     let row = [summarise(one, mode)?, summarise(two, mode)?].concat();
///     assert_eq!(runs(&row), Ok(vec![run]));
///     assert_eq!(run.mode(), mode);
/// }
/// # Ok::<(), tulghimo::Refusal>(())
/// ```
pub fn runs(row: &[u8]) -> Result<Vec<Run>, Refusal> {
    Run::read_all(&written(raw::LONGEST_RUNS, |out| raw::runs(row, out))?)
}

/// The work along a row's join plan: the figure of the log, without merging its summaries. Refused: 4 to 11.
///
/// ```
/// use tulghimo::{example, summarise, work, Mode, Work};
///
/// let (one, two) = example::two_stretches();
/// let row = [summarise(one, Mode::Eaten)?, summarise(two, Mode::Eaten)?].concat();
/// // One line, of the depths 0 and 1.
/// assert_eq!(work(&row), Ok(Work { figure: 12, joins: 1, levels: 2 }));
/// # Ok::<(), tulghimo::Refusal>(())
/// ```
pub fn work(row: &[u8]) -> Result<Work, Refusal> {
    let [figure, joins, levels] = numbers(|totals| raw::work(row, totals))?;
    // At most 125 joins of at most 64 levels.
    Ok(Work { figure, joins: joins as u32, levels: levels as u32 })
}

/// The figure of one summary: that of the log it stands for. In modes 2 and 5 bytes that no chunk makes may hold nothing, which is
/// -2^63. Refused: 5, and 7 to 11 where the log is not whole.
///
/// ```
/// use tulghimo::{example, finish, summarise, Mode, Refusal};
///
/// let whole = summarise(example::LOG_D, Mode::Eaten)?;
/// assert_eq!(finish(&whole), Ok(12));
///
/// let blank = summarise(&[], Mode::Eaten)?;
/// assert_eq!(finish(&blank), Err(Refusal::NoRecord));
/// # Ok::<(), Refusal>(())
/// ```
pub fn finish(summary: &[u8]) -> Result<i64, Refusal> {
    numbers(|figure| raw::finish(summary, figure)).map(|[figure]| figure)
}

/// The four figures of a whole log of at most 65,536 bytes. Refused: 2, 3, 7, 8, 10, 11; none has enough
/// records for 9.
///
/// ```
/// use tulghimo::{day, example, Figures, Refusal};
///
/// let figures = day(example::LOG_D)?;
/// assert_eq!(figures, Figures { net: 12, heaviest: 15, eaten: 12, stamp: 72 });
/// assert_eq!(figures.to_string(), "12 15 12 72");
///
/// let (one, _) = example::two_stretches();
/// assert_eq!(day(one), Err(Refusal::NotWhole));
///
/// // A short record of 5 g that holds one of -8 g: eaten is raised to 0, its floor.
/// let short = [10, 0, 1, 0, 0, 0, 5, 0, 0, 0, 10, 0, 1, 0, 1, 0, 0xf8, 0xff, 0xff, 0xff, 6, 0, 2, 0, 1, 0, 6, 0, 2, 0, 0, 0];
/// assert_eq!(day(&short)?.to_string(), "-3 -3 0 4294967053");
/// # Ok::<(), Refusal>(())
/// ```
pub fn day(log: &[u8]) -> Result<Figures, Refusal> {
    let [net, heaviest, eaten, stamp] = numbers(|figures| raw::day(log, figures))?;
    // A stamp is 0 to 2^32 - 1.
    Ok(Figures { net, heaviest, eaten, stamp: stamp as u32 })
}

/// The log of a day table of at most 2,730 lines: a full open record (length 18) for each line, and its close where it belongs. A
/// line that no readable full open record could hold is refused by 3. Refused: 2, 3, 13, 10.
///
/// ```
/// use tulghimo::{example, write_log, Refusal};
///
/// let [site, tank, other] = example::TABLE_D;
/// assert_eq!(write_log(&[site, tank, other]), Ok(example::LOG_D.to_vec()));
/// // The first depth of a table is 0, and no other one.
/// assert_eq!(write_log(&[tank, other]), Err(Refusal::NotNested));
/// assert_eq!(write_log(&[site, site]), Err(Refusal::NotNested));
/// ```
pub fn write_log(lines: &[TableLine]) -> Result<Vec<u8>, Refusal> {
    let table: Vec<u8> = lines.iter().flat_map(TableLine::bytes).collect();
    written(raw::LONGEST_LOG_WRITTEN.min(lines.len() * TableLine::LOG_LENGTH), |out| raw::write_log(&table, out))
}

/// The day table of a whole log of at most 65,536 bytes: a line for each opened record, a short one with the floor 0 and the ceiling
/// 1,000,000,000, one with a batch without it. Refused: 2, 3, 7, 8, 10, 11; none has enough records for 9.
///
/// ```
/// use tulghimo::{example, read_table, Refusal};
///
/// assert_eq!(read_table(example::LOG_D), Ok(example::TABLE_D.to_vec()));
///
/// let (one, _) = example::two_stretches();
/// assert_eq!(read_table(one), Err(Refusal::NotWhole));
/// ```
pub fn read_table(log: &[u8]) -> Result<Vec<TableLine>, Refusal> {
    let table = written(raw::LONGEST_TABLE_READ, |out| raw::read_table(log, out))?;
    Ok(table.chunks_exact(TableLine::LENGTH).map(TableLine::read).collect())
}

/// All well-formed logs with n opened records, n from 1 to 8, one after another: short open records, each value 1. Two are compared
/// record by record, an open before a close, and the one that comes first stands first. Each log has 16 × n bytes. Refused: 14.
///
/// ```
/// use tulghimo::{day, small_days, Refusal};
///
/// // Three records in a line, then two within the first.
/// let logs = small_days(3)?;
/// let lines: Vec<_> = logs.chunks(16 * 3).map(|log| day(log).map(|figures| figures.heaviest)).collect();
/// assert_eq!(lines, [Ok(3), Ok(2)]);
///
/// assert_eq!(small_days(8)?.chunks(16 * 8).count(), 429);
/// assert_eq!(small_days(9), Err(Refusal::OpenedCount));
/// # Ok::<(), Refusal>(())
/// ```
pub fn small_days(n: u32) -> Result<Vec<u8>, Refusal> {
    written(raw::LONGEST_SMALL_DAYS, |out| raw::small_days(n, out))
}

/// Backwards through a run, given as its [bytes](crate::Run::bytes): the one inner figure x that leads to the outer figure y, in mode
/// 1 among whole numbers, in mode 4 among 0 to 2^32 - 1. In mode 1 x may be beyond y's range, as far as 2 · 10^14 either way.
///
/// Refused: 15 where the bytes are no run: their length, kind or mode does not fit; a number of mode 4 is outside 0 to 2^32 - 1, or m
/// is even; one that the mode does not use is not 0; one of modes 1, 2 and 5 is beyond ±10^14, but for the -2^63 of [`Run::Heaviest`]
/// without an A; or l is above h. Every run that [`runs`] gives passes. 16 in modes 2 and 5; 17 where y is beyond ±10^14 in mode 1, or
/// outside 0 to 2^32 - 1 in mode 4.
///
/// ```
/// use tulghimo::{backwards, example, runs, summarise, Mode, Refusal};
///
/// let (one, two) = example::two_stretches();
/// let run = |mode| Ok(runs(&[summarise(one, mode)?, summarise(two, mode)?].concat())?[0].bytes());
/// // x + 12, and 961 · x + 72 modulo 2^32.
/// assert_eq!(backwards(&run(Mode::Net)?, 100), Ok(88));
/// assert_eq!(backwards(&run(Mode::Stamp)?, 961 * 5 + 72), Ok(5));
/// assert_eq!(backwards(&run(Mode::Stamp)?, -1), Err(Refusal::OuterFigure));
/// assert_eq!(backwards(&run(Mode::Heaviest)?, 100), Err(Refusal::NoWayBack));
/// assert_eq!(backwards(example::LOG_D, 100), Err(Refusal::NotARun));
/// # Ok::<(), Refusal>(())
/// ```
pub fn backwards(run: &[u8], y: i64) -> Result<i64, Refusal> {
    numbers(|x| raw::backwards(run, y, x)).map(|[x]| x)
}

/// The records behind the heaviest figure of a whole log of at most 65,536 bytes, by their numbers: from the record that the log
/// begins with down to one that holds nothing. A number counts the opened records before it, in log order: the first is 0, and
/// record k is line k of [`read_table`]. Each directly holds the next, and their values add to [`Figures::heaviest`]. At each step
/// the one taken has the greatest figure of those held; of several the earliest. Refused: 2, 3, 7, 8, 10, 11; none has enough
/// records for 9.
///
/// ```
/// use tulghimo::{day, example, heaviest_line, Refusal};
///
/// // The site of 10 g, and the first of its two tanks, of 5 g.
/// let numbers = heaviest_line(example::LOG_D)?;
/// assert_eq!(numbers, [0, 1]);
/// let values = numbers.iter().map(|&number| i64::from(example::TABLE_D[number as usize].value));
/// assert_eq!(values.sum::<i64>(), day(example::LOG_D)?.heaviest);
///
/// let (one, _) = example::two_stretches();
/// assert_eq!(heaviest_line(one), Err(Refusal::NotWhole));
/// # Ok::<(), Refusal>(())
/// ```
pub fn heaviest_line(log: &[u8]) -> Result<Vec<u32>, Refusal> {
    let numbers = written(raw::LONGEST_HEAVIEST_LINE, |out| raw::heaviest_line(log, out))?;
    Ok(numbers.chunks_exact(4).map(|number| u32::from_le_bytes(number.try_into().expect("4 bytes"))).collect())
}

/// A page of the sheet of a whole log of at most 65,536 bytes, in a mode: a line for every opened record, 60 to the page in log
/// order, fewer only on the last. Pages are counted from 0. A line is the record's number in 6 columns, a blank, its depth in 2, a
/// blank, its figure in 16, all right-aligned and filled with blanks, then a newline. Numbers are those of [`heaviest_line`]. A figure
/// is that of the record's own subtree: what [`day`] would answer in this mode if that alone, its depths counted from the record, were
/// the log. Refused: 2, 3, 7, 8, 10, 11, 18; none has enough records for 9. 18 where the page starts past the last record.
///
/// ```
/// use tulghimo::{example, sheet, Mode, Refusal};
///
/// // The site with all that it holds, and its two tanks.
/// let page = sheet(example::LOG_D, Mode::Net, 0)?;
/// let lines: Vec<&str> = page.lines().collect();
/// assert_eq!(lines, ["     0  0               12", "     1  1                5", "     2  1               -3"]);
/// // Of a stamp the third is -3 modulo 2^32.
/// assert!(sheet(example::LOG_D, Mode::Stamp, 0)?.ends_with("     2  1       4294967293\n"));
///
/// assert_eq!(sheet(example::LOG_D, Mode::Net, 1), Err(Refusal::NoSuchPage));
/// let (one, _) = example::two_stretches();
/// assert_eq!(sheet(one, Mode::Net, 0), Err(Refusal::NotWhole));
/// # Ok::<(), Refusal>(())
/// ```
pub fn sheet(log: &[u8], mode: Mode, page: u32) -> Result<String, Refusal> {
    let text = written(raw::LONGEST_PAGE, |out| raw::sheet(log, mode.number(), page, out))?;
    Ok(String::from_utf8(text).expect("digits, signs, blanks and newlines"))
}

/// What two records of a whole log of at most 65,536 bytes have in common: the number of the deepest record that is each of them or
/// holds it, directly or through others. Numbers are those of [`heaviest_line`]. The answer is the same either way round. A number
/// given twice names itself; where one of the two holds the other, the holder is the answer. Refused: 2, 3, 7, 8, 10, 11, 19; none
/// has enough records for 9. 19 where either number is not below the opened count.
///
/// ```
/// use tulghimo::{common, example, Refusal};
///
/// // Site 0; tank 1 with meal 2, and tank 3 with meal 4.
/// let log = example::four_stretches().concat();
/// assert_eq!(common(&log, 2, 4), Ok(0));
/// assert_eq!(common(&log, 2, 1), Ok(1));
/// assert_eq!(common(&log, 4, 4), Ok(4));
///
/// assert_eq!(common(&log, 2, 5), Err(Refusal::NoSuchRecord));
/// let (one, _) = example::two_stretches();
/// assert_eq!(common(one, 0, 5), Err(Refusal::NotWhole));
/// ```
pub fn common(log: &[u8], a: u32, b: u32) -> Result<u32, Refusal> {
    // A record is opened before those that it holds: the answer is above neither a nor b.
    answer(raw::common(log, a, b)).map(|number| u32::try_from(number).expect("a number not above a"))
}
