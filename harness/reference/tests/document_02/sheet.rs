//! L9, "Sixty lines to the page", sentence by sentence; logs, figures and lines are written out by
//! hand. `crate::calls` are the reference's here and the library's in `compare`, which has this
//! file too.

use crate::calls::{day, sheet};
use crate::heaviest_line::{around, chain, chain_around, flat, leaf};
use crate::short_records::with_old_floor;
use reference::gen::logs::BATCHES;
use reference::gen::raw::{batched, close, faulty_logs, in_mode, log_d, longest_log, open, short, MODES, RANGE};

/// No page is longer: 60 lines of 27 bytes.
const AMPLE: usize = 1620;
const LEAST: i32 = -1_000_000_000;
const GREATEST: i32 = 1_000_000_000;

/// Modes out of use: 3, which was one; next to those in use; and such as are in use in their low 8
/// or 16 bits.
const NO_MODES: [u32; 13] = [0, 3, 6, 7, 255, 256, 257, 261, 65_536, 65_537, 65_540, 1 << 31, u32::MAX];

/// A line: the record's number, its depth and its figure.
type Line = (i64, i64, i64);

/// A number at the right of its columns, "filled with blanks".
fn right(columns: usize, number: i64) -> String {
    let text = number.to_string();
    [" ".repeat(columns - text.len()), text].concat()
}

/// The bytes of lines: 6 columns, a blank, 2, a blank, 16, a newline.
pub fn text(lines: &[Line]) -> Vec<u8> {
    let one = |&(number, depth, figure): &Line| [right(6, number), right(2, depth), right(16, figure)].join(" ") + "\n";
    lines.iter().map(one).collect::<String>().into_bytes()
}

/// A page of a log, in a buffer that is long enough and in one that is not.
fn assert_page(log: &[u8], mode: u16, page: u32, lines: &[Line]) {
    let due = text(lines);
    let exact = 27 * lines.len();
    assert_eq!(due.len(), exact);
    assert_eq!(sheet(log, mode.into(), page, exact), Ok(due), "mode {mode}, page {page}");
    assert_eq!(sheet(log, mode.into(), page, exact - 1), Err(12), "mode {mode}, page {page}");
}

/// The sheet of a log of one page: of each record its depth, and net, heaviest, eaten and stamp.
fn assert_sheet(log: &[u8], records: &[(i64, [i64; 4])]) {
    // The root's are the day's.
    assert_eq!(day(log), Ok(records[0].1));
    for mode in MODES {
        let line = |(number, &(depth, figures)): (i64, &(i64, [i64; 4]))| (number, depth, in_mode(mode, figures));
        assert_page(log, mode, 0, &(0..).zip(records).map(line).collect::<Vec<_>>());
        assert_eq!(sheet(log, mode.into(), 1, AMPLE), Err(18));
    }
}

/// The first line of a log in a mode.
fn first_line(log: &[u8], mode: u32) -> Vec<u8> {
    sheet(log, mode, 0, AMPLE).expect("a well-formed log")[..27].to_vec()
}

#[test]
fn the_sheet_of_log_d() {
    let log = log_d().concat();
    for (mode, due) in [
        (1, "     0  0               12\n     1  1                5\n     2  1               -3\n"),
        (2, "     0  0               15\n     1  1                5\n     2  1               -3\n"),
        (5, "     0  0               12\n     1  1                5\n     2  1               -3\n"),
        (4, "     0  0               72\n     1  1                5\n     2  1       4294967293\n"),
    ] {
        assert_eq!(sheet(&log, mode, 0, 81), Ok(due.as_bytes().to_vec()), "mode {mode}");
    }
    // 10 + 5 - 3; 10 + 5; 10 + 5 - 3, for 5 holds nothing and is not lowered to 4; 10 + 31 × (5 - 3).
    assert_sheet(&log, &[(0, [12, 15, 12, 72]), (1, [5; 4]), (1, [-3, -3, -3, RANGE - 3])]);
}

#[test]
fn a_line_byte_by_byte() {
    // Five blanks and 0; a blank; a blank and 0; a blank; fourteen blanks and -7; a newline.
    let mut line = [b' '; 27];
    (line[5], line[8], line[24], line[25], line[26]) = (48, 48, 45, 55, 10);
    assert_eq!(sheet(&leaf(0, -7), 1, 0, 27), Ok(line.to_vec()));
    assert_eq!(line.to_vec(), text(&[(0, 0, -7)]));
}

#[test]
fn a_record_that_holds_nothing_has_its_value() {
    for value in [LEAST, LEAST + 1, -1, 0, 1, 9, 10, GREATEST - 1, GREATEST] {
        let figure = i64::from(value);
        let stamp = if value < 0 { RANGE + figure } else { figure };
        assert_sheet(&leaf(0, value), &[(0, [figure, figure, figure, stamp])]);
    }
}

#[test]
fn each_figure_is_of_its_own_subtree() {
    // 1 holds 2, which holds 4, and 8, which holds 16 and 32. Stamps: 2 + 31 × 4, 8 + 31 × 48 and
    // 1 + 31 × (126 + 1,496).
    let log = around(0, 1, &[around(1, 2, &[leaf(2, 4)]), around(1, 8, &[leaf(2, 16), leaf(2, 32)])]);
    let records =
        [(0, [63, 41, 63, 50_283]), (1, [6, 6, 6, 126]), (2, [4; 4]), (1, [56, 40, 56, 1_496]), (2, [16; 4]), (2, [32; 4])];
    assert_sheet(&log, &records);
}

#[test]
fn what_is_held_takes_away() {
    // -1 holds -4 and a line of three times -1. Heaviest -1 - 3. Eaten of short records: -1 - 1
    // raised to 0, then -1 + 0, then -1 - 4 + 0. Stamps: -1 - 31, -1 - 31 × 32, and
    // -1 - 31 × (4 + 993).
    let log = around(0, -1, &[leaf(1, -4), chain(1, 3, -1)]);
    let records = [
        (0, [-8, -4, 0, RANGE - 30_908]),
        (1, [-4, -4, -4, RANGE - 4]),
        (1, [-3, -3, 0, RANGE - 993]),
        (2, [-2, -2, 0, RANGE - 32]),
        (3, [-1, -1, -1, RANGE - 1]),
    ];
    assert_sheet(&log, &records);
    // "10 over -3 is 7, not 10". Stamp 10 - 31 × 3.
    assert_sheet(&around(0, 10, &[leaf(1, -3)]), &[(0, [7, 7, 7, RANGE - 83]), (1, [-3, -3, -3, RANGE - 3])]);
}

#[test]
fn floors_and_ceilings_bind_those_that_hold_others() {
    // 3 + 5 is lowered to 6; -9 holds nothing and is not raised to -2; 1 + 6 - 9 is raised to -1.
    // Heaviest 1 + 3 + 5. Stamps: 3 + 31 × 5, and 1 + 31 × (158 - 9).
    let held = [open(1, 3, 0, 6), leaf(2, 5), close(1), open(1, -9, -2, 2), close(1)];
    let log = [open(0, 1, -1, 8), held.concat(), close(0)].concat();
    let records = [(0, [0, 9, -1, 4_620]), (1, [8, 8, 6, 158]), (2, [5; 4]), (1, [-9, -9, -9, RANGE - 9])];
    assert_sheet(&log, &records);
}

#[test]
fn short_records_start_from_zero() {
    // A returns desk: a tank of 80 g and 200 back, one of 260 and 40 back; eaten of the first is
    // raised to 0 where the records are short. Stamps: 31 × -120, 31 × 220, 961 × 100.
    for (opened, first, all) in [(short as fn(u16, i32) -> Vec<u8>, 0, 220), (with_old_floor, -120, 100)] {
        let of = |depth, value, held: &[Vec<u8>]| [opened(depth, value), held.concat(), close(depth)].concat();
        let tank = |fed, back| of(1, 0, &[of(2, fed, &[]), of(2, back, &[])]);
        let log = of(0, 0, &[tank(80, -200), tank(260, -40)]);
        let records = [
            (0, [100, 260, all, 96_100]),
            (1, [-120, 80, first, RANGE - 3_720]),
            (2, [80; 4]),
            (2, [-200, -200, -200, RANGE - 200]),
            (1, [220, 260, 220, 6_820]),
            (2, [260; 4]),
            (2, [-40, -40, -40, RANGE - 40]),
        ];
        assert_sheet(&log, &records);
    }
}

#[test]
fn records_of_all_lengths() {
    // Net and eaten 1 + 5 + 6 - 9, heaviest 1 + 4 + 2. Stamps: 4 + 31 × 2, and 1 + 31 × (5 + 66 - 9).
    let second = [batched(1, 4, 4, 100, u32::MAX), leaf(2, 2), close(1)].concat();
    let log = [batched(0, 1, 2, 3, 9), open(1, 5, 0, 0), close(1), second, open(1, -9, 6, 7), close(1), close(0)];
    let records = [(0, [3, 7, 3, 1_923]), (1, [5; 4]), (1, [6, 6, 6, 66]), (2, [2; 4]), (1, [-9, -9, -9, RANGE - 9])];
    assert_sheet(&log.concat(), &records);
}

#[test]
fn batches_are_no_weight_and_no_record() {
    // Some of them begin like a record. 1 + 2 + 3; 1 + 3; 1 + 31 × 5.
    for batch in BATCHES {
        let held = [batched(1, 2, 0, 9, batch), close(1), open(1, 3, 0, 9), close(1)];
        let log = [batched(0, 1, 0, 9, batch), held.concat(), close(0)];
        assert_sheet(&log.concat(), &[(0, [6, 4, 6, 156]), (1, [2; 4]), (1, [3; 4])]);
    }
}

#[test]
fn stamps_next_to_2_32() {
    for (value, stamp) in [(-1, 4_294_967_295), (-2, 4_294_967_294), (0, 0), (1, 1), (LEAST, 3_294_967_296)] {
        assert_eq!(first_line(&leaf(0, value), 4), text(&[(0, 0, stamp)]));
    }
    // Over -1, which is 31 taken away.
    for (value, stamp) in [(29, 4_294_967_294), (30, 4_294_967_295), (31, 0), (32, 1)] {
        assert_page(&around(0, value, &[leaf(1, -1)]), 4, 0, &[(0, 0, stamp), (1, 1, 4_294_967_295)]);
    }
    // 32 × 10^9 - 7 × 2^32; and two of these: 10^9 + 31 × 3,870,457,856 is 120,984,193,536, less 28 × 2^32.
    let two = around(1, GREATEST, &[leaf(2, GREATEST)]);
    let log = around(0, GREATEST, &[two.clone(), two]);
    let half = [(1, 1_935_228_928), (2, 1_000_000_000)];
    let lines: Vec<Line> = [(0, 725_109_248)].into_iter().chain(half).chain(half).zip(0..).map(|((d, f), n)| (n, d, f)).collect();
    assert_page(&log, 4, 0, &lines);
}

/// The least and the greatest number of so many digits, that below a limit.
fn of_digits(digits: u32, limit: i64) -> [i64; 2] {
    let least = 10i64.pow(digits - 1);
    [least, (10 * least - 1).min(limit)]
}

/// A first record and `count` others of 10^9 grams, all with the sign of the figure; what is left of
/// it is the first one's value.
fn whole_and_rest(figure: i64) -> (i32, i32, usize) {
    let count = (figure.abs() - 1) / 1_000_000_000;
    let all = if figure < 0 { LEAST } else { GREATEST };
    ((figure - count * i64::from(all)) as i32, all, count as usize)
}

/// The first line has the figure, of so many digits.
fn assert_wide(log: &[u8], mode: u32, figure: i64, digits: u32) {
    assert_eq!(figure.unsigned_abs().to_string().len(), digits as usize);
    assert_eq!(first_line(log, mode), text(&[(0, 0, figure)]));
}

#[test]
fn net_of_1_to_13_digits() {
    // Up to 4,096 records of 10^9 grams, as many as fit 65,536 bytes.
    for digits in 1..=13 {
        for figure in of_digits(digits, 4_096_000_000_000).map(|figure| [figure, -figure]).concat() {
            let (first, all, count) = whole_and_rest(figure);
            let log = around(0, first, &vec![leaf(1, all); count]);
            assert_wide(&log, 1, figure, digits);
            // The others have their own.
            assert!(count == 0 || sheet(&log, 1, 0, AMPLE).expect("a log")[27..54] == text(&[(1, 1, all.into())]));
        }
    }
    assert_eq!(first_line(&around(0, LEAST, &vec![leaf(1, LEAST); 4095]), 1), b"     0  0   -4096000000000\n");
}

#[test]
fn heaviest_of_1_to_11_digits() {
    // Up to 64 records of 10^9 grams, each holding the next.
    for digits in 1..=11 {
        for figure in of_digits(digits, 64_000_000_000).map(|figure| [figure, -figure]).concat() {
            let (first, all, count) = whole_and_rest(figure);
            let held = if count == 0 { Vec::new() } else { chain(1, count as u16, all) };
            assert_wide(&around(0, first, &[held]), 2, figure, digits);
        }
    }
    assert_eq!(first_line(&chain(0, 63, LEAST), 2), b"     0  0     -64000000000\n");
}

#[test]
fn eaten_of_1_to_10_digits() {
    for digits in 1..=10 {
        for figure in of_digits(digits, 1_000_000_000).map(|figure| [figure, -figure]).concat() {
            let value = figure as i32;
            assert_wide(&leaf(0, value), 5, figure, digits);
            // Raised or lowered to it, from as far as can be.
            let far = if value < 0 { GREATEST } else { LEAST };
            let bound = [open(0, far, value, value), leaf(1, far).repeat(70), close(0)].concat();
            assert_wide(&bound, 5, figure, digits);
        }
    }
}

#[test]
fn stamps_of_1_to_10_digits() {
    for digits in 1..=10 {
        for stamp in of_digits(digits, 4_294_967_295) {
            // From 2^31 on the value is below 0.
            let value = if stamp < RANGE / 2 { stamp } else { stamp - RANGE };
            assert_wide(&leaf(0, value as i32), 4, stamp, digits);
        }
    }
    assert_wide(&leaf(0, 0), 4, 0, 1);
}

#[test]
fn numbers_and_depths_of_every_width() {
    let line = |log: &[u8], number: usize| {
        let page = sheet(log, 1, number as u32 / 60, AMPLE).expect("a page that there is");
        page[27 * (number % 60)..][..27].to_vec()
    };
    let (wide, deep) = (longest_log(), chain(0, 63, 1));
    for (log, number, due) in [
        (&wide, 0, "     0  0             4096\n"),
        (&wide, 9, "     9  1                1\n"),
        (&wide, 10, "    10  1                1\n"),
        (&wide, 99, "    99  1                1\n"),
        (&wide, 100, "   100  1                1\n"),
        (&wide, 999, "   999  1                1\n"),
        (&wide, 1000, "  1000  1                1\n"),
        (&wide, 4095, "  4095  1                1\n"),
        (&deep, 9, "     9  9               55\n"),
        (&deep, 10, "    10 10               54\n"),
        (&deep, 63, "    63 63                1\n"),
    ] {
        assert_eq!(line(log, number), due.as_bytes(), "record {number}");
    }
}

/// The pages of a log of so many records, whose depths and figures go by their numbers: of many
/// pages the first three, the last and some between; and after the last none.
fn assert_pages(log: &[u8], mode: u16, opened: i64, line: impl Fn(i64) -> (i64, i64)) {
    let count = (opened + 59) / 60;
    for page in (0..count).filter(|page| *page < 3 || page % 13 == 0 || page + 1 == count) {
        let numbers = 60 * page..opened.min(60 * page + 60);
        let lines: Vec<Line> = numbers.map(|number| (number, line(number).0, line(number).1)).collect();
        assert_page(log, mode, page as u32, &lines);
    }
    assert_eq!(sheet(log, mode.into(), count as u32, AMPLE), Err(18));
}

#[test]
fn sixty_lines_and_fewer_only_on_the_last_page() {
    // The first record has 0 grams, and any other as many as its number.
    for opened in [1, 2, 59, 60, 61, 62, 119, 120, 121, 180, 600, 4095, 4096] {
        let log = flat(&(1..opened as i32).collect::<Vec<_>>());
        let sum = opened * (opened - 1) / 2;
        for mode in MODES {
            let first = in_mode(mode, [sum, opened - 1, sum, 31 * sum]);
            assert_pages(&log, mode, opened, |number| if number == 0 { (0, first) } else { (1, number) });
        }
    }
    // How many pages there are, and how many lines the last of them has.
    for (opened, pages, last) in [(1, 1, 1), (59, 1, 59), (60, 1, 60), (61, 2, 1), (120, 2, 60), (121, 3, 1), (4096, 69, 16)] {
        let log = flat(&vec![1; opened - 1]);
        assert_eq!(sheet(&log, 1, pages - 1, AMPLE).map(|page| page.len()), Ok(27 * last), "{opened} records");
        assert_eq!(sheet(&log, 1, pages, AMPLE), Err(18), "{opened} records");
    }
}

#[test]
fn records_that_are_closed_after_their_page() {
    // 64 records, each holding the next: 60 and 4. Of a stamp the last is 1, and any other 1 + 31
    // times the next.
    let log = chain(0, 63, 1);
    let stamp = |number| (number..64).fold(0, |stamp: i64, _| (1 + 31 * stamp) % RANGE);
    for mode in MODES {
        assert_pages(&log, mode, 64, |number| (number, in_mode(mode, [64 - number, 64 - number, 64 - number, stamp(number)])));
    }
    // 60 and as many more in the last of them, of a gram each.
    let log = chain_around(0, 59, 1, leaf(60, 1).repeat(60));
    assert_pages(&log, 1, 120, |number| if number < 60 { (number, 120 - number) } else { (60, 1) });
    assert_pages(&log, 2, 120, |number| if number < 60 { (number, 61 - number) } else { (60, 1) });
}

#[test]
fn the_last_record_counts_in_the_first_line() {
    for opened in [2, 60, 61, 4096] {
        for last in [LEAST, -5, 0, 7, GREATEST] {
            let log = around(0, 0, &[leaf(1, 1).repeat(opened - 2), leaf(1, last)]);
            let (opened, last) = (opened as i64, i64::from(last));
            let line = |number| match number {
                0 => (0, opened - 2 + last),
                _ => (1, if number == opened - 1 { last } else { 1 }),
            };
            assert_pages(&log, 1, opened, line);
        }
    }
}

#[test]
fn longest_logs_that_are_deep() {
    // Under the first record 65 lines of 63, 4,096 records of a gram.
    let log = around(0, 1, &vec![chain(1, 63, 1); 65]);
    assert_eq!(log.len(), 65_536);
    let place = |number: i64| (number - 1) % 63;
    for mode in [1, 5] {
        assert_pages(&log, mode, 4096, |number| if number == 0 { (0, 4096) } else { (1 + place(number), 63 - place(number)) });
    }
    assert_pages(&log, 2, 4096, |number| if number == 0 { (0, 64) } else { (1 + place(number), 63 - place(number)) });
    // 63 records down, of which the last holds 4,033.
    let log = chain_around(0, 62, 1, leaf(63, 1).repeat(4033));
    assert_eq!(log.len(), 65_536);
    assert_pages(&log, 1, 4096, |number| if number < 63 { (number, 4096 - number) } else { (63, 1) });
    assert_pages(&log, 2, 4096, |number| if number < 63 { (number, 64 - number) } else { (63, 1) });
}

/// Logs of 1, 3, 60, 61 and 4,096 records.
fn logs_of_all_lengths() -> [Vec<u8>; 5] {
    [leaf(0, 1), log_d().concat(), flat(&[1; 59]), flat(&[1; 60]), longest_log()]
}

#[test]
fn a_page_past_the_last_record_gets_18() {
    for (log, pages) in logs_of_all_lengths().iter().zip([1, 1, 1, 2, 69]) {
        for mode in MODES.map(u32::from) {
            assert!(sheet(log, mode, pages - 1, AMPLE).is_ok());
            for page in [pages, pages + 1, 70, 255, 256, 1000, 65_535, 65_536, 1 << 31, u32::MAX - 1, u32::MAX] {
                // The buffer is looked at last.
                for capacity in [0, 26, 27, AMPLE - 1, AMPLE, 65_536] {
                    assert_eq!(sheet(log, mode, page, capacity), Err(18), "page {page}, {capacity} bytes");
                }
            }
        }
    }
}

#[test]
fn sixty_times_the_page_does_not_wrap() {
    // 2^32 + 44; 2 × 2^32 + 28; and 15, 30 and 45 times 2^32.
    assert_eq!([71_582_789, 143_165_577].map(|page: u64| 60 * page), [4_294_967_340, 8_589_934_620]);
    assert_eq!([1 << 30, 1 << 31, 3 << 30].map(|page: u64| 60 * page), [15 << 32, 30 << 32, 45 << 32]);
    // Times 60 these are 2^31 + 52 and 2^32 - 16; 2^16 times 15 and one page more; 60, 4,080 and 120 modulo 2^32; and the last page.
    let others = [35_791_395, 71_582_788, 1 << 14, (1 << 14) + 1, (1 << 30) + 1, (1 << 30) + 68, (1 << 31) + 2, u32::MAX];
    for log in logs_of_all_lengths() {
        for page in [71_582_789, 143_165_577, 1 << 30, 1 << 31, 3 << 30].into_iter().chain(others) {
            for capacity in [0, 27, AMPLE] {
                assert_eq!(sheet(&log, 1, page, capacity), Err(18), "page {page}");
            }
        }
    }
}

#[test]
fn modes_out_of_use_get_1_before_all_else() {
    let good = logs_of_all_lengths().into_iter().map(|log| (log, 0));
    for (log, _) in good.chain(faulty_logs()) {
        for mode in NO_MODES {
            for (page, capacity) in [(0, AMPLE), (0, 0), (1, AMPLE), (70, 26), (u32::MAX, 0)] {
                assert_eq!(sheet(&log, mode, page, capacity), Err(1), "mode {mode}, {} bytes", log.len());
            }
        }
    }
}

#[test]
fn a_log_with_a_fault_gets_its_number_on_every_page() {
    for (log, number) in faulty_logs() {
        for mode in MODES.map(u32::from) {
            for page in [0, 1, 68, 69, 71_582_789, u32::MAX] {
                for capacity in [0, 26, 27, AMPLE] {
                    assert_eq!(sheet(&log, mode, page, capacity), Err(number), "{} bytes, page {page}", log.len());
                }
            }
        }
        assert_eq!(day(&log), Err(number));
    }
}

/// A whole log with a fault behind all its opens, and the fault's number.
pub fn spoilt_at_its_end(log: &[u8]) -> [(Vec<u8>, u8); 8] {
    let after = |record: Vec<u8>| [log.to_vec(), record].concat();
    [
        (after(vec![6]), 3),
        (after(close(64)), 3),
        (log[..log.len() - 1].to_vec(), 3),
        (after(close(1)), 7),
        (after(short(1, 9)), 7),
        (after(leaf(0, 9)), 8),
        (after(short(0, 9)), 8),
        (log[..log.len() - 6].to_vec(), 11),
    ]
}

#[test]
fn a_fault_behind_the_page_counts() {
    // 100 records: the first page has all its lines before the fault.
    let log = flat(&[1; 99]);
    assert_pages(&log, 1, 100, |number| if number == 0 { (0, 99) } else { (1, 1) });
    // And one that is before it, at the front.
    let headless = (log[10..].to_vec(), 11);
    for (log, number) in spoilt_at_its_end(&log).into_iter().chain([headless]) {
        for (page, capacity) in [(0, AMPLE), (1, AMPLE), (2, AMPLE), (0, 0), (1, 1079), (2, 0)] {
            assert_eq!(sheet(&log, 1, page, capacity), Err(number), "{} bytes, page {page}", log.len());
        }
    }
}

#[test]
fn exact_fits_and_a_byte_less_gets_12() {
    for (opened, page, lines) in [(1, 0, 1), (2, 0, 2), (59, 0, 59), (60, 0, 60), (61, 0, 60), (61, 1, 1), (4096, 68, 16)] {
        let log = flat(&vec![1; opened - 1]);
        let exact = 27 * lines;
        for capacity in [0, 1, 26, exact - 27, exact - 2, exact - 1] {
            assert_eq!(sheet(&log, 1, page, capacity), Err(12), "{capacity} bytes for {exact}");
        }
        // As long as the page, and not as the longest one or as the whole sheet.
        for capacity in [exact, exact + 1, exact + 26, exact + 27, AMPLE, 27 * opened, 65_536] {
            assert_eq!(sheet(&log, 1, page, capacity).map(|page| page.len()), Ok(exact), "{capacity} bytes for {exact}");
        }
    }
    let log = log_d().concat();
    for capacity in 0..81 {
        assert_eq!(sheet(&log, 1, 0, capacity), Err(12));
    }
}
