//! A row: how it is cut into pieces, how it is merged half with half, and demand 3's
//! row under lists of merges.

use reference::calls::{finish, summarise, work};
use reference::gen::forged::neighbours;
use reference::gen::logs::{any_log, cut, encode_mixed, merge_list, with_fault};
use reference::gen::raw::{blank, spoilt};
use reference::gen::Rng;
use reference::log::fault;
use reference::merge::merge;
use reference::mode::Mode;
use reference::record::Record;
use reference::replay::{replay, Stretches};
use reference::row::{left_half, merge_row, pieces};
use reference::tree::log_figure;

fn lengths(row: &[u8]) -> Vec<usize> {
    pieces(row).iter().map(|piece| piece.len()).collect()
}

#[test]
fn pieces_of_a_row() {
    assert_eq!(lengths(&[]), Vec::<usize>::new());
    // "where one byte is left .. the rest is the last piece"
    assert_eq!(lengths(&[6]), [1]);
    assert_eq!(lengths(&[blank(1), vec![6]].concat()), [6, 1]);
    // "a length is below 6"
    for length in 0..6 {
        let rest = [vec![length, 0], vec![0; 9]].concat();
        assert_eq!(lengths(&rest), [11]);
        assert_eq!(lengths(&[blank(1), rest.clone(), blank(1)].concat()), [6, 17]);
        assert_eq!(lengths(&[length, 0]), [2]);
    }
    // "or runs past the end"
    assert_eq!(lengths(&[6, 0, 0, 0, 0]), [5]);
    assert_eq!(lengths(&[7, 0, 0, 0, 0, 0]), [6]);
    assert_eq!(lengths(&[0, 1, 0, 0, 0, 0]), [6]);
    assert_eq!(lengths(&[blank(1), vec![0xff; 40]].concat()), [6, 40]);
    // Lengths are all that counts, not what stands after them.
    assert_eq!(lengths(&[6, 0, 9, 9, 9, 9, 7, 0, 9, 9, 9, 9, 9]), [6, 7]);
    let row = [spoilt(1, 7, 0, 0, 0), blank(2), spoilt(5, 9, 0, 0, 1)].concat();
    assert_eq!(lengths(&row), [16, 6, 16]);
    // A length of 16 bits, both bytes of it: 0x0102 = 258.
    let long = [vec![2, 1], vec![0; 256]].concat();
    assert_eq!(lengths(&[long.clone(), long].concat()), [258, 258]);
}

#[test]
fn halves_of_a_row() {
    // "the left half having the odd one"
    let halves: Vec<usize> = [2, 3, 4, 5, 7, 63, 64].map(left_half).to_vec();
    assert_eq!(halves, [1, 2, 2, 3, 4, 32, 32]);
    let mut rng = Rng::new(11);
    for mode in Mode::ALL {
        let row = neighbours(&mut rng, mode, 5, 1000);
        // Five: three and two; three: two and one.
        let left = merge(&merge(&row[0], &row[1]), &row[2]);
        let right = merge(&row[3], &row[4]);
        assert_eq!(merge_row(&row), merge(&left, &right));
    }
}

/// The row of demand 3: what summarise writes for the chunks.
fn first_row(rng: &mut Rng, mode: Mode, chunks: &[Vec<Record>]) -> Vec<Vec<u8>> {
    chunks.iter().map(|chunk| summarise(&encode_mixed(rng, chunk), mode.number(), 4096).unwrap()).collect()
}

/// Demand 3 on one log, cut, mode and list.
fn demand_3(rng: &mut Rng, log: &[Record], most_chunks: usize) {
    let mode = rng.pick(&Mode::ALL);
    let count = 2 + rng.below(most_chunks - 1);
    let chunks = cut(rng, log, count);
    let row = first_row(rng, mode, &chunks);
    let steps = merge_list(rng, mode, &chunks);
    let mut stretches = Stretches { mode, stretches: chunks };
    assert_eq!(row, stretches.row(), "summarise");
    let expected: Vec<_> = steps.iter().map(|step| stretches.step(step)).collect();
    let (answers, last_row) = replay(row.clone(), &steps);
    assert_eq!(answers, expected);
    assert_eq!(last_row, stretches.row());
    let outcome = match fault(log) {
        Some(number) => Err(number),
        None => Ok(log_figure(mode, log)),
    };
    if last_row.len() == 1 {
        assert_eq!(finish(&last_row[0]), outcome);
    }
    assert_eq!(work(&row.concat()).map(|answer| answer.0), outcome);
}

#[test]
fn demand_3_on_well_formed_logs() {
    let mut rng = Rng::new(301);
    for _ in 0..1500 {
        let log = any_log(&mut rng, 40);
        demand_3(&mut rng, &log, 9);
    }
    for _ in 0..60 {
        let log = any_log(&mut rng, 300);
        demand_3(&mut rng, &log, 64);
    }
}

#[test]
fn demand_3_on_logs_with_a_fault() {
    let mut rng = Rng::new(302);
    for number in [7, 8, 10, 11] {
        for _ in 0..300 {
            let log = with_fault(&mut rng, number);
            assert_eq!(fault(&log), Some(number));
            demand_3(&mut rng, &log, 9);
        }
    }
}

#[test]
fn lists_have_refusals_and_whole_rows_in_them() {
    // The lists that the tests above replay are not all of one kind.
    let mut rng = Rng::new(303);
    let (mut refused, mut taken, mut merged_to_one) = (0, 0, 0);
    for _ in 0..200 {
        let log = any_log(&mut rng, 40);
        let chunks = cut(&mut rng, &log, 8);
        let row = first_row(&mut rng, Mode::Net, &chunks);
        let (answers, last) = replay(row, &merge_list(&mut rng, Mode::Net, &chunks));
        refused += answers.iter().filter(|answer| **answer == Err(12)).count();
        taken += answers.iter().filter(|answer| answer.is_ok()).count();
        merged_to_one += usize::from(last.len() == 1);
    }
    assert!(refused > 100 && taken > 400 && merged_to_one > 100);
}
