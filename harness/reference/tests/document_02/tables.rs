//! The generated tables are what they are meant to be, and of all kinds.

use reference::calls::write_log;
use reference::gen::tables::{any_table, damaged, typed, with_refusal, MOST_LINES};
use reference::gen::Rng;
use reference::table::encode_table;

const AMPLE: usize = 65_520;

#[test]
fn taken_tables_are_of_all_kinds() {
    let mut rng = Rng::new(0x201);
    let (mut deepest, mut flat, mut longest_fall) = (0, 0, 0);
    for _ in 0..500 {
        let table = any_table(&mut rng, 200);
        assert!(write_log(&encode_table(&table), AMPLE).is_ok());
        deepest = deepest.max(table.iter().map(|line| line.depth).max().unwrap());
        flat += usize::from(table.len() > 100 && table.iter().all(|line| line.depth < 2));
        let fall = table.windows(2).map(|pair| pair[0].depth.saturating_sub(pair[1].depth)).max();
        longest_fall = longest_fall.max(fall.unwrap_or(0));
    }
    assert_eq!(deepest, 63);
    assert!(flat > 50 && longest_fall > 55, "{flat} {longest_fall}");
}

#[test]
fn typed_tables_have_as_many_lines_as_asked() {
    let mut rng = Rng::new(0x202);
    assert_eq!(MOST_LINES, 2730);
    for lines in [1, 2, 3, 60, MOST_LINES] {
        assert_eq!(typed(&mut rng, lines).len(), lines);
    }
}

#[test]
fn refused_tables_get_their_number() {
    let mut rng = Rng::new(0x203);
    for number in [2, 3, 10, 13] {
        for _ in 0..500 {
            let table = with_refusal(&mut rng, number);
            for capacity in [0, AMPLE] {
                assert_eq!(write_log(&table, capacity), Err(number), "{table:?}");
            }
        }
    }
}

#[test]
fn damaged_tables_are_refused_or_taken() {
    let mut rng = Rng::new(0x204);
    let mut seen = [0; 14];
    for _ in 0..4000 {
        let lines = 1 + rng.below(12);
        let table = typed(&mut rng, lines);
        let number = write_log(&damaged(&mut rng, &table), AMPLE).err();
        seen[usize::from(number.unwrap_or(0))] += 1;
    }
    assert!([0, 3, 10, 13].iter().all(|&number| seen[number] > 30), "{seen:?}");
}
