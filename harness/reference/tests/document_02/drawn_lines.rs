//! The generated logs have lines of all kinds, and ties on the way down.

use reference::gen::logs::{any_log, log_with_ties};
use reference::gen::Rng;
use reference::heaviest_line::line_of;
use reference::log::{held, opens};
use reference::mode::Mode;
use reference::record::Record;
use reference::tree::{figure, open_at, subtree};

/// What is seen at the steps of lines, by how many of them.
#[derive(Debug, Default)]
struct Seen {
    steps: usize,
    /// The record holds others beside the one that is taken.
    choices: usize,
    /// A later one has the same figure.
    equal_later: usize,
    /// And there is an earlier one, which has less.
    less_earlier: usize,
    /// One of the same figure has a greater value.
    other_value: usize,
    /// The greatest held figure is below 0.
    below_0: usize,
    /// The greatest held figure is 0.
    is_0: usize,
}

impl Seen {
    /// A step from the record opened at a place to one of those that it holds.
    fn step(&mut self, log: &[Record], place: usize, next: usize) {
        let held = held(log, place);
        let of = |place: usize| figure(Mode::Heaviest, &subtree(log, place));
        let value = |place: usize| open_at(log, place).value;
        let greatest = of(next);
        let equals: Vec<usize> = held.iter().copied().filter(|&other| other != next && of(other) == greatest).collect();
        self.steps += 1;
        self.choices += usize::from(held.len() > 1);
        self.equal_later += usize::from(!equals.is_empty());
        self.less_earlier += usize::from(!equals.is_empty() && held[0] < next);
        self.other_value += usize::from(equals.into_iter().any(|other| value(other) > value(next)));
        self.below_0 += usize::from(greatest < 0);
        self.is_0 += usize::from(greatest == 0);
    }

    /// All steps of a log's line; its length.
    fn line(&mut self, log: &[Record]) -> usize {
        let places: Vec<usize> = line_of(log).into_iter().map(|number| opens(log)[number]).collect();
        places.windows(2).for_each(|pair| self.step(log, pair[0], pair[1]));
        places.len()
    }
}

#[test]
fn logs_with_ties_have_them_at_many_steps() {
    let mut rng = Rng::new(0x721);
    let mut seen = Seen::default();
    let mut lengths = [0; 65];
    for _ in 0..1000 {
        lengths[seen.line(&log_with_ties(&mut rng, 60))] += 1;
    }
    assert!(3 * seen.equal_later > seen.choices && 10 * seen.less_earlier > seen.choices, "{seen:?}");
    assert!(seen.other_value > 40 && seen.below_0 > 200 && seen.is_0 > 200, "{seen:?}");
    // Lines of one record, of a few and of many.
    assert!(lengths[1] > 10 && lengths[2..10].iter().all(|&count| count > 10), "{lengths:?}");
    assert!(lengths[20..].iter().sum::<usize>() > 10, "{lengths:?}");
}

#[test]
fn long_logs_have_lines_of_64() {
    let mut rng = Rng::new(0x722);
    let mut seen = [0; 2];
    for _ in 0..120 {
        for (seen, log) in seen.iter_mut().zip([any_log(&mut rng, 800), log_with_ties(&mut rng, 800)]) {
            *seen += usize::from(line_of(&log).len() == 64);
        }
    }
    assert!(seen.iter().all(|&count| count > 4), "{seen:?}");
}
