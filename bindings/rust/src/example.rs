//! Logs for the examples on these pages: log D of document 01 and its day table, and a day with two tanks.

use crate::TableLine;

/// open 0 value 10 floor 0 ceiling 100; open 1 value 5 floor 0 ceiling 4; close 1; open 1 value -3 floor 0 ceiling 100; close 1;
/// close 0.
pub const LOG_D: &[u8; 72] = include_bytes!("../../../samples/d.log");

/// The day table of log D.
pub const TABLE_D: [TableLine; 3] = [
    TableLine { depth: 0, value: 10, floor: 0, ceiling: 100 },
    TableLine { depth: 1, value: 5, floor: 0, ceiling: 4 },
    TableLine { depth: 1, value: -3, floor: 0, ceiling: 100 },
];

/// Log D cut after its second record: the stretches of two stations.
pub fn two_stretches() -> (&'static [u8], &'static [u8]) {
    LOG_D.split_at(36)
}

/// A day with two tanks, cut into four stretches. All floors are 0; tank 1 has a ceiling of 4 g, all others are 100 g.
///
/// 1. The site is opened, and tank 1.
/// 2. A meal of 5 g; tank 1 is closed, and tank 2 opened.
/// 3. A meal of 3 g.
/// 4. Tank 2 is closed, and the site.
pub fn four_stretches() -> [Vec<u8>; 4] {
    let open = |depth, grams, ceiling| [18, 0, 1, 0, depth, 0, grams, 0, 0, 0, 0, 0, 0, 0, ceiling, 0, 0, 0];
    let close = |depth| [6, 0, 2, 0, depth, 0];
    [
        [open(0, 0, 100), open(1, 0, 4)].concat(),
        [&open(2, 5, 100)[..], &close(2), &close(1), &open(1, 0, 100)].concat(),
        [&open(2, 3, 100)[..], &close(2)].concat(),
        [close(1), close(0)].concat(),
    ]
}
