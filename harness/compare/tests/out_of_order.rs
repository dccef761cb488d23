//! Summaries that are merged out of order, twice or not at all. Where the levels meet nothing is refused, and the figures of another
//! log come out: docs/HOW-WE-KNOW.md has this example.

use compare::calls;
use reference::mode::Mode;
use tulghimo::example::four_stretches;

/// The figures of some of the four stretches, in this order, by summaries. They must be what the reference says of the joined bytes.
fn figures(order: &[usize]) -> [i64; 4] {
    let stretches = four_stretches();
    let chosen: Vec<&[u8]> = order.iter().map(|number| &stretches[number - 1][..]).collect();
    let figure = |mode: Mode| {
        let sent: Vec<u8> =
            chosen.iter().flat_map(|stretch| calls::summarise(stretch, mode.number(), 1788).expect("readable")).collect();
        calls::finish(&calls::merge_row(&sent, 1788).expect("summaries of one mode")).expect("no refusal")
    };
    let figures = Mode::ALL.map(figure);
    assert_eq!(Ok(figures), reference::calls::day(&chosen.concat()));
    figures
}

#[test]
fn two_tanks() {
    // Tank 1 has 5 g, of which 4 count, and tank 2 has 3 g. The stamp is 31 × (31 × 5 + 31 × 3).
    assert_eq!(figures(&[1, 2, 3, 4]), [8, 5, 7, 7688]);
    // Tank 1 has 3 g and 5 g, of which 4 count, and tank 2 nothing.
    assert_eq!(figures(&[1, 3, 2, 4]), [8, 5, 4, 7688]);
    // Without the 3 g: 31 × 31 × 5.
    assert_eq!(figures(&[1, 2, 4]), [5, 5, 4, 4805]);
    // With the 3 g twice: 4 + 6, and 31 × 31 × 11.
    assert_eq!(figures(&[1, 2, 3, 3, 4]), [11, 5, 10, 10571]);
}

#[test]
fn neighbours_in_any_order() {
    let sent = four_stretches().map(|stretch| calls::summarise(&stretch, 5, 1788).expect("readable"));
    let merge = |left: &[u8], right: &[u8]| calls::merge(left, right, 1788).expect("of one mode");
    let [one, two, three, four] = &sent;
    let orders = [
        merge(&merge(&merge(one, two), three), four),
        merge(&merge(one, &merge(two, three)), four),
        merge(&merge(one, two), &merge(three, four)),
        merge(one, &merge(&merge(two, three), four)),
        merge(one, &merge(two, &merge(three, four))),
    ];
    for whole in orders {
        assert_eq!(calls::finish(&whole), Ok(7));
    }
}

#[test]
fn a_lost_end_is_refused() {
    let sent = four_stretches().map(|stretch| calls::summarise(&stretch, 5, 1788).expect("readable"));
    for rest in [&sent[1..], &sent[..3]] {
        assert_eq!(calls::finish(&calls::merge_row(&rest.concat(), 1788).expect("of one mode")), Err(11));
    }
}
