//! The plain recursion in C, `c/recursion.c`.

use tulghimo::Mode;

mod ffi {
    extern "C" {
        pub fn plain_net(log: *const u8, length: usize, figure: *mut i64) -> bool;
        pub fn plain_heaviest(log: *const u8, length: usize, figure: *mut i64) -> bool;
        pub fn plain_eaten(log: *const u8, length: usize, figure: *mut i64) -> bool;
        pub fn plain_stamp(log: *const u8, length: usize, figure: *mut i64) -> bool;
        pub fn plain_all(log: *const u8, length: usize, figures: *mut i64) -> bool;
    }
}

/// The figure of a well-formed log in one mode.
pub fn figure(log: &[u8], mode: Mode) -> Option<i64> {
    let recursion = match mode {
        Mode::Net => ffi::plain_net,
        Mode::Heaviest => ffi::plain_heaviest,
        Mode::Eaten => ffi::plain_eaten,
        Mode::Stamp => ffi::plain_stamp,
    };
    let mut figure = 0;
    // SAFETY: the slice has as many bytes as it is said to have, and one number may be stored.
    unsafe { recursion(log.as_ptr(), log.len(), &mut figure) }.then_some(figure)
}

/// All four figures of a well-formed log.
pub fn figures(log: &[u8]) -> Option<[i64; 4]> {
    let mut figures = [0; 4];
    // SAFETY: the slice has as many bytes as it is said to have, and four numbers may be stored.
    unsafe { ffi::plain_all(log.as_ptr(), log.len(), figures.as_mut_ptr()) }.then_some(figures)
}

#[cfg(test)]
mod tests {
    use super::{figure, figures};
    use reference::gen::damage::{damage, noise};
    use reference::gen::logs::{any_log, encode_mixed, flat, with_fault};
    use reference::gen::raw::{close, short, words};
    use reference::gen::Rng;
    use reference::record::encode_all;
    use tulghimo::Mode;

    /// The recursion gives what the library gives, in each mode and for all four, and has no figure where the library refuses.
    fn agrees(log: &[u8]) -> bool {
        let mut stored = [0; 4];
        let expected = (tulghimo::raw::day(log, &mut stored) == 0).then_some(stored);
        assert_eq!(figures(log), expected, "{log:?}");
        for (place, mode) in Mode::ALL.into_iter().enumerate() {
            assert_eq!(figure(log, mode), expected.map(|all| all[place]), "{mode:?}: {log:?}");
        }
        expected.is_some()
    }

    #[test]
    fn agrees_with_the_library_on_good_and_damaged_logs() {
        let mut rng = Rng::new(1);
        let mut good = [0, 0];
        for _ in 0..20_000 {
            let records = any_log(&mut rng, 40);
            let log = encode_mixed(&mut rng, &records);
            assert!(agrees(&log));
            good[usize::from(agrees(&damage(&mut rng, &log)))] += 1;
            agrees(&noise(&mut rng, 40));
        }
        assert!(good.iter().all(|&count| count > 1_000), "{good:?}");
    }

    #[test]
    fn agrees_with_the_library_on_logs_with_each_fault() {
        let mut rng = Rng::new(2);
        for fault in [7, 8, 10, 11] {
            for _ in 0..1_000 {
                assert!(!agrees(&encode_all(&with_fault(&mut rng, fault))));
            }
        }
    }

    /// One record of any length and kind, and of a depth that may not meet the ones around it, closed as it is opened.
    #[test]
    fn agrees_with_the_library_on_every_length_kind_and_depth() {
        for length in 0..=24 {
            for (kind, depth) in (0..=4).flat_map(|kind| [0, 1, 2, 63, 64].map(|depth| (kind, depth))) {
                let mut record = words(&[length, kind, depth]);
                record.resize(usize::from(length.max(6)), 0);
                agrees(&[short(0, 1), record.clone()].concat());
                agrees(&[short(0, 1), record.clone(), close(0)].concat());
                agrees(&[short(0, 1), record, close(depth), close(0)].concat());
            }
        }
    }

    /// 5 over -8, both short: -3, which only eaten raises to 0. Stamp 5 - 31 × 8, modulo 2^32.
    #[test]
    fn a_short_record_is_raised_to_0() {
        let log = [short(0, 5), short(1, -8), close(1), close(0)].concat();
        assert!(agrees(&log));
        assert_eq!(figures(&log), Some([-3, -3, 0, 4_294_967_053]));
    }

    #[test]
    fn agrees_with_the_library_at_depth_63_and_64() {
        let down_to = |deepest: u16| {
            (0..=deepest).map(|depth| short(depth, 1)).chain((0..=deepest).rev().map(close)).flatten().collect::<Vec<u8>>()
        };
        assert!(agrees(&down_to(63)));
        assert!(!agrees(&down_to(64)));
    }

    /// The library takes so many in several chunks only.
    #[test]
    fn takes_100_000_opened_and_no_more() {
        assert_eq!(figure(&encode_all(&flat(100_000)), Mode::Net), Some(100_000));
        assert_eq!(figure(&encode_all(&flat(100_001)), Mode::Net), None);
        assert_eq!(figures(&encode_all(&flat(100_001))), None);
    }
}
