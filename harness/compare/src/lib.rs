//! Lent buffers and states with guards around them, for comparing what a call leaves in every byte; [`agree`] compares each call so,
//! and [`calls`] has the library's calls with the reference's signatures.

pub mod agree;
pub mod calls;

/// Numbers that no call answers: a field that still holds one was not written.
pub const UNTOUCHED: i64 = 0x5aa5_1234_5aa5_4321;

/// `N` numbers lent to a call, between guards.
pub struct LentNumbers<const N: usize> {
    before: [i64; 4],
    lent: [i64; N],
    after: [i64; 4],
}

impl<const N: usize> Default for LentNumbers<N> {
    fn default() -> Self {
        LentNumbers { before: [UNTOUCHED; 4], lent: [UNTOUCHED; N], after: [UNTOUCHED; 4] }
    }
}

impl<const N: usize> LentNumbers<N> {
    /// What the call answers, and what it left in the numbers. The guards must be as they were.
    pub fn lend(mut self, call: impl FnOnce(&mut [i64; N]) -> i64) -> (i64, [i64; N]) {
        let answer = call(&mut self.lent);
        assert_eq!(self.before, [UNTOUCHED; 4], "written before the buffer");
        assert_eq!(self.after, [UNTOUCHED; 4], "written past the buffer");
        (answer, self.lent)
    }
}

/// What a call with `N` numbers must come to: 0 and the numbers, or minus the refusal and the numbers as they were.
pub fn numbers_outcome<const N: usize>(expected: Result<[i64; N], u8>) -> (i64, [i64; N]) {
    match expected {
        Ok(numbers) => (0, numbers),
        Err(number) => (-i64::from(number), [UNTOUCHED; N]),
    }
}

/// Bytes lent to a call, between guards. They are filled with a pattern, so that a byte that was not written shows.
pub struct LentBytes {
    all: Vec<u8>,
    capacity: usize,
}

const GUARD: usize = 64;

/// So many bytes, no two next to each other alike.
fn pattern(length: usize) -> Vec<u8> {
    (0..length).map(|place| (place * 37 + 11) as u8).collect()
}

impl LentBytes {
    pub fn new(capacity: usize) -> LentBytes {
        LentBytes { all: pattern(capacity + 2 * GUARD), capacity }
    }

    /// What the call comes to: the bytes that it answers to have written, or its refusal. All other bytes, those of the guards with
    /// them, must be as they were.
    pub fn lend(mut self, call: impl FnOnce(&mut [u8]) -> i64) -> Result<Vec<u8>, u8> {
        let before = self.all.clone();
        let answer = call(&mut self.all[GUARD..GUARD + self.capacity]);
        let written = usize::try_from(answer).unwrap_or(0);
        assert!(written <= self.capacity, "{written} bytes answered, and {} lent", self.capacity);
        let places = GUARD..GUARD + written;
        assert_eq!(self.all[..places.start], before[..places.start], "written before the buffer");
        assert_eq!(self.all[places.end..], before[places.end..], "written past the result");
        if answer < 0 {
            return Err(u8::try_from(-answer).expect("a refusal's number"));
        }
        Ok(self.all[places].to_vec())
    }

    /// The call's answer, where it comes to what it must.
    pub fn check(self, expected: &Result<Vec<u8>, u8>, call: impl FnOnce(&mut [u8]) -> i64) -> i64 {
        let capacity = self.capacity;
        let outcome = self.lend(call);
        assert_eq!(&outcome, expected, "the library's and the reference's, with {capacity} bytes lent");
        outcome.map_or_else(|number| -i64::from(number), |written| written.len() as i64)
    }
}

/// What a call on a state answers; the state is then as the call left it. It is lent as a copy between guards, which stands so many
/// bytes past an address that is a multiple of 16. All bytes around it must be as they were, and where the call is refused those of the
/// state too.
pub fn lend_state<const N: usize>(state: &mut [u8; N], past: usize, call: impl FnOnce(&mut [u8; N]) -> i64) -> i64 {
    let mut all = pattern(16 + GUARD + past + N + GUARD);
    let first = all.as_ptr().align_offset(16) + GUARD + past;
    all[first..first + N].copy_from_slice(state);
    let before = all.clone();
    let answer = call((&mut all[first..first + N]).try_into().expect("as many bytes"));
    let left = &all[first..first + N];
    assert_eq!(all[..first], before[..first], "written before the state");
    assert_eq!(all[first + N..], before[first + N..], "written past the state");
    assert!(answer >= 0 || left == state, "the state moved beside the answer {answer}");
    state.copy_from_slice(left);
    answer
}

/// Buffers around the length of a result: all up to a short one, a few around a long one, and a much longer one.
pub fn capacities(ample: &Result<Vec<u8>, u8>) -> Vec<usize> {
    match ample.as_ref().map(Vec::len) {
        Ok(exact) if exact <= 16 => (0..=exact + 2).chain([exact + 300]).collect(),
        Ok(exact) => vec![0, 6, exact - 2, exact - 1, exact, exact + 1, exact + 2, exact + 300],
        Err(_) => vec![0, 6, 300],
    }
}

#[cfg(test)]
mod tests {
    use super::{lend_state, LentBytes};
    use std::panic::catch_unwind;

    /// Whether a call passes that answers a number and writes these bytes at a place, where two bytes 7 are wanted in six.
    fn passes(answer: i64, place: usize, written: &'static [u8]) -> bool {
        let call = move |out: &mut [u8]| {
            out[place..place + written.len()].copy_from_slice(written);
            answer
        };
        catch_unwind(move || LentBytes::new(6).check(&Ok(vec![7, 7]), call)).is_ok()
    }

    #[test]
    fn a_wrong_answer_or_byte_is_noticed() {
        assert!(passes(2, 0, &[7, 7]));
        assert!(!passes(3, 0, &[7, 7]));
        assert!(!passes(-12, 0, &[7, 7]));
        assert!(!passes(2, 0, &[7]));
        assert!(!passes(2, 1, &[7, 7]));
        assert!(!passes(2, 0, &[7, 7, 0]));
    }

    #[test]
    fn a_byte_in_a_guard_is_noticed() {
        for beyond in [-1, 6] {
            let call = move |out: &mut [u8]| {
                out[..2].fill(7);
                // SAFETY: the guards stand in the same allocation as the lent bytes.
                unsafe { *out.as_mut_ptr().offset(beyond) ^= 1 };
                2
            };
            assert!(catch_unwind(move || LentBytes::new(6).check(&Ok(vec![7, 7]), call)).is_err());
        }
    }

    #[test]
    fn a_state_is_lent_as_it_is_and_left_as_the_call_left_it() {
        for past in 0..16 {
            let mut state = [1, 2, 3];
            let answer = lend_state(&mut state, past, |lent| {
                assert_eq!(lent.as_ptr() as usize % 16, past);
                assert_eq!(*lent, [1, 2, 3]);
                lent[1] = 9;
                0
            });
            assert_eq!((answer, state), (0, [1, 9, 3]));
        }
    }

    #[test]
    fn a_refused_call_that_moves_the_state_is_noticed() {
        assert_eq!(lend_state(&mut [1, 2, 3], 5, |_| -20), -20);
        let moves = |lent: &mut [u8; 3]| {
            lent[2] = 4;
            -20
        };
        assert!(catch_unwind(move || lend_state(&mut [1, 2, 3], 5, moves)).is_err());
    }

    #[test]
    fn a_byte_around_a_state_is_noticed() {
        for beyond in [-64, -1, 3, 66] {
            let call = move |lent: &mut [u8; 3]| {
                // SAFETY: the guards stand in the same allocation as the state.
                unsafe { *lent.as_mut_ptr().offset(beyond) ^= 1 };
                0
            };
            assert!(catch_unwind(move || lend_state(&mut [1, 2, 3], 7, call)).is_err());
        }
    }
}
