//! "Numbers are little-endian; signed ones are two's complement."

/// The unsigned number in a few bytes, the first byte counting least.
pub fn unsigned(bytes: &[u8]) -> u64 {
    let mut number = 0;
    for &byte in bytes.iter().rev() {
        number = number * 256 + u64::from(byte);
    }
    number
}

/// The signed number in a few bytes: from half the range on, the range is taken off.
pub fn signed(bytes: &[u8]) -> i64 {
    let range = 1i128 << (8 * bytes.len());
    let number = i128::from(unsigned(bytes));
    let number = if number < range / 2 { number } else { number - range };
    number as i64
}

/// Adds a number, signed or not, as `width` bytes.
pub fn put(out: &mut Vec<u8>, number: i64, width: usize) {
    let mut rest = i128::from(number).rem_euclid(1i128 << (8 * width));
    for _ in 0..width {
        out.push((rest % 256) as u8);
        rest /= 256;
    }
}
