//! Big-endian numbers in byte strings.

/// The float whose 64-bit pattern stands at `at`.
pub(crate) fn f64_at(bytes: &[u8], at: usize) -> f64 {
    let mut pattern = [0; 8];
    pattern.copy_from_slice(&bytes[at..at + 8]);
    f64::from_be_bytes(pattern)
}

/// `count` floats, one after the other, from `at`.
pub(crate) fn f64s_at(bytes: &[u8], at: usize, count: usize) -> Vec<f64> {
    (0..count).map(|j| f64_at(bytes, at + 8 * j)).collect()
}

/// The 4-byte length at `at`.
pub(crate) fn length_at(bytes: &[u8], at: usize) -> usize {
    let mut length = [0; 4];
    length.copy_from_slice(&bytes[at..at + 4]);
    u32::from_be_bytes(length) as usize
}

/// Appends floats to a byte string.
pub(crate) fn put_f64s(bytes: &mut Vec<u8>, values: &[f64]) {
    for value in values {
        bytes.extend(value.to_be_bytes());
    }
}

/// A count as one byte. A count that no byte holds becomes 255, which the engine turns away.
pub(crate) fn count_byte(count: usize) -> u8 {
    count.min(255) as u8
}
