//! Bytes and their hexadecimal digits.

/// The text is not hexadecimal, or has too many or too few digits for the bytes.
#[derive(Debug)]
pub struct FromHexError;

const DIGITS: &[u8; 16] = b"0123456789abcdef";

/// Writes two lower-case digits for each byte.
pub fn encode_to_slice(bytes: &[u8], digits: &mut [u8]) -> Result<(), FromHexError> {
    if digits.len() != 2 * bytes.len() {
        return Err(FromHexError);
    }
    for (pair, byte) in digits.chunks_exact_mut(2).zip(bytes) {
        pair[0] = DIGITS[usize::from(byte >> 4)];
        pair[1] = DIGITS[usize::from(byte & 15)];
    }
    Ok(())
}

/// Reads each byte from two digits of either case.
#[inline]
pub fn decode_to_slice(digits: &[u8], bytes: &mut [u8]) -> Result<(), FromHexError> {
    if digits.len() != 2 * bytes.len() {
        return Err(FromHexError);
    }
    let mut seen = 0;
    for (byte, pair) in bytes.iter_mut().zip(digits.chunks_exact(2)) {
        let [high, low] = [pair[0], pair[1]].map(|digit| VALUES[usize::from(digit)]);
        seen |= high | low;
        *byte = high << 4 | low;
    }
    if seen > 15 { Err(FromHexError) } else { Ok(()) }
}

/// The value of each byte as a digit, or more than 15 if it is not one.
static VALUES: [u8; 256] = {
    let mut values = [0; 256];
    let mut byte = 0;
    while byte < 256 {
        values[byte] = value(byte as u8);
        byte += 1;
    }
    values
};

const fn value(digit: u8) -> u8 {
    match digit {
        b'0'..=b'9' => digit - b'0',
        b'a'..=b'f' => digit - b'a' + 10,
        b'A'..=b'F' => digit - b'A' + 10,
        _ => u8::MAX,
    }
}
