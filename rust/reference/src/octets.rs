//! "Numbers in a file": big-endian; signed fields are sign and magnitude.

/// The unsigned number that these octets write, most significant first.
pub fn unsigned(octets: &[u8]) -> u64 {
    octets.iter().fold(0, |number, octet| number << 8 | u64::from(*octet))
}

/// The magnitude of a sign-and-magnitude number: all but the topmost bit.
pub fn magnitude(octets: &[u8]) -> u64 {
    unsigned(octets) & !(1 << (8 * octets.len() - 1))
}

/// The sign-and-magnitude number that these octets write: 0x8005 is -5, 0x8000 is zero.
pub fn signed(octets: &[u8]) -> i64 {
    let size = magnitude(octets) as i64;
    if octets[0] >= 0x80 {
        -size
    } else {
        size
    }
}

/// The two octets of a number in the sign-and-magnitude form; zero has no sign.
pub fn signed16(number: i32) -> [u8; 2] {
    let size = u16::try_from(number.unsigned_abs()).expect("a number of 15 bits");
    (if number < 0 { size | 0x8000 } else { size }).to_be_bytes()
}

#[cfg(test)]
mod tests {
    use super::*;

    #[test]
    fn signs() {
        assert_eq!(signed(&[0x80, 0x05]), -5);
        assert_eq!(signed(&[0x80, 0x00]), 0);
        assert_eq!(signed(&[0x00, 0x05]), 5);
        assert_eq!(signed(&[0xFF, 0xFF]), -32767);
        assert_eq!(signed(&[0x80, 0, 1, 0]), -256);
        assert_eq!(unsigned(&[1, 2, 3, 4, 5, 6, 7, 8]), 0x0102_0304_0506_0708);
        assert_eq!(signed16(-7000), [0x9B, 0x58]);
        assert_eq!(signed16(0), [0, 0]);
    }
}
