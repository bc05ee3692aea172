//! The check of document 01, section "Frames", once more and in another way than in frame.rs: as
//! the remainder of a division of polynomials over bits. No register is shifted here.

/// Polynomial 0x1021 with the x^16 that a 16-bit check leaves unwritten: the powers of x in it.
const POWERS: [usize; 4] = [16, 12, 5, 0];

/// How many bits the remainder has.
const WIDTH: usize = 16;

/// The dividend is the string's bits, high bit of each byte first, and 16 zero bits behind them.
/// The start value goes into its first 16 bits by exclusive-or; there are as many even for no bytes.
/// Nothing is inverted: the remainder is the check.
pub fn check(start: u16, bytes: &[u8]) -> u16 {
    let high_bit_first = |byte: u8| (0..8).rev().map(move |bit| byte >> bit & 1 == 1);
    let with_zeros = bytes.iter().copied().chain([0, 0]);
    let mut dividend: Vec<bool> = with_zeros.flat_map(high_bit_first).collect();
    let start_bits = start.to_be_bytes().into_iter().flat_map(high_bit_first);
    for (bit, start_bit) in dividend.iter_mut().zip(start_bits) {
        *bit ^= start_bit;
    }
    let remainder = divide(dividend);
    remainder
        .iter()
        .fold(0, |number, bit| number << 1 | u16::from(*bit))
}

/// Long division: from the left, wherever a one is left, the polynomial is taken away there.
fn divide(mut dividend: Vec<bool>) -> Vec<bool> {
    let remainder = dividend.len() - WIDTH;
    for place in 0..remainder {
        if dividend[place] {
            for power in POWERS {
                dividend[place + WIDTH - power] ^= true;
            }
        }
    }
    dividend.split_off(remainder)
}

#[cfg(test)]
mod outside_values {
    use super::check;

    /// The catalogue's CRC-16/IBM-3740, CRC-16/XMODEM and CRC-16/SPI-FUJITSU differ in the start.
    #[test]
    fn of_the_catalogue() {
        assert_eq!(check(0xffff, b"123456789"), 0x29b1);
        assert_eq!(check(0x0000, b"123456789"), 0x31c3);
        assert_eq!(check(0x1d0f, b"123456789"), 0xe5cc);
    }

    /// Document 01's known answers 1 to 5.
    #[test]
    fn of_the_known_answers() {
        assert_eq!(check(0xffff, &[2, 1, 0x7a, 0x7b, 0x7c, 0x7d, 0x7e]), 0x9ffa);
        assert_eq!(check(0xffff, &[2, 1]), 0x6b4c);
        assert_eq!(check(0xffff, &[2, 0]), 0x7b6d);
        assert_eq!(check(0xffff, &[2, 0x7d]), 0xd457);
        assert_eq!(check(0xffff, &[]), 0xffff);
    }

    /// Of a length, the check from start 0, from ffff and from 1d0f.
    const OF_PYTHON: [(usize, [u16; 3]); 11] = [
        (0, [0x0000, 0xffff, 0x1d0f]),
        (1, [0xd1ad, 0x305d, 0x1d31]),
        (2, [0x9103, 0x8c0c, 0x15c3]),
        (7, [0xb1e8, 0x4026, 0xa99a]),
        (8, [0x3d8d, 0x0cb3, 0xdcb4]),
        (9, [0x729f, 0x6aed, 0xa690]),
        (15, [0x51d3, 0x1f10, 0x963f]),
        (16, [0x326f, 0x5865, 0x77c4]),
        (17, [0xd62b, 0x11c7, 0x654a]),
        (383, [0x11fd, 0xfc3d, 0xae5f]),
        (387, [0xa52f, 0x3eb4, 0x53ec]),
    ];

    /// Computed with Python's binascii.crc_hqx(bytes, start); byte number i is 167 i + 13.
    #[test]
    fn of_python() {
        for (length, checks) in OF_PYTHON {
            let bytes: Vec<u8> = (0..length).map(|i| (167 * i + 13) as u8).collect();
            assert_eq!(
                [0, 0xffff, 0x1d0f].map(|start| check(start, &bytes)),
                checks
            );
        }
    }
}
