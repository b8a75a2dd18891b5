//! Numbers in groups of seven bits, lowest group first.

use crate::answer::{Refusal, NUMBER_PADDED, NUMBER_TOO_LARGE, TABLE_ENDS};

/// A place in the bytes of a table.
pub struct Cursor<'a> {
    bytes: &'a [u8],
    at: usize,
}

impl<'a> Cursor<'a> {
    pub fn new(bytes: &'a [u8]) -> Cursor<'a> {
        Cursor { bytes, at: 0 }
    }

    /// The offset of the next byte.
    #[inline]
    pub fn at(&self) -> usize {
        self.at
    }

    /// Whether every byte has been read.
    pub fn at_end(&self) -> bool {
        self.at == self.bytes.len()
    }

    #[inline]
    fn byte(&mut self) -> Result<u8, Refusal> {
        match self.bytes.get(self.at) {
            Some(&byte) => {
                self.at += 1;
                Ok(byte)
            }
            None => Err(Refusal::new(TABLE_ENDS, self.bytes.len())),
        }
    }

    /// The next number. Most numbers of a table have one byte, so that case goes first and is the
    /// part worth inlining.
    #[inline]
    pub fn number(&mut self) -> Result<u32, Refusal> {
        let byte = self.byte()?;
        if byte < 0x80 {
            Ok(u32::from(byte))
        } else {
            self.rest_of_number(u32::from(byte & 0x7f))
        }
    }

    /// The number whose first byte, just read, had its top bit set.
    fn rest_of_number(&mut self, lowest_group: u32) -> Result<u32, Refusal> {
        let first = self.at - 1;
        let padded = Err(Refusal::new(NUMBER_PADDED, first));
        let mut value = lowest_group;
        for shift in [7, 14, 21] {
            let byte = self.byte()?;
            value |= u32::from(byte & 0x7f) << shift;
            if byte < 0x80 {
                return if byte == 0 { padded } else { Ok(value) };
            }
        }
        // Only four bits are left of the 32. A fifth byte with its top bit set is 16 or more too,
        // so there is never a sixth to read.
        match self.byte()? {
            0 => padded,
            byte @ 1..=15 => Ok(value | u32::from(byte) << 28),
            _ => Err(Refusal::new(NUMBER_TOO_LARGE, first)),
        }
    }

    /// The next number, refused under `code` at its first byte unless it is `least` to `most`.
    #[inline]
    pub fn number_within(&mut self, least: u32, most: u32, code: u32) -> Result<u32, Refusal> {
        let first = self.at;
        let value = self.number()?;
        if least <= value && value <= most {
            Ok(value)
        } else {
            Err(Refusal::new(code, first))
        }
    }
}

/// Appends a number in the fewest bytes.
pub fn write(bytes: &mut Vec<u8>, mut value: u32) {
    while value >= 0x80 {
        bytes.push((value & 0x7f) as u8 | 0x80);
        value >>= 7;
    }
    bytes.push(value as u8);
}

/// A number alone, in the fewest bytes.
pub fn written(value: u32) -> Vec<u8> {
    let mut bytes = Vec::new();
    write(&mut bytes, value);
    bytes
}

#[cfg(test)]
mod tests {
    use super::*;

    fn read(bytes: &[u8]) -> Result<(u32, usize), (u32, usize)> {
        let mut cursor = Cursor::new(bytes);
        match cursor.number() {
            Ok(value) => Ok((value, cursor.at())),
            Err(refusal) => Err((refusal.code, refusal.figure)),
        }
    }

    #[test]
    fn both_sides_of_every_length() {
        for (value, length) in [
            (0, 1),
            (127, 1),
            (128, 2),
            (16_383, 2),
            (16_384, 3),
            (2_097_151, 3),
            (2_097_152, 4),
            (268_435_455, 4),
            (268_435_456, 5),
            (4_294_967_295, 5),
        ] {
            let bytes = written(value);
            assert_eq!(bytes.len(), length);
            assert_eq!(read(&bytes), Ok((value, length)));
        }
    }

    #[test]
    fn the_greatest_number_and_the_one_above() {
        assert_eq!(read(&[0xff, 0xff, 0xff, 0xff, 0x0f]), Ok((u32::MAX, 5)));
        assert_eq!(
            read(&[0xff, 0xff, 0xff, 0xff, 0x10]),
            Err((NUMBER_TOO_LARGE, 0))
        );
    }

    #[test]
    fn every_fifth_byte() {
        for fifth in 0..=255 {
            let due = match fifth {
                0 => Err((NUMBER_PADDED, 0)),
                1..=15 => Ok((u32::from(fifth) << 28, 5)),
                16.. => Err((NUMBER_TOO_LARGE, 0)),
            };
            assert_eq!(read(&[0x80, 0x80, 0x80, 0x80, fifth]), due);
        }
    }

    #[test]
    fn a_fifth_byte_with_its_top_bit_set_needs_no_sixth() {
        assert_eq!(read(&[0x80; 5]), Err((NUMBER_TOO_LARGE, 0)));
    }

    #[test]
    fn a_needless_last_zero_byte_at_each_length() {
        for length in 2..=5 {
            let mut bytes = vec![0x81; length];
            bytes[length - 1] = 0;
            assert_eq!(read(&bytes), Err((NUMBER_PADDED, 0)));
        }
    }

    #[test]
    fn the_end_while_a_byte_is_due() {
        for length in 0..=4 {
            assert_eq!(read(&vec![0x80; length]), Err((TABLE_ENDS, length)));
        }
    }
}
