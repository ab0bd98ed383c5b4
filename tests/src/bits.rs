//! Bits in bytes, most significant bit first.

/// Writes fields one after another; zero bits fill the last byte.
#[derive(Default)]
pub struct BitWriter {
    bytes: Vec<u8>,
    position: usize,
}

impl BitWriter {
    pub fn put(&mut self, value: u32, width: usize) {
        self.put_wide(u64::from(value), width);
    }

    /// A field of up to 63 bits.
    pub fn put_wide(&mut self, value: u64, width: usize) {
        assert!(value >> width == 0, "{value} does not fit {width} bits");
        for shift in (0..width).rev() {
            if self.position.is_multiple_of(8) {
                self.bytes.push(0);
            }
            let bit = (value >> shift & 1) as u8;
            self.bytes[self.position / 8] |= bit << (7 - self.position % 8);
            self.position += 1;
        }
    }

    pub fn into_bytes(self) -> Vec<u8> {
        self.bytes
    }
}

/// Reads fields one after another and knows the position of the next bit.
pub struct BitReader<'a> {
    bytes: &'a [u8],
    position: usize,
}

impl<'a> BitReader<'a> {
    pub fn new(bytes: &'a [u8]) -> Self {
        BitReader { bytes, position: 0 }
    }

    pub fn position(&self) -> u64 {
        self.position as u64
    }

    /// Bits from the position to the end of the bytes.
    pub fn left(&self) -> usize {
        self.bytes.len() * 8 - self.position
    }

    pub fn take(&mut self, width: usize) -> u32 {
        assert!(width <= 32);
        self.take_wide(width) as u32
    }

    /// A field of up to 64 bits.
    pub fn take_wide(&mut self, width: usize) -> u64 {
        let mut value = 0;
        for _ in 0..width {
            let byte = self.bytes[self.position / 8];
            value = value << 1 | u64::from(byte >> (7 - self.position % 8) & 1);
            self.position += 1;
        }
        value
    }
}

#[cfg(test)]
mod tests {
    use super::*;

    #[test]
    fn first_bit_is_the_most_significant() {
        let mut writer = BitWriter::default();
        writer.put(1, 1);
        writer.put(0b0110, 4);
        writer.put(0b10_0000_0001, 10);
        assert_eq!(writer.into_bytes(), [0b1011_0100, 0b0000_0010]);
    }

    #[test]
    fn written_fields_are_read_back() {
        let fields = [(5, 3), (0, 8), (255, 8), (1023, 10), (1, 1), (65_535, 16)];
        let mut writer = BitWriter::default();
        for (value, width) in fields {
            writer.put(value, width);
        }
        let bytes = writer.into_bytes();
        let mut reader = BitReader::new(&bytes);
        for (value, width) in fields {
            assert_eq!(reader.take(width), value);
        }
        assert_eq!((reader.position(), reader.left()), (46, 2));
    }
}
