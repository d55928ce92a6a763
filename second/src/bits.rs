//! Bits of a card, one by one, the most significant of each number and byte first.

/// Bits laid out so far.
#[derive(Default)]
pub struct Packer {
    bits: Vec<bool>,
}

impl Packer {
    /// Lays down the lowest `width` bits of a number, the highest of them first.
    pub fn put(&mut self, number: usize, width: usize) {
        for bit in (0..width).rev() {
            self.bits.push(number / 2usize.pow(bit as u32) % 2 == 1);
        }
    }

    /// Lays down so many bits of each number.
    pub fn put_all(&mut self, numbers: &[u16], width: usize) {
        for &number in numbers {
            self.put(usize::from(number), width);
        }
    }

    /// The bytes, with zero bits up to the end of the last one.
    pub fn bytes(&self) -> Vec<u8> {
        let mut bytes = Vec::new();
        for part in self.bits.chunks(8) {
            let mut byte = 0;
            for place in 0..8 {
                byte = byte * 2 + u8::from(part.get(place) == Some(&true));
            }
            bytes.push(byte);
        }
        bytes
    }
}

/// Bits of a card and how many have been taken.
pub struct Unpacker<'a> {
    card: &'a [u8],
    taken: usize,
}

impl<'a> Unpacker<'a> {
    pub fn new(card: &'a [u8]) -> Unpacker<'a> {
        Unpacker { card, taken: 0 }
    }

    /// The next `width` bits as a number; the card must hold them.
    pub fn take(&mut self, width: usize) -> usize {
        let mut number = 0;
        for _ in 0..width {
            number = number * 2 + usize::from(self.take_bit());
        }
        number
    }

    fn take_bit(&mut self) -> bool {
        let mut byte = self.card[self.taken / 8];
        for _ in self.taken % 8..7 {
            byte /= 2;
        }
        self.taken += 1;
        byte % 2 == 1
    }

    /// Whether all bits up to the end of the byte are 0.
    pub fn is_rest_of_byte_zero(&mut self) -> bool {
        let mut all_zero = true;
        while !self.taken.is_multiple_of(8) {
            if self.take_bit() {
                all_zero = false;
            }
        }
        all_zero
    }
}
