//! CRC-32 by slicing: sixteen tables, so that the bytes of two words are looked up at once and not one behind another.

use super::scan::Word;

/// `TABLES[k][b]` is what the byte b does to the register when k bytes of zero follow it.
static TABLES: [[u32; 256]; 16] = {
    let mut tables = [[0; 256]; 16];
    let mut byte = 0;
    while byte < 256 {
        let mut register = byte as u32;
        let mut bit = 0;
        while bit < 8 {
            register = if register & 1 == 1 { register >> 1 ^ 0xEDB8_8320 } else { register >> 1 };
            bit += 1;
        }
        tables[0][byte] = register;
        byte += 1;
    }
    let mut zeros = 1;
    while zeros < 16 {
        let mut byte = 0;
        while byte < 256 {
            let before = tables[zeros - 1][byte];
            tables[zeros][byte] = before >> 8 ^ tables[0][(before & 0xFF) as usize];
            byte += 1;
        }
        zeros += 1;
    }
    tables
};

#[inline]
fn at(table: usize, byte: u8) -> u32 {
    TABLES[table][usize::from(byte)]
}

/// A CRC on its way.
#[derive(Clone, Copy)]
pub struct Crc(u32);

impl Crc {
    pub const START: Crc = Crc(!0);

    #[inline]
    pub fn word(self, word: u64) -> Crc {
        let [a, b, c, d] = (self.0 ^ word as u32).to_le_bytes();
        let [e, f, g, h] = ((word >> 32) as u32).to_le_bytes();
        // The upper half does not wait for the register.
        let upper = at(3, e) ^ at(2, f) ^ at(1, g) ^ at(0, h);
        Crc(upper ^ (at(7, a) ^ at(6, b)) ^ (at(5, c) ^ at(4, d)))
    }

    /// Takes in two words: only the lower half of the first waits for the register.
    #[inline]
    fn two(self, first: u64, second: u64) -> Crc {
        let [a, b, c, d] = (self.0 ^ first as u32).to_le_bytes();
        let [e, f, g, h] = ((first >> 32) as u32).to_le_bytes();
        let upper = at(11, e) ^ at(10, f) ^ at(9, g) ^ at(8, h);
        let Crc(behind) = Crc(0).word(second);
        Crc(behind ^ upper ^ (at(15, a) ^ at(14, b)) ^ (at(13, c) ^ at(12, d)))
    }

    /// Takes in words, two at a time.
    #[inline]
    pub fn words<W: Word>(mut self, words: &[W]) -> Crc {
        let (pairs, last) = words.as_chunks();
        for &[first, second] in pairs {
            self = self.two(first.value(), second.value());
        }
        last.iter().fold(self, |crc, word| crc.word(word.value()))
    }

    /// Takes in the low `count` bytes of a word, fewer than eight; its other bytes are zero.
    #[inline]
    pub fn low_bytes(self, word: u64, count: usize) -> Crc {
        let register = u64::from(self.0) ^ word;
        let bytes = register.to_le_bytes();
        // What fewer than four bytes leave of the register.
        let mut next = (register >> (8 * count)) as u32;
        for (byte, table) in bytes[..count].iter().zip(TABLES[..count].iter().rev()) {
            next ^= table[usize::from(*byte)];
        }
        Crc(next)
    }

    #[inline]
    pub fn finish(self) -> u32 {
        !self.0
    }
}

/// The CRC-32 of words, as bytes.
pub fn crc32_of_words(words: &[u64]) -> u64 {
    Crc::START.words(words).finish().into()
}

pub fn crc32_of_bytes(bytes: &[u8]) -> u64 {
    let (words, rest) = bytes.as_chunks::<8>();
    let last = rest.iter().rev().fold(0, |word, &byte| word << 8 | u64::from(byte));
    Crc::START.words(words).low_bytes(last, rest.len()).finish().into()
}
