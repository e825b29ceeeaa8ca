//! Random numbers from a seed, most of them near numbers where an answer changes.

use sigma_ser::vlq_encode::WriteSigmaVlqExt;

const EDGES: [u32; 36] = [
    0, 2, 9, 64, 120, 122, 124, 127, 128, 255, 256, 409, 512, 513, 1_000, 1_024, 2_048, 10_000, 16_384, 25_000, 29_491, 32_767,
    32_768, 32_769, 65_535, 65_536, 65_537, 417_792, 2_500_000, 0x3fffffff, 0x7ffffc00, 0x7fffffff, 0x80000000, 0xfffffc00,
    0xffffff7e, 0xffffffff,
];

/// Begun with a seed.
pub struct Random(pub u64);

impl Random {
    /// The next 64 bits (splitmix64).
    pub fn bits(&mut self) -> u64 {
        self.0 = self.0.wrapping_add(0x9e37_79b9_7f4a_7c15);
        let mut x = self.0;
        x = (x ^ (x >> 30)).wrapping_mul(0xbf58_476d_1ce4_e5b9);
        x = (x ^ (x >> 27)).wrapping_mul(0x94d0_49bb_1331_11eb);
        x ^ (x >> 31)
    }

    pub fn below(&mut self, end: usize) -> usize {
        (self.bits() % end as u64) as usize
    }

    pub fn one_in(&mut self, n: usize) -> bool {
        self.below(n) == 0
    }

    pub fn pick<T: Copy>(&mut self, items: &[T]) -> T {
        items[self.below(items.len())]
    }

    pub fn byte(&mut self) -> u8 {
        self.bits() as u8
    }

    pub fn bytes(&mut self, count: usize) -> Vec<u8> {
        (0..count).map(|_| self.byte()).collect()
    }

    /// A number of up to three more or less.
    pub fn near(&mut self, number: u32) -> u32 {
        number.wrapping_add(self.below(7) as u32).wrapping_sub(3)
    }

    /// A number near an edge, or of any width.
    pub fn number(&mut self) -> u32 {
        if self.one_in(3) {
            return (self.bits() as u32) >> self.below(32);
        }
        let edge = self.pick(&EDGES);
        self.near(edge)
    }

    /// A VLQ number, now and then in a longer form than the shortest.
    pub fn vlq(&mut self, number: u32) -> Vec<u8> {
        let mut bytes = Vec::new();
        bytes.put_u32(number).expect("write to memory");
        if self.one_in(12) {
            let last = bytes.len() - 1;
            bytes[last] |= 0x80;
            bytes.resize(last + 1 + self.below(3), 0x80);
            bytes.push(0);
        }
        bytes
    }

    /// The bytes as they are, or with one thing wrong.
    pub fn damaged(&mut self, bytes: Vec<u8>) -> Vec<u8> {
        if self.one_in(3) {
            return bytes;
        }
        self.damage(bytes)
    }

    pub fn damage(&mut self, mut bytes: Vec<u8>) -> Vec<u8> {
        let at = self.below(bytes.len() + 1);
        match self.below(6) {
            0 => bytes.truncate(at),
            1 => bytes.insert(at, self.byte()),
            2 => bytes.insert(at, self.pick(&[0, 1, 0x7f, 0x80, 0xff])),
            _ if at == bytes.len() => bytes.push(self.byte()),
            3 => drop(bytes.remove(at)),
            4 => bytes[at] = self.byte(),
            _ => bytes[at] ^= 1 << self.below(8),
        }
        bytes
    }
}
