//! What a job came to: as a number, the same on every machine, and as text.
use std::fmt;
use std::hash::{Hash, Hasher};

// Multiply and fold, the same on every machine.
struct Fold(u64);
impl Hasher for Fold {
    fn finish(&self) -> u64 {
        self.0.max(1)
    }
    fn write(&mut self, bytes: &[u8]) {
        for part in bytes.chunks(8) {
            let mut word = [0; 8];
            word[..part.len()].copy_from_slice(part);
            self.write_u64(u64::from_le_bytes(word) ^ (part.len() as u64) << 60);
        }
    }
    fn write_u64(&mut self, x: u64) {
        self.0 = (self.0 ^ x).wrapping_mul(0xff51_afd7_ed55_8ccd);
        self.0 ^= self.0 >> 32;
    }
    fn write_u32(&mut self, x: u32) {
        self.write_u64(u64::from(x));
    }
    fn write_usize(&mut self, x: usize) {
        self.write_u64(x as u64);
    }
}
pub(crate) fn hash_of<T: Hash + ?Sized>(x: &T) -> u64 {
    let mut fold = Fold(0x9e37_79b9_7f4a_7c15);
    x.hash(&mut fold);
    fold.finish()
}

pub(crate) fn came<T: Hash + fmt::Debug + ?Sized>(x: &T, value: Option<&mut String>) -> u64 {
    if let Some(value) = value {
        let text = format!("{x:?}");
        *value = if text.chars().count() > 160 { text.chars().take(157).chain("...".chars()).collect() } else { text };
    }
    hash_of(x)
}
