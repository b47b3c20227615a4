//! The table of names: open addressing by the hash in a string's header, at most half full.
use super::Model;
use crate::anomaly::TABLE_FULL;

const STRING: u8 = 3;
const MULTIPLIER: u64 = 0x517c_c1b7_2722_0a95;

fn mix(h: u64, word: u64) -> u64 {
    (h.rotate_left(5) ^ word).wrapping_mul(MULTIPLIER)
}

fn fold(h: u64) -> u32 {
    (h ^ h >> 32) as u32
}

/// '`small_word` of 0 to 8 bytes is their little-endian value padded with zeros'
pub fn small_word(bytes: &[u8]) -> u64 {
    bytes.iter().rev().fold(0, |word, &b| word << 8 | u64::from(b))
}

pub fn hash(bytes: &[u8]) -> u32 {
    fold(bytes.chunks(8).fold(bytes.len() as u64, |h, chunk| mix(h, small_word(chunk))))
}

pub fn small_hash(len: u64, word: u64) -> u32 {
    fold(mix(len, word))
}

impl Model {
    /// 'whole length, hash and bytes equal'; 'a string compare or header read that would leave pushed pages counts as unequal'
    fn is_string(&self, at: u64, bytes: &[u8], hash: u32) -> bool {
        if !self.reaches(at, 8 + bytes.len() as u64) {
            return false;
        }
        let header = self.read(at);
        let from = (at - self.state.base) as usize + 8;
        header & 0xffff_ffff == bytes.len() as u64
            && header >> 32 == u64::from(hash)
            && self.heap[from..from + bytes.len()] == *bytes
    }

    fn get(&self, bytes: &[u8], hash: u32) -> Option<u64> {
        let active = self.state.active;
        // a table at most half full has an empty slot
        (0..active)
            .map(|i| self.slots[((u64::from(hash) + i) & (active - 1)) as usize])
            .take_while(|&v| v != 0)
            .find(|&v| self.is_string(v, bytes, hash))
    }

    fn place(&mut self, v: u64) {
        let mask = self.state.active - 1;
        let mut i = (self.read(v) >> 32) & mask;
        while self.slots[i as usize] != 0 {
            i = (i + 1) & mask;
        }
        self.slots[i as usize] = v;
    }

    /// 'the value if found, 18, 2'; the old slots are placed again in slot order.
    pub(super) fn name(&mut self, bytes: &[u8]) -> Result<u64, u8> {
        let hash = hash(bytes);
        if let Some(v) = self.get(bytes, hash) {
            return Ok(v);
        }
        let old = self.state.active as usize;
        let grows = (self.state.names + 1) * 2 > self.state.active;
        let active = if grows { (old * 2).max(64) } else { old };
        if active > self.slots.len() {
            return Err(TABLE_FULL);
        }
        let v = self.alloc(STRING, 8 + bytes.len() as u64, true)?;
        self.write(v, bytes.len() as u64 | u64::from(hash) << 32);
        let at = (v - self.state.base) as usize + 8;
        self.heap[at..at + bytes.len()].copy_from_slice(bytes);
        if grows {
            self.spare[..old].copy_from_slice(&self.slots[..old]);
            self.slots[..active].fill(0);
            self.state.active = active as u64;
            for i in 0..old {
                if self.spare[i] != 0 {
                    self.place(self.spare[i]);
                }
            }
        }
        self.place(v);
        self.state.names += 1;
        Ok(v)
    }
}
