//! Pages and blocks. Offsets are from the base.
use super::{Block, Model};
use crate::anomaly::ALLOCATION_FAILED;
use crate::machine::PAGE;

const METADATA: u64 = 16;
const OPTION: u8 = 2;

fn align_up(n: u128, to: u128) -> u128 {
    n.div_ceil(to) * to
}

impl Model {
    /// 'A page is zeroed as it is pushed.'
    pub(super) fn push_page(&mut self, size: u64) {
        let s = &mut self.state;
        s.page = s.pushed;
        s.pushed += size;
        s.len = 0;
        self.heap[s.page as usize..s.pushed as usize].fill(0);
        self.pages.push((s.page, size));
    }

    /// The address of a new block's payload. 'An allocation is refused exactly if the last page can't hold it and the lent heap
    /// has less left than `grow` asks.'
    pub(super) fn alloc(&mut self, kind: u8, size: u64, name: bool) -> Result<u64, u8> {
        let payload_in = |len: u64| align_up(u128::from(len + METADATA), 8);
        let holds = |len: u64, room: u64| payload_in(len) + u128::from(size) <= u128::from(room);
        if !holds(self.state.len, self.state.pushed - self.state.page) {
            // '`grow` adds 24'
            let page = align_up((u128::from(size) + 24).max(u128::from(PAGE)), u128::from(PAGE));
            if page > self.heap.len() as u128 - u128::from(self.state.pushed) {
                return Err(ALLOCATION_FAILED);
            }
            self.push_page(page as u64);
        }
        let within = payload_in(self.state.len) as u64;
        let payload = self.state.page + within;
        let header = (payload - METADATA) as usize;
        self.heap[header..header + 8].copy_from_slice(&size.to_le_bytes());
        // flags, then 7 bytes of padding: 'zero here and not compared'
        self.heap[header + 8..header + 16].copy_from_slice(&u64::from(kind).to_le_bytes());
        self.state.len = within + size;
        let at = self.state.base + payload;
        self.blocks.push(Block { at, size, name });
        Ok(at)
    }

    pub(super) fn option_box(&mut self, tag: u64, value: u64) -> Result<u64, u8> {
        let at = self.alloc(OPTION, 16, false)?;
        self.write(at, tag);
        self.write(at + 8, value);
        Ok(at)
    }

    /// 8 bytes of pushed pages.
    pub(super) fn read(&self, address: u64) -> u64 {
        let at = (address - self.state.base) as usize;
        u64::from_le_bytes(self.heap[at..at + 8].try_into().unwrap())
    }

    pub(super) fn write(&mut self, address: u64, value: u64) {
        let at = (address - self.state.base) as usize;
        self.heap[at..at + 8].copy_from_slice(&value.to_le_bytes());
    }

    /// The block that an address was allocated as or points into, its end included: between two blocks lies a header, so there
    /// is at most one. Addresses of blocks only go up, but for made-up states, which the original never sees.
    pub(super) fn block_of(&self, address: u64) -> Option<Block> {
        let after = self.blocks.partition_point(|block| block.at <= address);
        let block = *self.blocks.get(after.checked_sub(1)?)?;
        (address.wrapping_sub(block.at) <= block.size).then_some(block)
    }
}
