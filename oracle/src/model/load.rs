//! What a start and every run refuse of an image: 'Order: 10, 11, 16, then word by word 12, 13, 14, 15'.
use super::word::{self, Counts};
use crate::anomaly::{NO_HALT, SIZE, TABLE_TARGET};
use crate::image::Image;

pub fn refusal(image: &Image) -> Option<u8> {
    let code = image.code.len();
    let targets = || image.switches.iter().flat_map(|table| &table.targets);
    let values = image.lookups.iter().flat_map(|table| &table.values);
    if code > 65_536
        || image.globals.len() > 4096
        || image.switches.len() > 256
        || image.lookups.len() > 256
        || targets().count() > 4096
        || values.count() > 4096
    {
        return Some(SIZE);
    }
    if image.code.last().is_some_and(|&last| word::byte(last, 0) != u64::from(word::op::Halt)) {
        return Some(NO_HALT);
    }
    if targets().any(|&target| target >= code as u64) {
        return Some(TABLE_TARGET);
    }
    let counts = Counts {
        code: code as u64,
        globals: image.globals.len() as u64,
        switches: image.switches.len() as u64,
        lookups: image.lookups.len() as u64,
    };
    image.code.iter().find_map(|&word| word::refusal(word, counts))
}
