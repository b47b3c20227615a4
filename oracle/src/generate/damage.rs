//! Damaged copies: of images as they are lent, and of their texts.
use super::calls;
use super::program;
use super::rng::Rng;
use crate::case::Case;
use crate::machine::Call;
use crate::text::{self, Text};

/// A case in which something of an image is other than it was made.
pub fn case(rng: &mut Rng) -> Case {
    let mut case = calls::programs(rng);
    let image = rng.below(case.images.len() as u64) as usize;
    for _ in 0..rng.from_to(1, 3) {
        let image = &mut case.images[image];
        let words = image.code.len() as u64;
        let at = rng.below(words) as usize;
        match rng.below(8) {
            0..=2 => image.code[at] ^= 1 << rng.below(64),
            3 => image.code[at] = image.code[at] & !(0xff << 8) | rng.below(33) << 8,
            4 => image.code.swap(at, rng.below(words) as usize),
            5 => {
                image.code.remove(at);
            }
            6 => {
                let copy = image.code[rng.below(words) as usize];
                image.code[at] = copy;
            }
            _ => {
                if let Some(table) = image.switches.first_mut() {
                    table.targets.push(rng.below(words + 2));
                }
            }
        }
        if image.code.is_empty() {
            break;
        }
    }
    for call in &mut case.calls {
        if let Call::Run { budget, .. } = call {
            *budget = *rng.one_of(&[0, 1, 10, 3000, 3000, 3000, 3000]);
        }
    }
    case
}

/// An image's text, damaged in most cases: a byte changed, a line dropped, doubled or cut.
pub fn text(rng: &mut Rng) -> Vec<u8> {
    let lent = calls::lent(rng);
    let mut image = program::image(rng, &[], lent);
    let mut names = Vec::new();
    for _ in 0..rng.below(5) {
        // at times one that needs pages of its own
        let name = if rng.one_in(30) { vec![b'n'; rng.from_to(4000, 9000) as usize] } else { super::values::name(rng) };
        names.push((image.globals.len(), name));
        image.globals.push(0);
    }
    let mut bytes = text::write(&Text {
        base: lent.base,
        pages: if rng.one_in(40) { *rng.one_of(&[0, 9]) } else { rng.from_to(1, 8) },
        frames: lent.frames,
        slots: lent.slots,
        budget: if rng.one_in(4) { rng.below(200) } else { 5000 },
        image,
        names,
    })
    .into_bytes();
    for _ in 0..rng.below(3) {
        damage(rng, &mut bytes);
    }
    bytes
}

fn damage(rng: &mut Rng, bytes: &mut Vec<u8>) {
    if bytes.is_empty() {
        return;
    }
    let at = rng.below(bytes.len() as u64) as usize;
    let start = bytes[..at].iter().rposition(|&b| b == b'\n').map_or(0, |n| n + 1);
    let end = bytes[at..].iter().position(|&b| b == b'\n').map_or(bytes.len(), |n| at + n + 1);
    match rng.below(20) {
        8.. => bytes[at] = *rng.one_of(b"0123456789abcdef"),
        0 | 1 => bytes[at] = *rng.one_of(b"ABg \n\r"),
        2 => bytes[at] = rng.word() as u8,
        3 => drop(bytes.drain(start..end)),
        4 => {
            let line = bytes[start..end].to_vec();
            bytes.splice(start..start, line);
        }
        5 => drop(bytes.remove(at)),
        6 => bytes.truncate(at),
        7 => bytes.insert(at, *rng.one_of(b"0f\n")),
    }
}
