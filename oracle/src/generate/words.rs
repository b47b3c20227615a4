//! Damaged copies of an image in words.
use super::rng::Rng;
use super::values;

const ENDS: usize = 9;
/// As many words as every section at its limit has.
const MOST: usize = 79_113;

/// A copy that is other than the image in one to three ways; at times words that no image was.
pub fn damaged(rng: &mut Rng, image: &[u64]) -> Vec<u64> {
    let mut words = if rng.one_in(50) { made_up(rng) } else { image.to_vec() };
    for _ in 0..*rng.one_of(&[1, 1, 1, 1, 2, 3]) {
        damage(rng, &mut words);
    }
    // so that what is wrong lies behind the ends
    if rng.one_in(4) {
        fitting(rng, &mut words);
    }
    // two changes may undo each other
    if words == image {
        words.push(edge(rng, image.len() as u64));
    }
    // the longest image there can be, and one word more
    if rng.one_in(1000) {
        words.resize(MOST + rng.below(2) as usize, 59);
        let len = words.len() as u64;
        words[..ENDS].fill(len);
    }
    // so that valgrind sees a read past the last one
    words.shrink_to_fit();
    words
}

/// Any words, few of them, small numbers mostly.
fn made_up(rng: &mut Rng) -> Vec<u64> {
    (0..rng.below(30)).map(|_| if rng.one_in(4) { values::int(rng) } else { rng.below(40) }).collect()
}

fn damage(rng: &mut Rng, words: &mut Vec<u64>) {
    let len = words.len() as u64;
    if len == 0 {
        words.push(rng.below(40));
        return;
    }
    // the ends are damaged below
    let first = if len > ENDS as u64 && !rng.one_in(4) { ENDS as u64 } else { 0 };
    let at = rng.from_to(first, len - 1) as usize;
    match rng.below(24) {
        0..8 => words[at] ^= 1 << rng.below(64),
        8..10 => words[at] = edge(rng, len),
        10..12 => words[at] = words[rng.from_to(first, len - 1) as usize],
        12..14 => words.swap(at, rng.from_to(first, len - 1) as usize),
        14 => words.truncate(at),
        15 => drop(words.drain(at..at + some(rng, len - at as u64))),
        16 => {
            let copy = words[at..at + some(rng, len - at as u64)].to_vec();
            words.splice(at..at, copy);
        }
        17 => words.push(edge(rng, len)),
        18 => bytes(rng, words),
        _ => header(rng, words),
    }
}

/// From 1 to n, a few mostly.
fn some(rng: &mut Rng, n: u64) -> usize {
    let few = if rng.one_in(4) { n } else { n.min(3) };
    rng.from_to(1, few) as usize
}

/// A number near what sizes, ends and places are tested against.
fn edge(rng: &mut Rng, len: u64) -> u64 {
    let near = *rng.one_of(&[0, 1, 9, len, 59, 256, 4096, 65_536, 1 << 16, 1 << 32, 1 << 61, 1 << 63]);
    near.wrapping_add(rng.below(3)).wrapping_sub(1)
}

/// A file that is read otherwise than it was written: highest byte first, or without its first bytes.
fn bytes(rng: &mut Rng, words: &mut Vec<u64>) {
    if rng.one_in(2) {
        words.iter_mut().for_each(|word| *word = word.swap_bytes());
        return;
    }
    let file: Vec<u8> = words.iter().flat_map(|word| word.to_le_bytes()).skip(rng.from_to(1, 7) as usize).collect();
    *words = file.chunks_exact(8).map(|bytes| u64::from_le_bytes(bytes.try_into().unwrap())).collect();
}

/// Other ends than the sections have.
fn header(rng: &mut Rng, words: &mut [u64]) {
    let len = words.len() as u64;
    let ends = words.len().min(ENDS);
    let at = rng.below(ends as u64) as usize;
    match rng.below(10) {
        0 => words[at] = words[at].wrapping_add(1),
        1 => words[at] = words[at].wrapping_sub(1),
        2 => words[at] = edge(rng, len),
        3 => words.swap(at, rng.below(ends as u64) as usize),
        // how many words a section has, and not where it ends
        4 => (1..ends).rev().for_each(|i| words[i] = words[i].wrapping_sub(words[i - 1])),
        // going up, at any places
        5 => {
            words[..ends].iter_mut().for_each(|end| *end = rng.from_to(0, len));
            words[..ends].sort();
            words[ends - 1] = len;
        }
        _ => fitting(rng, words),
    }
}

/// Ends that fit: the same words, cut into other sections, with ends of tables that fit too.
fn fitting(rng: &mut Rng, words: &mut [u64]) {
    let Some(mut left) = words.len().checked_sub(ENDS) else { return };
    let up_to = |rng: &mut Rng, n: usize| rng.from_to(0, n as u64) as usize;
    // the code mostly ends behind a word that could be a Halt
    let ends: Vec<usize> = (1..=left).filter(|n| words[ENDS + n - 1] % 256 == 59).collect();
    let code = if ends.is_empty() || rng.one_in(6) { up_to(rng, left) } else { *rng.one_of(&ends) };
    left -= code;
    let switches = up_to(rng, (left / 2).min(3));
    left -= 2 * switches;
    let lookups = up_to(rng, (left / 3).min(3));
    left -= 3 * lookups;
    let targets = if switches > 0 { up_to(rng, left) } else { 0 };
    left -= targets;
    let values = if lookups > 0 { up_to(rng, left) } else { 0 };
    left -= values;
    let mut end = ENDS;
    for (i, count) in [code, left, switches, switches, targets, lookups, lookups, values, lookups].into_iter().enumerate() {
        end += count;
        words[i] = end as u64;
    }
    table_ends(rng, words, 3, targets as u64);
    table_ends(rng, words, 6, values as u64);
}

/// The words of a section made ends of tables with so many entries.
fn table_ends(rng: &mut Rng, words: &mut [u64], section: usize, entries: u64) {
    let ends = words[section - 1] as usize..words[section] as usize;
    let ends = &mut words[ends];
    ends.iter_mut().for_each(|end| *end = rng.from_to(0, entries));
    ends.sort();
    if let Some(last) = ends.last_mut() {
        *last = entries;
    }
}
