//! An image in words, as it is lent: docs/IMAGE.md, 'An image's words'. 'The first nine words say where the sections end', and 'the ends go up,
//! from 9 to the number of words'; then code, globals, of the `Switch` tables first keys, ends and entries, the same of the `Lookup` tables, defaults.
use crate::image::{Image, Lookup, Switch};

const SECTIONS: usize = 9;

/// `None` is 10: words that are no image's. Whether an image is within the limits, and can be run, is the machine's to say.
pub fn read(words: &[u64]) -> Option<Image> {
    let (ends, _) = words.split_at_checked(SECTIONS)?;
    let mut sections = pieces(SECTIONS, ends, words)?.into_iter();
    let mut next = || sections.next().expect("nine of them");
    let (code, globals) = (next(), next());
    let switches = tables(next(), next(), next())?;
    let lookups = tables(next(), next(), next())?;
    let defaults = next();
    if defaults.len() != lookups.len() {
        return None;
    }
    Some(Image {
        code: code.to_vec(),
        globals: globals.to_vec(),
        switches: switches.into_iter().map(|(first, targets)| Switch { first, targets }).collect(),
        lookups: lookups.into_iter().zip(defaults).map(|((first, values), &default)| Lookup { first, default, values }).collect(),
    })
}

/// `all` from a start on, cut at the ends: they go up, and the last one is the number of words.
fn pieces<'a>(start: usize, ends: &[u64], all: &'a [u64]) -> Option<Vec<&'a [u64]>> {
    let mut from = start;
    let mut found = Vec::new();
    for &end in ends {
        let end = usize::try_from(end).ok()?;
        found.push(all.get(from..end)?);
        from = end;
    }
    (from == all.len()).then_some(found)
}

/// Each table's first key and entries: as many ends as first keys.
fn tables(firsts: &[u64], ends: &[u64], entries: &[u64]) -> Option<Vec<(u64, Vec<u64>)>> {
    let entries = pieces(0, ends, entries)?;
    (entries.len() == firsts.len())
        .then(|| firsts.iter().zip(entries).map(|(&first, entries)| (first, entries.to_vec())).collect())
}

/// The words that `read` reads so.
pub fn write(image: &Image) -> Vec<u64> {
    let of_switches = rows(image.switches.iter().map(|table| (table.first, &table.targets)));
    let of_lookups = rows(image.lookups.iter().map(|table| (table.first, &table.values)));
    let defaults = image.lookups.iter().map(|table| table.default).collect();
    let mut words = vec![0; SECTIONS];
    let sections = [&image.code, &image.globals].into_iter().chain(&of_switches).chain(&of_lookups).chain([&defaults]);
    for (i, section) in sections.enumerate() {
        words.extend(section);
        words[i] = words.len() as u64;
    }
    words
}

/// First keys, ends and entries.
fn rows<'a>(tables: impl Iterator<Item = (u64, &'a Vec<u64>)>) -> [Vec<u64>; 3] {
    let [mut firsts, mut ends, mut entries] = [const { Vec::new() }; 3];
    for (first, slots) in tables {
        firsts.push(first);
        entries.extend(slots);
        ends.push(entries.len() as u64);
    }
    [firsts, ends, entries]
}
