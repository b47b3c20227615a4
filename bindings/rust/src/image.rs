//! An image as it is lent, and the sections that it is joined of.

use crate::limits::{END_CODE, END_GLOBALS, IMAGE_ENDS};

/// What a machine is lent to run: words that say where its nine sections end, then the sections in a row.
///
/// The sections are code; globals; of the Switch tables the first keys, the ends and the entries; the same of the Lookup tables; of these the
/// defaults. A section's end is the place in `words` behind its last word, so the ends go up from 9 to the number of words. [`Sections`] joins
/// an image; `tools/asm --binary` writes one to a file, each word as 8 bytes, the lowest first:
///
/// ```
/// use girzhanok::Image;
///
/// let file: Vec<u8> = [10, 10, 10, 10, 10, 10, 10, 10, 10, 59_u64].iter().flat_map(|word| word.to_le_bytes()).collect();
/// let words: Vec<u64> = file.chunks_exact(8).map(|bytes| u64::from_le_bytes(bytes.try_into().unwrap())).collect();
/// let image = Image { words: &words };
/// # assert_eq!(image.words[9], 59);
/// ```
///
/// Any words may be lent: what is no image is refused.
#[derive(Clone, Copy, Debug, PartialEq, Eq)]
pub struct Image<'a> {
    /// Ends and sections.
    pub words: &'a [u64],
}

impl Image<'static> {
    /// No code, no globals, no tables.
    pub const EMPTY: Self = Image { words: &[IMAGE_ENDS as u64; IMAGE_ENDS] };
}

impl Image<'_> {
    /// The place of global `number` in the words; `None` where the image has no such global, or ends that lead out of it.
    ///
    /// A name's global holds the address that interning it on this machine has returned. The caller writes it there before a run.
    ///
    /// ```
    /// use girzhanok::{Image, Sections, State};
    ///
    /// // LoadG r0, 0; Halt
    /// let mut words = Sections { code: &[0x1c, 59], globals: &[0], ..Sections::EMPTY }.join();
    /// let (mut frames, mut heap) = ([0; 1], vec![0; 4096]);
    /// let (mut slots, mut spare) = ([0; 64], [0; 64]);
    /// let mut state = State::start(65536, &Image { words: &words }, &mut frames, &mut heap, &slots, &spare)?;
    ///
    /// let gold = state.intern(b"gold", &mut heap, &mut slots, &mut spare)?;
    /// let place = Image { words: &words }.global(0).expect("the rule has a global");
    /// words[place] = gold;
    ///
    /// state.run(10, &Image { words: &words }, &mut frames, &mut heap)?;
    /// assert_eq!(state.registers()[0], gold);
    /// # Ok::<(), girzhanok::Refusal>(())
    /// ```
    pub fn global(&self, number: usize) -> Option<usize> {
        let end = |word: usize| self.words.get(word).and_then(|&end| usize::try_from(end).ok());
        let place = end(END_CODE)?.checked_add(number)?;
        (IMAGE_ENDS <= place && place < end(END_GLOBALS)?.min(self.words.len())).then_some(place)
    }
}

/// What an image is made of.
///
/// ```
/// use girzhanok::{Lookup, Sections};
///
/// // Lookup r1, r0, Int, table 0; Halt
/// let words = Sections {
///     code: &[0x0000_0000_0100_0125, 59],
///     lookups: &[Lookup { first: 5, default: 0, values: &[10, 20] }],
///     ..Sections::EMPTY
/// }
/// .join();
/// // the ends; code; first key, end, entries and default of the table
/// assert_eq!(words[..9], [11, 11, 11, 11, 11, 12, 13, 15, 16]);
/// assert_eq!(words[9..], [0x0000_0000_0100_0125, 59, 5, 2, 10, 20, 0]);
/// ```
#[derive(Clone, Copy, Debug, Default, PartialEq, Eq)]
pub struct Sections<'a> {
    /// Instruction words.
    pub code: &'a [u64],
    /// What LoadG loads.
    pub globals: &'a [u64],
    /// The Switch tables.
    pub switches: &'a [Switch<'a>],
    /// The Lookup tables.
    pub lookups: &'a [Lookup<'a>],
}

/// A Switch table.
#[derive(Clone, Copy, Debug, Default, PartialEq, Eq)]
pub struct Switch<'a> {
    /// The key of its first slot.
    pub first: u64,
    /// The place in the code that each slot leads to.
    pub targets: &'a [u64],
}

/// A Lookup table.
#[derive(Clone, Copy, Debug, Default, PartialEq, Eq)]
pub struct Lookup<'a> {
    /// The key of its first slot.
    pub first: u64,
    /// What any other key gives.
    pub default: u64,
    /// What each slot gives.
    pub values: &'a [u64],
}

impl Sections<'_> {
    /// No code, no globals, no tables.
    pub const EMPTY: Self = Sections { code: &[], globals: &[], switches: &[], lookups: &[] };

    /// The words of the image. Nothing is tested: a machine refuses what it cannot run.
    pub fn join(&self) -> Vec<u64> {
        let mut words = vec![0; IMAGE_ENDS];
        let mut sections = 0;
        let mut add = |section: &mut dyn Iterator<Item = u64>| {
            words.extend(section);
            words[sections] = words.len() as u64;
            sections += 1;
        };
        add(&mut self.code.iter().copied());
        add(&mut self.globals.iter().copied());
        add(&mut self.switches.iter().map(|table| table.first));
        add(&mut ends(self.switches.iter().map(|table| table.targets.len())));
        add(&mut self.switches.iter().flat_map(|table| table.targets).copied());
        add(&mut self.lookups.iter().map(|table| table.first));
        add(&mut ends(self.lookups.iter().map(|table| table.values.len())));
        add(&mut self.lookups.iter().flat_map(|table| table.values).copied());
        add(&mut self.lookups.iter().map(|table| table.default));
        words
    }
}

/// Of each table how many entries there are up to its last one, from how many each has.
fn ends(counts: impl Iterator<Item = usize>) -> impl Iterator<Item = u64> {
    counts.scan(0, |end, count| {
        *end += count as u64;
        Some(*end)
    })
}
