//! A case made smaller for as long as it still fails.
use crate::case::Case;
use crate::image::Image;
use crate::machine::{Call, Lent, PAGE};
use crate::model::word::{self, Format, ROWS};

/// The image without one word; jumps and tables that led behind it lead one less far.
fn without(image: &Image, at: usize) -> Image {
    let mut image = image.clone();
    image.code.remove(at);
    let moved = |to: u64| if to > at as u64 { to - 1 } else { to };
    for w in &mut image.code {
        let Some((_, format)) = ROWS.get(word::byte(*w, 0) as usize) else { continue };
        match format {
            Format::Target | Format::RegTarget | Format::RegTargetImm | Format::RegTargetReg => {
                *w = *w & !(0xffff << 16) | moved(word::target(*w)) << 16;
            }
            Format::Func => *w = *w & 0xffff_ffff | moved(word::high(*w)) << 32,
            _ => {}
        }
    }
    let targets = image.switches.iter_mut().flat_map(|table| &mut table.targets);
    targets.for_each(|target| *target = moved(*target));
    image
}

/// One thing less.
enum Edit {
    /// a small terminal
    Lent,
    /// all of a name but its first bytes, so many
    Name(usize, usize),
    /// calls from here on, so many
    Calls(usize, usize),
    /// all of an image
    Image(usize),
    /// words of an image, from here on, so many
    Words(usize, usize, usize),
    /// the fields of a word outside this mask to zero
    Fields(usize, usize, u64),
    /// the last of each
    Global(usize),
    Switch(usize),
    Lookup(usize),
}

const SMALL: Lent = Lent { base: 0x1_0000, heap: 8 * PAGE, frames: 4, slots: 64, spare: 64, fill: 0 };

/// Large steps first.
fn edits(case: &Case) -> Vec<Edit> {
    let runs = |n: usize| {
        let sizes = [n / 2, n / 4, n / 8, 1].into_iter().filter(|&size| size > 0);
        sizes.flat_map(move |size| (0..n).rev().step_by(size).map(move |end| ((end + 1).saturating_sub(size), size)))
    };
    let mut all: Vec<Edit> = runs(case.calls.len()).map(|(at, n)| Edit::Calls(at, n)).collect();
    all.push(Edit::Lent);
    for (i, call) in case.calls.iter().enumerate() {
        if let Call::Intern(bytes) = call {
            all.extend((0..bytes.len()).map(|n| Edit::Name(i, n)));
        }
    }
    for (i, image) in case.images.iter().enumerate() {
        all.push(Edit::Image(i));
        all.extend(runs(image.code.len()).map(|(at, n)| Edit::Words(i, at, n)));
        for at in 0..image.code.len() {
            all.extend([0xff, 0xffff_ffff, 0xffff_ffff_0000_00ff].map(|keep| Edit::Fields(i, at, keep)));
        }
        all.extend(image.globals.iter().map(|_| Edit::Global(i)));
        all.extend(image.switches.iter().map(|_| Edit::Switch(i)));
        all.extend(image.lookups.iter().map(|_| Edit::Lookup(i)));
    }
    all
}

/// `None` where nothing would be less, as after other edits.
fn edited(case: &Case, edit: &Edit) -> Option<Case> {
    let mut case = case.clone();
    match *edit {
        Edit::Lent => {
            (case.lent != SMALL).then_some(())?;
            case.lent = SMALL;
        }
        Edit::Name(at, n) => match case.calls.get_mut(at)? {
            Call::Intern(bytes) if n < bytes.len() => bytes.truncate(n),
            _ => return None,
        },
        Edit::Calls(at, n) => {
            let end = (at + n).min(case.calls.len());
            (at < end).then(|| drop(case.calls.drain(at..end)))?;
        }
        Edit::Image(i) => {
            let image = std::mem::take(&mut case.images[i]);
            (image != Image::default()).then_some(())?;
        }
        Edit::Words(i, at, n) => {
            let image = &mut case.images[i];
            let end = (at + n).min(image.code.len());
            (at < end).then(|| (at..end).for_each(|_| *image = without(image, at)))?;
        }
        Edit::Fields(i, at, keep) => {
            let word = case.images[i].code.get_mut(at).filter(|word| **word & !keep != 0)?;
            *word &= keep;
        }
        Edit::Global(i) => {
            case.images[i].globals.pop()?;
        }
        Edit::Switch(i) => drop(case.images[i].switches.pop()?),
        Edit::Lookup(i) => drop(case.images[i].lookups.pop()?),
    }
    Some(case)
}

pub fn shrink(mut case: Case, fails: impl Fn(&Case) -> bool) -> Case {
    loop {
        let mut less = false;
        for edit in edits(&case) {
            if let Some(smaller) = edited(&case, &edit).filter(&fails) {
                case = smaller;
                less = true;
            }
        }
        if !less {
            return case;
        }
    }
}
