//! An image in words, by docs/IMAGE.md: the model's reader against words that are written out, and against the text of the same image.
use oracle::case::Case;
use oracle::compare::Compared;
use oracle::damaged::{self, Tally};
use oracle::generate;
use oracle::image::{Image, Lookup, Switch};
use oracle::machine::{Answer, Call, InWords, Lent, Machine, View};
use oracle::model::Model;
use oracle::{stored, text, words};

fn image() -> Image {
    Image {
        code: vec![60, 59],
        globals: vec![7],
        switches: vec![Switch { first: 1, targets: vec![0, 1] }, Switch { first: 5, targets: vec![] }],
        lookups: vec![Lookup { first: 2, default: 9, values: vec![3] }, Lookup { first: 4, default: 8, values: vec![6, 7] }],
    }
}

/// The same: code to word 11, a global, two first keys, two ends, two targets, two first keys, two ends, three values, two defaults.
const WORDS: [u64; 27] = [
    11, 12, 14, 16, 18, 20, 22, 25, 27, //
    60, 59, 7, 1, 5, 2, 2, 0, 1, 2, 4, 1, 3, 3, 6, 7, 9, 8,
];

#[test]
fn they_are_read_and_written() {
    assert_eq!(words::read(&WORDS), Some(image()));
    assert_eq!(words::write(&image()), WORDS);
    assert_eq!(words::read(&[9; 9]), Some(Image::default()));
    assert_eq!(words::write(&Image::default()), [9; 9]);
}

#[test]
fn what_is_no_image_is_10() {
    for n in 0..WORDS.len() {
        assert_eq!(words::read(&WORDS[..n]), None, "{n} words");
    }
    assert_eq!(words::read(&[&WORDS[..], &[0]].concat()), None);
    // each end of a section one more, and far off; the code's one more makes code of the global, and is an image
    for at in 0..9 {
        for end in [WORDS[at] + 1, 8, 0, 1 << 40, u64::MAX] {
            let mut other = WORDS;
            other[at] = end;
            let read = words::read(&other);
            assert!(read.is_none() || (at == 0 && end == 12), "end {at} at {end}: {read:?}");
        }
    }
    // ends of tables: those of Switch are words 14 and 15, of Lookup 20 and 21
    for (at, end) in [(14, 3), (15, 1), (15, 3), (20, 4), (21, 2), (21, 0), (21, u64::MAX)] {
        let mut other = WORDS;
        other[at] = end;
        assert_eq!(words::read(&other), None, "word {at} as {end}");
    }
    // a table's end one less, where the next table takes the entry
    let mut other = WORDS;
    other[14] = 1;
    let switches = vec![Switch { first: 1, targets: vec![0] }, Switch { first: 5, targets: vec![1] }];
    assert_eq!(words::read(&other), Some(Image { switches, ..image() }));
    // not as many ends as first keys, entries without a table, not as many defaults
    assert_eq!(words::read(&[9, 9, 10, 10, 10, 10, 10, 10, 10, 1]), None);
    assert_eq!(words::read(&[9, 9, 9, 10, 10, 10, 10, 10, 10, 0]), None);
    assert_eq!(words::read(&[9, 9, 9, 9, 10, 10, 10, 10, 10, 1]), None);
    assert_eq!(words::read(&[9, 9, 9, 9, 9, 10, 11, 11, 11, 1, 0]), None);
    assert_eq!(words::read(&[9, 9, 9, 9, 9, 9, 9, 9, 10, 1]), None);
}

#[test]
fn the_examples_are_the_same_in_both_forms() {
    for path in stored::examples() {
        let text = text::read(&std::fs::read(&path).unwrap()).unwrap();
        let file = std::fs::read(path.with_extension("words")).unwrap();
        assert_eq!(file.len() % 8, 0);
        let of_file: Vec<u64> = file.chunks(8).map(|bytes| u64::from_le_bytes(bytes.try_into().unwrap())).collect();
        // a name's global is 0 in either
        assert_eq!(words::read(&of_file), Some(text.image), "{}", path.display());
    }
}

#[test]
fn every_image_comes_back() {
    for number in 0..3000 {
        for image in generate::case(11, number).images {
            assert_eq!(words::read(&words::write(&image)), Some(image));
        }
    }
    // and words that are read are those that are written
    let sources = damaged::sources();
    let read = (0..3000).filter(|&number| {
        let (_, damaged) = generate::damaged_words(11, number, &sources);
        words::read(&damaged).inspect(|image| assert_eq!(words::write(image), damaged)).is_some()
    });
    assert!(read.count() > 500);
}

/// The model, with a fault in how it reads words.
struct Third<const FAULT: u8>(Model);

const NONE: u8 = 0;
/// More words than the last end says are taken.
const LONGER: u8 = 1;
/// Ends that are no image's are 11.
const NUMBER: u8 = 2;
/// A run of words that are no image's has nothing to run.
const RUN: u8 = 3;
/// A `Ret` at depth 0 ends with a number that is no end.
const END: u8 = 4;

impl<const FAULT: u8> Machine for Third<FAULT> {
    fn start(lent: Lent, image: &Image) -> Result<Self, u8> {
        Model::start(lent, image).map(Self)
    }

    fn call(&mut self, images: &[Image], call: &Call) -> Answer {
        self.0.call(images, call)
    }

    fn view(&self) -> View<'_> {
        self.0.view()
    }
}

impl<const FAULT: u8> InWords for Third<FAULT> {
    fn start_on(lent: Lent, words: &[u64]) -> Result<Self, u8> {
        let end = words.get(8).map_or(0, |&end| end as usize);
        let words = if FAULT == LONGER && (9..words.len()).contains(&end) { &words[..end] } else { words };
        match Model::start_on(lent, words) {
            Err(10) if FAULT == NUMBER => Err(11),
            started => started.map(Self),
        }
    }

    fn run_on(&mut self, words: &[u64], budget: u64) -> Answer {
        match self.0.run_on(words, budget) {
            Answer::Refused(10) if FAULT == RUN => Answer::End { number: 0, pc: self.0.state.pc, steps: Some(0) },
            Answer::End { number: 8, pc, steps } if FAULT == END => Answer::End { number: 9, pc, steps },
            answer => answer,
        }
    }
}

impl<const FAULT: u8> Compared for Third<FAULT> {
    const NAME: &'static str = "the third machine";
}

/// How many of the copies differ, and what the others came to.
fn compared<const FAULT: u8>(copies: u64, sources: &[Case]) -> (u64, Tally) {
    let mut tally = Tally::default();
    let differs = |number: &u64| {
        let (case, words) = generate::damaged_words(3, *number, sources);
        damaged::compare::<Third<FAULT>>(&case, &words, &mut tally).is_err()
    };
    let found = (0..copies).filter(differs).count() as u64;
    (found, tally)
}

#[test]
fn damaged_words_come_to_every_number() {
    let (differ, tally) = compared::<NONE>(20_000, &damaged::sources());
    assert_eq!((differ, tally.copies), (0, 20_000));
    for number in 10..17 {
        assert!(tally.refused[number] > 20 && tally.runs_refused[number] > 20, "{number}:\n{tally}");
    }
    assert!(tally.ended.iter().all(|&runs| runs > 5), "{tally}");
}

#[test]
fn faults_are_found() {
    let sources = damaged::sources();
    let found = [
        compared::<LONGER>(2000, &sources).0,
        compared::<NUMBER>(200, &sources).0,
        compared::<RUN>(200, &sources).0,
        compared::<END>(2000, &sources).0,
    ];
    assert!(found.iter().all(|&n| n > 0), "{found:?}");
}
