//! A third machine, one that refuses by document 01's numbers and works on lent buffers, is added by these two implementations. Here it
//! is the model itself, and the model with a fault: the comparison then covers refusals, made-up states and whole buffers.
use oracle::case::Case;
use oracle::compare::{Compared, Counts, Outcome, compare};
use oracle::generate::case_for;
use oracle::image::Image;
use oracle::machine::{Answer, Call, Lent, Machine, View};
use oracle::model::Model;
use oracle::model::word::op;
use oracle::shrink::shrink;

/// `FAULT` is what is wrong with it.
struct Third<const FAULT: u8>(Model);

const NONE: u8 = 0;
/// 9 is never given for frames.
const FRAMES: u8 = 1;
/// The spare slice is left alone by a growth.
const SPARE: u8 = 2;
/// A step too many is told.
const STEPS: u8 = 3;
/// A refused start has another number.
const START: u8 = 4;
/// A name of five bytes or more is answered one off.
const NAME: u8 = 5;
/// `IMul` adds.
const PRODUCT: u8 = 6;

impl<const FAULT: u8> Machine for Third<FAULT> {
    fn start(lent: Lent, image: &Image) -> Result<Self, u8> {
        match Model::start(lent, image) {
            Ok(model) => Ok(Self(model)),
            Err(_) if FAULT == START => Err(10),
            Err(number) => Err(number),
        }
    }

    fn call(&mut self, images: &[Image], call: &Call) -> Answer {
        let spare = self.0.spare.clone();
        let frames = self.0.frames.len() as u64;
        let depth = self.0.state.depth;
        if FAULT == FRAMES && matches!(call, Call::Run { .. }) && depth > frames {
            self.0.state.depth = frames;
        }
        let answer = match call {
            Call::Run { .. } if FAULT == PRODUCT => self.0.call(&images.iter().map(adding).collect::<Vec<_>>(), call),
            _ => self.0.call(images, call),
        };
        if FAULT == SPARE {
            self.0.spare = spare;
        }
        match (call, answer) {
            (_, Answer::End { number, pc, steps }) if FAULT == STEPS => Answer::End { number, pc, steps: steps.map(|n| n + 1) },
            (Call::Intern(name), Answer::Value(value)) if FAULT == NAME && name.len() >= 5 => Answer::Value(value + 1),
            _ => answer,
        }
    }

    fn view(&self) -> View<'_> {
        self.0.view()
    }
}

/// The image with an `IAdd` for each `IMul`.
fn adding(image: &Image) -> Image {
    let word = |&w: &u64| if w & 0xff == u64::from(op::IMul) { w - u64::from(op::IMul - op::IAdd) } else { w };
    Image { code: image.code.iter().map(word).collect(), ..image.clone() }
}

impl<const FAULT: u8> Compared for Third<FAULT> {
    const NAME: &'static str = "the third machine";
}

fn outcome<const FAULT: u8>(case: &Case) -> Outcome {
    compare::<Third<FAULT>>(case, &mut Counts::default())
}

/// How many of the cases differ, and how many are set aside.
fn compared<const FAULT: u8>(cases: u64) -> (u64, u64) {
    let (mut differ, mut aside) = (0, 0);
    for number in 0..cases {
        match outcome::<FAULT>(&case_for::<Third<FAULT>>(3, number)) {
            Outcome::Same => {}
            Outcome::Differs(_) => differ += 1,
            Outcome::Aside(_) => aside += 1,
        }
    }
    (differ, aside)
}

#[test]
fn nothing_is_set_aside_for_it() {
    assert_eq!(compared::<NONE>(2000), (0, 0));
}

#[test]
fn its_faults_are_found() {
    let found = [compared::<FRAMES>(2000).0, compared::<SPARE>(2000).0, compared::<STEPS>(200).0, compared::<START>(2000).0];
    assert!(found.iter().all(|&n| n > 0), "{found:?}");
}

/// The first case that fails, and what it is made to.
fn shrunk<const FAULT: u8>() -> (Case, Case) {
    let fails = |case: &Case| matches!(outcome::<FAULT>(case), Outcome::Differs(_));
    let case = (0..).map(|number| case_for::<Third<FAULT>>(3, number)).find(fails).unwrap();
    (case.clone(), shrink(case, fails))
}

#[test]
fn a_failing_case_is_made_small() {
    // a run of nothing
    let (_, small) = shrunk::<STEPS>();
    assert!(matches!(small.calls[..], [Call::Run { .. }]), "{small}");
    assert!(small.images.iter().all(|image| *image == Image::default()), "{small}");
    // one name, of five bytes
    let (_, small) = shrunk::<NAME>();
    assert!(matches!(&small.calls[..], [Call::Intern(name)] if name.len() == 5), "{small}");
    // the table grows from 64 slots: 33 names, and of each what tells it from the others
    let (_, small) = shrunk::<SPARE>();
    assert_eq!(small.calls.len(), 33, "{small}");
    // two numbers whose product is not their sum, as one that is not 0 with itself: r0 is loaded and multiplied, before a Halt
    let (large, small) = shrunk::<PRODUCT>();
    assert!(large.images[0].code.len() > 10 && small.images[0].code.len() <= 3, "{small}");
    assert_eq!(small.calls.len(), 1, "{small}");
}

/// A name is printed so that it can be put into a test: none of its bytes is lost.
#[test]
fn names_are_printed_with_every_byte() {
    let lent = shrunk::<STEPS>().1.lent;
    let case = Case { lent, images: Vec::new(), calls: vec![Call::Intern(vec![b'a', b'"', 0xff, 0])] };
    assert!(case.to_string().ends_with("  Intern(b\"a\\\"\\xff\\x00\")\n"), "{case}");
}
