//! Each component that is compared is: a machine whose view or whose answers are off in one place is found, and by that place. Here it is the
//! model itself, altered from its first call on.
use oracle::compare::{Compared, Counts, Outcome, compare};
use oracle::generate;
use oracle::image::Image;
use oracle::machine::{Answer, Call, Lent, Machine, View};
use oracle::model::Model;
use std::cell::Cell;

#[derive(Clone, Copy)]
enum Fault {
    /// In what is in use. The lent buffers are not shown whole, as they would tell of it too.
    Part(fn(&mut View)),
    /// In a buffer outside the part in use.
    Whole(fn(&mut View)),
    Answer(fn(Answer) -> Answer),
}

thread_local! {
    static FAULT: Cell<Fault> = const { Cell::new(Fault::Whole(|_| {})) };
}

struct Altered {
    model: Model,
    called: bool,
}

impl Machine for Altered {
    fn start(lent: Lent, image: &Image) -> Result<Self, u8> {
        Model::start(lent, image).map(|model| Self { model, called: false })
    }

    fn call(&mut self, images: &[Image], call: &Call) -> Answer {
        self.called = true;
        let answer = self.model.call(images, call);
        match FAULT.get() {
            Fault::Answer(alter) => alter(answer),
            _ => answer,
        }
    }

    fn view(&self) -> View<'_> {
        let mut view = self.model.view();
        match FAULT.get() {
            Fault::Part(alter) if self.called => {
                view.whole = None;
                alter(&mut view);
            }
            Fault::Whole(alter) if self.called => alter(&mut view),
            _ => {}
        }
        view
    }
}

impl Compared for Altered {
    const NAME: &'static str = "the altered machine";
}

/// The first difference in many cases. They have no made-up states: where a block's padding lies is told by the base.
fn found(fault: Fault) -> Option<String> {
    FAULT.set(fault);
    (0..400).find_map(|number| match compare::<Altered>(&generate::case(3, number), &mut Counts::default()) {
        Outcome::Differs(what) => Some(what),
        _ => None,
    })
}

fn flip(word: Option<&mut u64>) {
    word.into_iter().for_each(|word| *word ^= 1);
}

/// What is off, and what the comparison says of it.
const FAULTS: [(Fault, &str); 23] = [
    (Fault::Part(|v| flip(v.regs.to_mut().last_mut())), "register 31: "),
    (Fault::Part(|v| v.pc ^= 1), "stored pc: "),
    (Fault::Part(|v| v.depth ^= 1), "depth: "),
    (Fault::Part(|v| flip(v.frames.to_mut().first_mut())), "frame 0: "),
    (Fault::Part(|v| flip(v.frames.to_mut().get_mut(1))), "frame 1: "),
    (Fault::Part(|v| v.frames.to_mut().truncate(0)), "count of frames: "),
    (Fault::Part(|v| v.heap.to_mut().last_mut().into_iter().for_each(|byte| *byte ^= 1)), "page byte "),
    // the flags in the header of the first block, before its padding
    (Fault::Part(|v| v.heap.to_mut()[8] ^= 1), "page byte 8h: "),
    (Fault::Part(|v| v.heap.to_mut().truncate(4095)), "pushed bytes: "),
    (Fault::Part(|v| v.page ^= 4096), "last page's place: "),
    (Fault::Part(|v| v.len += 1), "last page's length: "),
    (Fault::Part(|v| v.pages.as_mut().unwrap().to_mut().push((0, 0))), "pages: "),
    (Fault::Part(|v| flip(v.slots.to_mut().last_mut())), "slot "),
    (Fault::Part(|v| v.names += 1), "count of names: "),
    (Fault::Whole(|v| v.whole.as_mut().unwrap().frames = &[]), "a lent buffer"),
    (Fault::Whole(|v| v.whole.as_mut().unwrap().heap = &[]), "a lent buffer"),
    (Fault::Whole(|v| v.whole.as_mut().unwrap().slots = &[]), "a lent buffer"),
    (Fault::Whole(|v| v.whole.as_mut().unwrap().spare = &[]), "a lent buffer"),
    (Fault::Answer(|a| if let Answer::Value(value) = a { Answer::Value(value + 1) } else { a }), "model Value("),
    (Fault::Answer(|a| if let Answer::Refused(number) = a { Answer::Refused(number + 1) } else { a }), "model Refused("),
    (Fault::Answer(|a| ended(a, |number, _, _| *number += 1)), "model End "),
    (Fault::Answer(|a| ended(a, |_, pc, _| *pc ^= 1)), "model End "),
    (Fault::Answer(|a| ended(a, |_, _, steps| *steps += 1)), "model End "),
];

fn ended(answer: Answer, alter: fn(&mut u8, &mut u64, &mut u64)) -> Answer {
    let Answer::End { mut number, mut pc, steps: Some(mut steps) } = answer else { return answer };
    alter(&mut number, &mut pc, &mut steps);
    Answer::End { number, pc, steps: Some(steps) }
}

#[test]
fn each_is_compared() {
    for (fault, said) in FAULTS {
        let what = found(fault).unwrap_or_else(|| panic!("not found: {said}"));
        assert!(what.contains(said), "{said} {what}");
    }
}

/// 'every page byte except header padding'
#[test]
fn but_for_padding() {
    assert_eq!(found(Fault::Part(|v| v.heap.to_mut()[9..16].fill(0x5a))), None);
}
