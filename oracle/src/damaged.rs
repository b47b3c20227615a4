//! Damaged images in words: each copy is given to the model and to another machine, which have to answer alike.
use crate::case::Case;
use crate::compare::{Compared, difference};
use crate::comparison::{Options, in_turn};
use crate::generate;
use crate::image::Image;
use crate::machine::{Answer, Call, InWords, Machine};
use crate::model::Model;
use crate::{stored, text};
use std::fmt;
use std::process::ExitCode;

/// The longest run of a damaged image: it may go round for ever.
const BUDGET: u64 = 3000;

/// The two machines, and what their answers came to.
struct Pair<'a, M> {
    model: Model,
    other: M,
    images: &'a [Image],
    tally: &'a mut Tally,
}

impl<'a, M: InWords + Compared> Pair<'a, M> {
    /// `Err` is a difference; a refusal that both give is counted.
    fn start(case: &'a Case, words: &[u64], tally: &'a mut Tally) -> Result<Self, String> {
        let refused = match (Model::start_on(case.lent, words), M::start_on(case.lent, words)) {
            (Ok(model), Ok(other)) => return Self { model, other, images: &case.images, tally }.same("the start"),
            (Err(m), Err(n)) if m == n => m,
            (model, other) => return Err(format!("start: model {:?}, {} {:?}", model.err(), M::NAME, other.err())),
        };
        // 10, 11, 16, 12 to 15: what can be refused of an image
        if !(10..=16).contains(&refused) {
            return Err(format!("start: refused by {refused}, which is none of an image's numbers"));
        }
        tally.refused[usize::from(refused)] += 1;
        // its calls are made on the image as it was
        let image = &case.images[0];
        let (model, other) = (Model::start(case.lent, image), M::start(case.lent, image));
        let (Ok(model), Ok(other)) = (model, other) else { return Err("start: the undamaged image is refused".to_string()) };
        Self { model, other, images: &case.images, tally }.same("the start on the undamaged image")
    }

    fn same(self, after: &str) -> Result<Self, String> {
        match difference(&self.model, &self.model.view(), &self.other.view(), true) {
            None => Ok(self),
            Some(what) => Err(format!("after {after}: {what}")),
        }
    }

    fn call(mut self, call: &Call) -> Result<Self, String> {
        let answers = (self.model.call(self.images, call), self.other.call(self.images, call));
        agreed::<M>(answers, &format!("{call:?}"))?;
        self.same(&format!("{call:?}"))
    }

    fn run(mut self, words: &[u64], budget: u64) -> Result<Self, String> {
        let answers = (self.model.run_on(words, budget), self.other.run_on(words, budget));
        match agreed::<M>(answers, "a run of the damaged image")? {
            Answer::End { number: number @ 0..=8, steps, .. } => {
                self.tally.ended[usize::from(number)] += 1;
                self.tally.steps += steps.unwrap_or(0);
            }
            Answer::Refused(number @ 9..=16) => self.tally.runs_refused[usize::from(number)] += 1,
            answer => return Err(format!("a run: {answer:?}, which is in no table")),
        }
        self.same("a run of the damaged image")
    }
}

fn agreed<M: Compared>((ours, theirs): (Answer, Answer), what: &str) -> Result<Answer, String> {
    if ours.agrees(theirs) { Ok(ours) } else { Err(format!("{what}: model {ours:x?}, {} {theirs:x?}", M::NAME)) }
}

/// The calls of a case, its first image damaged: a start, the names, runs; once more from place 0; and then the image as it was.
pub fn compare<M: InWords + Compared>(case: &Case, words: &[u64], tally: &mut Tally) -> Result<(), String> {
    tally.copies += 1;
    let mut pair = Pair::<M>::start(case, words, tally)?;
    for call in &case.calls {
        pair = match *call {
            Call::Run { image: 0, budget } => pair.run(words, budget.min(BUDGET))?,
            Call::Run { image, budget } => pair.call(&Call::Run { image, budget: budget.min(BUDGET) })?,
            _ => pair.call(call)?,
        };
    }
    let again = pair.call(&Call::SetPc(0))?.run(words, BUDGET)?;
    again.call(&Call::Reset)?.call(&Call::SetPc(0))?.call(&Call::Run { image: 0, budget: BUDGET })?;
    Ok(())
}

/// What the answers came to, by their numbers.
#[derive(Default)]
pub struct Tally {
    pub copies: u64,
    /// starts
    pub refused: [u64; 20],
    pub runs_refused: [u64; 20],
    pub ended: [u64; 9],
    pub steps: u64,
}

impl fmt::Display for Tally {
    fn fmt(&self, f: &mut fmt::Formatter<'_>) -> fmt::Result {
        let row = |f: &mut fmt::Formatter<'_>, what: &str, counts: &[u64]| {
            write!(f, "{} {what}", counts.iter().sum::<u64>())?;
            for (number, count) in counts.iter().enumerate().filter(|(_, count)| **count > 0) {
                write!(f, ", {number}: {count}")?;
            }
            writeln!(f)
        };
        writeln!(f, "{} damaged copies of images in words, answered alike", self.copies)?;
        row(f, "starts refused", &self.refused)?;
        row(f, "runs refused", &self.runs_refused)?;
        row(f, "runs ended", &self.ended)?;
        writeln!(f, "{} steps in those runs", self.steps)
    }
}

/// The cases of the examples and of the stored vectors that are run.
pub fn sources() -> Vec<Case> {
    let examples = stored::examples().into_iter().map(|path| std::fs::read(path).expect("an example"));
    examples.chain(stored::vectors()).filter_map(|input| text::case(&input)).collect()
}

/// Damaged copies, the model and another machine side by side.
pub fn comparison<M: InWords + Compared>(options: &[&str], usage: &str) -> ExitCode {
    let Some(options) = Options::read(options) else {
        eprintln!("{usage}");
        return ExitCode::from(2);
    };
    let sources = sources();
    let found = in_turn(&options, M::NAME, |tally: &mut Tally, number| {
        let (case, words) = generate::damaged_words(options.seed, number, &sources);
        compare::<M>(&case, &words, tally).map_err(|what| format!("{what}\n{case}image 0, damaged:\n{words:x?}"))
    });
    if found.is_none() { ExitCode::SUCCESS } else { ExitCode::FAILURE }
}
