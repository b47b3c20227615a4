//! The model and another machine, side by side, after every call of a case.
use crate::case::Case;
use crate::image::Image;
use crate::machine::{Answer, Call, Machine, View};
use crate::model::Model;
use std::collections::{BTreeMap, HashSet};
use std::fmt;
use std::hash::{DefaultHasher, Hash, Hasher};

/// Whether a call that the model has answered is made of the other machine too.
pub enum Ask {
    Make,
    /// It was refused and changed nothing, and the other machine has no refusals: the list goes on without it.
    PassOver,
    /// It is outside what the other machine can be asked, and the list ends here.
    SetAside(Aside),
}

/// Why a case, or the rest of its list, is not compared.
#[derive(Clone, Copy, Debug, PartialEq, Eq, PartialOrd, Ord)]
pub enum Aside {
    StartRefused(u8),
    /// The system does not give the heap's addresses.
    NotMapped,
    End(u8),
    OutsideBlock,
    NamePayload,
    Nan,
    NotUtf8,
    MadeUp,
}

impl fmt::Display for Aside {
    fn fmt(&self, f: &mut fmt::Formatter<'_>) -> fmt::Result {
        match self {
            Self::StartRefused(number) => write!(f, "the start is refused, {number}"),
            Self::NotMapped => f.write_str("the system does not give the heap's addresses"),
            Self::End(number) => write!(f, "the run ends {number}"),
            Self::OutsideBlock => f.write_str("a Load, Store or AddrOf leaves its block"),
            Self::NamePayload => f.write_str("a Store into a name's payload"),
            Self::Nan => f.write_str("a NaN result of DAdd, DSub, DMul or DDiv"),
            Self::NotUtf8 => f.write_str("a name that is not UTF-8"),
            Self::MadeUp => f.write_str("a made-up state"),
        }
    }
}

/// A machine that is compared with the model. For one that takes every call, as a proved one does, the name is all.
pub trait Compared: Machine {
    const NAME: &'static str;

    /// Whether it refuses starts by document 01's numbers; one that does not is asked for those alone that the model takes, and an
    /// `Err` of it says that it could not be had.
    const REFUSES: bool = true;

    fn asked(_call: &Call, _answer: Answer, _model: &Model) -> Ask {
        Ask::Make
    }
}

#[derive(Clone, Default, Debug)]
pub struct Counts {
    /// the different images that were run for at least one step, each by its hash: two of one hash would count as one
    pub programs: HashSet<u64>,
    /// runs of at least one step, and their steps
    pub runs: u64,
    pub steps: u64,
    /// runs with nothing to run, stopped at the first instruction, or refused
    pub idle: u64,
    pub host_calls: u64,
    /// states and buffers handed back otherwise
    pub made_up: u64,
    pub passed_over: u64,
}

impl Counts {
    fn run(&mut self, image: &Image, steps: u64) {
        if steps == 0 {
            self.idle += 1;
            return;
        }
        let mut hasher = DefaultHasher::new();
        image.hash(&mut hasher);
        self.programs.insert(hasher.finish());
        self.runs += 1;
        self.steps += steps;
    }
}

pub enum Outcome {
    Same,
    Aside(Aside),
    Differs(String),
}

pub fn compare<M: Compared>(case: &Case, counts: &mut Counts) -> Outcome {
    let image = &case.images[0];
    let (mut model, mut other) = match (Model::start(case.lent, image), M::REFUSES) {
        (Err(number), false) => return Outcome::Aside(Aside::StartRefused(number)),
        (Err(number), true) => {
            return match M::start(case.lent, image) {
                Err(n) if n == number => Outcome::Same,
                Err(n) => Outcome::Differs(format!("start: refused by {number} and {n}")),
                Ok(_) => Outcome::Differs(format!("start: refused by {number}, and not refused")),
            };
        }
        (Ok(model), _) => match M::start(case.lent, image) {
            Ok(other) => (model, other),
            Err(_) if !M::REFUSES => return Outcome::Aside(Aside::NotMapped),
            Err(n) => return Outcome::Differs(format!("start: not refused, and refused by {n}")),
        },
    };
    // 'before the first run on non-empty code that frame isn't compared with the Rust'
    let mut ran = M::REFUSES;
    if let Some(what) = difference(&model, &model.view(), &other.view(), ran) {
        return Outcome::Differs(format!("after the start: {what}"));
    }
    for (i, call) in case.calls.iter().enumerate() {
        let answer = model.call(&case.images, call);
        match M::asked(call, answer, &model) {
            Ask::Make => {}
            Ask::PassOver => {
                counts.passed_over += 1;
                continue;
            }
            Ask::SetAside(aside) => return Outcome::Aside(aside),
        }
        let theirs = other.call(&case.images, call);
        let place = || format!("call {} ({call:?})", i + 1);
        if !answer.agrees(theirs) {
            return Outcome::Differs(format!("{}: model {answer:x?}, {} {theirs:x?}", place(), M::NAME));
        }
        match call {
            Call::Run { image, .. } => {
                ran |= !case.images[*image].code.is_empty();
                counts.run(&case.images[*image], steps_of(answer));
            }
            Call::MakeUp { .. } => counts.made_up += 1,
            _ => counts.host_calls += 1,
        }
        if let Some(what) = difference(&model, &model.view(), &other.view(), ran) {
            return Outcome::Differs(format!("after {}: {what}", place()));
        }
    }
    Outcome::Same
}

fn steps_of(answer: Answer) -> u64 {
    match answer {
        Answer::End { steps, .. } => steps.unwrap_or(0),
        _ => 0,
    }
}

/// The first thing in which two machines differ, of all that document 01 compares.
pub fn difference(model: &Model, ours: &View, theirs: &View, frame_0: bool) -> Option<String> {
    let word = |what: &str, a: u64, b: u64| (a != b).then(|| format!("{what}: model {a:x}h, other {b:x}h"));
    let words = |what: &str, a: &[u64], b: &[u64]| {
        if a == b {
            return None;
        }
        let counts = || word(&format!("count of {what}s"), a.len() as u64, b.len() as u64);
        let first = a.iter().zip(b).enumerate().find_map(|(i, (&x, &y))| word(&format!("{what} {i}"), x, y));
        first.or_else(counts)
    };
    let from = usize::from(!frame_0 && ours.depth > 0 && theirs.depth > 0);
    let pages = match (&ours.pages, &theirs.pages) {
        (Some(a), Some(b)) if a != b => Some(format!("pages: model {a:x?}, other {b:x?}")),
        _ => None,
    };
    let whole = match (&ours.whole, &theirs.whole) {
        (Some(a), Some(b)) if a != b => Some("a lent buffer outside the part in use".to_string()),
        _ => None,
    };
    words("register", &ours.regs, &theirs.regs)
        .or_else(|| word("stored pc", ours.pc, theirs.pc))
        .or_else(|| word("depth", ours.depth, theirs.depth))
        .or_else(|| words("frame", &ours.frames[from..], &theirs.frames[from..]))
        .or_else(|| word("last page's place", ours.page, theirs.page))
        .or_else(|| word("last page's length", ours.len, theirs.len))
        .or(pages)
        .or_else(|| word("pushed bytes", ours.heap.len() as u64, theirs.heap.len() as u64))
        .or_else(|| bytes(model, &ours.heap, &theirs.heap))
        .or_else(|| words("slot", &ours.slots, &theirs.slots))
        .or_else(|| word("count of names", ours.names, theirs.names))
        .or(whole)
}

/// 'every page byte except header padding'
fn bytes(model: &Model, ours: &[u8], theirs: &[u8]) -> Option<String> {
    if ours == theirs {
        return None;
    }
    let mut theirs = theirs.to_vec();
    for block in &model.blocks {
        // a made-up base may lie above the block
        let payload = block.at.wrapping_sub(model.state.base) as usize;
        if (7..=ours.len().min(theirs.len())).contains(&payload) {
            theirs[payload - 7..payload].copy_from_slice(&ours[payload - 7..payload]);
        }
    }
    let at = ours.iter().zip(&theirs).position(|(a, b)| a != b)?;
    Some(format!("page byte {at:x}h: model {:02x}h, other {:02x}h", ours[at], theirs[at]))
}

/// What a comparison came to, over many cases.
#[derive(Default)]
pub struct Tally {
    pub cases: u64,
    pub counts: Counts,
    pub aside: BTreeMap<Aside, u64>,
}

impl Tally {
    /// `Err` is the difference.
    pub fn add<M: Compared>(&mut self, case: &Case) -> Result<(), String> {
        self.cases += 1;
        match compare::<M>(case, &mut self.counts) {
            Outcome::Same => Ok(()),
            Outcome::Aside(aside) => {
                *self.aside.entry(aside).or_default() += 1;
                Ok(())
            }
            Outcome::Differs(what) => Err(what),
        }
    }
}

impl fmt::Display for Tally {
    fn fmt(&self, f: &mut fmt::Formatter<'_>) -> fmt::Result {
        let Counts { ref programs, runs, steps, idle, host_calls, made_up, passed_over } = self.counts;
        let programs = programs.len();
        writeln!(f, "{} cases: {runs} runs of {programs} different programs, and {host_calls} host calls, compared", self.cases)?;
        writeln!(f, "{steps} steps in those runs; {idle} more runs without a step compared")?;
        if made_up > 0 {
            writeln!(f, "{made_up} states or buffers made up between calls")?;
        }
        writeln!(f, "{passed_over} refused calls answered by the model alone")?;
        let aside: u64 = self.aside.values().sum();
        writeln!(f, "{aside} cases set aside from some call on{}", if aside > 0 { ":" } else { "" })?;
        self.aside.iter().try_for_each(|(why, n)| writeln!(f, "  {n:>8}  {why}"))
    }
}
