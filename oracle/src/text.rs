//! The image runner: document 01, 'The image runner reads lower-case lines, highest digit first'.
use crate::anomaly::{SIZE, TEXT};
use crate::case::Case;
use crate::image::{Image, Lookup, Switch};
use crate::machine::{Answer, Call, Lent, Machine, PAGE};
use crate::model::Model;
use std::fmt::Write;

/// A text that is read: what it lends, the image, and its names with the global that each one gives.
#[derive(Clone, Debug, Default)]
pub struct Text {
    pub base: u64,
    pub pages: u64,
    pub frames: u64,
    pub slots: u64,
    pub budget: u64,
    pub image: Image,
    pub names: Vec<(usize, Vec<u8>)>,
}

fn digit(d: u8) -> Option<u64> {
    match d {
        b'0'..=b'9' => Some(u64::from(d - b'0')),
        b'a'..=b'f' => Some(u64::from(d - b'a' + 10)),
        _ => None,
    }
}

fn number(digits: &[u8]) -> Option<u64> {
    digits.iter().try_fold(0, |n, &d| Some(n << 4 | digit(d)?))
}

/// Numbers of so many digits each, and no digit left over.
fn numbers(digits: &[u8], each: usize) -> Option<Vec<u64>> {
    if digits.len() % each != 0 {
        return None;
    }
    digits.chunks(each).map(number).collect()
}

/// One number of 16 digits.
fn word(digits: &[u8]) -> Option<u64> {
    if digits.len() == 16 { number(digits) } else { None }
}

/// Numbers of 16 digits, at least so many.
fn words(digits: &[u8], least: usize) -> Option<Vec<u64>> {
    numbers(digits, 16).filter(|n| n.len() >= least)
}

/// `None` is 19.
pub fn read(input: &[u8]) -> Option<Text> {
    if input.len() > 65_536 {
        return None;
    }
    let lines = input.strip_suffix(b"\n")?;
    let mut text = Text::default();
    for (i, line) in lines.split(|&b| b == b'\n').enumerate() {
        let (kind, rest) = line.split_at_checked(2)?;
        if (kind == b"00") != (i == 0) {
            return None;
        }
        let image = &mut text.image;
        match kind {
            b"00" => {
                if rest.len() != 36 {
                    return None;
                }
                text.base = number(&rest[..16])?;
                text.pages = number(&rest[16..20])?;
                text.frames = number(&rest[20..24])?;
                text.slots = number(&rest[24..28])?;
                text.budget = number(&rest[28..])?;
            }
            b"01" => image.code.push(word(rest)?),
            b"02" => image.globals.push(word(rest)?),
            b"03" => {
                let (first, targets) = rest.split_at_checked(16)?;
                image.switches.push(Switch { first: number(first)?, targets: numbers(targets, 4)? });
            }
            b"04" => {
                let all = words(rest, 2)?;
                image.lookups.push(Lookup { first: all[0], default: all[1], values: all[2..].to_vec() });
            }
            b"05" => {
                let bytes = numbers(rest, 2)?.iter().map(|&b| b as u8).collect();
                text.names.push((image.globals.len(), bytes));
                image.globals.push(0);
            }
            _ => return None,
        }
    }
    Some(text)
}

/// The text that `read` reads so.
pub fn write(text: &Text) -> String {
    let image = &text.image;
    let mut out = format!("00{:016x}{:04x}{:04x}{:04x}{:08x}\n", text.base, text.pages, text.frames, text.slots, text.budget);
    for word in &image.code {
        writeln!(out, "01{word:016x}").unwrap();
    }
    for table in &image.switches {
        write!(out, "03{:016x}", table.first).unwrap();
        table.targets.iter().for_each(|t| write!(out, "{t:04x}").unwrap());
        out.push('\n');
    }
    for table in &image.lookups {
        write!(out, "04{:016x}{:016x}", table.first, table.default).unwrap();
        table.values.iter().for_each(|v| write!(out, "{v:016x}").unwrap());
        out.push('\n');
    }
    for (i, value) in image.globals.iter().enumerate() {
        match text.names.iter().find(|(global, _)| *global == i) {
            Some((_, bytes)) => {
                out.push_str("05");
                bytes.iter().for_each(|b| write!(out, "{b:02x}").unwrap());
                out.push('\n');
            }
            None => writeln!(out, "02{value:016x}").unwrap(),
        }
    }
    out
}

impl Text {
    /// 'The runner: 8 pages, 4,096 words, 4,096 frames.'
    pub fn within(&self) -> bool {
        self.pages <= 8 && self.image.code.len() <= 4096 && self.frames <= 4096
    }

    pub fn lent(&self) -> Lent {
        Lent { base: self.base, heap: self.pages * PAGE, frames: self.frames, slots: self.slots, spare: self.slots, fill: 0 }
    }
}

/// The same as a case: its names interned, then the run, with their values among the globals. `None` where the runner refuses.
pub fn case(input: &[u8]) -> Option<Case> {
    let text = read(input).filter(Text::within)?;
    let mut model = Model::start(text.lent(), &text.image).ok()?;
    let (lent, mut image) = (text.lent(), text.image);
    let mut calls = Vec::new();
    for (global, bytes) in text.names {
        calls.push(Call::Intern(bytes));
        let Answer::Value(value) = model.call(&[], calls.last()?) else {
            return None;
        };
        image.globals[global] = value;
    }
    calls.push(Call::Run { image: 0, budget: text.budget });
    Some(Case { lent, images: vec![image], calls })
}

/// 'A refusal, of an interning too, is its number alone in two digits.'
fn refusal(number: u8) -> String {
    format!("{number:02x}\n")
}

/// What the runner prints for an input, by this machine.
pub fn report<M: Machine>(input: &[u8]) -> String {
    let Some(text) = read(input) else {
        return refusal(TEXT);
    };
    if !text.within() {
        return refusal(SIZE);
    }
    // 'An image is loaded or refused before its names are interned'
    let mut machine = match M::start(text.lent(), &text.image) {
        Ok(machine) => machine,
        Err(number) => return refusal(number),
    };
    let mut image = text.image;
    for (global, bytes) in text.names {
        match machine.call(&[], &Call::Intern(bytes)) {
            Answer::Value(value) => image.globals[global] = value,
            Answer::Refused(number) => return refusal(number),
            other => unreachable!("{other:?}"),
        }
    }
    let answer = machine.call(&[image], &Call::Run { image: 0, budget: text.budget });
    printed(&machine, answer)
}

/// 'end (2), pc (16), steps (8); each non-zero register as number (2) and value; then depth (4), pages (4; pushed bytes over page
/// size), last page's length (8), strings (4)'
pub fn printed<M: Machine>(machine: &M, answer: Answer) -> String {
    let (number, pc, steps) = match answer {
        Answer::End { number, pc, steps } => (number, pc, steps.unwrap_or(0)),
        Answer::Refused(number) => return refusal(number),
        other => unreachable!("{other:?}"),
    };
    let view = machine.view();
    let mut out = format!("{number:02x}{pc:016x}{steps:08x}\n");
    for (i, value) in view.regs.iter().enumerate().filter(|(_, value)| **value != 0) {
        writeln!(out, "{i:02x}{value:016x}").unwrap();
    }
    let pages = view.heap.len() as u64 / PAGE;
    writeln!(out, "{:04x}{pages:04x}{:08x}{:04x}", view.depth, view.len, view.names).unwrap();
    out
}
