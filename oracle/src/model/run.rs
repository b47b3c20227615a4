//! A run: document 01, 'vm.rs' and 'Ends and numbers'.
use super::value::{cast_to_double, cast_to_int, double, is_nan};
use super::word::{byte, high, imm, op, target};
use super::{Condition, Model, REGISTER_COUNT};
use crate::anomaly::*;
use crate::image::Image;
use crate::machine::Answer;

/// Where an instruction leads.
enum Next {
    On,
    Jump(u64),
    Halt,
    /// The end by this number, with the state before the instruction.
    Stop(u8),
}

/// The slot of a table: 'Str is 0, Int 1', strings lie 4 apart.
fn slot(kind: u64, subject: u64, first: u64) -> usize {
    let offset = subject.wrapping_sub(first);
    (if kind == 0 { offset / 4 } else { offset }) as usize
}

impl Model {
    /// The image and the state were tested.
    pub(super) fn run(&mut self, image: &Image, budget: u64) -> Answer {
        let end = |number, pc, steps| Answer::End { number, pc, steps: Some(steps) };
        let words = image.code.len() as u64;
        // 'Empty code returns 0 and writes nothing.'
        if words == 0 {
            return end(HALT, self.state.pc, 0);
        }
        self.frames[0] = words.wrapping_sub(2);
        let mut pc = self.state.pc;
        if pc >= words {
            return end(HALT, pc, 0);
        }
        for steps in 0..budget {
            match self.step(image, pc) {
                Next::On => pc += 1,
                Next::Jump(to) => pc = to,
                Next::Halt => {
                    self.state.pc = pc;
                    return end(HALT, pc, steps + 1);
                }
                Next::Stop(number) => return end(number, pc, steps),
            }
        }
        self.state.pc = pc;
        end(BUDGET, pc, budget)
    }

    fn step(&mut self, image: &Image, pc: u64) -> Next {
        let word = image.code[pc as usize];
        let (a, b, c) = (byte(word, 1) as usize, byte(word, 2) as usize, byte(word, 3) as usize);
        let imm = imm(word);
        // where a byte is no register, what is read here for it is not used
        let r = |n: usize| self.state.regs[n % REGISTER_COUNT];
        let (ra, rb, rc, rhs) = (r(a), r(b), r(c), r(byte(word, 4) as usize));
        let opcode = byte(word, 0) as u8;
        let jump_if = |condition: bool| if condition { Next::Jump(target(word)) } else { Next::On };
        let set = match opcode {
            op::IAdd => rb.wrapping_add(rc),
            op::IAddI => rb.wrapping_add(imm),
            op::ISub => rb.wrapping_sub(rc),
            op::ISubI => rb.wrapping_sub(imm),
            op::IMul => rb.wrapping_mul(rc),
            op::IMulI => rb.wrapping_mul(imm),
            op::IDiv | op::IDivI | op::IMod | op::IModI => {
                let divisor = if matches!(opcode, op::IDiv | op::IMod) { rc } else { imm } as i64;
                let dividend = rb as i64;
                if divisor == 0 {
                    return Next::Stop(DIVISION_BY_ZERO);
                }
                if dividend == i64::MIN && divisor == -1 {
                    return Next::Stop(QUOTIENT_OVERFLOW);
                }
                // toward zero
                (if matches!(opcode, op::IDiv | op::IDivI) { dividend / divisor } else { dividend % divisor }) as u64
            }
            op::IAnd => rb & rc,
            op::IAndI => rb & imm,
            op::ILt => ((rb as i64) < rc as i64).into(),
            op::ILtI => ((rb as i64) < imm as i64).into(),
            op::IGt => (rb as i64 > rc as i64).into(),
            op::IGtI => (rb as i64 > imm as i64).into(),
            op::IEq => (rb == rc).into(),
            op::IEqI => (rb == imm).into(),
            op::DAdd | op::DSub | op::DMul | op::DDiv => {
                let result = match opcode {
                    op::DAdd => double(rb, rc, |l, r| l + r),
                    op::DSub => double(rb, rc, |l, r| l - r),
                    op::DMul => double(rb, rc, |l, r| l * r),
                    _ => double(rb, rc, |l, r| l / r),
                };
                if is_nan(result) {
                    self.breaks(Condition::Nan);
                }
                result
            }
            op::DLt => (f64::from_bits(rb) < f64::from_bits(rc)).into(),
            op::DGt => (f64::from_bits(rb) > f64::from_bits(rc)).into(),
            // '`BEq` compares truth'
            op::BEq => ((rb != 0) == (rc != 0)).into(),
            // 'it compares values'
            op::SEq => (rb == rc).into(),
            op::Mov => rb,
            op::LoadI => imm,
            op::LoadG => image.globals[high(word) as usize],
            op::CastToInt => cast_to_int(rb),
            op::CastToDouble => cast_to_double(rb),
            op::CastToBool => (rb != 0).into(),
            op::Lookup => {
                let table = &image.lookups[high(word) as usize];
                *table.values.get(slot(c as u64, rb, table.first)).unwrap_or(&table.default)
            }
            op::Alloc => match self.alloc(b as u8, high(word), false) {
                Ok(address) => address,
                Err(number) => return Next::Stop(number),
            },
            op::Load => match self.address(rb, high(word)) {
                Some(address) => {
                    self.stays(rb, high(word) + 8);
                    self.read(address)
                }
                None => return Next::Stop(BAD_ADDRESS),
            },
            // '`AddrOf` wraps and checks nothing.'
            op::AddrOf => {
                self.stays(rb, high(word));
                rb.wrapping_add(high(word))
            }
            op::Store => {
                let Some(address) = self.address(ra, high(word)) else {
                    return Next::Stop(BAD_ADDRESS);
                };
                if self.stays(ra, high(word) + 8) {
                    self.breaks(Condition::Payload);
                }
                self.write(address, rb);
                return Next::On;
            }
            op::Jmp => return jump_if(true),
            op::JmpT => return jump_if(ra != 0),
            op::JmpF => return jump_if(ra == 0),
            op::JmpEqI => return jump_if(ra == imm),
            op::JmpNeI => return jump_if(ra != imm),
            op::JmpSEq => return jump_if(ra == rhs),
            op::JmpSNe => return jump_if(ra != rhs),
            op::Switch => {
                let table = &image.switches[high(word) as usize];
                return match table.targets.get(slot(a as u64, rb, table.first)) {
                    Some(&to) => Next::Jump(to),
                    None => Next::On,
                };
            }
            op::Tail => return Next::Jump(high(word)),
            op::Call => {
                if self.state.depth == self.frames.len() as u64 {
                    return Next::Stop(STACK_OVERFLOW);
                }
                self.frames[self.state.depth as usize] = pc;
                self.state.depth += 1;
                return Next::Jump(high(word));
            }
            op::Ret => {
                if self.state.depth == 0 {
                    return Next::Stop(FRAME_UNDERFLOW);
                }
                self.state.depth -= 1;
                return Next::Jump(self.frames[self.state.depth as usize].wrapping_add(1));
            }
            op::Assert => return if ra == 0 { Next::Stop(ASSERTION_FAILED) } else { Next::On },
            op::Halt => return Next::Halt,
            op::Nop => return Next::On,
            _ => unreachable!("the loader refuses {opcode}"),
        };
        self.state.regs[a] = set;
        Next::On
    }

    /// '8 bytes at base plus offset, an unwrapped sum that is a multiple of 8 and wholly in pushed pages'
    fn address(&self, base: u64, offset: u64) -> Option<u64> {
        let sum = base.checked_add(offset)?;
        (sum % 8 == 0 && self.reaches(sum, 8)).then_some(sum)
    }

    /// Notes whether `bytes` from `base` stay in the block that `base` belongs to; answers whether that is a name's.
    fn stays(&mut self, base: u64, bytes: u64) -> bool {
        let block = self.block_of(base).filter(|block| base.wrapping_sub(block.at).saturating_add(bytes) <= block.size);
        if block.is_none() {
            self.breaks(Condition::Block);
        }
        block.is_some_and(|block| block.name)
    }

    /// The first condition that a call does not keep is the one that is told.
    fn breaks(&mut self, condition: Condition) {
        self.broken.get_or_insert(condition);
    }
}
