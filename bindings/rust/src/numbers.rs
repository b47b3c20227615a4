//! The numbers that calls return. A test compares them with the proved source.
use std::fmt;

/// Why a run ended.
#[derive(Clone, Copy, Debug, PartialEq, Eq)]
#[repr(u64)]
pub enum End {
    /// At a Halt; or with nothing to run, where the code is empty or the stored pc past its end.
    Halt = 0,
    /// A zero divisor.
    DivisionByZero = 1,
    /// The heap has no room for the allocation.
    AllocationFailed = 2,
    /// A Call with every frame in use.
    StackOverflow = 3,
    /// A false Assert.
    AssertionFailed = 4,
    /// The budget is completed.
    Budget = 5,
    /// Load or Store outside the pushed pages, or at no multiple of 8.
    BadAddress = 6,
    /// −2^63 by −1.
    QuotientOverflow = 7,
    /// Ret at depth 0.
    FrameUnderflow = 8,
}

/// Why a call was refused. Nothing was changed.
#[derive(Clone, Copy, Debug, PartialEq, Eq)]
#[repr(u64)]
pub enum Refusal {
    /// The heap has no room for the allocation.
    Memory = 2,
    /// A state that cannot belong to the buffers.
    State = 9,
    /// A size or the base outside the limits, ends of an image's sections that do not go up from 9 to the number of words, ends of tables
    /// that do not go up from 0 to the number of entries, or not as many ends, or defaults, as first keys.
    Size = 10,
    /// Code whose last word has another byte 0 than 59; empty code is taken.
    NoHalt = 11,
    /// An opcode from 40 to 49, or above 60.
    Opcode = 12,
    /// A register above 31, a kind, an alignment, or an unused byte that is not zero.
    Operand = 13,
    /// A jump or a function past the code.
    Target = 14,
    /// A global or a table past its count.
    Index = 15,
    /// A table's target past the code.
    TableTarget = 16,
    /// A small name over 8 bytes, or with padding that is not zero.
    SmallString = 17,
    /// The names need more slots than are lent.
    TableFull = 18,
    /// Of image lines alone: no call returns it.
    Text = 19,
}

impl End {
    /// Each at the place of its number.
    const ALL: [End; 9] = [
        End::Halt,
        End::DivisionByZero,
        End::AllocationFailed,
        End::StackOverflow,
        End::AssertionFailed,
        End::Budget,
        End::BadAddress,
        End::QuotientOverflow,
        End::FrameUnderflow,
    ];

    /// Its number.
    pub fn number(self) -> u64 {
        self as u64
    }

    pub(crate) fn from_number(number: u64) -> Option<End> {
        End::ALL.get(usize::try_from(number).ok()?).copied()
    }
}

impl Refusal {
    /// Those but `Memory`, in the order of their numbers.
    const FROM_9: [Refusal; 11] = [
        Refusal::State,
        Refusal::Size,
        Refusal::NoHalt,
        Refusal::Opcode,
        Refusal::Operand,
        Refusal::Target,
        Refusal::Index,
        Refusal::TableTarget,
        Refusal::SmallString,
        Refusal::TableFull,
        Refusal::Text,
    ];

    /// Its number.
    pub fn number(self) -> u64 {
        self as u64
    }

    /// The library returns no other number, which is proved.
    pub(crate) fn from_number(number: u64) -> Refusal {
        if number == Refusal::Memory.number() {
            return Refusal::Memory;
        }
        let place = number.checked_sub(Refusal::State.number()).expect("a refusal's number");
        Refusal::FROM_9[place as usize]
    }
}

impl fmt::Display for End {
    fn fmt(&self, f: &mut fmt::Formatter) -> fmt::Result {
        write!(f, "ended with {}: {:?}", self.number(), self)
    }
}

impl fmt::Display for Refusal {
    fn fmt(&self, f: &mut fmt::Formatter) -> fmt::Result {
        write!(f, "refused with {}: {:?}", self.number(), self)
    }
}

impl std::error::Error for Refusal {}

#[cfg(test)]
mod tests {
    use super::*;

    #[test]
    fn each_number_gives_what_has_it() {
        for end in End::ALL {
            assert_eq!(End::from_number(end.number()), Some(end));
        }
        assert_eq!(End::from_number(9), None);
        for why in Refusal::FROM_9.into_iter().chain([Refusal::Memory]) {
            assert_eq!(Refusal::from_number(why.number()), why);
        }
    }

    #[test]
    fn they_are_shown_with_their_numbers() {
        assert_eq!(End::StackOverflow.to_string(), "ended with 3: StackOverflow");
        assert_eq!(Refusal::TableFull.to_string(), "refused with 18: TableFull");
    }
}
