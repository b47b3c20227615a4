//! Document 01, 'Its written conditions': what the original is asked, and what it is not.
use crate::anomaly::{ALLOCATION_FAILED, BAD_ADDRESS, BUDGET, FRAME_UNDERFLOW, QUOTIENT_OVERFLOW};
use crate::compare::{Aside, Ask, Compared};
use crate::machine::{Answer, Call};
use crate::model::{Condition, Model};
use crate::original::Original;

fn utf8(call: &Call) -> bool {
    match call {
        Call::Intern(bytes) => std::str::from_utf8(bytes).is_ok(),
        Call::InternSmall { len, word } => {
            let bytes = word.to_le_bytes();
            std::str::from_utf8(&bytes[..(*len as usize).min(8)]).is_ok()
        }
        _ => true,
    }
}

impl Compared for Original {
    const NAME: &'static str = "the original";
    const REFUSES: bool = false;

    fn asked(call: &Call, answer: Answer, model: &Model) -> Ask {
        if matches!(call, Call::MakeUp { .. }) {
            return Ask::SetAside(Aside::MadeUp);
        }
        match answer {
            // `try_alloc` says so where the heap cannot hold a block, for sizes that a `Layout` takes
            Answer::Refused(ALLOCATION_FAILED) if matches!(call, Call::Allocate { size, .. } if *size < 1 << 40) => Ask::Make,
            Answer::Refused(_) => Ask::PassOver,
            Answer::End { number, .. }
                if [ALLOCATION_FAILED, BUDGET, BAD_ADDRESS, QUOTIENT_OVERFLOW, FRAME_UNDERFLOW].contains(&number) =>
            {
                Ask::SetAside(Aside::End(number))
            }
            _ if !utf8(call) => Ask::SetAside(Aside::NotUtf8),
            _ => match model.broken {
                None => Ask::Make,
                Some(Condition::Block) => Ask::SetAside(Aside::OutsideBlock),
                Some(Condition::Payload) => Ask::SetAside(Aside::NamePayload),
                Some(Condition::Nan) => Ask::SetAside(Aside::Nan),
            },
        }
    }
}
