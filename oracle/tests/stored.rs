//! The stored vectors, instruction by instruction: each one is done, not only written, in at least three images.
use oracle::machine::{Answer, Call, Machine};
use oracle::model::Model;
use oracle::model::word::{Format, ROWS};
use oracle::stored;
use oracle::text;

/// No more steps of one image are looked at.
const STEPS: usize = 1000;

/// Which opcodes an image completes, asked one step at a time.
fn done(input: &[u8]) -> [bool; ROWS.len()] {
    let mut done = [false; ROWS.len()];
    let Some(case) = text::case(input) else { return done };
    let mut model = Model::start(case.lent, &case.images[0]).unwrap();
    let (run, names) = case.calls.split_last().unwrap();
    for call in names {
        model.call(&case.images, call);
    }
    let Call::Run { budget, .. } = *run else { panic!("{run:?}") };
    for _ in 0..budget.min(STEPS as u64) {
        let pc = model.state.pc as usize;
        let Answer::End { number, steps, .. } = model.call(&case.images, &Call::Run { image: 0, budget: 1 }) else { break };
        if steps == Some(1) {
            done[usize::from(case.images[0].code[pc] as u8)] = true;
        }
        if number != 5 {
            break;
        }
    }
    done
}

#[test]
fn each_instruction_is_done_in_three_images() {
    let images = stored::vectors();
    assert!(images.len() > 1000);
    let mut counts = [0; ROWS.len()];
    for image in images {
        for (count, done) in counts.iter_mut().zip(done(&image)) {
            *count += usize::from(done);
        }
    }
    for ((name, format), count) in ROWS.iter().zip(counts) {
        assert_eq!(count >= 3, *format != Format::Absent, "{name}: done in {count} images");
    }
}
