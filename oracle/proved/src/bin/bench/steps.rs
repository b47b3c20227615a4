//! Steps of a run.
use crate::programs::{programs, Program};
use crate::BASE;
use oracle::image::Image;
use oracle::machine::{Answer, Call, Lent, Machine};
use oracle::original::Original;
use proved::Proved;
use std::time::Instant;

const LENT: Lent = Lent { base: BASE, heap: 64 * 4096, frames: 16_384, slots: 64, spare: 64, fill: 0 };

fn started(program: &Program) -> Proved {
    Proved::start(LENT, &program.images[0]).ok().expect("an image that loads")
}

/// Nanoseconds of a call, and what it answered.
fn timed<M: Machine>(machine: &mut M, images: &[Image], call: &Call) -> (f64, Answer) {
    let from = Instant::now();
    let answer = machine.call(images, call);
    (from.elapsed().as_secs_f64() * 1e9, answer)
}

/// Runs of a millisecond or so: in many of them nothing else takes the processor. The machines are started anew for each, outside the time.
pub fn timed_rows(repeats: u64) {
    for program in programs(100_000) {
        let Program { name, images, .. } = &program;
        let call = Call::Run { image: 0, budget: u64::from(u32::MAX) };
        let (mut least, mut count) = ([f64::MAX; 2], 0);
        for _ in 0..repeats {
            let mut original = Original::lend(LENT).expect("the heap's addresses");
            let mut proved = started(&program);
            let (theirs, _) = timed(&mut original, images, &call);
            let (ours, answer) = timed(&mut proved, images, &call);
            let Answer::End { number: 0, steps: Some(steps), .. } = answer else { panic!("{name}: {answer:?}") };
            assert_eq!(original.view().regs, proved.view().regs, "{name}");
            least = [least[0].min(theirs), least[1].min(ours)];
            count = steps;
        }
        println!("{name}\t{}\t{}", least[0] / count as f64, least[1] / count as f64);
    }
}

/// As many whole turns as fit into `count` steps.
pub fn one(row: usize, count: u64) {
    let program = &programs(10_000_000)[row];
    let budget = program.first + count / program.turn * program.turn;
    let answer = started(program).call(&program.images, &Call::Run { image: 0, budget });
    let Answer::End { number: 5, steps: Some(steps), .. } = answer else { panic!("{}: {answer:?}", program.name) };
    assert_eq!(steps, budget);
    println!("{steps}");
}
