//! Interning: nanoseconds a name, and the ratio to the original's.
use crate::BASE;
use oracle::image::Image;
use oracle::machine::{Call, Lent, Machine};
use oracle::original::Original;
use proved::Proved;
use std::hint::black_box;
use std::time::Instant;

const REPEATS: usize = 25;
/// Of calls that are timed one by one: of 4,096 slots the tests take fifty times what is left.
const CALL_REPEATS: usize = 400;

fn row(what: &str, original: f64, proved: f64) -> String {
    format!("| {what} | {original:.2} | {proved:.2} | {:.2} |", proved / original)
}

/// Nanoseconds a call, of calls made on each machine in turn.
fn each<M: Machine>(machines: &mut [M], calls: &[Vec<Call>]) -> f64 {
    let from = Instant::now();
    for (machine, calls) in machines.iter_mut().zip(calls) {
        for call in calls {
            black_box(machine.call(&[], call));
        }
    }
    from.elapsed().as_secs_f64() * 1e9 / calls.iter().map(Vec::len).sum::<usize>() as f64
}

/// 2,000 names, `most` to a machine of so many slots.
struct Names {
    calls: Vec<Vec<Call>>,
    lent: Vec<Lent>,
}

impl Names {
    fn new(most: usize, slots: u64) -> Self {
        let names: Vec<Call> = (0..2000).map(|i| Call::Intern(format!("tier name {i}").into_bytes())).collect();
        let calls: Vec<Vec<Call>> = names.chunks(most).map(<[Call]>::to_vec).collect();
        // the original's heaps stand side by side
        let pages = 1 + most as u64 / 32;
        let lent = |i: u64| Lent { base: BASE + i * pages * 4096, heap: pages * 4096, frames: 1, slots, spare: slots, fill: 0 };
        let lent = (0..calls.len() as u64).map(lent).collect();
        Names { calls, lent }
    }

    fn originals(&self) -> Vec<Original> {
        self.lent.iter().map(|&l| Original::lend(l).expect("the heap's addresses")).collect()
    }

    fn proved(&self) -> Vec<Proved> {
        self.lent.iter().map(|&l| Proved::start(l, &Image::default()).ok().expect("a start")).collect()
    }
}

/// A call that passes 10 and 9 and is then refused by 17.
const TESTS: Call = Call::InternSmall { len: 9, word: 0 };

/// The names interned one behind the other, new and then again: nanoseconds a name of the original, of the machine here, and of its tests alone,
/// once the names are in.
fn in_a_row(names: &Names) -> [[f64; 3]; 2] {
    let tests: Vec<Vec<Call>> = names.calls.iter().map(|c| vec![TESTS; c.len()]).collect();
    let mut least = [[f64::MAX; 3]; 2];
    for _ in 0..REPEATS {
        let (mut theirs, mut ours) = (names.originals(), names.proved());
        for least in &mut least {
            let now = [each(&mut theirs, &names.calls), each(&mut ours, &names.calls), each(&mut ours, &tests)];
            for (least, now) in least.iter_mut().zip(now) {
                *least = least.min(now);
            }
        }
        for (theirs, ours) in theirs.iter().zip(&ours) {
            assert_eq!(theirs.view().slots, ours.view().slots);
        }
    }
    least
}

/// Each call timed by itself: the least times of what comes before it, if anything, and of the call.
fn apart<M: Machine>(machines: &mut [M], calls: &[Vec<Call>], before: Option<&Call>, least: &mut [[f64; 2]]) {
    let mut least = least.iter_mut();
    for (machine, calls) in machines.iter_mut().zip(calls) {
        for call in calls {
            let from = Instant::now();
            if let Some(before) = before {
                black_box(machine.call(&[], before));
            }
            let between = Instant::now();
            black_box(machine.call(&[], call));
            let to = Instant::now();
            let [first, second] = least.next().expect("a time for each name");
            *first = first.min((between - from).as_secs_f64() * 1e9);
            *second = second.min((to - between).as_secs_f64() * 1e9);
        }
    }
}

/// The names timed one by one, new and then again: nanoseconds a name of the original, less those of looking at the clock, and of the machine
/// here, less those of its tests on the same table, which another machine makes in its place.
fn one_by_one(names: &Names) -> [[f64; 2]; 2] {
    let mut least = vec![[[f64::MAX; 2]; 2000]; 6];
    for _ in 0..CALL_REPEATS {
        let (mut theirs, mut ours, mut tested) = (names.originals(), names.proved(), names.proved());
        for least in least.chunks_mut(3) {
            apart(&mut theirs, &names.calls, None, &mut least[0]);
            apart(&mut ours, &names.calls, None, &mut least[1]);
            apart(&mut tested, &names.calls, Some(&TESTS), &mut least[2]);
        }
    }
    let mean = |calls: &[[f64; 2]], less: &[[f64; 2]]| {
        calls.iter().zip(less).map(|([_, call], [before, _])| call - before).sum::<f64>() / calls.len() as f64
    };
    let both = |at: usize| [mean(&least[at], &least[at]), mean(&least[at + 1], &least[at + 2])];
    [both(0), both(3)]
}

const HEAD: &str = "| What | Rust, ns | here, ns | ratio |\n|---|---|---|---|";

/// First the rows that compare like with like, then the whole calls.
pub fn tables() {
    println!("{HEAD}");
    let mut whole = Vec::new();
    for (most, slots, machines) in [(32, 64, "32 to a machine"), (2000, 4096, "2,000 in one machine")] {
        let names = Names::new(most, slots);
        let (calls, less) = (in_a_row(&names), one_by_one(&names));
        for (what, [theirs, ours, _], [alone, less]) in [("a new name", calls[0], less[0]), ("a name again", calls[1], less[1])] {
            println!("{}", row(&format!("{what}, {machines}, less the tests"), alone, less));
            whole.push(row(&format!("{what}, {machines}"), theirs, ours));
        }
        let tests = calls[0][2].min(calls[1][2]);
        whole.push(format!("| the tests alone, {slots} slots with {most} names | | {tests:.2} | |"));
    }
    println!("\nAn interning whole, with its tests of 10 and 9, which the Rust does not make:\n\n{HEAD}");
    for row in whole {
        println!("{row}");
    }
}
