//! The programs whose steps are timed and counted.
use oracle::generate::program::word;
use oracle::image::Image;
use oracle::model::word::op;

const DEEP: u32 = 10_000;

/// A program that does the same again and again: `first` steps, and then as many in each of its turns.
pub struct Program {
    pub name: &'static str,
    pub images: [Image; 1],
    pub first: u64,
    pub turn: u64,
}

fn load_i(r: u64, v: u32) -> u64 {
    word(op::LoadI, r, 0, 0, v)
}

const HALT: u64 = op::Halt as u64;
const NOP: u64 = op::Nop as u64;

/// r0 counts up to r1, `turns`; `setup`, and behind it `body`; ILt r6, r0, r1; JmpT r6 to the body; Halt.
fn counted(turns: u32, setup: &[u64], body: &[u64]) -> Vec<u64> {
    let mut code = vec![load_i(0, 0), load_i(1, turns)];
    code.extend(setup);
    let start = code.len() as u64;
    code.extend(body);
    code.extend([word(op::IAddI, 0, 0, 0, 1), word(op::ILt, 6, 0, 1, 0), word(op::JmpT, 6, start, 0, 0), HALT]);
    code
}

/// Four to seven steps for each of `turns`, a multiple of 10,000.
pub fn programs(turns: u32) -> [Program; 5] {
    let body = [word(op::IAdd, 3, 0, 2, 0), word(op::IMul, 4, 3, 2, 0), word(op::ISub, 5, 4, 0, 0)];
    let arithmetic = counted(turns, &[load_i(2, 3)], &body);
    // r3 is added to where r0 is odd, r4 where it is even: 7 steps and 6
    let body = [
        word(op::IAndI, 2, 0, 0, 1),
        word(op::JmpEqI, 2, 7, 0, 0),
        word(op::IAddI, 3, 3, 0, 1),
        word(op::Jmp, 0, 8, 0, 0),
        word(op::IAddI, 4, 4, 0, 2),
    ];
    let branches = counted(turns, &[NOP], &body);
    // in a Record of 64 bytes, which r2 holds
    let body =
        [word(op::Store, 2, 0, 0, 8), word(op::Load, 3, 2, 0, 8), word(op::IAdd, 4, 4, 3, 0), word(op::Store, 2, 4, 0, 16)];
    let memory = counted(turns, &[word(op::Alloc, 2, 0, 8, 64)], &body);
    // r2, r3 and r4 hold numbers above, below and about 0
    let numbers = [1234.5f64, -99.99, 0.75].map(f64::to_bits).to_vec();
    let setup = [0, 1, 2].map(|i| word(op::LoadG, 2 + i, 0, 0, i as u32));
    let casts = counted(turns, &setup, &[2, 3, 4].map(|r| word(op::CastToInt, r + 5, r, 0, 0)));
    // so often that it makes `turns` calls, r0 is set to DEEP, and the function at place 8 calls itself until it is 0
    let calls = vec![
        load_i(7, 0),
        load_i(8, turns / DEEP),
        load_i(0, DEEP),
        word(op::Call, 0, 0, 0, 8),
        word(op::IAddI, 7, 7, 0, 1),
        word(op::ILt, 6, 7, 8, 0),
        word(op::JmpT, 6, 2, 0, 0),
        HALT,
        word(op::ISubI, 0, 0, 0, 1),
        word(op::JmpEqI, 0, 11, 0, 0),
        word(op::Call, 0, 0, 0, 8),
        word(op::Ret, 0, 0, 0, 0),
        HALT,
    ];
    let with =
        |globals, name, code, first, turn| Program { name, images: [Image { code, globals, ..Image::default() }], first, turn };
    let program = |name, code, first, turn| with(Vec::new(), name, code, first, turn);
    [
        program("integer arithmetic", arithmetic, 3, 6),
        program("branches", branches, 3, 13),
        program("calls 10,000 deep", calls, 2, 4 * u64::from(DEEP) + 4),
        program("loads and stores", memory, 3, 7),
        with(numbers, "casts to integer", casts, 5, 6),
    ]
}
