//! Document 01, 'Instruction and image': the runner's text.
use oracle::model::Model;
use oracle::original::Original;
use oracle::text::{read, report, write};

const WORKED: &str = "\
0000000000000100000001000400400000000a
01000000070000001b
01ffffffff00000101
01000000000000003b
";

const WORKED_OUTPUT: &str = "\
00000000000000000200000003
000000000000000007
010000000000000006
00010001000000200000
";

fn of(text: &str) -> String {
    report::<Model>(text.as_bytes())
}

/// Line `00` with these fields, and more lines.
fn image(pages: u64, frames: u64, slots: u64, budget: u64, lines: &str) -> String {
    format!("000000000000010000{pages:04x}{frames:04x}{slots:04x}{budget:08x}\n{lines}")
}

fn small(lines: &str) -> String {
    of(&image(1, 4, 64, 10, lines))
}

const MALFORMED: &str = "13\n";
const HALT: &str = "01000000000000003b\n";

#[test]
fn the_worked_image() {
    assert_eq!(of(WORKED), WORKED_OUTPUT);
    // the original counts no steps
    let without_steps = WORKED_OUTPUT.replacen("00000003", "00000000", 1);
    assert_eq!(report::<Original>(WORKED.as_bytes()), without_steps);
    assert_eq!(write(&read(WORKED.as_bytes()).unwrap()), WORKED);
}

#[test]
fn refusals_are_two_hexadecimal_digits() {
    assert_eq!(of(&image(0, 4, 64, 10, HALT)), "0a\n");
    assert_eq!(small("01000000000000003c\n"), "0b\n");
    assert_eq!(small(&format!("010000000000000028\n{HALT}")), "0c\n");
    assert_eq!(small(&format!("0100000000000020ff\n{HALT}")), "0c\n");
    assert_eq!(small(&format!("01000000000000201a\n{HALT}")), "0d\n");
    assert_eq!(small(&format!("01000000000000011d\n{HALT}")), "0d\n");
    assert_eq!(small(&format!("01000000000002001d\n{HALT}")), "0e\n");
    assert_eq!(small(&format!("01000000000000001c\n{HALT}")), "0f\n");
    assert_eq!(small(&format!("{HALT}0300000000000000000001\n")), "10\n");
    assert_eq!(of(""), MALFORMED);
}

#[test]
fn lines() {
    // header alone: empty code, which loads; one page of 32 bytes used
    assert_eq!(small(""), "00000000000000000000000000\n00010001000000200000\n");
    let header = image(1, 4, 64, 10, "");
    for bad in [
        header.trim_end().to_string(),
        format!("{header}{header}"),
        format!("{HALT}{header}"),
        HALT.to_string(),
        format!("{header}\n"),
        format!("{header}\n{HALT}"),
        format!("{header}{}", HALT.trim_end()),
        format!("{header}{}", HALT.replace('b', "B")),
        format!("{header}{}", HALT.replace('b', "g")),
        format!("{header}{}", HALT.replace('\n', "\r\n")),
        format!("{header}01000000000000003\n"),
        format!("{header}0100000000000000003b\n"),
        format!("{header}01\n"),
        format!("{header}02000000000000000\n"),
        format!("{header}06\n"),
        format!("{header}0\n"),
        format!("{header}03000000000000000\n"),
        format!("{header}030000000000000000001\n"),
        format!("{header}040000000000000000\n"),
        format!("{header}04000000000000000000000000000000000\n"),
        format!("{header}056\n"),
        header.replacen("00", "000", 1),
        header.replacen("000000", "0000", 1),
    ] {
        assert_eq!(of(&bad), MALFORMED, "{bad:?}");
    }
    // 'The runner gives 19 first, then the load's numbers'
    assert_eq!(of(&image(0, 4, 64, 10, "x\n")), MALFORMED);
    // zero targets, zero values, no bytes
    assert_eq!(small(&format!("{HALT}030000000000000000\n0400000000000000000000000000000000\n")), small(HALT));
}

#[test]
fn too_long() {
    // 65,536 bytes are read, one more is not; the globals that go into them are fewer than 4,096, so never 10
    let line = "020000000000000000\n";
    let mut text = image(1, 4, 64, 10, "");
    while text.len() + line.len() <= 65_536 {
        text.push_str(line);
    }
    text.push_str("05");
    while text.len() + 3 <= 65_536 {
        text.push_str("61");
    }
    text.push('\n');
    assert!((65_535..=65_536).contains(&text.len()));
    assert_ne!(of(&text), MALFORMED);
    let longer = text + "05\n";
    assert!(longer.len() > 65_536);
    assert_eq!(of(&longer), MALFORMED);
}

#[test]
fn the_runners_own_limits() {
    assert_eq!(of(&image(8, 4096, 64, 10, HALT)).len(), 27 + 21);
    assert_eq!(of(&image(9, 4, 64, 10, HALT)), "0a\n");
    assert_eq!(of(&image(1, 4097, 64, 10, HALT)), "0a\n");
    assert_eq!(of(&image(1, 4, 96, 10, HALT)), "0a\n");
    let nops = |n: usize| "01000000000000003c\n".repeat(n);
    // 4,097 words do not fit into 65,536 bytes: 19 is the number for them
    assert_eq!(of(&image(1, 4, 64, 10, &(nops(4096) + HALT))), MALFORMED);
}

#[test]
fn names() {
    // empty, a, a: B+48, B+72, B+72; page length 81; a global between them keeps its place
    let lines = "05\n0561\n020000000000000007\n0561\n";
    let loads = "01000000000000001c\n01000000010000011c\n01000000020000021c\n01000000030000031c\n";
    assert_eq!(
        small(&format!("{loads}{HALT}{lines}")),
        "00000000000000000400000005\n000000000000010030\n010000000000010048\n020000000000000007\n030000000000010048\n00010001000000510002\n"
    );
    // bytes that are not UTF-8, and an interning refused: the number alone
    assert_eq!(small(&format!("{HALT}05ff\n")).len(), 27 + 21);
    let many: String = (0..33).map(|n| format!("05{n:02x}\n")).collect();
    assert_eq!(small(&format!("{HALT}{many}")), "12\n");
    let long = format!("{HALT}05{}\n", "61".repeat(5000));
    assert_eq!(small(&long), "02\n");
}

#[test]
fn a_page_of_8192_bytes_counts_as_2() {
    // Alloc of 4,073 bytes, kind Array, align 8
    let text = image(3, 4, 64, 10, &format!("0100000fe908010035\n{HALT}"));
    assert_eq!(of(&text), "00000000000000000100000002\n000000000000011010\n0001000300000ff90000\n");
    // as the end of a run 2 is the full report
    let refused = image(2, 4, 64, 10, &format!("0100000fe908010035\n{HALT}"));
    assert_eq!(of(&refused), "02000000000000000000000000\n00010001000000200000\n");
}

#[test]
fn store_has_its_base_in_byte_1() {
    // LoadG r1, 0; LoadI r2, 5; Store [r1 + 8] = r2; Load r3, [r1 + 8]; Halt
    let code = "01000000000000011c\n01000000050000021b\n010000000800020136\n010000000800010337\n01000000000000003b\n020000000000010010\n";
    assert_eq!(
        small(code),
        "00000000000000000400000005\n010000000000010010\n020000000000000005\n030000000000000005\n00010001000000200000\n"
    );
}
