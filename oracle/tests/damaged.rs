//! Every damaged text is answered: by a listed number or by a whole report. So is every made-up state.
use oracle::generate;
use oracle::machine::{Answer, Machine};
use oracle::model::Model;
use oracle::text::report;
use std::collections::BTreeMap;

const TEXTS: u64 = 20_000;

fn is_report(lines: &[&str]) -> bool {
    let (Some(first), Some(last)) = (lines.first(), lines.last()) else { return false };
    let hex = |line: &&str| line.bytes().all(|b| b.is_ascii_digit() || (b'a'..=b'f').contains(&b));
    let end = u8::from_str_radix(&first[..2], 16);
    lines.iter().all(hex)
        && first.len() == 26
        && end.is_ok_and(|end| end <= 8)
        && last.len() == 20
        && lines[1..lines.len() - 1].iter().all(|line| line.len() == 18)
}

#[test]
fn damaged_texts_are_answered() {
    let mut seen: BTreeMap<String, u64> = BTreeMap::new();
    for number in 0..TEXTS {
        let input = generate::text(1, number);
        let output = report::<Model>(&input);
        let lines: Vec<&str> = output.strip_suffix('\n').expect("ended by a line feed").split('\n').collect();
        let refusals = ["02", "0a", "0b", "0c", "0d", "0e", "0f", "10", "12", "13"];
        let refused = lines.len() == 1 && refusals.contains(&lines[0]);
        assert!(refused || is_report(&lines), "{}\n{output}", String::from_utf8_lossy(&input));
        *seen.entry(output[..2].to_string() + if refused { " alone" } else { "" }).or_default() += 1;
    }
    // a generator that came to few ends would show little
    for end in ["00", "01", "02", "03", "05", "06", "02 alone", "0a alone", "0d alone", "0e alone", "0f alone", "13 alone"] {
        assert!(seen.contains_key(end), "{end} is missing among {seen:?}");
    }
}

#[test]
fn made_up_states_are_answered() {
    let mut numbers = [0; 20];
    for number in 0..TEXTS / 4 {
        let case = generate::made_up(1, number);
        let mut model = Model::start(case.lent, &case.images[0]).unwrap();
        for call in &case.calls {
            let number = match model.call(&case.images, call) {
                Answer::End { number, .. } | Answer::Refused(number) => number,
                Answer::Done | Answer::Value(_) => continue,
            };
            numbers[number as usize] += 1;
        }
    }
    for number in [0, 1, 2, 3, 5, 8, 9, 10, 13, 17, 18] {
        assert!(numbers[number] > 0, "{number} is missing: {numbers:?}");
    }
}
