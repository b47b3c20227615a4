//! The examples: their reports, written beside them by hand, come from the model and from the original alike.
use oracle::compare::{Counts, Outcome, compare};
use oracle::machine::{Answer, Machine};
use oracle::model::Model;
use oracle::original::Original;
use oracle::stored;
use oracle::text;

#[test]
fn their_reports() {
    let images = stored::examples();
    assert!(images.len() >= 3);
    for path in images {
        let input = std::fs::read(&path).unwrap();
        let expected = std::fs::read_to_string(path.with_extension("report")).unwrap();
        assert_eq!(text::report::<Model>(&input), expected, "{}", path.display());
        let case = text::case(&input).unwrap();
        assert!(matches!(compare::<Original>(&case, &mut Counts::default()), Outcome::Same));
        // its own report; the steps are the last 8 digits of the first line, and it counts none
        let mut original = Original::lend(case.lent).unwrap();
        let last = case.calls.iter().map(|call| original.call(&case.images, call)).last();
        let Some(Answer::End { number, pc, .. }) = last else { panic!("no run") };
        let steps = u64::from_str_radix(&expected[18..26], 16).ok();
        assert_eq!(text::printed(&original, Answer::End { number, pc, steps }), expected);
    }
}
