//! Boundaries over a tally in which no entry repeats or contradicts another, and over the same entries in another order.

use oracle::answers::answer;
use oracle::call::Answer;
use oracle::inputs::boundaries::in_two_orders;
use oracle::inputs::random::Random;
use oracle::text;

use crate::report::Report;

const TIMES: usize = 301_000;

/// Both sides are asked each order, and the Rust's own two answers are compared: only 13 and 14 may stand for each other. Some pairs
/// must be told apart by them.
pub fn run(report: &mut Report, random: &mut Random) {
    let mut other_number = 0;
    for _ in 0..TIMES {
        let calls = in_two_orders(random);
        calls.iter().for_each(|call| report.compare(call));
        let [Ok(one), Ok(other)] = calls.each_ref().map(answer) else { continue };
        let either = |answer: &Answer| matches!(answer.number, 13 | 14);
        other_number += u64::from(one.number != other.number);
        report.count(one == other || either(&one) && either(&other), || {
            let rust = [&one, &other].map(text::answer).join(" and ");
            [calls.each_ref().map(text::call).join(" and "), rust, "not asked; the rules say that they are the same".to_owned()]
        });
    }
    assert!(other_number > 0, "no tally was refused by 13 in one order and by 14 in the other");
}
