//! The sheet: the text that document 01 gives for the outcome of a call.

use crate::finder::Returned;
use crate::zone::WORDS;

/// The lines of the sheet, from what a call returned and the answer buffer after it.
pub fn text(returned: Returned, answer: &[i32]) -> String {
    if !returned.is_accepted() {
        return format!("refused {}\n", returned.number);
    }
    let mut text = format!("zones {} rounds {}\n", returned.zones, returned.rounds);
    for zone in answer.chunks_exact(WORDS).take(returned.zones as usize) {
        text.push_str(&line(zone));
    }
    text
}

fn line(zone: &[i32]) -> String {
    let start = range(zone[0], zone[1]);
    let end = range(zone[2], zone[3]);
    let length = range(zone[4], zone[5]);
    format!("start {start} end {end} length {length}\n")
}

/// A range from the words of its upper limit and of its negated lower limit.
fn range(upper: i32, minus_lower: i32) -> String {
    let open = if minus_lower & 1 == 1 { '[' } else { '(' };
    let close = if upper & 1 == 1 { ']' } else { ')' };
    format!("{open}{},{}{close}", -(minus_lower >> 1), upper >> 1)
}
