//! The plain matcher in the place of the proved library, for tests of what is compared with it.

use crate::ends::{self, ENDS_WORDS};
use crate::finder;
use crate::lesson;
use crate::proved::{AskedEnds, Proved, LESSON_ROOM, NO_ROOM};

/// The plain matcher in the place of the proved library.
pub const HONEST: Proved = Proved {
    find: |recording, drill, answer, work, counts| {
        let [zones, rounds, ..] = counts else {
            return NO_ROOM;
        };
        let returned = finder::find(recording, drill, answer, work);
        (*zones, *rounds) = (returned.zones, returned.rounds);
        returned.number
    },
    front: |answer, zones| finder::front(answer.len(), zones),
    within: honest_within,
    lesson: honest_lesson,
    ends: honest_ends,
};

pub fn honest_within(
    recording: &[u8],
    drill: &[u8],
    left: &mut u64,
    answer: &mut [i32],
    work: &mut [i32],
    counts: &mut [u64],
) -> u32 {
    let [zones, rounds, ..] = counts else {
        return NO_ROOM;
    };
    let (returned, left_after) = finder::find_with_rounds(recording, drill, *left, answer, work);
    (*zones, *rounds, *left) = (returned.zones, returned.rounds, left_after);
    returned.number
}

pub fn honest_lesson(
    recording: &[u8],
    text: &[u8],
    answer: &mut [i32],
    work: &mut [i32],
    out: &mut [u8],
    size: &mut u64,
) -> u32 {
    if out.len() < LESSON_ROOM {
        return NO_ROOM;
    }
    let lesson = lesson::lesson(recording, text, answer, work);
    print(&lesson.text, out, size);
    lesson.number
}

/// Writes a text into its room.
pub fn print(text: &str, out: &mut [u8], size: &mut u64) {
    out[..text.len()].copy_from_slice(text.as_bytes());
    *size = text.len() as u64;
}

pub fn honest_ends(asked: AskedEnds) -> u32 {
    let AskedEnds {
        recording,
        drill,
        start,
        answer,
        work,
        ends,
        counts,
    } = asked;
    let (Some(ends), [zones, rounds, ..]) = (ends.get_mut(..ENDS_WORDS), counts) else {
        return NO_ROOM;
    };
    let told = ends::ends(recording, drill, start, answer, work);
    ends.copy_from_slice(&told.words());
    (*zones, *rounds) = (told.returned.zones, told.returned.rounds);
    told.returned.number
}
