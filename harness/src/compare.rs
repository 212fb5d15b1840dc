//! Calls of the plain matcher, held to the papers, and to what the quick matcher and the proved
//! library make of them: numbers, counts, the rounds left, what is printed, and every word of both
//! buffers and of the margins around them.

use crate::brute;
use crate::finder::{self, Found, Returned};
use crate::lent::{Lent, MARGIN};
use crate::lesson::{self, Lesson, Marked, DRILL_ROUNDS};
use crate::proved::{Proved, LESSON_ROOM, NO_ROOM};
use crate::quick::QuickList;
use crate::zones::{Allowed, ZoneList};

/// A call on one drill. Its methods take the rounds left that it is told, none where the drill is
/// run by itself.
#[derive(Clone, Copy)]
pub struct Call<'a> {
    pub recording: &'a [u8],
    pub drill: &'a [u8],
    pub lent: &'a Lent,
}

/// What a call comes to.
#[derive(Clone)]
pub struct Outcome {
    pub returned: Returned,
    /// The rounds left afterwards, if the call was told any.
    pub left: Option<u64>,
    /// Both buffers afterwards.
    pub after: Lent,
}

/// Stands beside the numbers that a call writes, and must stay there.
const GUARD: u64 = 0xC0DE;

impl Call<'_> {
    pub fn plain(&self, left: Option<u64>) -> Outcome {
        let mut after = self.lent.clone();
        let (answer, work) = after.lend();
        let Call {
            recording, drill, ..
        } = self;
        let (returned, left) = match left {
            None => (finder::find(recording, drill, answer, work), None),
            Some(left) => {
                let called = finder::find_with_rounds(recording, drill, left, answer, work);
                (called.0, Some(called.1))
            }
        };
        Outcome {
            returned,
            left,
            after,
        }
    }

    /// The call with lists of any kind, and all that is found on the way.
    pub fn with_lists<L: ZoneList>(&self, left: Option<u64>) -> (Outcome, Found<L::Told>) {
        let mut after = self.lent.clone();
        let (answer, work) = after.lend();
        let mut allowed = Allowed {
            rounds: left.unwrap_or(u64::MAX),
            ..Allowed::ALL
        };
        let found = finder::call::<L>(self.recording, self.drill, answer, work, &mut allowed);
        let found = found.expect("no drill takes as many pairs");
        let outcome = Outcome {
            returned: found.returned,
            left: left.map(|_| allowed.rounds),
            after,
        };
        (outcome, found)
    }

    /// A finder with lists of any kind must return the same and leave the same as the plain matcher.
    /// Gives what it finds.
    pub fn compare_lists<L: ZoneList>(
        &self,
        finder: &str,
        left: Option<u64>,
        plain: &Outcome,
    ) -> Result<Found<L::Told>, String> {
        let (outcome, found) = self.with_lists::<L>(left);
        outcome.check_same(finder, plain)?;
        Ok(found)
    }

    /// The same for the quick matcher, with the pairs that it composes among what it finds.
    pub fn compare_quick(
        &self,
        left: Option<u64>,
        plain: &Outcome,
    ) -> Result<Found<usize>, String> {
        self.compare_lists::<QuickList>("quick", left, plain)
    }

    /// The returned number of the proved library, the rounds left and both buffers afterwards.
    fn proved(
        &self,
        left: Option<u64>,
        counts: &mut [u64],
        proved: Proved,
    ) -> Result<(u32, Option<u64>, Lent), String> {
        let mut after = self.lent.clone();
        let (answer, work) = after.lend();
        let Call {
            recording, drill, ..
        } = self;
        let Some(left) = left else {
            let number = (proved.find)(recording, drill, answer, work, counts);
            return Ok((number, None, after));
        };
        let mut told = [GUARD, left, GUARD];
        let number = (proved.within)(recording, drill, &mut told[1], answer, work, counts);
        let [GUARD, left, GUARD] = told else {
            return Err("proved wrote beside the rounds left".into());
        };
        Ok((number, Some(left), after))
    }

    /// The proved library must return the same and leave the same as the plain matcher.
    pub fn compare(
        &self,
        left: Option<u64>,
        plain: &Outcome,
        proved: Proved,
    ) -> Result<(), String> {
        let mut counts = [u64::MAX, u64::MAX, GUARD, GUARD];
        let (number, left_after, after) = self.proved(left, &mut counts[..2], proved)?;
        let [zones, rounds, GUARD, GUARD] = counts else {
            return Err("proved wrote behind its counts".into());
        };
        let theirs = Outcome {
            returned: Returned {
                number,
                zones,
                rounds,
            },
            left: left_after,
            after,
        };
        theirs.check_same("proved", plain)?;
        self.compare_without_room(left, proved)
    }

    /// With no place for its counts the call does nothing.
    fn compare_without_room(&self, left: Option<u64>, proved: Proved) -> Result<(), String> {
        for room in 0..2 {
            let mut counts = [GUARD; 2];
            let (number, left_after, after) = self.proved(left, &mut counts[..room], proved)?;
            let untouched = (left_after, counts, &after) == (left, [GUARD; 2], self.lent);
            if number != NO_ROOM || !untouched {
                return Err(format!(
                    "proved returned {number} with {room} counts, or wrote"
                ));
            }
        }
        Ok(())
    }

    /// The rounds that the drill finishes where it has no end of them, from what it comes to by
    /// itself.
    pub fn finished(&self, alone: &Outcome) -> u64 {
        match alone.returned.number {
            0 => alone.returned.rounds,
            // A list was begun, and the rounds are not returned.
            10 | 11 => {
                let unlimited = self.plain(Some(u64::MAX));
                u64::MAX - unlimited.left.expect("the rounds left")
            }
            _ => 0,
        }
    }

    /// The drill told the rounds left, through everything that has an opinion on it: the papers, by
    /// way of what the drill comes to by itself, the quick matcher, and the proved library.
    pub fn compare_told(
        &self,
        left: u64,
        alone: &Outcome,
        proved: Option<Proved>,
    ) -> Result<Outcome, String> {
        let outcome = self.plain(Some(left));
        let theirs = |proved| self.compare(Some(left), &outcome, proved);
        self.check_told(left, &outcome, alone)
            .and_then(|()| self.compare_quick(Some(left), &outcome))
            .and_then(|_| proved.map_or(Ok(()), theirs))
            .map_err(|fault| format!("told {left} rounds: {fault}"))?;
        Ok(outcome)
    }

    fn check_told(&self, left: u64, outcome: &Outcome, alone: &Outcome) -> Result<(), String> {
        self.lent.check_after(&outcome.after, outcome.returned)?;
        let finished = self.finished(alone);
        if outcome.follows(left, alone, finished) {
            return Ok(());
        }
        let (found, alone) = (outcome.told(), alone.told());
        Err(format!(
            "the plain matcher returns {found}; by itself the drill finishes {finished} rounds and \
             returns {alone}"
        ))
    }
}

impl Outcome {
    /// Whether a call that is told the rounds left may come to this, by what its drill comes to by
    /// itself and the rounds that it finishes there: one that is stopped has too few, and one that
    /// is not comes to the same and spends what it finishes.
    fn follows(&self, left: u64, alone: &Outcome, finished: u64) -> bool {
        let Returned {
            number,
            zones,
            rounds,
        } = self.returned;
        if number == 13 {
            // With just as many left as are finished before a 10, the round that it breaks off is not
            // begun; but a 10 may also come where there is no round.
            let breaks_off = alone.returned.number == 10 && left == finished;
            let too_few = left < finished || breaks_off;
            return too_few && (zones, rounds, self.left) == (0, 0, Some(0));
        }
        let same = self.returned == alone.returned && self.after == alone.after;
        same && left >= finished && self.left == Some(left - finished)
    }

    /// Whether another finder's call came to the same as the plain matcher's.
    fn check_same(&self, finder: &str, plain: &Outcome) -> Result<(), String> {
        if (self.returned, self.left) != (plain.returned, plain.left) {
            let (theirs, plain) = (self.told(), plain.told());
            return Err(format!("{finder} returned {theirs}, plain {plain}"));
        }
        self.after.check_equal(finder, &plain.after)
    }

    /// What is returned, in words.
    fn told(&self) -> String {
        let returned = self.returned;
        match self.left {
            Some(left) => format!("{returned:?} with {left} rounds left"),
            None => format!("{returned:?}"),
        }
    }
}

/// Calls on drills in order over one recording, each lent the buffers as the one before it left them.
pub struct Chain<'a> {
    pub recording: &'a [u8],
    pub drills: &'a [&'a [u8]],
    pub rounds: Rounds,
    pub lent: &'a Lent,
}

/// The rounds that the calls of a chain are told.
#[derive(Clone, Copy)]
pub enum Rounds {
    /// So many for each call, as for the drills of a lesson.
    Each(u64),
    /// So many for the first call, and for each other one those that the one before it left. No lesson
    /// does so, but a caller may.
    HandedOn(u64),
}

impl Chain<'_> {
    /// Each call of the chain by the plain matcher, by the papers, by the quick matcher, and by the
    /// proved library.
    pub fn compare(&self, proved: Option<Proved>) -> Result<Vec<Outcome>, String> {
        let mut outcomes: Vec<Outcome> = Vec::new();
        for (drill, number) in self.drills.iter().zip(1..) {
            let before = outcomes.last();
            let call = Call {
                recording: self.recording,
                drill,
                lent: before.map_or(self.lent, |before| &before.after),
            };
            let told = self.rounds.after(before);
            let outcome = call.compare_told(told, &call.plain(None), proved);
            outcomes.push(outcome.map_err(|fault| format!("drill {number}: {fault}"))?);
        }
        Ok(outcomes)
    }
}

impl Rounds {
    /// What the next call is told, after the one before it, if there is any.
    fn after(self, before: Option<&Outcome>) -> u64 {
        let handed_on = before.and_then(|before| before.left);
        match self {
            Rounds::Each(rounds) => rounds,
            Rounds::HandedOn(rounds) => handed_on.unwrap_or(rounds),
        }
    }
}

/// A whole lesson.
#[derive(Clone, Copy)]
pub struct Sheet<'a> {
    pub recording: &'a [u8],
    pub text: &'a [u8],
    pub lent: &'a Lent,
}

/// What a lesson comes to, after all comparisons.
pub struct Taught {
    pub lesson: Lesson,
    /// The calls of its drills.
    pub drills: Vec<Outcome>,
    /// Stretches that were compared with brute force.
    pub stretches: usize,
}

impl Sheet<'_> {
    /// A sheet by the plain matcher, drill by drill by everything that has an opinion on a drill, and
    /// whole by the proved library, which is given this much room for what it prints. Brute force
    /// takes drives of at most so many ticks.
    pub fn compare(
        &self,
        proved: Option<Proved>,
        room: usize,
        brute_ticks: u32,
    ) -> Result<Taught, String> {
        let (lesson, after) = self.plain();
        let size = lesson.text.len();
        if size > LESSON_ROOM {
            return Err(format!("{size} bytes are more than there is room for"));
        }
        let drills = self.check_drills(&lesson, &after, proved)?;
        if let Some(proved) = proved {
            self.compare_whole(&lesson, &after, proved, room)?;
            self.compare_without_room(proved)?;
        }
        let stretches = self.try_fractions(&lesson, brute_ticks)?;
        Ok(Taught {
            lesson,
            drills,
            stretches,
        })
    }

    /// What is printed by the plain lesson, and just so by the proved library, where it is linked.
    pub fn printed(&self, proved: Option<Proved>) -> Result<String, String> {
        let (lesson, after) = self.plain();
        if let Some(proved) = proved {
            self.compare_whole(&lesson, &after, proved, LESSON_ROOM)?;
        }
        Ok(lesson.text)
    }

    fn plain(&self) -> (Lesson, Lent) {
        let mut after = self.lent.clone();
        let (answer, work) = after.lend();
        let lesson = lesson::lesson(self.recording, self.text, answer, work);
        (lesson, after)
    }

    /// The drills of a sheet that is run, in the order of its lines.
    pub fn drills(&self, lesson: &Lesson) -> Vec<&[u8]> {
        match lesson.number {
            0 => lesson::drills(self.text).expect("a sheet that is run has drills"),
            _ => Vec::new(),
        }
    }

    /// The chain of the sheet's drills, each told the rounds of a drill, comes to the lesson's results
    /// and leaves what it leaves; of a sheet that is refused there is none, so both buffers are left as
    /// they were.
    fn check_drills(
        &self,
        lesson: &Lesson,
        after: &Lent,
        proved: Option<Proved>,
    ) -> Result<Vec<Outcome>, String> {
        let chain = Chain {
            recording: self.recording,
            drills: &self.drills(lesson),
            rounds: Rounds::Each(DRILL_ROUNDS),
            lent: self.lent,
        };
        let outcomes = chain.compare(proved)?;
        let results = outcomes.iter().map(|one| (one.returned, one.left));
        let left = |one: &Marked| DRILL_ROUNDS - one.spent;
        let marked = lesson.drills.iter();
        if !results.eq(marked.map(|one| (one.returned, Some(left(one))))) {
            return Err("the plain lesson and its drills one by one do not agree".into());
        }
        let last = outcomes.last().map_or(self.lent, |last| &last.after);
        if last != after {
            return Err("the plain lesson leaves other words than its drills".into());
        }
        Ok(outcomes)
    }

    /// Each accepted drill lists what fits.
    fn try_fractions(&self, lesson: &Lesson, most_ticks: u32) -> Result<usize, String> {
        let mut stretches = 0;
        let drills = self.drills(lesson);
        for (drill, marked) in drills.iter().zip(&lesson.drills) {
            if marked.returned.is_accepted() {
                stretches +=
                    brute::compare_accepted(self.recording, drill, &marked.zones, most_ticks)?;
            }
        }
        Ok(stretches)
    }

    fn compare_whole(
        &self,
        lesson: &Lesson,
        after: &Lent,
        proved: Proved,
        room: usize,
    ) -> Result<(), String> {
        let called = self.proved(proved, room)?;
        let (number, size) = (lesson.number, lesson.text.len());
        if (called.number, called.size) != (number, size as u64) {
            return Err(format!(
                "proved returned {} and printed {} bytes, plain {number} and {size}",
                called.number, called.size
            ));
        }
        let (printed, behind) = called.out.split_at(size);
        if printed != lesson.text.as_bytes() {
            let (theirs, plain) = (String::from_utf8_lossy(printed), &lesson.text);
            return Err(format!("proved printed\n{theirs}\nplain\n{plain}"));
        }
        if !is_unwritten(behind) {
            return Err("proved wrote behind what it printed".into());
        }
        called.after.check_equal("proved", after)
    }

    /// With too little room for what it prints the call does nothing.
    fn compare_without_room(&self, proved: Proved) -> Result<(), String> {
        for room in [LESSON_ROOM - 1, LESSON_ROOM / 2, 0] {
            let called = self.proved(proved, room)?;
            let untouched =
                is_unwritten(&called.out) && called.size == GUARD && called.after == *self.lent;
            if called.number != NO_ROOM || !untouched {
                let number = called.number;
                return Err(format!(
                    "proved returned {number} with room for {room} bytes, or wrote"
                ));
            }
        }
        Ok(())
    }

    fn proved(&self, proved: Proved, room: usize) -> Result<CalledLesson, String> {
        let mut after = self.lent.clone();
        let (answer, work) = after.lend();
        let mut out = vec![UNWRITTEN; room + 2 * MARGIN];
        let mut size = [GUARD; 3];
        let number = (proved.lesson)(
            self.recording,
            self.text,
            answer,
            work,
            &mut out[MARGIN..MARGIN + room],
            &mut size[1],
        );
        let [GUARD, size, GUARD] = size else {
            return Err("proved wrote beside the size".into());
        };
        if !is_unwritten(&out[..MARGIN]) || !is_unwritten(&out[MARGIN + room..]) {
            return Err("proved wrote outside its room".into());
        }
        Ok(CalledLesson {
            number,
            size,
            out: out[MARGIN..MARGIN + room].to_vec(),
            after,
        })
    }
}

/// What stands in the room before a lesson is printed there: no byte of what a lesson prints.
const UNWRITTEN: u8 = 0xA5;

fn is_unwritten(bytes: &[u8]) -> bool {
    bytes.iter().all(|&byte| byte == UNWRITTEN)
}

/// What a lesson of the proved library comes to.
struct CalledLesson {
    number: u32,
    size: u64,
    /// The whole room.
    out: Vec<u8>,
    after: Lent,
}

#[cfg(test)]
mod tests {
    use super::*;
    use crate::examples::{recording, recording_r};
    use crate::finder::WORK_WORDS;
    use crate::lesson::wrong;
    use crate::proved::{Lesson as ProvedLesson, Within};
    use crate::random::Rng;

    /// The plain matcher in the place of the proved library.
    const HONEST: Proved = Proved {
        find: |recording, drill, answer, work, counts| {
            let [zones, rounds, ..] = counts else {
                return NO_ROOM;
            };
            let returned = finder::find(recording, drill, answer, work);
            (*zones, *rounds) = (returned.zones, returned.rounds);
            returned.number
        },
        front: |answer, zones| finder::front(answer.len(), zones),
        within: honest_within,
        lesson: honest_lesson,
    };

    fn honest_within(
        recording: &[u8],
        drill: &[u8],
        left: &mut u64,
        answer: &mut [i32],
        work: &mut [i32],
        counts: &mut [u64],
    ) -> u32 {
        let [zones, rounds, ..] = counts else {
            return NO_ROOM;
        };
        let (returned, left_after) =
            finder::find_with_rounds(recording, drill, *left, answer, work);
        (*zones, *rounds, *left) = (returned.zones, returned.rounds, left_after);
        returned.number
    }

    fn honest_lesson(
        recording: &[u8],
        text: &[u8],
        answer: &mut [i32],
        work: &mut [i32],
        out: &mut [u8],
        size: &mut u64,
    ) -> u32 {
        if out.len() < LESSON_ROOM {
            return NO_ROOM;
        }
        let lesson = lesson::lesson(recording, text, answer, work);
        print(&lesson.text, out, size);
        lesson.number
    }

    fn print(text: &str, out: &mut [u8], size: &mut u64) {
        out[..text.len()].copy_from_slice(text.as_bytes());
        *size = text.len() as u64;
    }

    /// `a` is high for 130 ticks: `(a{1,1})*` is refused by 10 in round 128.
    fn overflowing() -> Vec<u8> {
        recording(1_300, 1, &[(0, 1)])
    }

    /// The first complaint about calls that are told few rounds.
    fn complaint_about_calls(within: Within) -> Option<String> {
        let proved = Proved { within, ..HONEST };
        let calls: [(Vec<u8>, &str, &[u64]); 4] = [
            (recording_r(), "a", &[0, 1]),
            (recording_r(), "(a{2,2})*", &[0, 1, 2, 3, u64::MAX]),
            (recording_r(), "(a{2,2})*)", &[0, 3]),
            (overflowing(), "(a{1,1})*", &[127, 128, 129]),
        ];
        for (recording, drill, told) in &calls {
            let lent = Lent::of(20, WORK_WORDS + 3, &mut Rng::new(1, 3));
            let call = Call {
                recording,
                drill: drill.as_bytes(),
                lent: &lent,
            };
            let compared = told.iter().map(|&left| {
                let outcome = call.compare_told(left, &call.plain(None), Some(proved));
                outcome.err()
            });
            if let Some(fault) = compared.flatten().next() {
                return Some(fault);
            }
        }
        None
    }

    #[test]
    fn an_honest_call_is_no_complaint() {
        assert_eq!(complaint_about_calls(honest_within), None);
    }

    #[test]
    fn faults_of_a_call_are_found() {
        let faults: [(&str, Within); 9] = [
            ("a round is missing", |r, d, left, a, w, c| {
                *left = left.saturating_sub(1);
                honest_within(r, d, left, a, w, c)
            }),
            (
                "the rounds of a refused drill are given back",
                |r, d, left, a, w, c| {
                    let before = *left;
                    let number = honest_within(r, d, left, a, w, c);
                    *left = if number == 0 { *left } else { before };
                    number
                },
            ),
            (
                "the round that 10 breaks off is spent",
                |r, d, left, a, w, c| {
                    let number = honest_within(r, d, left, a, w, c);
                    *left = left.saturating_sub(u64::from(number == 10));
                    number
                },
            ),
            ("10 for 13", |r, d, left, a, w, c| {
                match honest_within(r, d, left, a, w, c) {
                    13 => 10,
                    number => number,
                }
            }),
            ("12 for 13", |r, d, left, a, w, c| {
                match honest_within(r, d, left, a, w, c) {
                    13 => 12,
                    number => number,
                }
            }),
            ("13 tells its rounds", |r, d, left, a, w, c| {
                let before = *left;
                let number = honest_within(r, d, left, a, w, c);
                if number == 13 {
                    c[1] = before;
                }
                number
            }),
            ("13 leaves the work buffer", |r, d, left, a, w, c| {
                let before = w.to_vec();
                let number = honest_within(r, d, left, a, w, c);
                if number == 13 {
                    w.copy_from_slice(&before);
                }
                number
            }),
            ("13 writes into the answer buffer", |r, d, left, a, w, c| {
                let number = honest_within(r, d, left, a, w, c);
                a[0] ^= i32::from(number == 13);
                number
            }),
            ("a call without counts spends", |r, d, left, a, w, c| {
                let number = honest_within(r, d, left, a, w, c);
                *left ^= u64::from(number == NO_ROOM);
                number
            }),
        ];
        for (name, within) in faults {
            assert!(complaint_about_calls(within).is_some(), "{name}");
        }
    }

    /// The first complaint about a few sheets.
    fn complaint_about_sheets(lesson: ProvedLesson) -> Option<String> {
        let proved = Proved { lesson, ..HONEST };
        let [just_enough, one_more] =
            [1_000_000, 1_000_010].map(|duration| recording(duration, 1, &[(0, 1)]));
        let sheets: [(Vec<u8>, &str); 6] = [
            (recording_r(), "_|a\na)\na\n"),
            (just_enough, "(a{0,1})*\n_*\na\n"),
            (one_more, "(a{0,1})*\n_*\na\n"),
            (recording_r(), "a\n\n"),
            (vec![], "\n"),
            (vec![0; 8], "a\n"),
        ];
        let complaint = |(recording, text): &(Vec<u8>, &str)| {
            let lent = Lent::of(14, WORK_WORDS + 3, &mut Rng::new(1, 4));
            let sheet = Sheet {
                recording,
                text: text.as_bytes(),
                lent: &lent,
            };
            sheet.compare(Some(proved), LESSON_ROOM + 1, 12).err()
        };
        sheets.iter().find_map(complaint)
    }

    #[test]
    fn an_honest_lesson_is_no_complaint() {
        assert_eq!(complaint_about_sheets(honest_lesson), None);
    }

    /// A lesson whose drills are run by `run`.
    fn lesson_by(
        recording: &[u8],
        text: &[u8],
        room: (&mut [u8], &mut u64),
        run: impl FnOnce(&[&[u8]]) -> Vec<Marked>,
    ) -> u32 {
        let (out, size) = room;
        if out.len() < LESSON_ROOM {
            return NO_ROOM;
        }
        let refused = lesson::lesson(recording, text, &mut [], &mut []);
        if refused.number != 0 {
            print(&refused.text, out, size);
            return refused.number;
        }
        let marked = run(&lesson::drills(text).expect("drills"));
        let numbered = marked.iter().zip(1..);
        let printed: String = numbered
            .map(|(one, number)| format!("{number}\n{}", one.result))
            .collect();
        print(&printed, out, size);
        0
    }

    #[test]
    fn a_lesson_in_other_words_is_no_complaint() {
        let same = |r: &[u8], t: &[u8], a: &mut [i32], w: &mut [i32], o: &mut [u8], s: &mut u64| {
            lesson_by(r, t, (o, s), |drills| {
                wrong::run(|_| DRILL_ROUNDS, r, drills, a, w)
            })
        };
        assert_eq!(complaint_about_sheets(same), None);
    }

    /// A lesson that tells its drills their rounds by a wrong rule.
    fn told_wrong<const RULE: usize>(
        recording: &[u8],
        text: &[u8],
        answer: &mut [i32],
        work: &mut [i32],
        out: &mut [u8],
        size: &mut u64,
    ) -> u32 {
        let (_, rule) = wrong::RULES[RULE];
        lesson_by(recording, text, (out, size), |drills| {
            wrong::run(rule, recording, drills, answer, work)
        })
    }

    #[test]
    fn rounds_told_by_a_wrong_rule_are_found() {
        let lessons: [ProvedLesson; wrong::RULES.len()] = [
            told_wrong::<0>,
            told_wrong::<1>,
            told_wrong::<2>,
            told_wrong::<3>,
            told_wrong::<4>,
        ];
        for ((name, _), lesson) in wrong::RULES.iter().zip(lessons) {
            assert!(complaint_about_sheets(lesson).is_some(), "{name}");
        }
    }

    #[test]
    fn faults_of_a_lesson_are_found() {
        let faults: [(&str, ProvedLesson); 8] = [
            ("each drill has a round more", |r, t, a, w, o, s| {
                lesson_by(r, t, (o, s), |drills| {
                    lesson::run(r, drills, DRILL_ROUNDS + 1, a, w)
                })
            }),
            ("each drill has buffers of its own", |r, t, a, w, o, s| {
                let (answer, work) = (a.to_vec(), w.to_vec());
                let mut alone = |drill: &&[u8]| {
                    a.copy_from_slice(&answer);
                    w.copy_from_slice(&work);
                    lesson::run(r, &[drill], DRILL_ROUNDS, a, w).remove(0)
                };
                lesson_by(r, t, (o, s), |drills| {
                    drills.iter().map(&mut alone).collect()
                })
            }),
            ("the size is one too many", |r, t, a, w, o, s| {
                let number = honest_lesson(r, t, a, w, o, s);
                *s += u64::from(number != NO_ROOM);
                number
            }),
            ("a byte is written behind the text", |r, t, a, w, o, s| {
                let number = honest_lesson(r, t, a, w, o, s);
                if number != NO_ROOM {
                    o[*s as usize] = 0;
                }
                number
            }),
            ("another byte is printed", |r, t, a, w, o, s| {
                let number = honest_lesson(r, t, a, w, o, s);
                if number == 0 {
                    o[0] = b'0';
                }
                number
            }),
            ("12 clears the work buffer", |r, t, a, w, o, s| {
                let number = honest_lesson(r, t, a, w, o, s);
                if number == 12 {
                    w[..WORK_WORDS].fill(0);
                }
                number
            }),
            ("12 before 1", |r, t, a, w, o, s| match lesson::drills(t) {
                None if o.len() >= LESSON_ROOM => {
                    print("refused 12\n", o, s);
                    12
                }
                _ => honest_lesson(r, t, a, w, o, s),
            }),
            ("too little room is no reason", |r, t, a, w, o, s| {
                let lesson = lesson::lesson(r, t, a, w);
                if o.len() < lesson.text.len() {
                    return NO_ROOM;
                }
                print(&lesson.text, o, s);
                lesson.number
            }),
        ];
        for (name, lesson) in faults {
            assert!(complaint_about_sheets(lesson).is_some(), "{name}");
        }
    }
}
