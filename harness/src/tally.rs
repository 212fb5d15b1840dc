//! What a campaign compared, and what it must have met to say anything.

use std::fmt;

use crate::by_times::Counted;
use crate::finder::Found;
use crate::quick::BLOCK;
use crate::recording::FirstReport;
use crate::refusal::Refusal;

/// Calls by returned number, 0 being acceptance.
#[derive(Clone, Debug, Default)]
pub struct Numbers([u64; Refusal::NUMBERS]);

impl Numbers {
    pub fn note(&mut self, number: u32) {
        self.0[number as usize] += 1;
    }

    fn total(&self) -> u64 {
        self.0.iter().sum()
    }

    fn accepted(&self) -> u64 {
        self.0[0]
    }

    fn of(&self, refusal: Refusal) -> u64 {
        self.0[refusal.number() as usize]
    }

    /// How often each of these causes came up.
    fn each(&self, causes: &[Refusal]) -> String {
        let counts = causes.iter().map(|&cause| (cause, self.of(cause)));
        let counts: Vec<String> = counts
            .map(|(cause, count)| format!("{cause}: {count}"))
            .collect();
        counts.join(", ")
    }

    /// Those of these causes that never came up, said of calls of a kind.
    fn missing<'a>(
        &'a self,
        causes: &'a [Refusal],
        kind: &'a str,
    ) -> impl Iterator<Item = String> + 'a {
        let missing = causes.iter().filter(|&&cause| self.of(cause) == 0);
        missing.map(move |cause| format!("{kind}{cause}"))
    }
}

/// Accepted drills that ask for a low channel or an event, by when the drive is first reported: what
/// such a drill lists shows what the ticks before that count for.
#[derive(Clone, Debug, Default)]
pub struct FirstReports {
    at_once: u64,
    late: u64,
    on_the_last_tick: u64,
    on_tick_d: u64,
    never: u64,
}

impl FirstReports {
    pub fn note(&mut self, first: FirstReport) {
        let count = match first {
            FirstReport::AtOnce => &mut self.at_once,
            FirstReport::Late => &mut self.late,
            FirstReport::OnTheLastTick => &mut self.on_the_last_tick,
            FirstReport::OnTickD => &mut self.on_tick_d,
            FirstReport::Never => &mut self.never,
        };
        *count += 1;
    }

    /// Each count, and what it counts.
    fn each(&self) -> [(u64, &'static str); 5] {
        [
            (self.at_once, "first reported at tick 0"),
            (self.late, "first reported after tick 0"),
            (self.on_the_last_tick, "first reported on the last tick"),
            (self.on_tick_d, "first reported on tick d"),
            (self.never, "never reported"),
        ]
    }
}

impl fmt::Display for FirstReports {
    fn fmt(&self, out: &mut fmt::Formatter) -> fmt::Result {
        let counts = self.each().map(|(count, what)| format!("{count} {what}"));
        out.write_str(&counts.join(", "))
    }
}

/// What was compared.
#[derive(Default)]
pub struct Tally {
    /// Calls on a drill by itself.
    pub alone: Numbers,
    /// Accepted drills with a bound that is not reached.
    pub not_reached: u64,
    /// Accepted recordings with a time or a duration that is a half and goes down.
    pub halves_down: u64,
    /// Accepted drills with a rise that lists a zone.
    pub rises: u64,
    /// Accepted drills with a fall that lists a zone.
    pub falls: u64,
    /// Accepted drills with an absence that leaves something out.
    pub absences: u64,
    /// Accepted drills with an absence in the operand of another.
    pub absent_absences: u64,
    /// Drills refused by 10 with an absence that has no room though its operand has.
    pub full_absences: u64,
    pub first_reports: FirstReports,
    zones: u64,
    stars: u64,
    most_rounds: u64,
    /// Calls that are told the rounds left.
    pub told: Numbers,
    /// Accepted drills that took the last round left.
    pub last_rounds: u64,
    /// Drills accepted after one of their chain was refused by 13 and had no round to hand on.
    pub after_13: u64,
    /// Whole lessons.
    pub lessons: Numbers,
    /// Lessons run again with two lines exchanged whose results differ.
    pub exchanged: u64,
    /// Lines of a lesson run again on a sheet of their own.
    pub lines_alone: u64,
    /// Drills of a lesson refused by 13.
    pub greedy: u64,
    /// Drills of a lesson accepted, with a star, behind one refused by 13.
    pub behind_greedy: u64,
    /// Finished compositions and rounds whose pairs were counted by trying times.
    counted: u64,
    /// Those of them with pairs of both kinds, with and without a time in common.
    mixed: u64,
    /// Those of these whose right list has more than one block.
    in_blocks: u64,
    pub stretches: usize,
    pub passed_over: u64,
}

impl Tally {
    pub fn note(&mut self, found: &Found) {
        self.alone.note(found.returned.number);
        self.zones += found.returned.zones;
        self.stars += found.stars.len() as u64;
        let rounds = found.stars.iter().map(|star| star.rounds).max();
        self.most_rounds = self.most_rounds.max(rounds.unwrap_or(0));
    }

    pub fn note_pairs(&mut self, counted: &[Counted]) {
        for one in counted {
            let mixed = 0 < one.pairs && one.pairs < one.left * one.right;
            self.counted += 1;
            self.mixed += u64::from(mixed);
            self.in_blocks += u64::from(mixed && one.right > BLOCK);
        }
    }

    /// What came up in no call, of the refusals and of what accepted calls must show.
    pub fn missing(&self) -> Vec<String> {
        let mut missing: Vec<String> = self.alone.missing(Refusal::OF_FIND, "").collect();
        missing.extend(
            self.told
                .missing(&told_causes(), "told the rounds left and "),
        );
        missing.extend(self.lessons.missing(Refusal::OF_LESSON, "a lesson and "));
        let others = [
            (
                self.not_reached,
                "accepted with a bound that is not reached",
            ),
            (self.halves_down, "accepted with a half that goes down"),
            (self.rises, "accepted with a rise that lists a zone"),
            (self.falls, "accepted with a fall that lists a zone"),
            (
                self.absences,
                "accepted with an absence that leaves something out",
            ),
            (
                self.absent_absences,
                "accepted with an absence in an absence",
            ),
            (self.full_absences, "refused 10 in an absence"),
            (self.told.accepted(), "told the rounds left and accepted"),
            (self.last_rounds, "accepted with the last round left"),
            (self.after_13, "accepted after a drill refused 13"),
            (self.lessons.accepted(), "a lesson that was run"),
            (self.exchanged, "a lesson with two lines exchanged"),
            (self.lines_alone, "a line of a lesson on a sheet of its own"),
            (self.greedy, "a drill of a lesson and refused 13"),
            (
                self.behind_greedy,
                "a drill of a lesson accepted with a star behind one refused 13",
            ),
            (self.mixed, "composed with pairs of both kinds"),
            (self.in_blocks, "composed with several blocks"),
        ];
        for (count, what) in others {
            if count == 0 {
                missing.push(what.into());
            }
        }
        for (count, what) in self.first_reports.each() {
            if count == 0 {
                missing.push(format!("accepted on a drive {what}"));
            }
        }
        missing
    }

    /// One of everything.
    #[cfg(test)]
    pub fn full() -> Tally {
        Tally {
            alone: Numbers([1; Refusal::NUMBERS]),
            not_reached: 1,
            halves_down: 1,
            rises: 1,
            falls: 1,
            absences: 1,
            absent_absences: 1,
            full_absences: 1,
            first_reports: FirstReports {
                at_once: 1,
                late: 1,
                on_the_last_tick: 1,
                on_tick_d: 1,
                never: 1,
            },
            told: Numbers([1; Refusal::NUMBERS]),
            last_rounds: 1,
            after_13: 1,
            lessons: Numbers([1; Refusal::NUMBERS]),
            exchanged: 1,
            lines_alone: 1,
            greedy: 1,
            behind_greedy: 1,
            counted: 1,
            mixed: 1,
            in_blocks: 1,
            ..Tally::default()
        }
    }
}

/// What a call that is told the rounds left may be refused by.
fn told_causes() -> Vec<Refusal> {
    [Refusal::OF_FIND, Refusal::OF_ROUNDS].concat()
}

impl fmt::Display for Tally {
    fn fmt(&self, out: &mut fmt::Formatter) -> fmt::Result {
        write!(
            out,
            "{} calls, accepted {} ({} of them with a bound that is not reached, {} with a half that \
             goes down, {} with a rise and {} with a fall that lists a zone, {} with an absence that \
             leaves something out, {} with an absence in an absence; asking for a low channel or an \
             event, on drives: {}) with {} zones and {} stars (at most {} rounds, all within n + d), \
             {}, refused 10 in an absence: {}; ",
            self.alone.total(),
            self.alone.accepted(),
            self.not_reached,
            self.halves_down,
            self.rises,
            self.falls,
            self.absences,
            self.absent_absences,
            self.first_reports,
            self.zones,
            self.stars,
            self.most_rounds,
            self.alone.each(Refusal::OF_FIND),
            self.full_absences,
        )?;
        write!(
            out,
            "{} calls told the rounds left, accepted {} ({} of them with the last round left, {} in a \
             chain after a drill refused 13), {}; ",
            self.told.total(),
            self.told.accepted(),
            self.last_rounds,
            self.after_13,
            self.told.each(&told_causes()),
        )?;
        write!(
            out,
            "{} lessons, run {} ({} drills refused 13, {} accepted with a star behind one of these; {} \
             run again with two lines exchanged whose results differ, {} lines run again alone), {}; \
             the pairs of {} compositions and rounds counted ({} of them with \
             pairs of both kinds, {} of these with several blocks); {} stretches compared, {} cases \
             passed over for time",
            self.lessons.total(),
            self.lessons.accepted(),
            self.greedy,
            self.behind_greedy,
            self.exchanged,
            self.lines_alone,
            self.lessons.each(Refusal::OF_LESSON),
            self.counted,
            self.mixed,
            self.in_blocks,
            self.stretches,
            self.passed_over,
        )
    }
}

#[cfg(test)]
mod tests {
    use super::*;

    /// Whatever is taken out of a tally that misses nothing is missed, and nothing else.
    #[test]
    fn a_campaign_misses_what_never_came_up() {
        assert_eq!(Tally::full().missing(), [""; 0]);
        type Take = fn(&mut Tally);
        let taken: [(Take, &str); 28] = [
            (|tally| tally.alone.0[1] = 0, "refused 1"),
            (|tally| tally.alone.0[11] = 0, "refused 11"),
            (
                |tally| tally.not_reached = 0,
                "accepted with a bound that is not reached",
            ),
            (
                |tally| tally.halves_down = 0,
                "accepted with a half that goes down",
            ),
            (
                |tally| tally.rises = 0,
                "accepted with a rise that lists a zone",
            ),
            (
                |tally| tally.falls = 0,
                "accepted with a fall that lists a zone",
            ),
            (
                |tally| tally.absences = 0,
                "accepted with an absence that leaves something out",
            ),
            (
                |tally| tally.absent_absences = 0,
                "accepted with an absence in an absence",
            ),
            (|tally| tally.full_absences = 0, "refused 10 in an absence"),
            (
                |tally| tally.first_reports.at_once = 0,
                "accepted on a drive first reported at tick 0",
            ),
            (
                |tally| tally.first_reports.late = 0,
                "accepted on a drive first reported after tick 0",
            ),
            (
                |tally| tally.first_reports.on_the_last_tick = 0,
                "accepted on a drive first reported on the last tick",
            ),
            (
                |tally| tally.first_reports.on_tick_d = 0,
                "accepted on a drive first reported on tick d",
            ),
            (
                |tally| tally.first_reports.never = 0,
                "accepted on a drive never reported",
            ),
            (
                |tally| tally.told.0[0] = 0,
                "told the rounds left and accepted",
            ),
            (
                |tally| tally.told.0[10] = 0,
                "told the rounds left and refused 10",
            ),
            (
                |tally| tally.told.0[13] = 0,
                "told the rounds left and refused 13",
            ),
            (
                |tally| tally.last_rounds = 0,
                "accepted with the last round left",
            ),
            (
                |tally| tally.after_13 = 0,
                "accepted after a drill refused 13",
            ),
            (|tally| tally.lessons.0[0] = 0, "a lesson that was run"),
            (
                |tally| tally.exchanged = 0,
                "a lesson with two lines exchanged",
            ),
            (
                |tally| tally.lines_alone = 0,
                "a line of a lesson on a sheet of its own",
            ),
            (
                |tally| tally.greedy = 0,
                "a drill of a lesson and refused 13",
            ),
            (
                |tally| tally.behind_greedy = 0,
                "a drill of a lesson accepted with a star behind one refused 13",
            ),
            (|tally| tally.lessons.0[3] = 0, "a lesson and refused 3"),
            (|tally| tally.lessons.0[12] = 0, "a lesson and refused 12"),
            (|tally| tally.mixed = 0, "composed with pairs of both kinds"),
            (|tally| tally.in_blocks = 0, "composed with several blocks"),
        ];
        for (take, missed) in taken {
            let mut tally = Tally::full();
            take(&mut tally);
            assert_eq!(tally.missing(), [missed]);
        }
    }

    #[test]
    fn each_first_report_counts_for_itself() {
        let kinds = [
            FirstReport::AtOnce,
            FirstReport::Late,
            FirstReport::OnTheLastTick,
            FirstReport::OnTickD,
            FirstReport::Never,
        ];
        for (kind, at) in kinds.into_iter().zip(0..) {
            let mut counts = FirstReports::default();
            counts.note(kind);
            let noted = counts.each().map(|(count, _)| count);
            let mut expected = [0; 5];
            expected[at] = 1;
            assert_eq!(noted, expected, "{kind:?}");
        }
    }

    /// 12 and 13 are no number of a drill by itself, nor 12 of one that is told the rounds left, nor 4
    /// to 11 and 13 of a lesson.
    #[test]
    fn a_kind_of_call_misses_no_number_that_it_cannot_give() {
        let mut tally = Tally::full();
        tally.alone.0[12..].fill(0);
        tally.told.0[12] = 0;
        tally.lessons.0[4..12].fill(0);
        tally.lessons.0[13] = 0;
        assert_eq!(tally.missing(), [""; 0]);
    }
}
