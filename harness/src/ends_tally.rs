//! What a campaign met in calls from a start tick.

use std::fmt;

use crate::ends::ToldEnds;
use crate::refusal::Refusal;
use crate::tally::Numbers;
use crate::zone::{not_reached, reached, Range, Zone};

#[derive(Clone, Debug, Default)]
pub struct EndsTally {
    pub numbers: Numbers,
    /// Calls that tell an earliest end that is not reached.
    earliest_not_reached: u64,
    /// Calls that tell a latest end that is not reached.
    latest_not_reached: u64,
    /// Calls that tell two different ends, both reached.
    both_reached: u64,
    /// Calls that tell one end alone, the earliest and the latest.
    one_end: u64,
    /// Accepted calls that tell none.
    none: u64,
    /// Calls from d that tell an end.
    from_d: u64,
    /// Accepted calls with a listed zone that has stretches from just before the start on, and none from
    /// the start.
    just_before: u64,
    /// The same for stretches from just behind the start.
    just_behind: u64,
    /// Calls whose earliest and latest end are told by no listed zone alone.
    of_two_zones: u64,
    /// Starts whose ends were compared with brute force.
    pub tried: u64,
}

impl EndsTally {
    /// A call from a start, in a drive of so many ticks, with the zones that it lists.
    pub fn note(&mut self, told: &ToldEnds, start: u32, ticks: u32, zones: &[Zone]) {
        self.numbers.note(told.returned.number);
        if !told.returned.is_accepted() {
            return;
        }
        let start = start as i32;
        let any = |meets: &dyn Fn(&Zone) -> bool| u64::from(zones.iter().any(meets));
        self.just_before += any(&|zone| starts_just_before(zone, start));
        self.just_behind += any(&|zone| starts_just_behind(zone, start));
        let Some(ends) = told.ends else {
            self.none += 1;
            return;
        };
        let [latest, earliest] = [ends.limit, ends.minus_limit].map(is_reached);
        let is_one = is_one_time(ends);
        self.earliest_not_reached += u64::from(!earliest);
        self.latest_not_reached += u64::from(!latest);
        self.both_reached += u64::from(earliest && latest && !is_one);
        self.one_end += u64::from(is_one);
        self.from_d += u64::from(start as u32 == ticks);
        let by_one = any(&|zone| zone.ends_from(start) == Some(ends));
        self.of_two_zones += 1 - by_one;
    }

    /// Each count, and what it counts.
    fn each(&self) -> [(u64, &'static str); 9] {
        [
            (
                self.earliest_not_reached,
                "with an earliest end that is not reached",
            ),
            (
                self.latest_not_reached,
                "with a latest end that is not reached",
            ),
            (self.both_reached, "with two ends that are reached"),
            (self.one_end, "with one end alone"),
            (self.none, "with none"),
            (self.from_d, "with an end from d"),
            (
                self.just_before,
                "with a zone that starts just before the start",
            ),
            (
                self.just_behind,
                "with a zone that starts just behind the start",
            ),
            (self.of_two_zones, "with the ends of two zones"),
        ]
    }

    /// What came up in no call.
    pub fn missing(&self) -> Vec<String> {
        let kind = "from a start and ";
        let mut missing: Vec<String> = self.numbers.missing(&causes(), kind).collect();
        let accepted = (self.numbers.accepted(), "accepted");
        let tried = (self.tried, "compared with brute force");
        let others = self.each().into_iter().chain([accepted, tried]);
        let others = others.filter(|(count, _)| *count == 0);
        missing.extend(others.map(|(_, what)| format!("{kind}{what}")));
        missing
    }

    /// One of everything.
    #[cfg(test)]
    pub fn full() -> EndsTally {
        EndsTally {
            numbers: Numbers::full(),
            earliest_not_reached: 1,
            latest_not_reached: 1,
            both_reached: 1,
            one_end: 1,
            none: 1,
            from_d: 1,
            just_before: 1,
            just_behind: 1,
            of_two_zones: 1,
            tried: 1,
        }
    }
}

/// What a call from a start may be refused by.
fn causes() -> Vec<Refusal> {
    [Refusal::OF_FIND, Refusal::OF_START].concat()
}

fn is_reached(word: i32) -> bool {
    word & 1 == 1
}

/// Whether the earliest end is the latest: then it is reached, or there would be none.
fn is_one_time(ends: Range) -> bool {
    let v = ends.limit >> 1;
    (ends.limit, ends.minus_limit) == (reached(v), reached(-v))
}

/// Whether a zone starts before a tick, however little, and not there: the tick is its limit on the start,
/// and is not reached.
fn starts_just_before(zone: &Zone, tick: i32) -> bool {
    zone.starts().limit == not_reached(tick)
}

/// The same behind the tick.
fn starts_just_behind(zone: &Zone, tick: i32) -> bool {
    zone.starts().minus_limit == not_reached(-tick)
}

impl fmt::Display for EndsTally {
    fn fmt(&self, out: &mut fmt::Formatter) -> fmt::Result {
        let counts = self.each().map(|(count, what)| format!("{count} {what}"));
        write!(
            out,
            "{} calls from a start, accepted {} ({}), {}, the ends from {} starts compared with brute \
             force",
            self.numbers.total(),
            self.numbers.accepted(),
            counts.join(", "),
            self.numbers.each(&causes()),
            self.tried,
        )
    }
}

#[cfg(test)]
mod tests {
    use super::*;
    use crate::finder::Returned;

    /// Whatever is taken out of a tally that misses nothing is missed, and nothing else.
    #[test]
    fn a_campaign_misses_what_never_came_up() {
        assert_eq!(EndsTally::full().missing(), [""; 0]);
        type Take = fn(&mut EndsTally);
        let taken: [(Take, &str); 14] = [
            (|tally| tally.numbers.clear(0), "accepted"),
            (|tally| tally.numbers.clear(1), "refused 1"),
            (|tally| tally.numbers.clear(11), "refused 11"),
            (|tally| tally.numbers.clear(14), "refused 14"),
            (
                |tally| tally.earliest_not_reached = 0,
                "with an earliest end that is not reached",
            ),
            (
                |tally| tally.latest_not_reached = 0,
                "with a latest end that is not reached",
            ),
            (
                |tally| tally.both_reached = 0,
                "with two ends that are reached",
            ),
            (|tally| tally.one_end = 0, "with one end alone"),
            (|tally| tally.none = 0, "with none"),
            (|tally| tally.from_d = 0, "with an end from d"),
            (
                |tally| tally.just_before = 0,
                "with a zone that starts just before the start",
            ),
            (
                |tally| tally.just_behind = 0,
                "with a zone that starts just behind the start",
            ),
            (|tally| tally.of_two_zones = 0, "with the ends of two zones"),
            (|tally| tally.tried = 0, "compared with brute force"),
        ];
        for (take, missed) in taken {
            let mut tally = EndsTally::full();
            take(&mut tally);
            assert_eq!(tally.missing(), [format!("from a start and {missed}")]);
        }
        // 12 and 13 are no numbers of such a call.
        let mut tally = EndsTally::full();
        tally.numbers.clear(12);
        tally.numbers.clear(13);
        assert_eq!(tally.missing(), [""; 0]);
    }

    /// By hand, in 10 ticks: the counts of a call that lists these zones, in their order.
    fn noted(zones: &[Zone], start: u32) -> [u64; 9] {
        let returned = Returned {
            number: 0,
            zones: zones.len() as u64,
            rounds: 0,
        };
        let ends = crate::ends::of(zones.iter().copied(), start);
        let mut tally = EndsTally::default();
        tally.note(&ToldEnds { returned, ends }, start, 10, zones);
        tally.each().map(|(count, _)| count)
    }

    #[test]
    fn each_kind_counts_for_itself() {
        let run = Zone::run(2, 7);
        let diagonal = Zone::diagonal(10);
        assert_eq!(noted(&[run], 2), [1, 0, 0, 0, 0, 0, 0, 0, 0]);
        assert_eq!(noted(&[run], 7), [0, 0, 0, 0, 1, 0, 1, 0, 0]);
        assert_eq!(noted(&[run], 8), [0, 0, 0, 0, 1, 0, 0, 0, 0]);
        assert_eq!(noted(&[diagonal], 3), [0, 0, 0, 1, 0, 0, 0, 0, 0]);
        assert_eq!(noted(&[diagonal], 10), [0, 0, 0, 1, 0, 1, 0, 0, 0]);
        assert_eq!(noted(&[run, diagonal], 3), [0, 0, 1, 0, 0, 0, 0, 0, 1]);
        assert_eq!(noted(&[run, diagonal], 7), [0, 0, 0, 1, 0, 0, 1, 0, 0]);
        let everything = Zone::everything(10);
        assert_eq!(noted(&[everything], 3), [0, 0, 1, 0, 0, 0, 0, 0, 0]);
        let short = run.within(not_reached(0), Some(not_reached(1))).unwrap();
        assert_eq!(noted(&[short], 2), [1, 1, 0, 0, 0, 0, 0, 0, 0]);
        let [late, _] = late_zones();
        assert_eq!(noted(&[late], 4), [0, 0, 0, 0, 1, 0, 0, 1, 0]);
        assert_eq!(noted(&late_zones(), 4), [1, 0, 0, 0, 0, 0, 0, 1, 0]);
    }

    /// What ends at 7 and is shorter than 3, so that it starts behind 4; and a run from 2 to 6.
    fn late_zones() -> [Zone; 2] {
        let to_7 = Zone::run(2, 7).compose(&Zone::moment(7)).unwrap();
        let short = to_7.within(not_reached(0), Some(not_reached(3)));
        [short.unwrap(), Zone::run(2, 6)]
    }

    #[test]
    fn refused_calls_count_by_their_numbers_alone() {
        let returned = Returned {
            number: 14,
            zones: 0,
            rounds: 0,
        };
        let mut tally = EndsTally::default();
        let told = ToldEnds {
            returned,
            ends: None,
        };
        tally.note(&told, 10, 10, &[Zone::run(2, 7)]);
        assert!(tally.each().iter().all(|&(count, _)| count == 0));
        assert_eq!((tally.numbers.total(), tally.numbers.accepted()), (1, 0));
    }
}
