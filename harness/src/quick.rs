//! The quick list: the second plain matcher, which composes no pair without a time in common (CR 5 of
//! document 02).
//!
//! It makes the same puts in the same order as the plain matcher. A pair in which no end of the left
//! zone is a start of the right one has an empty composition, which is passed over anyway, so sheets
//! and rounds are the same, and so is the put at which a list is too long.

use crate::refusal::Refusal;
use crate::zone::{Range, Zone};
use crate::zones::{ZoneList, MAX_ZONES};

/// Right zones that a left zone may pass over at once.
pub const BLOCK: usize = 16;

/// Listed zones, and limits on where they start.
pub struct QuickList {
    zones: Vec<Zone>,
    /// The largest start word of a listed zone.
    highest: i32,
    /// The smallest -start word of a zone that is listed, or was before it was removed.
    lowest: i32,
}

impl ZoneList for QuickList {
    /// The number of pairs composed: just those with a time in common, an end of the left zone that
    /// is a start of the right one.
    type Told = usize;

    fn new() -> QuickList {
        QuickList {
            zones: Vec::with_capacity(MAX_ZONES),
            highest: i32::MIN,
            lowest: i32::MAX,
        }
    }

    fn zones(&self) -> &[Zone] {
        &self.zones
    }

    #[inline]
    fn put(&mut self, zone: Zone) -> Result<(), Refusal> {
        if !self.is_beyond(&zone) && !self.make_way(&zone) {
            return Ok(());
        }
        self.append(zone)
    }

    // The joins are closures: `Zone::meet` handed on by itself would be one function for this loop and
    // the plain matcher's, and no longer be compiled into that one, which others are timed against.
    fn put_meets(&mut self, left: &QuickList, right: &QuickList) -> Result<(), Refusal> {
        self.put_pairs(left, right, Zone::starts, |left, right| left.meet(right))?;
        Ok(())
    }

    fn put_compositions(&mut self, left: &QuickList, right: &QuickList) -> Result<usize, Refusal> {
        self.put_pairs(left, right, Zone::ends, |left, right| left.compose(right))
    }

    /// What breaks one limit shares no stretch with what keeps it, so the parts of a zone share none,
    /// and those of two zones that share none share none either. A part has a stretch, so none lies
    /// inside another: every put goes last, and need not look through the list.
    fn put_outside(&mut self, listed: &QuickList, zone: &Zone) -> Result<(), Refusal> {
        let mut listed = listed.zones.iter();
        listed.try_for_each(|one| one.each_part_outside(zone, |part| self.append(part)))
    }

    fn copy_from(&mut self, other: &QuickList) {
        self.zones.clear();
        self.zones.extend_from_slice(&other.zones);
        (self.highest, self.lowest) = (other.highest, other.lowest);
    }

    fn clear(&mut self) {
        self.zones.clear();
        (self.highest, self.lowest) = (i32::MIN, i32::MAX);
    }
}

impl QuickList {
    /// Puts a zone last that lies inside no listed one, and that none lies inside any more.
    #[inline(always)]
    fn append(&mut self, zone: Zone) -> Result<(), Refusal> {
        if self.zones.len() == MAX_ZONES {
            return Err(Refusal::ListFull);
        }
        self.zones.push(zone);
        // A removed zone lies inside the one that is put, so its start word is no larger. Its -start
        // word may have been the smallest; where it still counts, a put only looks through more zones
        // than it need.
        let starts = zone.starts();
        self.highest = self.highest.max(starts.limit);
        self.lowest = self.lowest.min(starts.minus_limit);
        Ok(())
    }

    /// Whether the zone starts later than all listed ones: its start word is above theirs, so it lies
    /// inside none of them, and its -start word is below theirs, so none of them lies inside it.
    #[inline(always)]
    fn is_beyond(&self, zone: &Zone) -> bool {
        let starts = zone.starts();
        starts.limit > self.highest && starts.minus_limit < self.lowest
    }

    /// Removes the listed zones inside the given one, or tells that it lies inside one itself.
    ///
    /// No listed zone lies inside another, so the first that holds the zone or lies inside it says
    /// which case it is.
    fn make_way(&mut self, zone: &Zone) -> bool {
        for first in 0..self.zones.len() {
            if self.zones[first].contains(zone) {
                return false;
            }
            if zone.contains(&self.zones[first]) {
                self.zones.retain(|listed| !zone.contains(listed));
                return true;
            }
        }
        true
    }

    /// For each left zone, for each right zone that starts at one of the times which `times` gives for
    /// the left one, puts what `join` makes of the two, if anything. Gives the number of these pairs.
    #[inline(always)]
    fn put_pairs(
        &mut self,
        left: &QuickList,
        right: &QuickList,
        times: impl Fn(&Zone) -> Range,
        join: impl Fn(&Zone, &Zone) -> Option<Zone>,
    ) -> Result<usize, Refusal> {
        let hulls = hulls(&right.zones);
        let mut pairs = 0;
        for left in &left.zones {
            let times = times(left);
            for (block, &hull) in right.zones.chunks(BLOCK).zip(&hulls) {
                if !times.shares(hull) {
                    continue;
                }
                for right in block {
                    if times.shares(right.starts()) {
                        pairs += 1;
                        self.put_if_any(join(left, right))?;
                    }
                }
            }
        }
        Ok(pairs)
    }
}

/// For each block of right zones the least range that all their starts lie in: what shares no time
/// with it shares none with any of them.
///
/// One block alone has a range without limits, since looking at its zones to find a lesser one takes
/// about as long as that one saves.
fn hulls(zones: &[Zone]) -> [Range; MAX_ZONES / BLOCK] {
    let mut hulls = [UNLIMITED; MAX_ZONES / BLOCK];
    if zones.len() > BLOCK {
        for (block, hull) in zones.chunks(BLOCK).zip(&mut hulls) {
            let starts = block.iter().map(Zone::starts);
            *hull = starts.reduce(hull_of_both).expect("no block is empty");
        }
    }
    hulls
}

fn hull_of_both(one: Range, other: Range) -> Range {
    Range {
        limit: one.limit.max(other.limit),
        minus_limit: one.minus_limit.max(other.minus_limit),
    }
}

/// Shares a time with every range of a drive, whose words are far smaller.
const UNLIMITED: Range = Range {
    limit: i32::MAX / 2,
    minus_limit: i32::MAX / 2,
};

#[cfg(test)]
mod tests {
    use super::*;
    use crate::by_times::TriedList;
    use crate::examples::{low_start_r, pulses, recording, recording_r, with_runs};
    use crate::finder::{self, Found, WORK_WORDS};
    use crate::random::{self, Rng, Taste};
    use crate::recording::Head;
    use crate::zone::{not_reached, reached, WORDS};
    use crate::zones::{Allowed, List};

    /// What a drill comes to with lists of some kind, and the answer buffer.
    fn found<L: ZoneList>(recording: &[u8], drill: &str) -> (Found<L::Told>, Vec<i32>) {
        let mut answer = vec![7; MAX_ZONES * WORDS];
        let mut work = vec![7; WORK_WORDS];
        let mut allowed = Allowed::ALL;
        let drill = drill.as_bytes();
        let found = finder::call::<L>(recording, drill, &mut answer, &mut work, &mut allowed);
        (found.expect("pairs enough"), answer)
    }

    /// The pairs that each finished composition and round of an accepted drill composed.
    fn pairs(recording: &[u8], drill: &str) -> Vec<usize> {
        let (found, _) = found::<QuickList>(recording, drill);
        assert_eq!(found.returned.number, 0, "{drill}");
        found.told
    }

    /// By hand: on R with a low start, `a` ends in (2,7] and starts in [2,7), `!a` ends in (0,2] and
    /// (7,10] and starts in [0,2) and [7,10), `a` rises at 2 and falls at 7.
    #[test]
    fn pairs_of_r_with_a_low_start() {
        let table: [(&str, &[usize]); 19] = [
            ("a.a", &[1]),
            ("!a.!a", &[2]),
            // 7 alone, then 2 alone, reached on both sides.
            ("a.!a", &[1]),
            ("!a.a", &[1]),
            ("+a.a", &[1]),
            ("a.-a", &[1]),
            ("!a.+a", &[1]),
            ("-a.!a", &[1]),
            // 2 and 7, not reached.
            ("a.+a", &[0]),
            ("-a.a", &[0]),
            ("+a.!a", &[0]),
            ("+a.+a", &[1]),
            ("+a.-a", &[0]),
            ("_.a", &[1]),
            ("!a._", &[2]),
            // No left zone, and no right one.
            ("a{6,}.a", &[0]),
            ("a.a{6,}", &[0]),
            // In the order in which they are finished: the left operand, the right one, the whole.
            ("(!a.!a).(+a.!a)", &[2, 0, 0]),
            // A meet tells nothing.
            ("a&a&!a.a", &[1]),
        ];
        for (drill, expected) in table {
            assert_eq!(pairs(&low_start_r(), drill), expected, "{drill}");
        }
    }

    /// By hand: on R itself `!a` is from 7 on, and `a` does not rise.
    #[test]
    fn pairs_of_r() {
        let table: [(&str, &[usize]); 7] = [
            ("!a.!a", &[1]),
            ("a.!a", &[1]),
            ("!a.a", &[0]),
            ("+a.a", &[0]),
            ("-a.!a", &[1]),
            ("!a._", &[1]),
            // Both touch themselves, `a` also `!a`; then the two in a row touch `!a`.
            ("(a|!a)*", &[3, 4]),
        ];
        for (drill, expected) in table {
            assert_eq!(pairs(&recording_r(), drill), expected, "{drill}");
        }
    }

    /// By hand: the left part ends in (2,5] or (2,5), the right part starts in [5,7) or (5,7). They
    /// have 5 in common just where both reach it; one tick longer, and all between 5 and 6.
    #[test]
    fn one_time_in_common_must_be_reached_on_both_sides() {
        for (left, right, common) in [
            ("+a.a{0,3}", "a{0,2}.-a", 1),
            ("+a.a{0,<3}", "a{0,2}.-a", 0),
            ("+a.a{0,3}", "a{0,<2}.-a", 0),
            ("+a.a{0,<3}", "a{0,<2}.-a", 0),
            ("+a.a{0,<4}", "a{0,<2}.-a", 1),
        ] {
            let drill = format!("({left}).({right})");
            assert_eq!(pairs(&low_start_r(), &drill), [1, 1, common], "{drill}");
        }
    }

    /// By hand: a run of `a` has its end in common with the run of `!a` behind it, and no other; with
    /// its own inside; and its start with the run of `!a` before it.
    #[test]
    fn pairs_of_long_lists() {
        for drill in ["a.!a", "!a.a", "a.a", "a.-a", "+a.a", "a*"] {
            assert_eq!(pairs(&pulses(127), drill), [127], "{drill}");
        }
        assert_eq!(pairs(&pulses(128), "+a.-a"), [0]);
        assert_eq!(pairs(&pulses(127), "+a.a.-a"), [127, 127]);
    }

    /// By hand: of 20 runs of `b`, at 0, 10, 20 and so on, and then 20 of `c`, at 5, 15, 25 and so on,
    /// the first run of `a` touches the one that starts with it and the one that starts at its end, and
    /// the second one the last of all. They stand in three blocks.
    #[test]
    fn pairs_of_a_right_list_in_no_order() {
        let runs = |first: u32| -> Vec<(u32, u32)> {
            (0..20)
                .map(|k| (10 * k + first, 10 * k + first + 1))
                .collect()
        };
        let drive = with_runs(200, &[&[(50, 55), (195, 197)], &runs(0), &runs(5)]);
        assert_eq!(pairs(&drive, "a.(b|c)"), [3]);
        assert_eq!(pairs(&drive, "a.(c|b)"), [3]);
        // The run of `b` at 50 ends where `a` may start, and so does the last of `c`.
        assert_eq!(pairs(&drive, "(b|c).a"), [2]);
    }

    /// By hand: two ticks may be followed by two, and four by no more.
    #[test]
    fn pairs_of_rounds() {
        assert_eq!(pairs(&recording_r(), "(a{2,2})*"), [1, 1]);
        assert_eq!(pairs(&recording_r(), "(a{0,1})*"), [1; 5]);
        assert_eq!(pairs(&recording_r(), "(a{6,})*"), [0]);
        assert_eq!(pairs(&recording_r(), "_*"), [1]);
        // The composition in the star comes first. Then each of the three runs touches itself and the
        // next one; what comes of two neighbours touches what its second run does; and so on.
        assert_eq!(pairs(&low_start_r(), "(a.a|!a)*"), [1, 5, 8, 9]);
    }

    /// By hand: with `a` high for 130 ticks, round k has the pieces of 1 to k ticks before one more,
    /// and the 128th has no room. With 40 runs, each run touches itself and the next one, which is
    /// 161 zones.
    #[test]
    fn what_10_breaks_off_tells_no_pairs() {
        let refused = |recording: &[u8], drill: &str| {
            let (found, _) = found::<QuickList>(recording, drill);
            assert_eq!(found.returned.number, 10, "{drill}");
            found.told
        };
        let throughout = recording(1_300, 1, &[(0, 1)]);
        let finished: Vec<usize> = (1..128).collect();
        assert_eq!(refused(&throughout, "(a{1,1})*"), finished);
        assert_eq!(refused(&pulses(40), "(a|!a).(a|!a)"), []);
        assert_eq!(refused(&pulses(40), "(a|!a)*"), []);
        assert_eq!(refused(&pulses(40), "a.!a|(a|!a).(a|!a)"), [40]);
        assert_eq!(refused(&pulses(129), "a.a"), []);
    }

    /// Any zone between 0 and this tick: a run, a moment, or a part of a run with bounds on its
    /// length.
    fn any_zone(rng: &mut Rng, ticks: u32) -> Zone {
        let start = rng.between(0, ticks - 1) as i32;
        let length = rng.between(1, 12) as i32;
        if rng.once_in(6) {
            return Zone::moment(start);
        }
        let run = Zone::run(start, start + length);
        let lo = rng.below(4) as i32;
        let lo = *rng.pick(&[reached(-lo), not_reached(-lo)]);
        let hi = *rng.pick(&[None, Some(not_reached(length)), Some(reached(4))]);
        run.within(lo, hi).unwrap_or(run)
    }

    /// The same zones put into lists of three kinds, in rising time or in no order.
    fn any_lists(rng: &mut Rng, ticks: u32) -> (List, QuickList, TriedList) {
        let zones = rng.below(110) as usize;
        let mut zones: Vec<Zone> = (0..zones).map(|_| any_zone(rng, ticks)).collect();
        if rng.once_in(2) {
            zones.sort_by_key(|zone| -zone.starts().minus_limit);
        }
        let mut lists = (List::new(), QuickList::new(), TriedList::new());
        for zone in zones {
            let put = [lists.0.put(zone), lists.1.put(zone), lists.2.put(zone)];
            assert_eq!(put, [Ok(()); 3]);
        }
        assert_eq!(lists.0.zones(), lists.1.zones());
        lists
    }

    /// The same zones in the same order, or too many of them in both; and as many pairs as have a zone
    /// to put.
    #[test]
    fn any_two_lists_make_the_same() {
        let mut rng = Rng::new(5, 0);
        let (mut finished, mut in_blocks) = (0, 0);
        for _ in 0..600 {
            let ticks = *rng.pick(&[20, 300, 3_000]);
            let (left, right) = (any_lists(&mut rng, ticks), any_lists(&mut rng, ticks));
            let mut lists = (List::new(), QuickList::new(), TriedList::new());
            let composed = lists.0.put_compositions(&left.0, &right.0);
            let told = lists.1.put_compositions(&left.1, &right.1);
            let counted = lists.2.put_compositions(&left.2, &right.2);
            assert_eq!(told.map(|_| ()), composed);
            assert_eq!(told, counted.map(|counted| counted.pairs));
            assert_eq!(lists.0.zones(), lists.1.zones());
            // On top of these, as in a round, or in place of what there was no room for.
            let met = lists.0.put_meets(&left.0, &right.0);
            assert_eq!(lists.1.put_meets(&left.1, &right.1), met);
            assert_eq!(lists.0.zones(), lists.1.zones());
            let Ok(pairs) = told else { continue };
            let right = right.0.zones();
            let puts = |zone: &Zone| right.iter().filter_map(|next| zone.compose(next)).count();
            assert_eq!(pairs, left.0.zones().iter().map(puts).sum());
            finished += 1;
            in_blocks += usize::from(pairs > 0 && right.len() > BLOCK);
        }
        assert!(finished < 600 && in_blocks > 50, "{finished} {in_blocks}");
    }

    #[test]
    fn any_drill_comes_to_the_same() {
        let mut rng = Rng::new(5, 1);
        let mut taste = Taste {
            leaves: 6,
            channels: 3,
            limit: 12,
            stars: true,
        };
        for case in 0..1_500 {
            taste.limit = *rng.pick(&[3, 12]);
            let head = Head {
                duration: *rng.pick(&[80, 120, 700]),
                channels: taste.channels,
            };
            let drive = random::recording(&mut rng, head, 20);
            let drill = random::drill(&mut rng, taste).to_string();
            let (plain, answer) = found::<List>(&drive, &drill);
            let (quick, quick_answer) = found::<QuickList>(&drive, &drill);
            assert_eq!(plain.returned, quick.returned, "{case} {drill}");
            assert_eq!(plain.stars, quick.stars, "{drill}");
            assert_eq!(answer, quick_answer, "{drill}");
            assert_eq!(plain.told.len(), quick.told.len(), "{drill}");
        }
    }

    /// A zone that starts later than all listed ones goes last at once, unless there is no room; all
    /// others are looked for in the list, also where one that started latest was removed.
    #[test]
    fn late_zones_are_put_as_others_are() {
        let mut list = QuickList::new();
        let mut put = |zone: Zone| {
            let done = list.put(zone);
            (done, list.zones().len())
        };
        assert_eq!(put(Zone::run(0, 3)), (Ok(()), 1));
        assert_eq!(put(Zone::run(5, 9)), (Ok(()), 2));
        // Inside the last, around it, and inside that again.
        assert_eq!(put(Zone::run(6, 9)), (Ok(()), 2));
        assert_eq!(put(Zone::run(4, 10)), (Ok(()), 2));
        assert_eq!(put(Zone::run(5, 9)), (Ok(()), 2));
        // It starts earlier than one, and ends later than both.
        assert_eq!(put(Zone::run(2, 12)), (Ok(()), 2));
        assert_eq!(put(Zone::moment(12)), (Ok(()), 3));
        assert_eq!(put(Zone::diagonal(20)), (Ok(()), 3));
        for k in 0..125 {
            assert_eq!(put(Zone::run(20 + 2 * k, 21 + 2 * k)).0, Ok(()));
        }
        assert_eq!(put(Zone::run(400, 401)), (Err(Refusal::ListFull), 128));
    }
}
