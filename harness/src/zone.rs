//! Zones, directly on the words of the answer buffer.
//!
//! A limit v is the word 2v + 1 where it is reached and 2v where it is not, so the order of
//! limits is the order of words. The arithmetic knows nothing of recordings or drills.

/// Words in a zone.
pub const WORDS: usize = 6;

/// Upper limits on start, -start, end, -end, end - start and start - end, in that order, tight
/// and with at least one stretch between them.
#[derive(Clone, Copy, Debug, PartialEq, Eq)]
pub struct Zone([i32; WORDS]);

/// The word of a limit that is reached.
pub fn reached(v: i32) -> i32 {
    2 * v + 1
}

/// The word of a limit that is not reached.
pub fn not_reached(v: i32) -> i32 {
    2 * v
}

/// The sum of two limits is reached if both are.
#[inline(always)]
fn sum(x: i32, y: i32) -> i32 {
    x + y - ((x | y) & 1)
}

/// The word of what breaks a limit, as a limit on the negated quantity: what is above v has its
/// negation below -v, and what is v or above has it at -v or below.
#[inline(always)]
pub fn broken(word: i32) -> i32 {
    1 - word
}

/// Where the limit on the negated quantity stands: the two of a quantity are neighbours.
#[inline(always)]
pub fn opposite(side: usize) -> usize {
    side ^ 1
}

/// Whether an upper limit on a quantity and one on its negation leave no value: they sum to less
/// than a reached 0.
#[inline(always)]
fn apart(limit: i32, minus_limit: i32) -> bool {
    sum(limit, minus_limit) < 1
}

/// Whether a quantity, given in parts of a tick, keeps to a limit.
fn keeps(word: i32, quantity: i64, parts: i64) -> bool {
    let (limit, is_reached) = (i64::from(word >> 1) * parts, word & 1 == 1);
    quantity < limit || (is_reached && quantity == limit)
}

/// The times that an upper limit on a time and one on its negation leave.
#[derive(Clone, Copy, Debug, PartialEq, Eq)]
pub struct Range {
    pub limit: i32,
    pub minus_limit: i32,
}

impl Range {
    /// Whether some time lies in both ranges, neither of which is empty.
    ///
    /// The upper limit of one range is v or less and the lower limit of the other -w or more. They
    /// leave a time where v + w is above 0, reached or not, since between two whole ticks there are
    /// others; and where v + w is 0 they leave one just if both are reached. Their words are 2v and
    /// 2w, one more for each that is reached, so their sum is 2 or more in just these cases. Ranges
    /// have no gaps: where the upper limit of either leaves a time with the lower limit of the
    /// other, all four do.
    #[inline(always)]
    pub fn shares(self, other: Range) -> bool {
        self.limit + other.minus_limit >= 2 && self.minus_limit + other.limit >= 2
    }

    /// Whether a time lies in the range, given in parts of a tick.
    pub fn has(self, time: i64, parts: i64) -> bool {
        keeps(self.limit, time, parts) && keeps(self.minus_limit, -time, parts)
    }
}

impl Zone {
    /// The stretches inside a run: s ≤ start, end ≤ e and start < end, for s < e.
    pub fn run(s: i32, e: i32) -> Zone {
        Zone([
            not_reached(e),
            reached(-s),
            reached(e),
            not_reached(-s),
            reached(e - s),
            not_reached(0),
        ])
    }

    /// The stretches of length 0 from 0 to d.
    pub fn diagonal(d: i32) -> Zone {
        Zone([
            reached(d),
            reached(0),
            reached(d),
            reached(0),
            reached(0),
            reached(0),
        ])
    }

    /// All stretches from 0 to d.
    pub fn everything(d: i32) -> Zone {
        Zone([
            reached(d),
            reached(0),
            reached(d),
            reached(0),
            reached(d),
            reached(0),
        ])
    }

    /// The one stretch of length 0 at s.
    pub fn moment(s: i32) -> Zone {
        Zone([
            reached(s),
            reached(-s),
            reached(s),
            reached(-s),
            reached(0),
            reached(0),
        ])
    }

    /// The stretches between any limits, if there are any.
    pub fn between(words: [i32; WORDS]) -> Option<Zone> {
        tighten(words)
    }

    /// A zone as it stands in an answer buffer.
    pub fn from_words(words: [i32; WORDS]) -> Zone {
        Zone(words)
    }

    pub fn words(&self) -> &[i32; WORDS] {
        &self.0
    }

    /// The starts of the zone's stretches: the zone is tight, so each time that the limits leave is
    /// one.
    #[inline(always)]
    pub fn starts(&self) -> Range {
        let [limit, minus_limit, ..] = self.0;
        Range { limit, minus_limit }
    }

    /// The ends of the zone's stretches.
    #[inline(always)]
    pub fn ends(&self) -> Range {
        let [_, _, limit, minus_limit, ..] = self.0;
        Range { limit, minus_limit }
    }

    /// Whether each stretch of the other zone is one of this zone: both being tight, whether each
    /// limit is at least the other's.
    #[inline(always)]
    pub fn contains(&self, other: &Zone) -> bool {
        let [s, ms, e, me, l, ml] = self.0;
        let [os, oms, oe, ome, ol, oml] = other.0;
        oe <= e && oms <= ms && ol <= l && os <= s && ome <= me && oml <= ml
    }

    /// Whether a stretch lies in the zone, its ends given in parts of a tick.
    pub fn has(&self, start: i64, end: i64, parts: i64) -> bool {
        let quantities = [start, -start, end, -end, end - start, start - end];
        let mut limits = self.0.iter().zip(quantities);
        limits.all(|(&word, quantity)| keeps(word, quantity, parts))
    }

    /// The stretches of both zones, if any.
    #[inline(always)]
    pub fn meet(&self, other: &Zone) -> Option<Zone> {
        let [s, ms, ..] = self.0;
        let [other_s, other_ms, ..] = other.0;
        // Most zones of long lists lie in different parts of the drive.
        if apart(s, other_ms) || apart(other_s, ms) {
            return None;
        }
        tighten(std::array::from_fn(|k| self.0[k].min(other.0[k])))
    }

    /// The stretches of the zone that also keep to a limit on start - end and, if there is one,
    /// to a limit on end - start.
    pub fn within(&self, minus_length: i32, length: Option<i32>) -> Option<Zone> {
        let [s, ms, e, me, l, ml] = self.0;
        let l = length.map_or(l, |length| l.min(length));
        tighten([s, ms, e, me, l, ml.min(minus_length)])
    }

    /// The stretches of the zone that also keep to one more limit, if any.
    #[inline(always)]
    fn keeping(&self, side: usize, word: i32) -> Option<Zone> {
        let mut words = self.0;
        words[side] = word;
        tighten(words)
    }

    /// Hands on the parts of this zone that are outside another one, in their order: what breaks its
    /// first limit, then what keeps that one and breaks the second, and so on to the sixth.
    ///
    /// What keeps the limits gone through so far is a tight zone. So where its own limit is no larger
    /// than the next one, nothing breaks that; and where its limit on the negated quantity is no larger
    /// than that of breaking, everything does, and nothing is left for the limits behind.
    #[inline(always)]
    pub fn each_part_outside<E>(
        &self,
        other: &Zone,
        mut found: impl FnMut(Zone) -> Result<(), E>,
    ) -> Result<(), E> {
        let mut kept = *self;
        for (side, &limit) in other.0.iter().enumerate() {
            if kept.0[side] <= limit {
                continue;
            }
            if kept.0[opposite(side)] <= broken(limit) {
                return found(kept);
            }
            if let Some(part) = kept.keeping(opposite(side), broken(limit)) {
                found(part)?;
            }
            let Some(rest) = kept.keeping(side, limit) else {
                break;
            };
            kept = rest;
        }
        Ok(())
    }

    /// The stretches with some cut whose left part lies in this zone and right part in the next.
    ///
    /// The four times 0, start, cut and end make a graph of two triangles, one for each zone,
    /// that share the edge from 0 to the cut. Each triangle is tight already, so a stretch exists
    /// as soon as the two ranges of the cut meet, and a limit of the result is the smaller of two
    /// ways round: a way that takes a third edge is never shorter.
    #[inline(always)]
    pub fn compose(&self, next: &Zone) -> Option<Zone> {
        let [s, ms, cut, minus_cut, l, ml] = self.0;
        let [next_cut, minus_next_cut, e, me, next_l, next_ml] = next.0;
        if apart(cut, minus_next_cut) || apart(next_cut, minus_cut) {
            return None;
        }
        let s = s.min(sum(next_cut, ml));
        let ms = ms.min(sum(minus_next_cut, l));
        let e = e.min(sum(cut, next_l));
        let me = me.min(sum(minus_cut, next_ml));
        Some(Zone([
            s,
            ms,
            e,
            me,
            sum(l, next_l).min(sum(e, ms)),
            sum(ml, next_ml).min(sum(s, me)),
        ]))
    }
}

/// The shortest ways between the three times 0, start and end, each time taken once as the place
/// to go through; nothing where some way round comes back below 0.
fn tighten([s, ms, e, me, l, ml]: [i32; WORDS]) -> Option<Zone> {
    let l = l.min(sum(e, ms));
    let ml = ml.min(sum(s, me));
    let e = e.min(sum(s, l));
    let me = me.min(sum(ms, ml));
    let s = s.min(sum(e, ml));
    let ms = ms.min(sum(me, l));
    let empty = apart(s, ms) || apart(e, me) || apart(l, ml);
    (!empty).then_some(Zone([s, ms, e, me, l, ml]))
}

#[cfg(test)]
mod tests {
    use super::*;
    use crate::random::Rng;

    const NONE: i32 = 1 << 20;

    /// Any limits between 0 and 6 that leave a stretch.
    fn any_zone(rng: &mut Rng) -> Zone {
        loop {
            let mut limit = || rng.below(14) as i32;
            let upper = [limit(), limit(), limit()];
            let lower = [1 - limit(), 1 - limit(), 1 - limit()];
            let words = [upper[0], lower[0], upper[1], lower[1], upper[2], lower[2]];
            if let Some(zone) = tighten(words) {
                return zone;
            }
        }
    }

    /// Shortest ways among four times by trying every middle, with a row and a column for each
    /// of 0, start, cut and end; nothing where the limits leave no times.
    fn closed(mut limits: [[i32; 4]; 4]) -> Option<[[i32; 4]; 4]> {
        for middle in 0..4 {
            for from in 0..4 {
                for to in 0..4 {
                    let way = sum(limits[from][middle], limits[middle][to]);
                    limits[from][to] = limits[from][to].min(way);
                }
            }
        }
        (0..4).all(|k| limits[k][k] >= 1).then_some(limits)
    }

    /// Writes a zone's limits on the times at two places of the table.
    fn place(limits: &mut [[i32; 4]; 4], zone: &Zone, start: usize, end: usize) {
        let [s, ms, e, me, l, ml] = zone.0;
        let edges = [
            (start, 0, s),
            (0, start, ms),
            (end, 0, e),
            (0, end, me),
            (end, start, l),
            (start, end, ml),
        ];
        for (from, to, limit) in edges {
            limits[from][to] = limits[from][to].min(limit);
        }
    }

    fn unlimited() -> [[i32; 4]; 4] {
        let mut limits = [[NONE; 4]; 4];
        for (k, row) in limits.iter_mut().enumerate() {
            row[k] = reached(0);
        }
        limits
    }

    /// A zone within limits on its length, with the times 0, start and end alone.
    fn within_by_elimination(zone: &Zone, minus_length: i32, length: i32) -> Option<Zone> {
        let mut limits = unlimited();
        let [start, end] = [1, 3];
        place(&mut limits, zone, start, end);
        limits[start][end] = limits[start][end].min(minus_length);
        limits[end][start] = limits[end][start].min(length);
        closed(limits).map(|shortest| between(&shortest))
    }

    fn composed_by_elimination(left: &Zone, right: &Zone) -> Option<Zone> {
        let mut limits = unlimited();
        place(&mut limits, left, 1, 2);
        place(&mut limits, right, 2, 3);
        closed(limits).map(|shortest| between(&shortest))
    }

    /// The limits of a table on start and end.
    fn between(shortest: &[[i32; 4]; 4]) -> Zone {
        let [start, end] = [1, 3];
        Zone([
            shortest[start][0],
            shortest[0][start],
            shortest[end][0],
            shortest[0][end],
            shortest[end][start],
            shortest[start][end],
        ])
    }

    #[test]
    fn composition_eliminates_the_cut() {
        let mut rng = Rng::new(1, 0);
        let mut left_something = 0;
        for _ in 0..50_000 {
            let (left, right) = (any_zone(&mut rng), any_zone(&mut rng));
            let composed = left.compose(&right);
            let expected = composed_by_elimination(&left, &right);
            assert_eq!(composed, expected, "{left:?} {right:?}");
            left_something += usize::from(composed.is_some());
        }
        assert!((5_000..45_000).contains(&left_something));
    }

    #[test]
    fn limits_on_the_length_leave_a_tight_zone() {
        let mut rng = Rng::new(1, 1);
        let mut left_something = 0;
        for _ in 0..50_000 {
            let zone = any_zone(&mut rng);
            // From 0 to 6, reached or not.
            let (lo, hi) = (1 - rng.below(14) as i32, rng.below(14) as i32);
            let within = zone.within(lo, Some(hi));
            let expected = within_by_elimination(&zone, lo, hi);
            assert_eq!(within, expected, "{zone:?} {lo} {hi}");
            let unbounded = within_by_elimination(&zone, lo, NONE);
            assert_eq!(zone.within(lo, None), unbounded, "{zone:?} {lo}");
            left_something += usize::from(within.is_some());
        }
        assert!((5_000..45_000).contains(&left_something));
    }

    #[test]
    fn a_limit_that_is_not_reached_leaves_its_length_out() {
        let run = Zone::run(2, 7);
        let longer = run.within(not_reached(-2), None).unwrap();
        let at_least = run.within(reached(-2), None).unwrap();
        // Of length 2, of length 2 1/6, and of length 5, all from tick 2.
        assert!(at_least.has(12, 24, 6) && at_least.has(12, 25, 6) && at_least.has(12, 42, 6));
        assert!(!longer.has(12, 24, 6) && longer.has(12, 25, 6) && longer.has(12, 42, 6));
        let shorter = run.within(not_reached(0), Some(not_reached(5))).unwrap();
        assert!(shorter.has(12, 41, 6) && !shorter.has(12, 42, 6));
        assert_eq!(run.within(not_reached(-5), None), None);
        assert_eq!(run.within(reached(-5), Some(not_reached(5))), None);
    }

    #[test]
    fn sums_and_order_of_words() {
        assert_eq!(sum(reached(3), reached(-5)), reached(-2));
        assert_eq!(sum(reached(3), not_reached(-5)), not_reached(-2));
        assert_eq!(sum(not_reached(3), not_reached(-5)), not_reached(-2));
        assert!(not_reached(4) < reached(4) && reached(4) < not_reached(5));
    }

    #[test]
    fn what_breaks_a_limit_is_what_does_not_keep_it() {
        assert_eq!(broken(reached(3)), not_reached(-3));
        assert_eq!(broken(not_reached(3)), reached(-3));
        for word in -9..=9 {
            assert_eq!(broken(broken(word)), word);
            for quantity in -40..=40 {
                let breaks = keeps(broken(word), -quantity, 6);
                assert_eq!(breaks, !keeps(word, quantity, 6), "{word} {quantity}");
            }
        }
    }

    fn parts_outside(zone: &Zone, other: &Zone) -> Vec<Zone> {
        let mut parts = Vec::new();
        let all = zone.each_part_outside(other, |part| {
            parts.push(part);
            Ok::<(), ()>(())
        });
        all.expect("nothing stops the walk");
        parts
    }

    /// The k-th part keeps the first k limits and breaks the next one. Times between whole ticks may be
    /// had on thirds, so parts without a stretch on thirds are empty.
    #[test]
    fn parts_break_one_limit_and_keep_those_before_it() {
        let mut rng = Rng::new(2, 3);
        let (mut whole, mut cut, mut counts) = (0, 0, [0; WORDS + 1]);
        for _ in 0..3_000 {
            let (zone, other) = (any_zone(&mut rng), any_zone(&mut rng));
            let parts = parts_outside(&zone, &other);
            let mut of_side = vec![Vec::new(); WORDS];
            for start in 0..=3 * 6 {
                for end in start..=3 * 6 {
                    if !zone.has(start, end, 3) {
                        continue;
                    }
                    let quantities = [start, -start, end, -end, end - start, start - end];
                    let mut limits = other.0.iter().zip(quantities);
                    let first = limits.position(|(&word, quantity)| !keeps(word, quantity, 3));
                    if let Some(side) = first {
                        of_side[side].push((start, end));
                    }
                    let holding = parts.iter().filter(|part| part.has(start, end, 3)).count();
                    assert_eq!(holding, usize::from(first.is_some()));
                }
            }
            of_side.retain(|stretches| !stretches.is_empty());
            assert_eq!(parts.len(), of_side.len(), "{zone:?} {other:?}");
            for (part, stretches) in parts.iter().zip(&of_side) {
                assert!(stretches.iter().all(|&(s, e)| part.has(s, e, 3)));
                assert_eq!(Zone::between(part.0), Some(*part), "tight");
            }
            whole += usize::from(parts == [zone]);
            cut += usize::from(parts.len() > 1 && zone.meet(&other).is_none());
            counts[parts.len()] += 1;
        }
        // Outside a zone that shares nothing with it a zone may be left whole, or be cut all the same.
        assert!(whole > 100 && cut > 100, "{whole} {cut}");
        assert!(counts[..5].iter().all(|&count| count > 20), "{counts:?}");
    }

    /// By hand, all stretches of 10 ticks outside the run from 2 to 7: start from 7 on; before 2; end
    /// behind 7; at 2; none longer than 5; of length 0.
    #[test]
    fn parts_of_everything_outside_a_run() {
        let everything = Zone::everything(10);
        assert_eq!(Zone::between(everything.0), Some(everything));
        let words = |word: &str| -> [i32; WORDS] {
            let all = word.split(' ').map(|word| word.parse().unwrap());
            all.collect::<Vec<_>>().try_into().unwrap()
        };
        let parts = [
            "21 -13 21 -13 7 1",
            "4 1 21 1 21 1",
            "14 -3 21 -14 17 0",
            "5 -3 5 -3 1 1",
            "14 -4 14 -4 1 1",
        ];
        let expected = parts.map(|part| Zone(words(part)));
        assert_eq!(parts_outside(&everything, &Zone::run(2, 7)), expected);
        assert_eq!(parts_outside(&Zone::run(2, 7), &everything), []);
        assert_eq!(parts_outside(&Zone::run(2, 7), &Zone::run(2, 7)), []);
        // Nothing in common, and still cut: start from 5 on, before 3, and the rest by its end.
        let over_7 = Zone(words(parts[2]));
        let cut = [
            "14 -9 21 -14 11 0",
            "6 -3 21 -14 17 -8",
            "10 -5 21 -14 15 -4",
        ];
        let cut = cut.map(|part| Zone(words(part)));
        assert_eq!(parts_outside(&over_7, &Zone::run(3, 5)), cut);
    }

    #[test]
    fn meets_hold_the_stretches_of_both() {
        let mut rng = Rng::new(2, 0);
        for _ in 0..2_000 {
            let (left, right) = (any_zone(&mut rng), any_zone(&mut rng));
            let meet = left.meet(&right);
            for start in 0..=12 {
                for end in start..=12 {
                    let in_both = left.has(start, end, 2) && right.has(start, end, 2);
                    let in_meet = meet.is_some_and(|zone| zone.has(start, end, 2));
                    assert_eq!(in_meet, in_both);
                }
            }
        }
    }

    /// With limits on whole ticks, a start that keeps to all of them for an end on a half may be had
    /// on quarters: the limits on it are whole ticks and whole ticks from the end, all of them halves,
    /// and between two halves there is a quarter.
    #[test]
    fn all_times_between_the_limits_are_starts_and_ends() {
        let mut rng = Rng::new(2, 1);
        for _ in 0..2_000 {
            let zone = any_zone(&mut rng);
            for time in (0..=4 * 7).step_by(2) {
                let is_start = (0..=4 * 7).any(|end| zone.has(time, end, 4));
                assert_eq!(zone.starts().has(time, 4), is_start, "{zone:?} {time}");
                let is_end = (0..=4 * 7).any(|start| zone.has(start, time, 4));
                assert_eq!(zone.ends().has(time, 4), is_end, "{zone:?} {time}");
            }
        }
    }

    /// Ranges of all kinds up to tick 4, and the times that both have in thirds, where there are
    /// times between any two ticks.
    #[test]
    fn ranges_share_what_both_have() {
        let limits = |last: i32| (0..=last).flat_map(|v| [not_reached(v), reached(v)]);
        let upper = || limits(4);
        let lower = || limits(4).map(|word| 1 - word);
        let all = |range: Range| (0..=12).filter(move |&time| range.has(time, 3));
        let mut ranges: Vec<Range> = Vec::new();
        for limit in upper() {
            let with_lower = lower().map(|minus_limit| Range { limit, minus_limit });
            ranges.extend(with_lower.filter(|&range| all(range).next().is_some()));
        }
        for &range in &ranges {
            for &other in &ranges {
                let common = all(range).any(|time| other.has(time, 3));
                assert_eq!(range.shares(other), common, "{range:?} {other:?}");
            }
        }
    }

    /// The same for the ends of a zone and the starts of another, whose composition is empty just
    /// where they share nothing.
    #[test]
    fn zones_touch_where_an_end_is_a_start() {
        let mut rng = Rng::new(2, 2);
        let mut touched = 0;
        for _ in 0..5_000 {
            let (left, right) = (any_zone(&mut rng), any_zone(&mut rng));
            let stretches = |zone: Zone| {
                let times = || 0..=4 * 7;
                let all = times().flat_map(move |s| times().map(move |e| (s, e)));
                all.filter(move |&(s, e)| zone.has(s, e, 4))
            };
            let starts: Vec<i64> = stretches(right).map(|(start, _)| start).collect();
            let touch = stretches(left).any(|(_, end)| starts.contains(&end));
            let shares = left.ends().shares(right.starts());
            assert_eq!(shares, touch, "{left:?} {right:?}");
            assert_eq!(shares, left.compose(&right).is_some());
            touched += usize::from(touch);
        }
        assert!((500..4_500).contains(&touched));
    }

    #[test]
    fn ranges_that_meet_in_one_time() {
        let [run, next] = [Zone::run(2, 5), Zone::run(5, 9)];
        let early = next.within(reached(-4), None).unwrap();
        // To 5, reached, and from 5, reached; then with 5 not reached on one side, and on both.
        assert!(run.ends().shares(next.starts()));
        assert!(run.ends().shares(early.starts()));
        assert!(!run.starts().shares(next.starts()));
        assert!(!run.ends().shares(next.ends()));
        assert!(!run.starts().shares(next.ends()));
        // Both have all times between 2 and 5, neither of which is reached; and both have 5 alone.
        assert!(run.starts().shares(run.ends()));
        assert!(Zone::moment(5).ends().shares(next.starts()));
        assert!(!Zone::moment(5).ends().shares(next.ends()));
        assert!(run.ends().shares(Zone::moment(5).starts()));
        assert!(!run.starts().shares(Zone::moment(5).starts()));
    }

    #[test]
    fn strictness_survives_a_composition() {
        let run = Zone::run(2, 7);
        assert_eq!(run.compose(&run), Some(run));
        assert!(!run.has(2, 2, 1) && run.has(2, 3, 1) && run.has(2, 7, 1));
        assert!(run.has(7, 8, 3) && !run.has(7, 22, 3));
    }

    #[test]
    fn a_moment_has_one_stretch() {
        let moment = Zone::moment(2);
        assert!(moment.has(12, 12, 6));
        for (start, end) in [(11, 11), (13, 13), (11, 12), (12, 13), (11, 13)] {
            assert!(!moment.has(start, end, 6));
        }
        // It is tight, and takes nothing away from what it touches but the other stretches.
        assert_eq!(tighten(*moment.words()), Some(moment));
        assert_eq!(moment.compose(&moment), Some(moment));
        assert_eq!(moment.compose(&Zone::moment(3)), None);
        assert_eq!(moment.meet(&Zone::moment(3)), None);
        assert_eq!(moment.meet(&Zone::run(2, 7)), None);
        assert_eq!(moment.meet(&Zone::diagonal(10)), Some(moment));
        assert!(Zone::diagonal(10).contains(&moment) && !moment.contains(&Zone::diagonal(10)));
        let run = Zone::run(2, 7);
        assert_eq!(run.compose(&moment), None);
        let from_2 = moment.compose(&run).expect("the run starts at 2");
        assert!(from_2.has(12, 13, 6) && from_2.has(12, 42, 6));
        assert!(!from_2.has(12, 12, 6) && !from_2.has(13, 14, 6));
    }

    #[test]
    fn the_order_of_operands_matters() {
        let (early, late) = (Zone::run(2, 5), Zone::run(5, 9));
        assert!(early.compose(&late).is_some());
        assert_eq!(late.compose(&early), None);
    }
}
