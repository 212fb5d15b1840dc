//! Pairs of zones with a time in common, counted by trying times.
//!
//! A pair has a time in common where an end of the left zone is a start of the right one. Limits are
//! whole ticks, reached or not, so of the times between two neighbouring ticks a range has all or
//! none. A time in common is therefore a tick, or can be had halfway between two: halves are fine
//! enough.

use crate::refusal::Refusal;
use crate::zone::{broken, opposite, Range, Zone, WORDS};
use crate::zones::{List, ZoneList};

/// A list with the puts of the plain matcher, the pairs of its compositions counted by trying times, and
/// the parts of an absence made one by one.
pub struct TriedList(List);

/// What a composition of two lists went through.
#[derive(Clone, Copy, Debug, PartialEq, Eq)]
pub struct Counted {
    /// Zones in the left list, and in the right one.
    pub left: usize,
    pub right: usize,
    /// Pairs with a time in common.
    pub pairs: usize,
}

impl ZoneList for TriedList {
    type Told = Counted;

    fn new() -> TriedList {
        TriedList(List::new())
    }

    fn zones(&self) -> &[Zone] {
        self.0.zones()
    }

    fn put(&mut self, zone: Zone) -> Result<(), Refusal> {
        self.0.put(zone)
    }

    fn put_meets(&mut self, left: &TriedList, right: &TriedList) -> Result<(), Refusal> {
        self.put_pairs(left, right, |left, right| left.meet(right))
    }

    fn put_compositions(
        &mut self,
        left: &TriedList,
        right: &TriedList,
    ) -> Result<Counted, Refusal> {
        self.put_pairs(left, right, |left, right| left.compose(right))?;
        Ok(Counted {
            left: left.zones().len(),
            right: right.zones().len(),
            pairs: touching(left.zones(), right.zones()),
        })
    }

    fn put_outside(&mut self, listed: &TriedList, zone: &Zone) -> Result<(), Refusal> {
        let sides = || 0..WORDS;
        for listed in listed.zones() {
            sides().try_for_each(|side| self.put_if_any(part_outside(listed, zone, side)))?;
        }
        Ok(())
    }

    fn copy_from(&mut self, other: &TriedList) {
        self.0.copy_from(&other.0);
    }

    fn clear(&mut self) {
        self.0.clear();
    }
}

/// The part of a zone that breaks another one's limit of this side and keeps those before it, if there
/// is any: CR 7 of document 02 word by word, each part from the zone's own limits.
fn part_outside(zone: &Zone, other: &Zone, side: usize) -> Option<Zone> {
    let mut words = *zone.words();
    let mut keep = |side: usize, word: i32| words[side] = words[side].min(word);
    for before in 0..side {
        keep(before, other.words()[before]);
    }
    keep(opposite(side), broken(other.words()[side]));
    Zone::between(words)
}

impl TriedList {
    /// For each left zone, for each right zone, puts what `join` makes of the two, if anything. The
    /// loop is not that of [`List`], which is to be compiled for the plain matcher and nothing else.
    fn put_pairs(
        &mut self,
        left: &TriedList,
        right: &TriedList,
        join: fn(&Zone, &Zone) -> Option<Zone>,
    ) -> Result<(), Refusal> {
        for left in left.zones() {
            for right in right.zones() {
                self.put_if_any(join(left, right))?;
            }
        }
        Ok(())
    }
}

/// The pairs of a left and a right zone in which some end of the left one is a start of the right one.
fn touching(left: &[Zone], right: &[Zone]) -> usize {
    // No time behind the last end is an end.
    let ticks = left.iter().map(|zone| zone.ends().limit >> 1).max();
    let ticks = ticks.unwrap_or(0);
    let ends: Vec<_> = left.iter().map(|zone| halves(zone.ends(), ticks)).collect();
    let starts: Vec<_> = right
        .iter()
        .map(|zone| halves(zone.starts(), ticks))
        .collect();
    let touching = |ends: &Vec<u64>| starts.iter().filter(|starts| meet(ends, starts)).count();
    ends.iter().map(touching).sum()
}

/// The halves of ticks from 0 to this tick that lie in a range, a bit for each.
fn halves(range: Range, ticks: i32) -> Vec<u64> {
    let last = 2 * ticks as usize;
    let mut bits = vec![0; last / 64 + 1];
    for half in 0..=last {
        let is_in = range.has(half as i64, 2);
        bits[half / 64] |= u64::from(is_in) << (half % 64);
    }
    bits
}

fn meet(one: &[u64], other: &[u64]) -> bool {
    one.iter().zip(other).any(|(one, other)| one & other != 0)
}

#[cfg(test)]
mod tests {
    use super::*;
    use crate::random::Rng;
    use crate::zone::{not_reached, reached};

    #[test]
    fn one_time_is_enough() {
        let runs = [Zone::run(2, 5), Zone::run(5, 9), Zone::run(6, 9)];
        // The first run ends where the second starts, and each ends within itself.
        assert_eq!(touching(&runs[..1], &runs[1..]), 1);
        assert_eq!(touching(&runs[1..], &runs[..1]), 0);
        assert_eq!(touching(&runs, &runs), 6);
        assert_eq!(touching(&runs, &[Zone::moment(5)]), 1);
        assert_eq!(touching(&[Zone::moment(5)], &runs), 1);
        assert_eq!(touching(&runs, &[Zone::diagonal(10)]), 3);
        assert_eq!(touching(&[], &runs), 0);
        assert_eq!(touching(&runs, &[]), 0);
    }

    #[test]
    fn a_time_in_common_need_not_be_a_tick() {
        // Ends after 5 and before 6, and starts from 2 to 6.
        let left = Zone::run(5, 9).within(not_reached(0), Some(not_reached(1)));
        let left = Zone::moment(5).compose(&left.unwrap()).unwrap();
        let right = Zone::run(2, 6);
        let common =
            |time: i64, parts: i64| left.ends().has(time, parts) && right.starts().has(time, parts);
        assert!(!(0..10).any(|time| common(time, 1)) && common(11, 2));
        assert_eq!(touching(&[left], &[right]), 1);
    }

    /// Parts made one by one are those that the plain matcher goes through, in the same order.
    #[test]
    fn parts_are_those_of_the_plain_matcher() {
        let mut rng = Rng::new(6, 1);
        let mut listed = vec![Zone::everything(11), Zone::diagonal(11)];
        let mut counts = [0; WORDS + 1];
        for _ in 0..5_000 {
            let start = rng.below(10) as i32;
            let run = Zone::run(start, start + rng.between(1, 11 - start as u32) as i32);
            let lo = rng.below(4) as i32;
            let lo = *rng.pick(&[reached(-lo), not_reached(-lo)]);
            let other = run.within(lo, None).unwrap_or(run);
            let zone = *rng.pick(&listed);
            let sides = 0..WORDS;
            let one_by_one: Vec<Zone> = sides
                .filter_map(|side| part_outside(&zone, &other, side))
                .collect();
            let mut gone_through = Vec::new();
            let all = zone.each_part_outside(&other, |part| {
                gone_through.push(part);
                Ok::<(), ()>(())
            });
            assert_eq!(all, Ok(()));
            assert_eq!(one_by_one, gone_through, "{zone:?} {other:?}");
            counts[one_by_one.len()] += 1;
            // Parts of parts, of all kinds.
            listed.extend(one_by_one);
            if listed.len() > 500 {
                listed.drain(2..250);
            }
        }
        assert!(counts[..6].iter().all(|&count| count > 10), "{counts:?}");
    }

    /// Nothing is in common on twelfths that is not on halves.
    #[test]
    fn halves_are_fine_enough() {
        let mut rng = Rng::new(6, 0);
        let mut any_zone = || {
            let start = rng.below(6) as i32;
            let run = Zone::run(start, start + rng.between(1, 5) as i32);
            let lo = rng.below(4) as i32;
            let lo = *rng.pick(&[reached(-lo), not_reached(-lo)]);
            let hi = rng.between(1, 4) as i32;
            let hi = *rng.pick(&[reached(hi), not_reached(hi)]);
            run.within(lo, Some(hi)).unwrap_or(run)
        };
        let mut touched = 0;
        for _ in 0..2_000 {
            let (left, right) = (any_zone(), any_zone());
            let common = |time| left.ends().has(time, 12) && right.starts().has(time, 12);
            let common = (0..=12 * 12).any(common);
            let count = touching(&[left], &[right]);
            assert_eq!(count, usize::from(common), "{left:?} {right:?}");
            touched += count;
        }
        assert!((200..1_800).contains(&touched));
    }
}
