//! Random numbers, recordings and drills, all from a seed.

use crate::drill::{Band, Bound, Drill};
use crate::recording::{encode, tick, Change, Head};

/// The splitmix64 generator.
#[derive(Clone, Debug)]
pub struct Rng(u64);

impl Rng {
    /// The numbers of one case of a seed: a case can be made again without those before it.
    pub fn new(seed: u64, case: u64) -> Rng {
        let mut rng = Rng(seed);
        let start = rng.number() ^ case.wrapping_mul(0xD6E8_FEB8_6659_FD93);
        Rng(start)
    }

    pub fn number(&mut self) -> u64 {
        self.0 = self.0.wrapping_add(0x9E37_79B9_7F4A_7C15);
        let mut z = self.0;
        z = (z ^ (z >> 30)).wrapping_mul(0xBF58_476D_1CE4_E5B9);
        z = (z ^ (z >> 27)).wrapping_mul(0x94D0_49BB_1331_11EB);
        z ^ (z >> 31)
    }

    /// A number below n, for n above 0.
    pub fn below(&mut self, n: u64) -> u64 {
        self.number() % n
    }

    /// A number from low to high, both included.
    pub fn between(&mut self, low: u32, high: u32) -> u32 {
        low + self.below(u64::from(high - low) + 1) as u32
    }

    /// True once in n times.
    pub fn once_in(&mut self, n: u64) -> bool {
        self.below(n) == 0
    }

    pub fn pick<'a, T>(&mut self, from: &'a [T]) -> &'a T {
        &from[self.below(from.len() as u64) as usize]
    }

    pub fn words(&mut self, count: usize) -> Vec<i32> {
        (0..count).map(|_| self.number() as i32).collect()
    }

    pub fn bytes(&mut self, count: usize) -> Vec<u8> {
        (0..count).map(|_| self.number() as u8).collect()
    }
}

/// Milliseconds from low to high, both included, more often than by chance halfway between two
/// ticks.
pub fn milliseconds(rng: &mut Rng, low: u32, high: u32) -> u32 {
    let any = rng.between(low, high);
    let half = any - any % 10 + 5;
    if (low..=high).contains(&half) && rng.once_in(4) {
        half
    } else {
        any
    }
}

/// The times of at most this many changes, or of one, rising and below the duration. In more than half
/// of all drives the first is at tick 0, so that runs from the start and events come up as often as
/// late reports. Else it is anywhere, now and then on the last tick or on tick d, or there is none.
pub fn change_times(rng: &mut Rng, duration: u32, changes: usize) -> Vec<u32> {
    let mut times = rising_times(rng, duration, changes);
    let ticks = tick(duration);
    match rng.below(32) {
        0..18 => begin_at_once(rng, &mut times),
        18 => begin_at(ticks - 1, duration, &mut times),
        19 => begin_at(ticks, duration, &mut times),
        20 => times.clear(),
        21..26 => begin_at(rng.between(0, ticks - 1), duration, &mut times),
        _ => (),
    }
    times
}

fn rising_times(rng: &mut Rng, duration: u32, changes: usize) -> Vec<u32> {
    let mut times: Vec<u32> = (0..changes)
        .map(|_| milliseconds(rng, 0, duration - 1))
        .collect();
    times.sort_unstable();
    times.dedup();
    times
}

/// The first time, if there is any, becomes one of those that are tick 0.
fn begin_at_once(rng: &mut Rng, times: &mut [u32]) {
    if let Some(first) = times.first_mut() {
        *first = milliseconds(rng, 0, 5).min(*first);
    }
}

/// The times before this tick are left out. Where no other is left, there is one on the tick, if the
/// drive has any.
fn begin_at(first: u32, duration: u32, times: &mut Vec<u32>) {
    times.retain(|&time| tick(time) >= first);
    let there = (10 * first).min(duration - 1);
    if times.is_empty() && tick(there) == first {
        times.push(there);
    }
}

/// A sound recording with at most this many changes, or with one, at any milliseconds.
pub fn recording(rng: &mut Rng, head: Head, changes: usize) -> Vec<u8> {
    let times = change_times(rng, head.duration, changes);
    let changes: Vec<Change> = times
        .into_iter()
        .map(|time| Change {
            time,
            levels: levels(rng, head.channels),
        })
        .collect();
    encode(head, &changes)
}

/// Each of so many channels high or low.
pub fn levels(rng: &mut Rng, channels: u8) -> u16 {
    let known = ((1u32 << channels) - 1) as u16;
    rng.number() as u16 & known
}

/// What a random drill may be made of.
#[derive(Clone, Copy, Debug)]
pub struct Taste {
    /// Letters, alone or after `!`, `+` or `-`, and `_` in the drill, at most.
    pub leaves: u32,
    pub channels: u8,
    /// The highest bound of a band.
    pub limit: u32,
    /// Whether `*` may stand in it.
    pub stars: bool,
}

/// A random tree: joins down to single leaves, with bands, stars and absences strewn over it.
pub fn drill(rng: &mut Rng, taste: Taste) -> Drill {
    let leaves = rng.between(1, taste.leaves);
    tree(rng, taste, leaves)
}

fn tree(rng: &mut Rng, taste: Taste, leaves: u32) -> Drill {
    let mut tree = if leaves == 1 {
        leaf(rng, taste)
    } else {
        join(rng, taste, leaves)
    };
    while rng.once_in(4) {
        tree = match rng.below(8) {
            0 | 1 => Drill::Absent(Box::new(tree)),
            2..5 if taste.stars => Drill::Star(Box::new(tree)),
            _ => Drill::Within(Box::new(tree), band(rng, taste.limit)),
        };
    }
    tree
}

pub fn leaf(rng: &mut Rng, taste: Taste) -> Drill {
    if rng.once_in(12) {
        return Drill::Empty;
    }
    let channel = rng.below(taste.channels.into()) as u8;
    if rng.once_in(5) {
        return event(rng, channel);
    }
    Drill::Letter {
        channel,
        high: !rng.once_in(3),
    }
}

/// As often a rise as a fall.
pub fn event(rng: &mut Rng, channel: u8) -> Drill {
    Drill::Event {
        channel,
        rise: rng.once_in(2),
    }
}

fn join(rng: &mut Rng, taste: Taste, leaves: u32) -> Drill {
    let left_leaves = rng.between(1, leaves - 1);
    let left = tree(rng, taste, left_leaves);
    let right = tree(rng, taste, leaves - left_leaves);
    joined(rng, left, right)
}

/// Two drills under a join, mostly `.`, which is where fractions come in.
pub fn joined(rng: &mut Rng, left: Drill, right: Drill) -> Drill {
    let (left, right) = (Box::new(left), Box::new(right));
    match rng.below(6) {
        0 => Drill::Both(left, right),
        1 | 2 => Drill::Either(left, right),
        _ => Drill::Then(left, right),
    }
}

/// Mostly narrow bands, which make zones that differ.
pub fn band(rng: &mut Rng, limit: u32) -> Band {
    let lo = match rng.below(3) {
        0 => 0,
        1 => rng.between(0, limit.min(3)),
        _ => rng.between(0, limit),
    };
    let hi = match rng.below(4) {
        0 => None,
        1 => Some(lo),
        2 => Some(limit.min(lo + rng.between(0, 3))),
        _ => Some(rng.between(lo, limit)),
    };
    bounded(rng, lo, hi)
}

/// The band of two numbers in order, each reached or not. Where they are equal both are, or
/// nothing would be between them.
pub fn bounded(rng: &mut Rng, lo: u32, hi: Option<u32>) -> Band {
    if hi == Some(lo) {
        let both = Bound::Reached(lo);
        return Band {
            lo: both,
            hi: Some(both),
        };
    }
    Band {
        lo: bound(rng, lo),
        hi: hi.map(|hi| bound(rng, hi)),
    }
}

/// As often reached as not.
pub fn bound(rng: &mut Rng, ticks: u32) -> Bound {
    if rng.once_in(2) {
        Bound::NotReached(ticks)
    } else {
        Bound::Reached(ticks)
    }
}

/// The drill's text with brackets that it could do without.
pub fn text(rng: &mut Rng, drill: &Drill) -> Vec<u8> {
    let mut pairs = || usize::from(rng.once_in(6)) + usize::from(rng.once_in(20));
    drill.text(&mut pairs).into_bytes()
}

#[cfg(test)]
mod tests {
    use super::*;
    use crate::recording::{FirstReport, Recording};

    #[test]
    fn random_recordings_are_sound() {
        let mut rng = Rng::new(1, 1);
        for _ in 0..200 {
            let head = Head {
                duration: rng.between(10, 120),
                channels: rng.between(1, 16) as u8,
            };
            let bytes = recording(&mut rng, head, 10);
            assert!(Recording::read(&bytes).is_ok());
        }
    }

    /// Early and late, also with one change at most, which is all there is to report.
    #[test]
    fn first_reports_are_of_every_kind() {
        let mut rng = Rng::new(1, 9);
        for changes in [1, 6, 14] {
            let mut first_reports = Vec::new();
            for _ in 0..1_000 {
                let head = Head {
                    duration: milliseconds(&mut rng, 20, 125),
                    channels: 2,
                };
                let bytes = recording(&mut rng, head, changes);
                let read = Recording::read(&bytes).expect("a sound recording");
                first_reports.push(read.first_report());
            }
            for (kind, least) in [
                (FirstReport::AtOnce, 500),
                (FirstReport::Late, 120),
                (FirstReport::OnTheLastTick, 20),
                (FirstReport::OnTickD, 10),
                (FirstReport::Never, 15),
            ] {
                let count = first_reports.iter().filter(|&&one| one == kind).count();
                assert!(count > least, "{changes} changes, {kind:?}: {count}");
            }
        }
    }

    #[test]
    fn random_bounds_are_reached_or_not() {
        let mut rng = Rng::new(1, 3);
        let bands: Vec<Band> = (0..2_000).map(|_| band(&mut rng, 12)).collect();
        let often = |meets: &dyn Fn(&Band) -> bool| bands.iter().filter(|b| meets(b)).count() > 150;
        for lo in [true, false] {
            for hi in [Some(true), Some(false), None] {
                let reached = |b: &Band| (b.lo.is_reached(), b.hi.map(Bound::is_reached));
                assert!(often(&|b| reached(b) == (lo, hi)), "{lo:?} {hi:?}");
            }
        }
        assert!(often(&|b| b.hi == Some(b.lo)));
        // Neighbouring ticks with neither of them reached, where only fractions are left.
        let between = |b: &Band| b.hi == Some(Bound::NotReached(b.lo.ticks() + 1));
        assert!(bands.iter().any(|b| between(b) && !b.lo.is_reached()));
    }

    #[test]
    fn random_leaves_are_of_every_kind() {
        let mut rng = Rng::new(1, 6);
        let taste = Taste {
            leaves: 1,
            channels: 2,
            limit: 12,
            stars: false,
        };
        let leaves: Vec<String> = (0..1_000)
            .map(|_| leaf(&mut rng, taste).to_string())
            .collect();
        for kind in ["_", "a", "b", "!a", "!b", "+a", "+b", "-a", "-b"] {
            let count = leaves.iter().filter(|leaf| *leaf == kind).count();
            assert!(count > 25, "{kind} {count}");
        }
    }

    #[test]
    fn random_drills_read_back_as_they_were() {
        let mut rng = Rng::new(1, 2);
        let taste = Taste {
            leaves: 6,
            channels: 3,
            limit: 12,
            stars: true,
        };
        for _ in 0..2_000 {
            let drill = drill(&mut rng, taste);
            let text = text(&mut rng, &drill);
            if text.len() <= crate::drill::MAX_LENGTH && drill.depth() <= 16 {
                assert_eq!(Drill::read(&text, 3), Ok(drill));
            }
        }
    }
}
