//! The plain matcher: the list of zones of a drill, built by document 01's rules as they stand.
//!
//! Every put that a rule names is made, in the rule's order, since order and rounds are part of
//! the answer. What is saved is in how a put is made, never in how many are.
//!
//! How puts are made and pairs are gone through is the list's own affair ([`ZoneList`]); all else is
//! the same for every kind of list.

use crate::drill::{Band, Bound, Drill};
use crate::recording::Recording;
use crate::refusal::Refusal;
use crate::zone::{not_reached, reached, Zone};

/// The most zones that a list may hold.
pub const MAX_ZONES: usize = 128;

/// Zones of which none lies inside another, in the order in which they were put.
pub trait ZoneList: Sized {
    /// What a finished composition of two lists tells its caller, and a finished round.
    type Told;

    /// With room for all that it may ever hold, so that no put allocates.
    fn new() -> Self;

    fn zones(&self) -> &[Zone];

    /// If the zone lies inside a listed one, nothing; else the listed ones inside it are removed,
    /// the rest keep their order, and it goes last.
    fn put(&mut self, zone: Zone) -> Result<(), Refusal>;

    /// For each left zone, for each right zone, puts their meet, if there is any.
    fn put_meets(&mut self, left: &Self, right: &Self) -> Result<(), Refusal>;

    /// For each left zone, for each right zone, puts their composition, if there is any.
    fn put_compositions(&mut self, left: &Self, right: &Self) -> Result<Self::Told, Refusal>;

    /// For each listed zone, puts its parts outside the given zone, those that are not empty. No two
    /// listed zones share a stretch.
    fn put_outside(&mut self, listed: &Self, zone: &Zone) -> Result<(), Refusal>;

    fn copy_from(&mut self, other: &Self);

    fn clear(&mut self);

    fn put_if_any(&mut self, zone: Option<Zone>) -> Result<(), Refusal> {
        zone.map_or(Ok(()), |zone| self.put(zone))
    }

    fn put_all(&mut self, zones: &Self) -> Result<(), Refusal> {
        zones.zones().iter().try_for_each(|&zone| self.put(zone))
    }
}

/// The list of the plain matcher: the zones of all pairs are joined, and each put looks through the
/// list.
pub struct List(Vec<Zone>);

impl ZoneList for List {
    /// Nothing: all pairs are composed.
    type Told = ();

    fn new() -> List {
        List(Vec::with_capacity(MAX_ZONES))
    }

    fn zones(&self) -> &[Zone] {
        &self.0
    }

    /// No listed zone lies inside another, so there cannot be both one that holds the new zone
    /// and one that the new zone holds: the first of either kind says which case it is.
    #[inline]
    fn put(&mut self, zone: Zone) -> Result<(), Refusal> {
        let mut listed = self.0.iter();
        let first = listed.position(|one| one.contains(&zone) || zone.contains(one));
        if let Some(first) = first {
            if self.0[first].contains(&zone) {
                return Ok(());
            }
            self.remove_inside(&zone, first);
        }
        if self.0.len() == MAX_ZONES {
            return Err(Refusal::ListFull);
        }
        self.0.push(zone);
        Ok(())
    }

    #[inline(always)]
    fn put_meets(&mut self, left: &List, right: &List) -> Result<(), Refusal> {
        self.put_pairs(left, right, Zone::meet)
    }

    #[inline(always)]
    fn put_compositions(&mut self, left: &List, right: &List) -> Result<(), Refusal> {
        self.put_pairs(left, right, Zone::compose)
    }

    // A function of its own: compiled into the matcher, it makes the loops over pairs slower, which
    // others are timed against.
    #[inline(never)]
    fn put_outside(&mut self, listed: &List, zone: &Zone) -> Result<(), Refusal> {
        let mut listed = listed.0.iter();
        listed.try_for_each(|one| one.each_part_outside(zone, |part| self.put(part)))
    }

    fn copy_from(&mut self, other: &List) {
        self.0.clear();
        self.0.extend_from_slice(&other.0);
    }

    fn clear(&mut self) {
        self.0.clear();
    }
}

impl List {
    /// Removes the zone at `first` and all behind it that lie inside the given one.
    fn remove_inside(&mut self, zone: &Zone, first: usize) {
        let mut kept = first;
        for k in first + 1..self.0.len() {
            if !zone.contains(&self.0[k]) {
                self.0[kept] = self.0[k];
                kept += 1;
            }
        }
        self.0.truncate(kept);
    }

    /// For each left zone, for each right zone, puts what `join` makes of the two, if anything.
    #[inline(always)]
    fn put_pairs(
        &mut self,
        left: &List,
        right: &List,
        join: impl Fn(&Zone, &Zone) -> Option<Zone>,
    ) -> Result<(), Refusal> {
        for left in &left.0 {
            for right in &right.0 {
                self.put_if_any(join(left, right))?;
            }
        }
        Ok(())
    }
}

/// What one written `*` took.
#[derive(Clone, Copy, Debug, PartialEq, Eq)]
pub struct Star {
    /// Zones in the inner list, the n of the bound n + d on the rounds.
    pub inner: usize,
    pub rounds: u64,
}

/// Why there is no list.
#[derive(Clone, Copy, Debug, PartialEq, Eq)]
pub enum Stop {
    Refused(Refusal),
    /// The rounds would go through more pairs than the caller allowed. Not an outcome of the
    /// finder: for callers that meet drills at random and have no time for the slowest.
    TooSlow,
}

impl From<Refusal> for Stop {
    fn from(refusal: Refusal) -> Stop {
        Stop::Refused(refusal)
    }
}

/// How far the rounds of all stars together may still go.
#[derive(Clone, Copy, Debug, PartialEq, Eq)]
pub struct Allowed {
    /// Rounds that may be finished: one more is refused by 13.
    pub rounds: u64,
    /// Pairs of zones that the rounds may go through, composed or not: one more is too slow.
    pub pairs: u64,
}

impl Allowed {
    /// More than the stars of any drill take: there are at most 255 of them, each keeps to n + d
    /// rounds, and a round to 128 × 128 pairs.
    pub const ALL: Allowed = Allowed {
        rounds: u64::MAX,
        pairs: u64::MAX,
    };
}

/// Builds the lists of one recording, and keeps count of the rounds.
pub struct Matcher<'a, L: ZoneList> {
    recording: &'a Recording<'a>,
    stars: Vec<Star>,
    told: Vec<L::Told>,
    left: Allowed,
}

impl<'a, L: ZoneList> Matcher<'a, L> {
    pub fn new(recording: &'a Recording<'a>, allowed: Allowed) -> Matcher<'a, L> {
        Matcher {
            recording,
            stars: Vec::new(),
            told: Vec::new(),
            left: allowed,
        }
    }

    /// What the compositions of two lists and the rounds told that were finished since the last such
    /// question, in the order in which they were finished, whatever came of the lists.
    pub fn take_told(&mut self) -> Vec<L::Told> {
        std::mem::take(&mut self.told)
    }

    /// What is left of the rounds and pairs allowed, whatever came of the lists.
    pub fn left(&self) -> Allowed {
        self.left
    }

    /// The stars met so far, in the order in which they were finished.
    pub fn into_stars(self) -> Vec<Star> {
        self.stars
    }

    /// The list of a drill, each operand's list finished before the next is begun.
    pub fn list(&mut self, drill: &Drill) -> Result<L, Stop> {
        match drill {
            Drill::Empty => self.diagonal(),
            Drill::Letter { channel, high } => self.runs(*channel, *high),
            Drill::Event { channel, rise } => self.events(*channel, *rise),
            Drill::Then(left, right) => self.then(left, right),
            Drill::Both(left, right) => self.both(left, right),
            Drill::Either(left, right) => self.either(left, right),
            Drill::Within(inner, band) => self.within(inner, *band),
            Drill::Star(inner) => self.star(inner),
            Drill::Absent(inner) => self.absent(inner),
        }
    }

    fn diagonal(&self) -> Result<L, Stop> {
        let mut list = L::new();
        list.put(self.whole_diagonal())?;
        Ok(list)
    }

    fn whole_diagonal(&self) -> Zone {
        Zone::diagonal(self.recording.ticks() as i32)
    }

    fn runs(&self, channel: u8, high: bool) -> Result<L, Stop> {
        let mut list = L::new();
        self.recording.each_run(channel, high, |run| {
            list.put(Zone::run(run.start as i32, run.end as i32))
        })?;
        Ok(list)
    }

    fn events(&self, channel: u8, rise: bool) -> Result<L, Stop> {
        let mut list = L::new();
        self.recording
            .each_event(channel, rise, |tick| list.put(Zone::moment(tick as i32)))?;
        Ok(list)
    }

    fn then(&mut self, left: &Drill, right: &Drill) -> Result<L, Stop> {
        let left = self.list(left)?;
        let right = self.list(right)?;
        let mut list = L::new();
        // Only what is finished tells anything: a composition that 10 breaks off does not.
        self.told.push(list.put_compositions(&left, &right)?);
        Ok(list)
    }

    fn both(&mut self, left: &Drill, right: &Drill) -> Result<L, Stop> {
        let left = self.list(left)?;
        let right = self.list(right)?;
        let mut list = L::new();
        list.put_meets(&left, &right)?;
        Ok(list)
    }

    fn either(&mut self, left: &Drill, right: &Drill) -> Result<L, Stop> {
        let left = self.list(left)?;
        let right = self.list(right)?;
        let mut list = L::new();
        list.put_all(&left)?;
        list.put_all(&right)?;
        Ok(list)
    }

    fn within(&mut self, inner: &Drill, band: Band) -> Result<L, Stop> {
        let inner = self.list(inner)?;
        // A lower bound on the length is an upper limit on its negation.
        let minus_length = limit(band.lo, -1);
        let length = band.hi.map(|hi| limit(hi, 1));
        let mut list = L::new();
        for zone in inner.zones() {
            list.put_if_any(zone.within(minus_length, length))?;
        }
        Ok(list)
    }

    fn star(&mut self, inner: &Drill) -> Result<L, Stop> {
        let inner = self.list(inner)?;
        let mut before = L::new();
        let mut list = L::new();
        list.copy_from(&inner);
        let mut rounds = 0;
        loop {
            self.begin_round(&list, &inner)?;
            before.copy_from(&list);
            self.told.push(list.put_compositions(&before, &inner)?);
            // Only a round that is finished is spent: one that 10 breaks off is not.
            self.left.rounds -= 1;
            rounds += 1;
            // A round may remove one zone and add another, so only equality of the whole lists,
            // order included, says that it changed nothing.
            if list.zones() == before.zones() {
                break;
            }
        }
        self.stars.push(Star {
            inner: inner.zones().len(),
            rounds,
        });
        list.put(self.whole_diagonal())?;
        Ok(list)
    }

    /// All stretches in one zone, and then, for each zone of the operand, a new list of what is left
    /// outside it.
    fn absent(&mut self, inner: &Drill) -> Result<L, Stop> {
        let inner = self.list(inner)?;
        let mut list = L::new();
        list.put(Zone::everything(self.recording.ticks() as i32))?;
        let mut next = L::new();
        for zone in inner.zones() {
            next.clear();
            next.put_outside(&list, zone)?;
            std::mem::swap(&mut list, &mut next);
        }
        Ok(list)
    }

    /// A round beyond those left is never begun, whatever it would have come to.
    fn begin_round(&mut self, before: &L, inner: &L) -> Result<(), Stop> {
        if self.left.rounds == 0 {
            return Err(Refusal::RoundsSpent.into());
        }
        let pairs = (before.zones().len() * inner.zones().len()) as u64;
        self.left.pairs = self.left.pairs.checked_sub(pairs).ok_or(Stop::TooSlow)?;
        Ok(())
    }
}

/// The word of a bound as a limit, its number times the sign.
fn limit(bound: Bound, sign: i32) -> i32 {
    match bound {
        Bound::Reached(ticks) => reached(sign * ticks as i32),
        Bound::NotReached(ticks) => not_reached(sign * ticks as i32),
    }
}
