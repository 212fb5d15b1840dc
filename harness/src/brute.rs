//! Brute force: Definition 3 of the paper, by trying fractions for the cuts. No zones.
//!
//! A table says of every stretch whose ends lie on a grid of 1/N ticks whether it fits. The table
//! of an operator comes from those of its operands, by Definition 3 word for word, with the cuts
//! tried on the grid too.
//!
//! # How fine the grid must be
//!
//! A cut may be any fraction, so a table with cuts on the grid alone ([`on_grid`]) can be trusted
//! where it says yes (there are the pieces), but may say no too often: on a grid of thirds, `a.a`
//! does not fit a stretch of length 1/3, whose cuts lie strictly inside. Nested cuts need finer
//! and finer fractions, and a star has no largest number of them. An absence turns a no too many into
//! a yes too many, and where it stands in a composition no grid is fine enough: with its cuts on any
//! grid, `a.(a&~(a.a))` fits a stretch whose right part is one step of the grid. [`exact`] gets by
//! with sixths, for every drill:
//!
//! *Moving times.* Let h be an increasing bijection of the times, piecewise linear with fractions
//! for its corners, that fixes 0 and has h(t + 1) = h(t) + 1. It takes fractions to fractions and
//! keeps whole ticks where they are. It keeps the order of times, and as t' - t ≤ c holds just
//! when t' ≤ t + c does, and t' - t < c just when t' < t + c, it keeps every comparison of a length
//! with a whole number, so bounds that are not reached ask for no finer grid than those that are.
//! So whatever Definition 3 says of a stretch and its cuts, it says of them moved by h: a stretch
//! fits a drill just when the moved stretch does. A rise or a fall is a stretch of length 0 at a whole
//! tick: h leaves it where it is and moves no other stretch there, so events ask for no finer grid
//! either. It leaves 0 and d where they are, so the stretches of the recording are moved to each
//! other, and one that does not fit to one that does not: an absence is kept as well, wherever it
//! stands.
//!
//! *Ends on thirds.* Such an h takes one stretch to another when their ends lie in the same ticks
//! and their fractional parts are ordered alike, with each other and with 0. Two fractional parts
//! have few orders, and each is found among 0, 1/3 and 2/3. So every stretch has one with ends on
//! thirds that stands in for it ([`stand_in`]). One that is longer than c ticks by however little
//! has one of c + 1/3 or c + 2/3, and one that is a little shorter has one of c - 1/3 or c - 2/3, so
//! both sides of every bound are tried, and the bound itself.
//!
//! *Cuts on sixths.* Take a stretch with ends on thirds and a cut anywhere. The fractional part of
//! the cut is that of an end, or 0, or lies in a gap between those and 1. A gap is at least a third
//! wide, so it holds a sixth, and some h moves the cut there and leaves the ends alone. So trying
//! the cuts on sixths is as good as trying all, if the operands' tables are right on all sixths.
//!
//! So a composition is right for ends on thirds, and then each stretch on sixths takes the answer
//! of the one that stands in for it ([`Table::settle`]): the table is right on all sixths again.

use crate::drill::{Band, Bound, Drill};
use crate::recording::Recording;
use crate::zone::Zone;

/// Parts of a tick in a table that is right in both directions.
pub const EXACT_PARTS: usize = 6;

/// For each stretch with its ends on a grid, a bit.
#[derive(Clone, Debug, PartialEq, Eq)]
pub struct Table {
    /// Parts of a tick.
    parts: usize,
    /// Times on the grid, from 0 to d.
    times: usize,
    /// 64-bit words in a row.
    width: usize,
    /// A row for each start, in it a bit for each end.
    bits: Vec<u64>,
}

/// The stretches that fit, ends on sixths, cuts anywhere.
pub fn exact(drill: &Drill, recording: &Recording) -> Table {
    let grid = Grid {
        levels: recording.levels(),
        parts: EXACT_PARTS,
        settled: true,
    };
    grid.fits(drill)
}

/// The stretches that fit with their ends and all their cuts on a grid of 1/N, N being `parts`.
pub fn on_grid(drill: &Drill, recording: &Recording, parts: usize) -> Table {
    let grid = Grid {
        levels: recording.levels(),
        parts,
        settled: false,
    };
    grid.fits(drill)
}

/// Parts of a tick with which [`on_grid`] is right in both directions for ends on thirds: with k
/// cuts in all, a gap of a third between fractional parts may have to hold k different ones. None
/// for a drill with a star, whose cuts have no largest number, nor for one with a cut in an absence in
/// a composition: the ends of that absence's stretches are cuts themselves, and not on thirds.
pub fn parts_without_moving(drill: &Drill) -> Option<usize> {
    let stars = drill.count(&|part| matches!(part, Drill::Star(_)));
    let absent_cuts = |part: &Drill| matches!(part, Drill::Absent(_)) && cuts(part) > 0;
    let cuts_in_cuts =
        |part: &Drill| matches!(part, Drill::Then(..)) && part.count(&absent_cuts) > 0;
    (stars == 0 && drill.count(&cuts_in_cuts) == 0).then_some(3 * (cuts(drill) + 1))
}

fn cuts(drill: &Drill) -> usize {
    drill.count(&|part| matches!(part, Drill::Then(..)))
}

/// What [`on_grid`] says for certain on any grid, whatever is fine enough.
///
/// On a grid a composition or a star may miss cuts, so it has too few stretches and never too many.
/// An absence turns that round, and every other operator has more stretches where its operands have
/// more.
#[derive(Clone, Copy, Debug, PartialEq, Eq)]
pub struct Certain {
    /// Where it says yes: every composition and star stands in an even number of absences.
    pub yes: bool,
    /// Where it says no: every one stands in an odd number.
    pub no: bool,
}

pub fn certain(drill: &Drill) -> Certain {
    let operands = drill.operands().into_iter().map(certain);
    let all = operands.fold(
        Certain {
            yes: true,
            no: true,
        },
        |one, other| Certain {
            yes: one.yes && other.yes,
            no: one.no && other.no,
        },
    );
    match drill {
        Drill::Then(..) | Drill::Star(_) => Certain { no: false, ..all },
        Drill::Absent(_) => Certain {
            yes: all.no,
            no: all.yes,
        },
        _ => all,
    }
}

/// The stretches on a grid that lie in some zone of a list.
pub fn of_zones(zones: &[Zone], ticks: usize, parts: usize) -> Table {
    let mut table = Table::new(ticks, parts);
    for (start, end) in table.stretches() {
        let (s, e) = (start as i64, end as i64);
        if zones.iter().any(|zone| zone.has(s, e, parts as i64)) {
            table.add(start, end);
        }
    }
    table
}

/// The longest drive, in ticks, that is also tried on a fine grid without moving a cut.
const MAX_FINE_TICKS: usize = 40;
/// Parts of a tick in that grid.
const FINE_PARTS: usize = 12;

/// Holds a list of zones to the meaning of the drill: a stretch with ends on sixths must lie in
/// some zone just when it fits. Gives the number of stretches compared, or what is wrong.
pub fn compare(drill: &Drill, recording: &Recording, zones: &[Zone]) -> Result<usize, String> {
    let ticks = recording.ticks() as usize;
    let fit = exact(drill, recording);
    let listed = of_zones(zones, ticks, EXACT_PARTS);
    report(fit.beyond(&listed), EXACT_PARTS, "fits and lies in no zone")?;
    report(
        listed.beyond(&fit),
        EXACT_PARTS,
        "lies in a zone and does not fit",
    )?;
    if ticks > MAX_FINE_TICKS {
        return Ok(fit.size());
    }
    // What is certain without moving anything needs no argument about grids.
    let fine = on_grid(drill, recording, FINE_PARTS);
    let fine_listed = of_zones(zones, ticks, FINE_PARTS);
    let Certain { yes, no } = certain(drill);
    if yes {
        report(
            fine.beyond(&fine_listed),
            FINE_PARTS,
            "fits and lies in no zone",
        )?;
    }
    if no {
        report(
            fine_listed.beyond(&fine),
            FINE_PARTS,
            "lies in a zone and does not fit",
        )?;
    }
    // Where this grid is fine enough for all cuts, its no needs none either.
    if parts_without_moving(drill).is_some_and(|parts| parts <= FINE_PARTS) {
        let (fine, fit) = (fine.coarsened(3), fit.coarsened(3));
        report(fit.beyond(&fine), 3, "fits only where cuts are moved")?;
        report(fine.beyond(&fit), 3, "fits only where cuts are not moved")?;
    }
    let compared_fine = if yes || no { fine.size() } else { 0 };
    Ok(fit.size() + compared_fine)
}

/// The same for the bytes of a call that was accepted. Drives of more than so many ticks are passed
/// over, with no stretch compared.
pub fn compare_accepted(
    recording: &[u8],
    drill: &[u8],
    zones: &[Zone],
    most_ticks: u32,
) -> Result<usize, String> {
    let recording = Recording::read(recording).map_err(|_| "accepted a wrong recording")?;
    let drill = Drill::read(drill, recording.channels()).map_err(|_| "accepted a wrong drill")?;
    if recording.ticks() > most_ticks {
        return Ok(0);
    }
    compare(&drill, &recording, zones)
}

fn report(found: Option<(usize, usize)>, parts: usize, fault: &str) -> Result<(), String> {
    found.map_or(Ok(()), |(start, end)| {
        Err(format!(
            "the stretch {start}/{parts} to {end}/{parts} {fault}"
        ))
    })
}

/// Whether a channel is high in a tick with these levels; neither high nor low where there is no
/// report.
fn level(levels: Option<u16>, channel: u8) -> Option<bool> {
    levels.map(|levels| levels >> channel & 1 == 1)
}

struct Grid {
    /// The levels in each tick, none before the first report.
    levels: Vec<Option<u16>>,
    parts: usize,
    /// Whether each composition is settled, so that cuts off the grid count too.
    settled: bool,
}

impl Grid {
    fn fits(&self, drill: &Drill) -> Table {
        match drill {
            Drill::Empty => self.diagonal(),
            Drill::Letter { channel, high } => self.letter(*channel, *high),
            Drill::Event { channel, rise } => self.event(*channel, *rise),
            Drill::Then(left, right) => self.compose(&self.fits(left), &self.fits(right)),
            Drill::Both(left, right) => self.fits(left).combine(&self.fits(right), |l, r| l & r),
            Drill::Either(left, right) => self.fits(left).combine(&self.fits(right), |l, r| l | r),
            Drill::Within(inner, band) => self.within(&self.fits(inner), *band),
            Drill::Star(inner) => self.star(self.fits(inner)),
            Drill::Absent(inner) => self.absent(&self.fits(inner)),
        }
    }

    fn empty(&self) -> Table {
        Table::new(self.levels.len(), self.parts)
    }

    fn diagonal(&self) -> Table {
        let mut table = self.empty();
        for time in 0..table.times {
            table.add(time, time);
        }
        table
    }

    fn letter(&self, channel: u8, high: bool) -> Table {
        let mut table = self.empty();
        let fits = |&levels: &Option<u16>| level(levels, channel) == Some(high);
        for (start, end) in table.stretches() {
            // The ticks that the open stretch overlaps.
            let ticks = start / self.parts..end.div_ceil(self.parts);
            if start < end && self.levels[ticks].iter().all(fits) {
                table.add(start, end);
            }
        }
        table
    }

    /// The stretches of length 0 at a whole tick s, 0 < s < d, where the channel is low in tick s - 1
    /// and high in tick s; for a fall the opposite. Both ticks are reported.
    fn event(&self, channel: u8, rise: bool) -> Table {
        let mut table = self.empty();
        let (before, after) = if rise { (false, true) } else { (true, false) };
        for s in 1..self.levels.len() {
            let levels = [s - 1, s].map(|tick| level(self.levels[tick], channel));
            if levels == [Some(before), Some(after)] {
                table.add(s * self.parts, s * self.parts);
            }
        }
        table
    }

    fn within(&self, inner: &Table, band: Band) -> Table {
        let mut table = self.empty();
        let on_grid = |ticks: u32| ticks as usize * self.parts;
        let long_enough = |length: usize| match band.lo {
            Bound::Reached(lo) => on_grid(lo) <= length,
            Bound::NotReached(lo) => on_grid(lo) < length,
        };
        let short_enough = |length: usize| match band.hi {
            Some(Bound::Reached(hi)) => length <= on_grid(hi),
            Some(Bound::NotReached(hi)) => length < on_grid(hi),
            None => true,
        };
        for (start, end) in inner.stretches() {
            let length = end - start;
            if inner.has(start, end) && long_enough(length) && short_enough(length) {
                table.add(start, end);
            }
        }
        table
    }

    /// All stretches of the recording that do not fit.
    fn absent(&self, inner: &Table) -> Table {
        let mut table = self.empty();
        for (start, end) in inner.stretches() {
            if !inner.has(start, end) {
                table.add(start, end);
            }
        }
        table
    }

    /// For each start and each cut that the left part reaches, the ends of the right part.
    fn compose(&self, left: &Table, right: &Table) -> Table {
        let mut table = self.empty();
        for start in 0..table.times {
            for cut in start..table.times {
                if left.has(start, cut) {
                    table.add_ends(start, right, cut);
                }
            }
        }
        if self.settled {
            table.settle();
        }
        table
    }

    /// The stretches of no piece or of one; then, as long as there are more, of twice as many.
    fn star(&self, inner: Table) -> Table {
        let mut reach = inner.combine(&self.diagonal(), |l, r| l | r);
        loop {
            let further = self.compose(&reach, &reach);
            // A piece of length 0 fits, so what was reached is reached still.
            if further == reach {
                return reach;
            }
            reach = further;
        }
    }
}

impl Table {
    fn new(ticks: usize, parts: usize) -> Table {
        let times = ticks * parts + 1;
        let width = times.div_ceil(64);
        Table {
            parts,
            times,
            width,
            bits: vec![0; times * width],
        }
    }

    /// Whether the stretch fits, its ends in parts of a tick.
    pub fn has(&self, start: usize, end: usize) -> bool {
        self.bits[start * self.width + end / 64] >> (end % 64) & 1 == 1
    }

    fn add(&mut self, start: usize, end: usize) {
        self.bits[start * self.width + end / 64] |= 1 << (end % 64);
    }

    /// Adds, for one start, all ends that another table has for a start of its own.
    fn add_ends(&mut self, start: usize, other: &Table, other_start: usize) {
        let ends = &other.bits[other_start * other.width..][..other.width];
        let row = &mut self.bits[start * self.width..][..self.width];
        row.iter_mut()
            .zip(ends)
            .for_each(|(word, ends)| *word |= ends);
    }

    fn combine(&self, other: &Table, bit: impl Fn(u64, u64) -> u64) -> Table {
        let pairs = self.bits.iter().zip(&other.bits);
        Table {
            bits: pairs.map(|(&l, &r)| bit(l, r)).collect(),
            ..*self
        }
    }

    /// All stretches of the grid.
    pub fn stretches(&self) -> impl Iterator<Item = (usize, usize)> {
        let times = self.times;
        (0..times).flat_map(move |start| (start..times).map(move |end| (start, end)))
    }

    /// Gives each stretch on sixths the answer of the one on thirds that stands in for it.
    fn settle(&mut self) {
        let unsettled = self.clone();
        self.bits.fill(0);
        for (start, end) in unsettled.stretches() {
            let (s, e) = stand_in(start, end);
            if unsettled.has(s, e) {
                self.add(start, end);
            }
        }
    }

    /// How many stretches the grid has.
    pub fn size(&self) -> usize {
        self.times * (self.times + 1) / 2
    }

    /// The first stretch that this table has and another one, on the same grid, has not.
    pub fn beyond(&self, other: &Table) -> Option<(usize, usize)> {
        self.stretches()
            .find(|&(start, end)| self.has(start, end) && !other.has(start, end))
    }

    /// The same answers for fewer stretches: those with ends on a grid of `parts`, which must
    /// divide this one's.
    pub fn coarsened(&self, parts: usize) -> Table {
        let step = self.parts / parts;
        let mut table = Table::new((self.times - 1) / self.parts, parts);
        for (start, end) in table.stretches() {
            if self.has(start * step, end * step) {
                table.add(start, end);
            }
        }
        table
    }
}

/// The stretch with ends on thirds that fits what this one fits, both in sixths: the ends stay in
/// their ticks, the smaller fractional part above 0 becomes 1/3, the larger 2/3.
pub fn stand_in(start: usize, end: usize) -> (usize, usize) {
    let (s, e) = (start % EXACT_PARTS, end % EXACT_PARTS);
    let third = |part: usize, other: usize| match part {
        0 => 0,
        _ if 0 < other && other < part => 4,
        _ => 2,
    };
    (start - s + third(s, e), end - e + third(e, s))
}

#[cfg(test)]
mod tests {
    use super::*;
    use crate::examples::{low_start_r, recording, recording_r};
    use crate::random::{self, Rng, Taste};
    use crate::recording::Head;

    fn drill(text: &str) -> Drill {
        Drill::read(text.as_bytes(), 1).expect(text)
    }

    /// Whether a drill fits a stretch of R, its ends in sixths.
    fn fits_r(text: &str, start: usize, end: usize) -> bool {
        let bytes = recording_r();
        let recording = Recording::read(&bytes).unwrap();
        exact(&drill(text), &recording).has(start, end)
    }

    /// Definition 3 for one stretch, by plain recursion over the cuts of a grid.
    fn fits_directly(
        drill: &Drill,
        levels: &[Option<u16>],
        parts: usize,
        s: usize,
        e: usize,
    ) -> bool {
        let fits = |drill: &Drill, s, e| fits_directly(drill, levels, parts, s, e);
        // Whether a channel is reported in a part of the grid, and is high or low there.
        let is = |channel: u8, high: bool, part: usize| {
            let levels = levels[part / parts];
            levels.is_some_and(|levels| (levels >> channel & 1 == 1) == high)
        };
        match drill {
            Drill::Empty => s == e,
            Drill::Letter { channel, high } => {
                s < e && (s..e).all(|part| is(*channel, *high, part))
            }
            // The parts of the grid on either side of the stretch, which are parts of two ticks.
            Drill::Event { channel, rise } => {
                let between_ticks = s.is_multiple_of(parts) && 0 < s && s < parts * levels.len();
                s == e && between_ticks && is(*channel, !rise, s - 1) && is(*channel, *rise, s)
            }
            Drill::Then(left, right) => {
                (s..=e).any(|cut| fits(left, s, cut) && fits(right, cut, e))
            }
            Drill::Both(left, right) => fits(left, s, e) && fits(right, s, e),
            Drill::Either(left, right) => fits(left, s, e) || fits(right, s, e),
            Drill::Within(inner, band) => {
                // Lengths and bounds in halves of a part, where a bound that is not reached is
                // half a part inside and no length lies between the two.
                let halves = |bound: Bound| 2 * i64::from(bound.ticks()) * parts as i64;
                let inside = |bound: Bound| i64::from(!bound.is_reached());
                let length = 2 * (e - s) as i64;
                let long_enough = length >= halves(band.lo) + inside(band.lo);
                let short_enough = band.hi.is_none_or(|hi| length <= halves(hi) - inside(hi));
                long_enough && short_enough && fits(inner, s, e)
            }
            // Pieces of length 0 add nothing, so the first piece may be taken longer than that.
            Drill::Star(inner) => {
                s == e || (s + 1..=e).any(|cut| fits(inner, s, cut) && fits(drill, cut, e))
            }
            Drill::Absent(inner) => !fits(inner, s, e),
        }
    }

    #[test]
    fn cuts_need_not_be_whole_ticks() {
        assert!(fits_r("a.a", 12, 18));
        let bytes = recording_r();
        let recording = Recording::read(&bytes).unwrap();
        assert!(!on_grid(&drill("a.a"), &recording, 1).has(2, 3));
    }

    #[test]
    fn cuts_need_not_be_on_the_grid_of_the_ends() {
        // From 2 to 2 1/6, cut strictly inside as often as the drill asks.
        assert!(fits_r("a.a", 12, 13));
        assert!(fits_r("a.a.a.a.a.a.a.a", 12, 13));
        assert!(fits_r("(a{0,1}.a)*", 12, 13));
    }

    #[test]
    fn a_sequence_of_letters_has_a_length() {
        assert!(!fits_r("a.a", 12, 12));
        assert!(!fits_r("a", 24, 24) && fits_r("a*", 24, 24));
    }

    #[test]
    fn a_bound_is_tried_from_both_sides() {
        // In sixths, from tick 2 of R: lengths just below, at and just above 2 ticks, then just
        // below and at 5 ticks, where the run ends.
        let fits = |text: &str| [23, 24, 25, 41, 42].map(|end| fits_r(text, 12, end));
        assert_eq!(fits("a{2,5}"), [false, true, true, true, true]);
        assert_eq!(fits("a{<2,5}"), [false, false, true, true, true]);
        assert_eq!(fits("a{2,<5}"), [false, true, true, true, false]);
        assert_eq!(fits("a{<2,<5}"), [false, false, true, true, false]);
        assert_eq!(fits("a{0,<2}"), [true, false, false, false, false]);
        assert_eq!(fits("a{<2,}"), [false, false, true, true, true]);
        assert_eq!(fits("a{<5,}"), [false; 5]);
        assert_eq!(fits("a{5,<6}"), [false, false, false, false, true]);
        // Length 0 itself.
        assert!(fits_r("_{0,<1}", 24, 24) && !fits_r("_{<0,1}", 24, 24));
        assert!(fits_r("a{<0,<1}", 12, 13) && fits_r("a{<0,<1}", 12, 17));
    }

    /// Two pieces of more than 2 ticks make more than 4, by as little as the grid has.
    #[test]
    fn cuts_keep_off_a_bound_that_is_not_reached() {
        let fits = |text: &str| [35, 36, 37].map(|end| fits_r(text, 12, end));
        assert_eq!(fits("a{2,}.a{2,}"), [false, true, true]);
        assert_eq!(fits("a{<2,}.a{<2,}"), [false, false, true]);
        assert_eq!(fits("a{<2,}.a{2,}"), [false, false, true]);
        assert_eq!(fits("a{0,<2}.a{0,<2}"), [true, false, false]);
        assert_eq!(fits("a{0,2}.a{0,<2}"), [true, false, false]);
        assert_eq!(fits("(a{<1,<2})*{<3,<5}"), [true; 3]);
        assert_eq!(fits("(a{2,<3})*{0,<5}"), [false, true, true]);
        assert_eq!(fits("(a{<2,<3})*{0,<5}"), [false, false, true]);
    }

    /// All stretches that fit, their ends in sixths.
    fn fitting(bytes: &[u8], text: &str) -> Vec<(usize, usize)> {
        let recording = Recording::read(bytes).unwrap();
        let table = exact(&drill(text), &recording);
        let stretches = table.stretches();
        stretches.filter(|&(s, e)| table.has(s, e)).collect()
    }

    /// In sixths of R with a low start, where `a` rises at 2 and falls at 7.
    #[test]
    fn an_event_is_a_whole_tick_and_nothing_beside_it() {
        let all = |text: &str| fitting(&low_start_r(), text);
        assert_eq!(all("+a"), [(12, 12)]);
        assert_eq!(all("-a"), [(42, 42)]);
        assert_eq!(all("+a|-a"), [(12, 12), (42, 42)]);
        for same in ["+a.+a", "+a&_", "+a{0,0}", "_.+a._", "+a{0,<1}"] {
            assert_eq!(all(same), [(12, 12)], "{same}");
        }
        for none in ["+a.-a", "+a&-a", "+a&a", "+a{1,}", "+a{<0,}", "a.+a"] {
            assert_eq!(all(none), [], "{none}");
        }
        assert_eq!(all("+a.a{0,<1}"), [13, 14, 15, 16, 17].map(|e| (12, e)));
        assert_eq!(all("a{<0,<1}.-a"), [37, 38, 39, 40, 41].map(|s| (s, 42)));
        assert_eq!(all("+a.a.-a"), [(12, 42)]);
        assert_eq!(all("(+a|-a)*"), all("_"));
    }

    /// All stretches with a start from this one on, and those of length 0, in sixths of 10 ticks.
    fn from_on(first: usize) -> Vec<(usize, usize)> {
        let ends = |start| start..=60;
        let stretches = (0..=60).flat_map(|start| ends(start).map(move |end| (start, end)));
        stretches.filter(|&(s, e)| first <= s || s == e).collect()
    }

    #[test]
    fn every_reported_stretch_has_its_levels() {
        assert_eq!(from_on(0).len(), 61 * 62 / 2);
        assert_eq!(fitting(&low_start_r(), "(a|!a)*"), from_on(0));
        assert_eq!(fitting(&recording_r(), "(a|!a)*"), from_on(12));
    }

    /// Nothing fits a letter that overlaps a tick without a report, by however little, and the first
    /// report is no event.
    #[test]
    fn letters_and_events_need_reports() {
        let lasting = |first: usize, last: usize| {
            let starts = first..=last;
            let with_ends = |s| (s + 1..=last).map(move |e| (s, e));
            starts.flat_map(with_ends).collect::<Vec<_>>()
        };
        assert_eq!(fitting(&recording_r(), "a"), lasting(12, 42));
        assert_eq!(fitting(&recording_r(), "!a"), lasting(42, 60));
        assert_eq!(fitting(&recording_r(), "+a"), []);
        assert_eq!(fitting(&recording_r(), "-a"), [(42, 42)]);
        for changes in [&[][..], &[(96, 1)], &[(96, 0)]] {
            let unreported = recording(104, 1, changes);
            for none in ["a", "!a", "+a", "-a", "a|!a.a", "!a{0,1}", "_.!a"] {
                assert_eq!(fitting(&unreported, none), [], "{none}");
            }
            for moments in ["_", "!a*", "(a|!a)*", "!a|_"] {
                assert_eq!(fitting(&unreported, moments), from_on(60), "{moments}");
            }
        }
        let last_tick = recording(104, 1, &[(94, 0)]);
        assert_eq!(fitting(&last_tick, "!a"), lasting(54, 60));
        assert_eq!(fitting(&last_tick, "a|+a|-a"), []);
    }

    #[test]
    fn stand_ins_lie_on_thirds_and_stand_for_themselves() {
        for start in 0..24 {
            for end in start..24 {
                let (s, e) = stand_in(start, end);
                assert!(s % 2 == 0 && e % 2 == 0 && s <= e);
                assert_eq!(stand_in(s, e), (s, e));
                assert_eq!((s / 6, e / 6), (start / 6, end / 6));
                assert_eq!((s % 6).cmp(&(e % 6)), (start % 6).cmp(&(end % 6)));
            }
        }
    }

    #[test]
    fn tables_agree_with_plain_recursion() {
        let mut rng = Rng::new(3, 0);
        let taste = Taste {
            leaves: 4,
            channels: 2,
            limit: 3,
            stars: true,
        };
        let head = Head {
            duration: 30,
            channels: 2,
        };
        for _ in 0..150 {
            let bytes = random::recording(&mut rng, head, 5);
            let recording = Recording::read(&bytes).unwrap();
            let drill = random::drill(&mut rng, taste);
            let table = on_grid(&drill, &recording, 3);
            let levels = recording.levels();
            for (start, end) in table.stretches() {
                let fits = fits_directly(&drill, &levels, 3, start, end);
                assert_eq!(table.has(start, end), fits, "{drill} {start} {end}");
            }
        }
    }

    /// What is found by moving cuts is found without, on a grid that is fine enough.
    #[test]
    fn moving_times_agrees_with_finer_grids() {
        let mut rng = Rng::new(4, 0);
        let taste = Taste {
            leaves: 6,
            channels: 2,
            limit: 5,
            stars: false,
        };
        let head = Head {
            duration: 50,
            channels: 2,
        };
        let (mut tried, mut absent) = (0, 0);
        while tried < 800 {
            let bytes = random::recording(&mut rng, head, 6);
            let recording = Recording::read(&bytes).unwrap();
            let drill = random::drill(&mut rng, taste);
            let Some(parts) = parts_without_moving(&drill) else {
                continue;
            };
            let fine = on_grid(&drill, &recording, parts).coarsened(3);
            let moved = exact(&drill, &recording).coarsened(3);
            assert_eq!(moved, fine, "{drill}");
            tried += 1;
            let is_absent = |part: &Drill| matches!(part, Drill::Absent(_)) && cuts(part) > 0;
            absent += usize::from(drill.count(&is_absent) > 0);
        }
        assert!(absent > 20, "{absent}");
    }

    /// Whatever the grid, what is certain on it is so.
    #[test]
    fn coarse_grids_are_certain_of_what_they_say() {
        let mut rng = Rng::new(4, 1);
        let taste = Taste {
            leaves: 5,
            channels: 2,
            limit: 4,
            stars: true,
        };
        let head = Head {
            duration: 50,
            channels: 2,
        };
        let mut counts = [0; 4];
        for _ in 0..600 {
            let bytes = random::recording(&mut rng, head, 6);
            let recording = Recording::read(&bytes).unwrap();
            let drill = random::drill(&mut rng, taste);
            let Certain { yes, no } = certain(&drill);
            counts[2 * usize::from(yes) + usize::from(no)] += 1;
            let exact = exact(&drill, &recording);
            for parts in [1, 2, 3, 6] {
                let (coarse, exact) = (on_grid(&drill, &recording, parts), exact.coarsened(parts));
                assert!(!yes || coarse.beyond(&exact).is_none(), "{drill} {parts}");
                assert!(!no || exact.beyond(&coarse).is_none(), "{drill} {parts}");
            }
        }
        assert!(counts.iter().all(|&count| count > 15), "{counts:?}");
    }

    #[test]
    fn absences_turn_round_what_is_certain() {
        for (text, yes, no) in [
            ("a", true, true),
            ("~a", true, true),
            ("~(a&~_|a{1,2})", true, true),
            ("a.a", true, false),
            ("a*", true, false),
            ("~(a.a)", false, true),
            ("~a*", false, true),
            ("~(~(a.a))", true, false),
            ("~(a|~a*)", true, false),
            ("a.~a", true, false),
            ("(~a)*", true, false),
            ("a.~(a.a)", false, false),
            ("a.a&~a*", false, false),
            ("~(a.~(a.a))", false, false),
        ] {
            assert_eq!(certain(&drill(text)), Certain { yes, no }, "{text}");
        }
    }

    #[test]
    fn some_absences_want_no_grid() {
        for (text, parts) in [
            ("a", Some(3)),
            ("a.a", Some(6)),
            ("~(a.a)", Some(6)),
            ("a.~a", Some(6)),
            ("~(a.~a.a)", Some(9)),
            ("~(a.a)&~(~(a.a)|a)", Some(9)),
            ("a.~(a.a)", None),
            ("~(a.~(a.a))", None),
            ("a.(a&~(a.a))", None),
            ("a*", None),
            ("~a*", None),
        ] {
            assert_eq!(parts_without_moving(&drill(text)), parts, "{text}");
        }
        // On R, the one of these that fits nothing: on a grid its right part is one step long.
        let bytes = recording_r();
        let recording = Recording::read(&bytes).unwrap();
        let nothing = drill("a.(a&~(a.a))");
        assert_eq!(
            exact(&nothing, &recording).beyond(&of_zones(&[], 10, 6)),
            None
        );
        for parts in [1, 2, 3, 6, 12] {
            assert!(on_grid(&nothing, &recording, parts).has(2 * parts, 7 * parts));
        }
    }

    /// In sixths of R, where `a` is high from 2 to 7: what does not fit is everything else, and no more
    /// than what is in the recording.
    #[test]
    fn an_absence_is_everything_else() {
        let all = |text: &str| fitting(&recording_r(), text);
        let everything = {
            let starts = 0..=60;
            starts.flat_map(|s| (s..=60).map(move |e| (s, e)))
        };
        for text in [
            "a", "!a", "-a", "_", "a.a", "a*", "(a|!a)*", "a{<1,2}", "~a",
        ] {
            let fits = all(text);
            let others = everything.clone().filter(|one| !fits.contains(one));
            assert_eq!(
                all(&format!("~({text})")),
                others.collect::<Vec<_>>(),
                "{text}"
            );
        }
        assert_eq!(all("~a&a"), []);
        assert_eq!(all("~a|a"), everything.clone().collect::<Vec<_>>());
        assert_eq!(all("~(~a)"), all("a"));
        assert_eq!(all("~(a&!a)"), all("~a|a"));
        assert_eq!(all("~(~(a&!a)&a)"), all("~a"));
        // Before its first report a channel is neither high nor low.
        assert!(all("~a&~!a").contains(&(0, 12)) && all("~a&~!a").contains(&(11, 60)));
        // A part without `a` may have length 0, or lie behind it.
        assert_eq!(all("a.~a"), all("a|a.!a"));
        assert_eq!(all("~a&a.~a.a"), []);
    }

    /// With a star there is no such grid, but a fine one comes close enough for short drives.
    #[test]
    fn moving_times_agrees_with_a_fine_grid_for_stars() {
        let bytes = low_start_r();
        let recording = Recording::read(&bytes).unwrap();
        for text in [
            "(a{2,2})*",
            "(a.a{1,1})*",
            "(a|!a)*",
            "(a{0,1})*",
            "((a.!a){1,2}|a{1,1})*",
            "(a{<1,<2})*",
            "(a{0,<1})*",
            "(a{<2,3})*",
            "(a{2,<3})*",
            "((a.!a){<1,<2}|a{1,<2})*",
            "(+a|-a|a)*",
            "(+a.a{0,2}|a{1,1}.-a|!a)*",
            "(!a.+a|+a.a{<1,<2}|a{2,2})*",
            "(~a)*",
            "((~a){1,1})*",
            "(~a{<1,2}&a)*",
            "~(a{2,2})*",
            "~(a{<1,<2}|+a)*",
            "((~-a&!a){0,1})*",
        ] {
            let fine = on_grid(&drill(text), &recording, 60).coarsened(6);
            assert_eq!(exact(&drill(text), &recording), fine, "{text}");
        }
    }
}
