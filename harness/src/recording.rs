//! Recordings: records of 8 bytes, a head and then changes (refusals 1 to 3).
//!
//! A recording is read in place: after the checks, the changes are decoded from the bytes each
//! time they are walked.

use std::fmt;

use crate::refusal::Refusal;

/// Bytes in a record, its two-byte mark included.
pub const RECORD: usize = 8;
/// The longest recording: a head and 4,095 changes.
pub const MAX_LENGTH: usize = 32_768;
pub const MAX_CHANGES: usize = MAX_LENGTH / RECORD - 1;
pub const MAX_CHANNELS: u8 = 16;
pub const DURATIONS: std::ops::RangeInclusive<u32> = 10..=10_000_000;

const HEAD_MARK: [u8; 2] = [0x44, 0x52];
const CHANGE_MARK: [u8; 2] = [0x43, 0x48];

/// The tick of a time in milliseconds: the nearest, and halfway between two ticks the even one.
///
/// Where the tick below is odd, 5 ms more take a half to the one above; where it is even, 4 ms more
/// leave it there. Any other time goes to the nearest with either. There is no branch, as every
/// walk over the changes comes through here.
pub fn tick(ms: u32) -> u32 {
    let odd_below = ms / 10 % 2;
    (ms + 4 + odd_below) / 10
}

/// The fields of a head record.
#[derive(Clone, Copy, Debug, PartialEq, Eq)]
pub struct Head {
    pub duration: u32,
    pub channels: u8,
}

impl Head {
    pub fn encode(self) -> [u8; RECORD] {
        let [t0, t1, t2, t3] = self.duration.to_le_bytes();
        let [m0, m1] = HEAD_MARK;
        [m0, m1, t0, t1, t2, t3, self.channels, 0]
    }

    /// The fields, whatever their values, where the mark and the zero byte are in place.
    pub fn decode(record: &[u8]) -> Option<Head> {
        let in_place = record.len() == RECORD && record[..2] == HEAD_MARK && record[7] == 0;
        in_place.then(|| Head {
            duration: four_bytes(record),
            channels: record[6],
        })
    }
}

/// The fields of a change record.
#[derive(Clone, Copy, Debug, PartialEq, Eq)]
pub struct Change {
    pub time: u32,
    /// Bit 0 is channel a.
    pub levels: u16,
}

impl Change {
    pub fn encode(self) -> [u8; RECORD] {
        let [t0, t1, t2, t3] = self.time.to_le_bytes();
        let [l0, l1] = self.levels.to_le_bytes();
        let [m0, m1] = CHANGE_MARK;
        [m0, m1, t0, t1, t2, t3, l0, l1]
    }

    /// The fields, whatever their values, where the mark is in place.
    pub fn decode(record: &[u8]) -> Option<Change> {
        let in_place = record.len() == RECORD && record[..2] == CHANGE_MARK;
        in_place.then(|| Change::fields(record))
    }

    fn fields(record: &[u8]) -> Change {
        Change {
            time: four_bytes(record),
            levels: u16::from_le_bytes([record[6], record[7]]),
        }
    }
}

/// The duration of a head, the time of a change: both stand in the same place.
fn four_bytes(record: &[u8]) -> u32 {
    u32::from_le_bytes([record[2], record[3], record[4], record[5]])
}

/// The times in the bytes of a recording, in milliseconds: its duration, then that of each change.
pub fn times(bytes: &[u8]) -> impl Iterator<Item = u32> + '_ {
    bytes.chunks_exact(RECORD).map(four_bytes)
}

/// The bytes of a recording, right or wrong.
pub fn encode(head: Head, changes: &[Change]) -> Vec<u8> {
    let mut bytes = head.encode().to_vec();
    bytes.extend(changes.iter().flat_map(|change| change.encode()));
    bytes
}

/// Why a recording is refused: the record, counted from 0 for the head, and what is wrong there.
#[derive(Clone, Copy, Debug, PartialEq, Eq)]
pub struct Fault {
    pub refusal: Refusal,
    pub record: usize,
    pub cause: Cause,
}

impl fmt::Display for Fault {
    fn fmt(&self, out: &mut fmt::Formatter) -> fmt::Result {
        let Fault { refusal, cause, .. } = self;
        write!(out, "{cause}; marks will print `{refusal}`")
    }
}

/// Made into words only when it is printed, to keep words out of the timed reading.
#[derive(Clone, Copy, Debug, PartialEq, Eq)]
pub enum Cause {
    /// A number of bytes.
    NotWhole(usize),
    /// A number of changes.
    TooMany(usize),
    /// A level is set for this channel, of so many.
    NoChannel(u8, u8),
    Other(&'static str),
}

impl fmt::Display for Cause {
    fn fmt(&self, out: &mut fmt::Formatter) -> fmt::Result {
        match *self {
            Cause::NotWhole(bytes) => {
                write!(out, "{bytes} bytes are not a number of whole records")
            }
            Cause::TooMany(changes) => {
                let (changes, most) = (grouped(changes), grouped(MAX_CHANGES));
                write!(out, "there are {changes} changes, and at most {most} fit")
            }
            Cause::NoChannel(channel, 1) => {
                let channel = letter(channel);
                write!(out, "`{channel}` is no channel here: the only one is `a`")
            }
            Cause::NoChannel(channel, channels) => {
                let (channel, last) = (letter(channel), letter(channels - 1));
                write!(
                    out,
                    "`{channel}` is not among the {channels} channels, `a` to `{last}`"
                )
            }
            Cause::Other(words) => out.write_str(words),
        }
    }
}

/// A number with a comma before every three digits.
fn grouped(number: usize) -> String {
    match number {
        0..1000 => number.to_string(),
        _ => format!("{},{:03}", grouped(number / 1000), number % 1000),
    }
}

/// The name of a channel, counted from 0.
pub fn letter(channel: u8) -> char {
    char::from(b'a' + channel)
}

/// A maximal run of ticks, from `start` up to but not including tick `end`: as times, the span
/// from `start` to `end`.
#[derive(Clone, Copy, Debug, PartialEq, Eq)]
pub struct Run {
    pub start: u32,
    pub end: u32,
}

/// When the channels of a drive are reported for the first time, all of them at once: at the tick of
/// the first change.
#[derive(Clone, Copy, Debug, PartialEq, Eq)]
pub enum FirstReport {
    /// At tick 0.
    AtOnce,
    /// After tick 0 and before the last tick.
    Late,
    /// On tick d - 1, where that is not tick 0.
    OnTheLastTick,
    /// On tick d, so that no tick is reported.
    OnTickD,
    /// Without a change nothing is reported.
    Never,
}

/// A recording with nothing wrong in it.
#[derive(Clone, Copy, Debug)]
pub struct Recording<'a> {
    channels: u8,
    /// The duration in ticks, document 01's d.
    ticks: u32,
    changes: &'a [u8],
}

impl<'a> Recording<'a> {
    pub fn read(bytes: &'a [u8]) -> Result<Recording<'a>, Fault> {
        check_length(bytes.len())?;
        let (head, changes) = bytes.split_at(RECORD);
        let head = read_head(head).map_err(|cause| Fault {
            refusal: Refusal::Head,
            record: 0,
            cause,
        })?;
        check_changes(head, changes)?;
        Ok(Recording {
            channels: head.channels,
            ticks: tick(head.duration),
            changes,
        })
    }

    pub fn channels(&self) -> u8 {
        self.channels
    }

    pub fn ticks(&self) -> u32 {
        self.ticks
    }

    /// The changes that stand, as tick and levels: of several on one tick the last.
    fn standing(&self) -> impl Iterator<Item = (u32, u16)> + 'a {
        let mut rest = self
            .changes
            .chunks_exact(RECORD)
            .map(Change::fields)
            .map(|change| (tick(change.time), change.levels))
            .peekable();
        std::iter::from_fn(move || loop {
            let change = rest.next()?;
            match rest.peek() {
                Some(next) if next.0 == change.0 => continue,
                _ => return Some(change),
            }
        })
    }

    /// The levels in each tick from 0 to d - 1, straight from the rule: those of the last change
    /// at or before the tick, none where nothing is reported yet.
    pub fn levels(&self) -> Vec<Option<u16>> {
        let changes: Vec<Change> = self
            .changes
            .chunks_exact(RECORD)
            .map(Change::fields)
            .collect();
        let at = |k: u32| changes.iter().rev().find(|change| tick(change.time) <= k);
        (0..self.ticks)
            .map(|k| at(k).map(|change| change.levels))
            .collect()
    }

    /// When the channels are reported for the first time.
    pub fn first_report(&self) -> FirstReport {
        let first = times(self.changes).next().map(tick);
        match first {
            None => FirstReport::Never,
            Some(0) => FirstReport::AtOnce,
            Some(at) if at == self.ticks => FirstReport::OnTickD,
            Some(at) if at + 1 == self.ticks => FirstReport::OnTheLastTick,
            Some(_) => FirstReport::Late,
        }
    }

    /// Hands each maximal run of a channel at the given level to `found`, in rising time.
    pub fn each_run<E>(
        &self,
        channel: u8,
        high: bool,
        mut found: impl FnMut(Run) -> Result<(), E>,
    ) -> Result<(), E> {
        // Before the first report a channel is neither high nor low, so no run begins there.
        let mut level = None;
        let mut since = 0;
        for (at, levels) in self.standing() {
            let next = Some(levels >> channel & 1 == 1);
            if next == level {
                continue;
            }
            if level == Some(high) {
                found(Run {
                    start: since,
                    end: at,
                })?;
            }
            (level, since) = (next, at);
        }
        // A change on tick d leaves nothing behind it.
        if level == Some(high) && since < self.ticks {
            found(Run {
                start: since,
                end: self.ticks,
            })?;
        }
        Ok(())
    }

    /// Hands each tick at which a channel rises, or falls, to `found`, in rising time: the ticks of
    /// the changes that stand and change the channel. The first report changes nothing.
    pub fn each_event<E>(
        &self,
        channel: u8,
        rise: bool,
        mut found: impl FnMut(u32) -> Result<(), E>,
    ) -> Result<(), E> {
        let mut level = None;
        for (at, levels) in self.standing() {
            let next = levels >> channel & 1 == 1;
            // A report before it says that the tick before it is there. None is at d, which has no
            // tick behind it.
            if level == Some(!rise) && next == rise && at < self.ticks {
                found(at)?;
            }
            level = Some(next);
        }
        Ok(())
    }

    /// Whether a channel rises, or falls, at all.
    pub fn has_event(&self, channel: u8, rise: bool) -> bool {
        self.each_event(channel, rise, Err).is_err()
    }
}

/// The record at fault is the first that is cut short, or has no room.
fn check_length(bytes: usize) -> Result<(), Fault> {
    let records = bytes / RECORD;
    let (record, cause) = if bytes == 0 || !bytes.is_multiple_of(RECORD) {
        (records, Cause::NotWhole(bytes))
    } else if bytes > MAX_LENGTH {
        (MAX_CHANGES + 1, Cause::TooMany(records - 1))
    } else {
        return Ok(());
    };
    Err(Fault {
        refusal: Refusal::RecordingLength,
        record,
        cause,
    })
}

fn read_head(record: &[u8]) -> Result<Head, Cause> {
    let wrong = Cause::Other("not a head: wrong mark, or its last byte is not 0");
    let head = Head::decode(record).ok_or(wrong)?;
    if !DURATIONS.contains(&head.duration) {
        return Err(Cause::Other("the duration is not 10 to 10,000,000 ms"));
    }
    if !(1..=MAX_CHANNELS).contains(&head.channels) {
        return Err(Cause::Other("the channel count is not 1 to 16"));
    }
    Ok(head)
}

fn check_changes(head: Head, changes: &[u8]) -> Result<(), Fault> {
    let mut before = None;
    for (index, record) in changes.chunks_exact(RECORD).enumerate() {
        let change = read_change(head, before, record).map_err(|cause| Fault {
            refusal: Refusal::Change,
            record: index + 1,
            cause,
        })?;
        before = Some(change.time);
    }
    Ok(())
}

fn read_change(head: Head, before: Option<u32>, record: &[u8]) -> Result<Change, Cause> {
    let change = Change::decode(record).ok_or(Cause::Other("not a change: wrong mark"))?;
    if change.time >= head.duration {
        return Err(Cause::Other("the time is not below the duration"));
    }
    if before.is_some_and(|before| change.time <= before) {
        let back = "the time is not above that of the change before";
        return Err(Cause::Other(back));
    }
    let beyond = u32::from(change.levels) >> head.channels;
    if beyond != 0 {
        let channel = head.channels + beyond.trailing_zeros() as u8;
        return Err(Cause::NoChannel(channel, head.channels));
    }
    Ok(change)
}

#[cfg(test)]
mod tests {
    use super::*;
    use crate::examples::{low_start_r, recording, recording_r};

    fn refused(bytes: &[u8]) -> Option<u32> {
        Recording::read(bytes)
            .err()
            .map(|fault| fault.refusal.number())
    }

    fn runs(bytes: &[u8], channel: u8, high: bool) -> Vec<(u32, u32)> {
        let mut runs = Vec::new();
        let read = Recording::read(bytes).expect("a sound recording");
        let all = read.each_run(channel, high, |run| {
            runs.push((run.start, run.end));
            Ok::<(), ()>(())
        });
        all.expect("nothing stops the walk");
        runs
    }

    fn levels(bytes: &[u8]) -> Vec<Option<u16>> {
        Recording::read(bytes).expect("a sound recording").levels()
    }

    #[test]
    fn r_has_one_run_of_each_level() {
        let bytes = recording_r();
        let read = Recording::read(&bytes).unwrap();
        assert_eq!((read.ticks(), read.channels()), (10, 1));
        let reported = [1, 1, 1, 1, 1, 0, 0, 0].map(Some);
        assert_eq!(read.levels(), [&[None; 2][..], &reported].concat());
        assert_eq!(runs(&bytes, 0, true), [(2, 7)]);
        assert_eq!(runs(&bytes, 0, false), [(7, 10)]);
        assert_eq!(runs(&low_start_r(), 0, true), [(2, 7)]);
        assert_eq!(runs(&low_start_r(), 0, false), [(0, 2), (7, 10)]);
    }

    /// A drive of 10 ticks whose only change is at so many milliseconds, high or low.
    fn one_report(ms: u32, level: u16) -> Vec<u8> {
        recording(104, 1, &[(ms, level)])
    }

    /// Levels hold from the tick of the first change on, and before it there are none.
    #[test]
    fn nothing_is_reported_before_the_tick_of_the_first_change() {
        for (ms, first) in [(0, 0), (4, 0), (5, 0), (6, 1), (14, 1), (15, 2), (94, 9)] {
            for (level, high) in [(1, true), (0, false)] {
                let bytes = one_report(ms, level);
                assert_eq!(runs(&bytes, 0, high), [(first, 10)], "{ms}");
                assert_eq!(runs(&bytes, 0, !high), [], "{ms}");
                let (unreported, reported) = (first as usize, 10 - first as usize);
                let expected = [vec![None; unreported], vec![Some(level); reported]].concat();
                assert_eq!(levels(&bytes), expected, "{ms}");
                assert_eq!(events(&bytes, 0), (vec![], vec![]), "{ms}");
            }
        }
    }

    #[test]
    fn without_a_change_before_tick_d_nothing_is_reported() {
        let on_tick_d = recording(105, 1, &[(95, 0), (100, 1), (104, 0)]);
        for bytes in [
            recording(100, 1, &[]),
            one_report(96, 1),
            one_report(96, 0),
            on_tick_d,
        ] {
            for high in [true, false] {
                assert_eq!(runs(&bytes, 0, high), []);
            }
            assert_eq!(events(&bytes, 0), (vec![], vec![]));
            assert_eq!(levels(&bytes), [None; 10]);
        }
    }

    #[test]
    fn of_several_changes_on_the_first_tick_the_last_is_reported() {
        let low = recording(100, 1, &[(46, 0), (49, 1), (52, 0), (80, 1)]);
        assert_eq!(runs(&low, 0, false), [(5, 8)]);
        assert_eq!(runs(&low, 0, true), [(8, 10)]);
        assert_eq!(events(&low, 0), (vec![8], vec![]));
        let high = recording(100, 1, &[(15, 0), (20, 0), (25, 1)]);
        assert_eq!(runs(&high, 0, true), [(2, 10)]);
        assert_eq!(runs(&high, 0, false), []);
        assert_eq!(events(&high, 0), (vec![], vec![]));
    }

    /// Each change has the levels of all channels, also of those that it leaves as they are.
    #[test]
    fn the_first_change_reports_all_channels() {
        let bytes = recording(100, 3, &[(30, 0b001), (60, 0b011), (80, 0b000)]);
        assert_eq!(runs(&bytes, 0, true), [(3, 8)]);
        assert_eq!(runs(&bytes, 0, false), [(8, 10)]);
        assert_eq!(runs(&bytes, 1, true), [(6, 8)]);
        assert_eq!(runs(&bytes, 1, false), [(3, 6), (8, 10)]);
        assert_eq!(runs(&bytes, 2, false), [(3, 10)]);
        assert_eq!(events(&bytes, 0), (vec![], vec![8]));
        assert_eq!(events(&bytes, 1), (vec![6], vec![8]));
        assert_eq!(events(&bytes, 2), (vec![], vec![]));
    }

    #[test]
    fn first_reports_are_told_apart() {
        let first = |bytes: &[u8]| Recording::read(bytes).unwrap().first_report();
        let at = |ms: u32| first(&one_report(ms, 1));
        assert_eq!([0, 5].map(at), [FirstReport::AtOnce; 2]);
        assert_eq!([6, 85].map(at), [FirstReport::Late; 2]);
        assert_eq!([86, 94].map(at), [FirstReport::OnTheLastTick; 2]);
        assert_eq!([95, 103].map(at), [FirstReport::OnTickD; 2]);
        assert_eq!(first(&recording(104, 1, &[])), FirstReport::Never);
        assert_eq!(first(&recording_r()), FirstReport::Late);
        assert_eq!(first(&low_start_r()), FirstReport::AtOnce);
        // The only tick there is.
        assert_eq!(first(&recording(10, 1, &[(5, 1)])), FirstReport::AtOnce);
        assert_eq!(first(&recording(10, 1, &[(6, 1)])), FirstReport::OnTickD);
    }

    #[test]
    fn halves_go_to_the_even_tick() {
        assert_eq!([5, 15, 25, 35].map(tick), [0, 2, 2, 4]);
        assert_eq!([0, 4, 14, 24, 34].map(tick), [0, 0, 1, 2, 3]);
        assert_eq!([6, 16, 26, 36].map(tick), [1, 2, 3, 4]);
        assert_eq!([95, 105, 115].map(tick), [10, 10, 12]);
        assert_eq!([9_999_985, 9_999_995].map(tick), [999_998, 1_000_000]);
        assert_eq!(tick(10_000_000), 1_000_000);
    }

    /// A tick within 5 ms of a time is the nearest. Halfway between two ticks both are that near,
    /// and one of them is even.
    #[test]
    fn every_time_goes_to_the_nearest_tick_and_halves_to_an_even_one() {
        for ms in 0..=*DURATIONS.end() {
            let tick = tick(ms);
            assert!(ms.abs_diff(10 * tick) <= 5, "{ms} ms is no tick {tick}");
            if ms % 10 == 5 {
                assert!(tick.is_multiple_of(2), "{ms} ms is tick {tick}");
            }
        }
    }

    #[test]
    fn the_last_change_on_a_tick_stands_and_splits_no_run() {
        // High at 48 and low again at 52: both are tick 5, so nothing happened.
        let blip = recording(100, 1, &[(0, 0), (48, 1), (52, 0)]);
        assert_eq!(runs(&blip, 0, false), [(0, 10)]);
        assert_eq!(runs(&blip, 0, true), []);
        assert_eq!(levels(&blip), [Some(0); 10]);
    }

    /// An even tick has the halves on both its sides, an odd one neither.
    #[test]
    fn an_even_tick_takes_eleven_milliseconds_and_an_odd_one_nine() {
        let blip = |from: u32, to: u32| {
            let bytes = recording(100, 1, &[(from, 1), (to, 0)]);
            runs(&bytes, 0, true)
        };
        assert_eq!(blip(15, 25), []);
        assert_eq!(blip(14, 25), [(1, 2)]);
        assert_eq!(blip(15, 26), [(2, 3)]);
        assert_eq!(blip(26, 34), []);
        assert_eq!(blip(25, 34), [(2, 3)]);
        assert_eq!(blip(26, 35), [(3, 4)]);
        assert_eq!(blip(25, 35), [(2, 4)]);
        assert_eq!(blip(0, 5), []);
        assert_eq!(blip(5, 6), [(0, 1)]);
    }

    #[test]
    fn a_change_on_tick_d_has_no_effect() {
        let late = recording(104, 1, &[(20, 1), (96, 0)]);
        assert_eq!(runs(&late, 0, true), [(2, 10)]);
        let rise = recording(104, 1, &[(0, 0), (97, 1)]);
        assert_eq!(runs(&rise, 0, true), []);
        assert_eq!(runs(&rise, 0, false), [(0, 10)]);
    }

    /// Of a drive of 105 ms, d is 10, and every change from 95 ms on is on tick d.
    #[test]
    fn the_duration_is_rounded_as_a_time_is() {
        for (duration, ticks) in [(10, 1), (14, 1), (15, 2), (25, 2), (26, 3), (105, 10)] {
            let bytes = recording(duration, 1, &[]);
            let read = Recording::read(&bytes).unwrap();
            assert_eq!(read.ticks(), ticks, "{duration}");
            assert_eq!(read.levels().len(), ticks as usize);
        }
        let rise = |ms: u32| runs(&recording(105, 1, &[(ms, 1)]), 0, true);
        assert_eq!(rise(94), [(9, 10)]);
        for ms in [95, 96, 100, 101, 104] {
            assert_eq!(rise(ms), [], "{ms}");
        }
    }

    #[test]
    fn other_channels_split_no_run() {
        let two = recording(100, 2, &[(0, 0), (10, 0b01), (30, 0b11), (60, 0b10)]);
        assert_eq!(runs(&two, 0, true), [(1, 6)]);
        assert_eq!(runs(&two, 1, true), [(3, 10)]);
        assert_eq!(runs(&two, 1, false), [(0, 3)]);
    }

    /// The ticks at which a channel rises, and those at which it falls.
    fn events(bytes: &[u8], channel: u8) -> (Vec<u32>, Vec<u32>) {
        let read = Recording::read(bytes).expect("a sound recording");
        let of = |rise: bool| {
            let mut ticks = Vec::new();
            let all = read.each_event(channel, rise, |tick| {
                ticks.push(tick);
                Ok::<(), ()>(())
            });
            all.expect("nothing stops the walk");
            assert_eq!(read.has_event(channel, rise), !ticks.is_empty());
            ticks
        };
        (of(true), of(false))
    }

    #[test]
    fn an_event_lies_where_a_run_ends_and_another_starts() {
        assert_eq!(events(&low_start_r(), 0), (vec![2], vec![7]));
        let neighbours = recording(100, 1, &[(0, 0), (20, 1), (30, 0), (40, 1), (50, 0)]);
        assert_eq!(events(&neighbours, 0), (vec![2, 4], vec![3, 5]));
        let two = recording(100, 2, &[(0, 0), (10, 0b01), (30, 0b11), (60, 0b10)]);
        assert_eq!(events(&two, 0), (vec![1], vec![6]));
        assert_eq!(events(&two, 1), (vec![3], vec![]));
    }

    #[test]
    fn the_first_report_is_no_event() {
        assert_eq!(events(&recording_r(), 0), (vec![], vec![7]));
        let low_first = recording(100, 1, &[(20, 0), (30, 1), (40, 0)]);
        assert_eq!(events(&low_first, 0), (vec![3], vec![4]));
        // The second report may be the first that changes anything.
        let same_twice = recording(100, 1, &[(20, 1), (30, 1), (40, 0)]);
        assert_eq!(events(&same_twice, 0), (vec![], vec![4]));
    }

    #[test]
    fn no_event_lies_at_the_start_or_at_the_end() {
        let from_the_start = recording(100, 1, &[(0, 1), (50, 0)]);
        assert_eq!(events(&from_the_start, 0), (vec![], vec![5]));
        // Low at first, and high at a time that is rounded to a tick.
        let rise = |ms| events(&recording(100, 1, &[(0, 0), (ms, 1)]), 0);
        // To tick 0, and to tick 1.
        assert_eq!(rise(5), (vec![], vec![]));
        assert_eq!(rise(6), (vec![1], vec![]));
        // To tick 9, and to tick 10, which is d.
        assert_eq!(rise(94), (vec![9], vec![]));
        assert_eq!(rise(95), (vec![], vec![]));
        let fall = |ms| events(&recording(104, 1, &[(0, 0), (20, 1), (ms, 0)]), 0);
        assert_eq!(fall(94), (vec![2], vec![9]));
        assert_eq!(fall(97), (vec![2], vec![]));
        // A drive of one tick has no moment between two ticks.
        let one_tick = recording(10, 1, &[(0, 0), (6, 1)]);
        assert_eq!(events(&one_tick, 0), (vec![], vec![]));
        let two_ticks = recording(20, 1, &[(0, 0), (10, 1)]);
        assert_eq!(events(&two_ticks, 0), (vec![1], vec![]));
    }

    #[test]
    fn a_change_that_others_on_its_tick_hide_is_no_event() {
        let after_low = |changes: &[(u32, u16)]| {
            let changes = [&[(0, 0)], changes].concat();
            events(&recording(100, 1, &changes), 0)
        };
        assert_eq!(after_low(&[(48, 1), (52, 0)]), (vec![], vec![]));
        let dip = after_low(&[(20, 1), (48, 0), (52, 1)]);
        assert_eq!(dip, (vec![2], vec![]));
        let thrice = after_low(&[(46, 1), (49, 0), (52, 1)]);
        assert_eq!(thrice, (vec![5], vec![]));
        let hidden = after_low(&[(46, 0), (49, 1), (52, 0)]);
        assert_eq!(hidden, (vec![], vec![]));
        // The high level at tick 0 that another change there takes back.
        let at_0 = recording(100, 1, &[(0, 1), (4, 0), (10, 1)]);
        assert_eq!(events(&at_0, 0), (vec![1], vec![]));
    }

    #[test]
    fn lengths_are_checked_before_the_head() {
        assert_eq!(refused(&[]), Some(1));
        assert_eq!(refused(&[0; 7]), Some(1));
        assert_eq!(refused(&[0; 8]), Some(2));
        assert_eq!(refused(&vec![0; MAX_LENGTH]), Some(2));
        assert_eq!(refused(&vec![0; MAX_LENGTH + 1]), Some(1));
        assert_eq!(refused(&vec![0; MAX_LENGTH + RECORD]), Some(1));
    }

    #[test]
    fn a_wrong_length_says_what_is_wrong_with_it() {
        let fault = |length| {
            let fault = Recording::read(&vec![0; length]).expect_err("a fault");
            (fault.record, fault.to_string())
        };
        let whole = "bytes are not a number of whole records; marks will print `refused 1`";
        assert_eq!(fault(0), (0, format!("0 {whole}")));
        assert_eq!(fault(17), (2, format!("17 {whole}")));
        assert_eq!(fault(MAX_LENGTH + 1), (4_096, format!("32769 {whole}")));
        let long = "there are 1,000,049 changes, and at most 4,095 fit; \
                    marks will print `refused 1`";
        assert_eq!(fault(1_000_050 * RECORD), (4_096, long.into()));
    }

    #[test]
    fn every_field_of_the_head_counts() {
        for (duration, channels) in [(9, 1), (10_000_001, 1), (10, 0), (10, 17)] {
            assert_eq!(refused(&recording(duration, channels, &[])), Some(2));
        }
        for at in [0, 1, 7] {
            let mut bytes = recording(10, 1, &[]);
            bytes[at] ^= 1;
            assert_eq!(refused(&bytes), Some(2));
        }
        assert_eq!(refused(&recording(10, 1, &[])), None);
        assert_eq!(refused(&recording(10_000_000, 16, &[])), None);
    }

    #[test]
    fn every_field_of_a_change_counts() {
        assert_eq!(refused(&recording(100, 1, &[(0, 1), (99, 0)])), None);
        assert_eq!(refused(&recording(100, 1, &[(100, 0)])), Some(3));
        assert_eq!(refused(&recording(100, 1, &[(7, 0), (7, 1)])), Some(3));
        assert_eq!(refused(&recording(100, 1, &[(7, 2)])), Some(3));
        assert_eq!(refused(&recording(100, 16, &[(7, 0xFFFF)])), None);
        let second_head = [recording(100, 1, &[]), recording(100, 1, &[])].concat();
        assert_eq!(refused(&second_head), Some(3));
    }
}
