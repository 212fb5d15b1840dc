//! What the campaign calls the finders with: recordings and drills of many kinds, most of them
//! small enough for brute force, many of them wrong.

use crate::drill::{Band, Drill};
use crate::examples::with_runs;
use crate::random::{self, Rng, Taste};
use crate::recording::{encode, Change, Head, MAX_LENGTH, RECORD};

#[derive(Clone, Debug)]
pub struct Input {
    pub recording: Vec<u8>,
    pub drill: Vec<u8>,
}

/// A recording and the text of a sheet for it.
#[derive(Clone, Debug)]
pub struct SheetInput {
    pub recording: Vec<u8>,
    pub text: Vec<u8>,
}

/// A recording and several drills for it.
#[derive(Clone, Debug)]
pub struct DrillsInput {
    pub recording: Vec<u8>,
    pub drills: Vec<Vec<u8>>,
}

/// An input of any kind, now and then damaged.
pub fn any(rng: &mut Rng) -> Input {
    let mut input = match rng.below(16) {
        0 => noise(rng),
        1 | 2 => large(rng),
        3 => deep(rng),
        4 => outside(rng),
        5 => crowded(rng),
        6 | 7 => pieces(rng),
        _ => small(rng),
    };
    if rng.once_in(40) {
        lengthen(rng, &mut input.drill);
    }
    if rng.once_in(6) {
        damage_recording(rng, &mut input.recording);
    }
    if rng.once_in(6) {
        damage(rng, &mut input.drill, DRILL_BYTES);
    }
    input
}

/// Bytes that a damaged drill may have anywhere.
const DRILL_BYTES: &[u8] = b"_abcp!+-~()|&.*{},<0123456789q \n\xFF";

/// A sheet of any form: no line to ten of them, now and then an empty one, one that is there twice, a
/// carriage return or no last newline, and lines of all lengths.
pub fn sheet(rng: &mut Rng) -> SheetInput {
    let (mut recording, channels) = any_drive(rng);
    let lines = match rng.below(20) {
        0 => 0,
        1 => 9,
        2 => 10,
        3..6 => 8,
        _ => rng.between(1, 7),
    };
    let mut lines: Vec<Vec<u8>> = (0..lines).map(|_| any_line(rng, channels)).collect();
    if !lines.is_empty() && rng.once_in(8) {
        let twice = rng.pick(&lines).clone();
        let at = rng.below(lines.len() as u64) as usize;
        lines[at] = twice;
    }
    let mut text = lines.concat();
    if rng.once_in(20) {
        text.pop();
    }
    if rng.once_in(16) {
        damage(rng, &mut text, b"\n\n\ra*");
    }
    match rng.below(16) {
        0 => recording.truncate(rng.below(RECORD as u64) as usize),
        1 => recording[rng.below(RECORD as u64) as usize] ^= 0xFF,
        2 => recording.extend(rng.bytes(RECORD)),
        3 => damage_recording(rng, &mut recording),
        _ => (),
    }
    SheetInput { recording, text }
}

/// A drill and the newline behind it.
fn any_line(rng: &mut Rng, channels: u8) -> Vec<u8> {
    let mut line = match rng.below(60) {
        0 => Vec::new(),
        1 => vec![b'('; rng.between(256, 5_000) as usize],
        _ => any_drill(rng, channels),
    };
    if rng.once_in(30) {
        line.push(b'\r');
    }
    line.push(b'\n');
    line
}

/// Several drills over one recording, most of them with rounds to be spent.
pub fn chain(rng: &mut Rng) -> DrillsInput {
    let (recording, channels) = any_drive(rng);
    let mut drill = || {
        if rng.once_in(2) {
            star_of_pieces(rng, channels)
        } else {
            any_drill(rng, channels)
        }
    };
    DrillsInput {
        recording,
        drills: (0..6).map(|_| drill()).collect(),
    }
}

/// Drills for the lines of a sheet, over a drive in which `a` is high for about as many ticks as a drill
/// has rounds: two that take about as many rounds, one that takes far more, behind it one with a star
/// that takes few, and up to four others of any kind in between.
pub fn greedy(rng: &mut Rng) -> DrillsInput {
    let about_as_many = [
        "(a{0,1})*",
        "(a{0,<1})*",
        "(a{0,1})**",
        "(a{0,1})*.(b{0,1})*",
        "(b{0,1})*|(a{0,1})*",
        "~(a{0,1})*&(c{1,1})*",
    ];
    let far_more = [
        "(a{0,1})*|(a{0,1})*",
        "((a{0,1})*.(a{0,1})*){1,}",
        "b.~((a{0,1})*&(a{0,1})*)",
    ];
    let few = [
        "(b{0,1})*",
        "(c{1,1})*",
        "(b|c)*",
        "~(b{1,2})*",
        "(+c|-b)*",
        "_*",
    ];
    let mut drills: Vec<Vec<u8>> = vec![(*rng.pick(&far_more)).into(), (*rng.pick(&few)).into()];
    let mut others: Vec<Vec<u8>> = (0..rng.below(5)).map(|_| any_drill(rng, 3)).collect();
    others.retain(|drill| !drill.is_empty() && !drill.contains(&b'\n'));
    others.extend([0, 0].map(|_| Vec::from(*rng.pick(&about_as_many))));
    for other in others {
        let at = rng.below(drills.len() as u64 + 1) as usize;
        drills.insert(at, other);
    }
    DrillsInput {
        recording: greedy_drive(rng),
        drills,
    }
}

/// `a` is high for about 100,000 ticks, `b` and `c` for a few.
fn greedy_drive(rng: &mut Rng) -> Vec<u8> {
    let high = rng.between(99_985, 100_005);
    let b = rng.between(1, 12);
    let c = rng.between(0, 12);
    let channels: [&[(u32, u32)]; 3] = [&[(0, high)], &[(0, b)], &[(c, c + b)]];
    with_runs(high + rng.between(0, 20), &channels)
}

/// A sound recording and its number of channels: mostly one for brute force, now and then one with
/// about as many runs as a list holds, or a long one.
fn any_drive(rng: &mut Rng) -> (Vec<u8>, u8) {
    match rng.below(10) {
        0 => {
            let runs = rng.between(60, 138);
            (many_runs(rng, runs), 1)
        }
        1 => {
            let head = Head {
                duration: random::milliseconds(rng, 1_000, 20_000),
                channels: rng.between(1, 4) as u8,
            };
            (switching(rng, head, 40), head.channels)
        }
        _ => {
            let head = small_head(rng);
            let changes = rng.below(14) as usize;
            (random::recording(rng, head, changes), head.channels)
        }
    }
}

/// A drill of any kind for a recording with so many channels, now and then damaged.
fn any_drill(rng: &mut Rng, channels: u8) -> Vec<u8> {
    let mut drill = match rng.below(16) {
        0 => deep_drill(rng, channels),
        1 => outside_drill(rng, channels),
        2 => some_for_each_run(rng).0.into(),
        3..7 => star_of_pieces(rng, channels),
        _ => small_drill(rng, channels),
    };
    if rng.once_in(20) {
        lengthen(rng, &mut drill);
    }
    if rng.once_in(12) {
        damage(rng, &mut drill, DRILL_BYTES);
    }
    drill
}

/// Up to 12 ticks and three channels: brute force has an opinion on these.
fn small(rng: &mut Rng) -> Input {
    let head = small_head(rng);
    let changes = rng.below(10) as usize;
    Input {
        recording: random::recording(rng, head, changes),
        drill: small_drill(rng, head.channels),
    }
}

fn small_drill(rng: &mut Rng, channels: u8) -> Vec<u8> {
    let taste = Taste {
        leaves: 6,
        channels,
        limit: 12,
        stars: true,
    };
    random_text(rng, taste)
}

fn small_head(rng: &mut Rng) -> Head {
    Head {
        duration: random::milliseconds(rng, 10, 125),
        channels: rng.between(1, 3) as u8,
    }
}

fn random_text(rng: &mut Rng, taste: Taste) -> Vec<u8> {
    let drill = random::drill(rng, taste);
    random::text(rng, &drill)
}

/// A drive with many changes for the star of a few short pieces.
fn pieces(rng: &mut Rng) -> Input {
    let head = Head {
        channels: 3,
        ..small_head(rng)
    };
    let drill = star_of_pieces(rng, head.channels);
    Input {
        recording: random::recording(rng, head, 14),
        drill,
    }
}

/// The star of a few short pieces that overlap, each in a place of its own: which of them come
/// first, and on which side they are added, shows in the order of the list.
fn star_of_pieces(rng: &mut Rng, channels: u8) -> Vec<u8> {
    let taste = Taste {
        leaves: 2,
        channels,
        limit: 4,
        stars: false,
    };
    let mut piece = random::leaf(rng, taste);
    for _ in 0..rng.between(1, 2) {
        let other = random::drill(rng, taste);
        piece = Drill::Either(Box::new(piece), Box::new(other));
    }
    let lo = rng.between(0, 2);
    let hi = rng.between(lo.max(1), 2);
    let band = random::bounded(rng, lo, Some(hi));
    let star = Drill::Star(Box::new(Drill::Within(Box::new(piece), band)));
    random::text(rng, &star)
}

/// Brackets around the drill until it is about as long as it may be.
fn lengthen(rng: &mut Rng, drill: &mut Vec<u8>) {
    let length = rng.between(253, 258) as usize;
    let pairs = length.saturating_sub(drill.len()) / 2;
    drill.splice(..0, vec![b'('; pairs]);
    drill.extend(vec![b')'; pairs]);
}

/// Drives of any length, up to as many changes as a recording holds.
fn large(rng: &mut Rng) -> Input {
    let scale = 10u32.pow(rng.between(3, 7));
    let head = Head {
        duration: random::milliseconds(rng, scale / 10, scale),
        channels: rng.between(1, 16) as u8,
    };
    let changes = match rng.below(4) {
        0 => MAX_LENGTH / RECORD - 1,
        1 => 100 * head.channels as usize,
        _ => 20 * head.channels as usize,
    };
    let taste = Taste {
        leaves: 7,
        channels: head.channels,
        limit: *rng.pick(&[10, 300, 20_000, 1_000_000]),
        stars: true,
    };
    Input {
        recording: switching(rng, head, changes),
        drill: random_text(rng, taste),
    }
}

/// A recording in which each change but the first switches one channel. The first reports all of them
/// low, or each at any level.
fn switching(rng: &mut Rng, head: Head, changes: usize) -> Vec<u8> {
    let times = random::change_times(rng, head.duration, changes);
    let mut levels = if rng.once_in(2) {
        0
    } else {
        random::levels(rng, head.channels)
    };
    let mut changes = Vec::new();
    for time in times {
        changes.push(Change { time, levels });
        levels ^= 1 << rng.below(head.channels.into());
    }
    encode(head, &changes)
}

/// A short drive for a deep drill.
fn deep(rng: &mut Rng) -> Input {
    let head = small_head(rng);
    let drill = deep_drill(rng, head.channels);
    Input {
        recording: random::recording(rng, head, 6),
        drill,
    }
}

/// About as deep as a drill may be.
fn deep_drill(rng: &mut Rng, channels: u8) -> Vec<u8> {
    let taste = Taste {
        leaves: 1,
        channels,
        limit: 12,
        stars: true,
    };
    let mut drill = random::leaf(rng, taste);
    for _ in 1..rng.between(14, 18) {
        drill = match rng.below(7) {
            0 => Drill::Star(Box::new(drill)),
            1 => Drill::Within(Box::new(drill), random::band(rng, taste.limit)),
            2 => Drill::Absent(Box::new(drill)),
            k => {
                let leaf = random::leaf(rng, taste);
                let (left, right) = if k < 5 { (drill, leaf) } else { (leaf, drill) };
                random::joined(rng, left, right)
            }
        };
    }
    random::text(rng, &drill)
}

/// A short drive for a drill that is likely to be wrong.
fn outside(rng: &mut Rng) -> Input {
    let head = small_head(rng);
    let drill = outside_drill(rng, head.channels);
    Input {
        recording: random::recording(rng, head, 6),
        drill,
    }
}

/// Letters, events, absences and bands that are likely to be wrong, numbers of any length, bounds reached
/// or not.
fn outside_drill(rng: &mut Rng, channels: u8) -> Vec<u8> {
    let taste = Taste {
        leaves: 3,
        channels: if rng.once_in(2) { 16 } else { channels },
        limit: 12,
        stars: true,
    };
    let drill = random::drill(rng, taste);
    let text = match rng.below(10) {
        0 => {
            let (lo, hi) = (digits(rng), digits(rng));
            format!("({drill}){{{}{lo},{}{hi}}}", less(rng), less(rng))
        }
        1 => format!("({drill}){{{}{},}}", less(rng), digits(rng)),
        // Equal bounds, of any size: right only where both are reached.
        2 => {
            let number = digits(rng);
            format!("({drill}){{{}{number},{}{number}}}", less(rng), less(rng))
        }
        3 | 4 => format!("({drill}){}", near_band(rng)),
        5 => format!("{}.({drill})", near_event(rng, taste.channels)),
        6 => format!("({drill})*&{}", near_event(rng, taste.channels)),
        7 => format!("{}.({drill})", near_absence(rng, taste)),
        8 => format!("({drill})|{}", near_absence(rng, taste)),
        _ => {
            let (lo, hi) = (rng.between(0, 4), rng.between(0, 4));
            let band = Band {
                lo: random::bound(rng, lo),
                hi: Some(random::bound(rng, hi)),
            };
            Drill::Within(Box::new(drill), band).to_string()
        }
    };
    text.into_bytes()
}

/// What stands before a bound: a `<`, or nothing.
fn less(rng: &mut Rng) -> &'static str {
    if rng.once_in(2) {
        "<"
    } else {
        ""
    }
}

/// A right band with a byte or two put in or taken out anywhere: a `<` may come to stand where it
/// belongs, twice, behind its number, or before none.
fn near_band(rng: &mut Rng) -> String {
    let mut text = random::band(rng, 12).to_string();
    for _ in 0..rng.between(1, 2) {
        let at = rng.below(text.len() as u64) as usize;
        if rng.once_in(3) {
            text.remove(at);
        } else {
            text.insert(at, *rng.pick(&['<', '<', '<', '0', ' ', ',']));
        }
    }
    text
}

/// A right event with a byte or two put in or taken out anywhere: a sign may come to stand twice,
/// after its letter, before another sign or a bracket, or before nothing.
fn near_event(rng: &mut Rng, channels: u8) -> String {
    let channel = rng.below(channels.into()) as u8;
    let event = random::event(rng, channel).to_string();
    let bytes = ['+', '-', '!', '(', ')', '_', '*', '.', '|', 'a', ' '];
    near(rng, event, &bytes)
}

/// A right absence with a byte or two put in or taken out anywhere: a `~` may come to stand twice, with
/// brackets between or without, after its operand, behind a `!` or a sign, or before nothing.
fn near_absence(rng: &mut Rng, taste: Taste) -> String {
    let taste = Taste { leaves: 1, ..taste };
    let absence = Drill::Absent(Box::new(random::drill(rng, taste))).to_string();
    let bytes = ['~', '~', '~', '~', '!', '+', '(', ')', '_', '*', '.', '|'];
    near(rng, absence, &bytes)
}

/// A text with a byte or two put in, of those given, or taken out anywhere.
fn near(rng: &mut Rng, mut text: String, bytes: &[char]) -> String {
    for _ in 0..rng.between(1, 2) {
        let at = rng.below(text.len() as u64 + 1) as usize;
        if at < text.len() && rng.once_in(3) {
            text.remove(at);
        } else {
            text.insert(at, *rng.pick(bytes));
        }
    }
    text
}

/// A number as a drill might have it, of any length.
fn digits(rng: &mut Rng) -> String {
    match rng.below(5) {
        0 => rng.between(999_999, 1_000_001).to_string(),
        1 => rng.below(20).to_string(),
        2 => rng.number().to_string(),
        // A small number again, if the high bits are lost.
        3 => {
            let width = *rng.pick(&[8, 16, 31, 32, 63, 64]);
            ((1u128 << width) + u128::from(rng.below(20))).to_string()
        }
        _ => {
            let count = rng.between(1, 90);
            (0..count)
                .map(|_| char::from(b'0' + rng.below(10) as u8))
                .collect()
        }
    }
}

/// About as many runs, or runs and events, or parts outside them, as a list has room for.
fn crowded(rng: &mut Rng) -> Input {
    let (drill, zones_a_run) = some_for_each_run(rng);
    // A few runs are lost where both their changes are on one tick.
    let runs = match zones_a_run {
        1 => rng.between(126, 138),
        2 => rng.between(62, 70),
        _ => rng.between(30, 36),
    };
    Input {
        recording: many_runs(rng, runs),
        drill: drill.into(),
    }
}

/// A drill with a zone, or two, or four for each run of `a`, and how many of these it is.
fn some_for_each_run(rng: &mut Rng) -> (&'static str, u32) {
    let once_a_run = [
        "a",
        "!a",
        "a*",
        "a.a",
        "a.!a",
        "!a.a",
        "a|!a",
        "a&a",
        "a{0,3}|a",
        "a|a{0,3}",
        "(a{0,2})*",
        "(a|!a)*",
        "(a.!a){0,4}",
        "a{2,}.!a",
        "a{<0,<3}|a",
        "a|a{0,<3}",
        "(a{0,<2})*",
        "(a.!a){<1,<4}",
        "a{<1,}.!a",
        "+a",
        "-a",
        "+a*",
        "-a|_",
        "+a.a",
        "!a.+a",
        "-a.!a.+a",
        "+a.a{0,3}.-a",
        "+a&_",
        "(+a.a.-a)*",
    ];
    // Two zones for each run: half as many runs fill a list.
    let twice_a_run = [
        "+a|-a",
        "-a|+a",
        "a|+a",
        "-a|a",
        "!a|-a",
        "(+a|-a)*",
        "(a|-a)*",
        "(+a|!a)*",
        "(+a.a)|a.-a",
        "(+a|-a)&_",
        "~+a",
        "~-a",
        "~(_|a)",
        "~(_|!a)",
        "~(_|+a.a)",
        "~+a&~_",
    ];
    // Four zones: a quarter of them. With the moments behind, the list is longest before the last zone.
    let four_times_a_run = [
        "~a", "~!a", "~(a|_)", "~a*", "~a{<0,}", "(~a)*", "~a&_", "~a|a", "a.~a", "~(~a)",
        "~(a.a)", "~(a|-a)",
    ];
    match rng.below(8) {
        0 | 1 => (*rng.pick(&four_times_a_run), 4),
        2 | 3 => (*rng.pick(&twice_a_run), 2),
        _ => (*rng.pick(&once_a_run), 1),
    }
}

/// One channel with this many runs. In half of these drives it is reported low from tick 0 on, so that
/// the first run has a rise; in the others the first run is the first report.
fn many_runs(rng: &mut Rng, runs: u32) -> Vec<u8> {
    let mut time = rng.between(0, 30);
    let mut changes = Vec::new();
    if rng.once_in(2) {
        changes.push(Change { time: 0, levels: 0 });
        time += 6;
    }
    for k in 0..2 * runs {
        let levels = (k % 2 == 0).into();
        changes.push(Change { time, levels });
        time += rng.between(6, 50);
    }
    let head = Head {
        duration: time + 1,
        channels: 1,
    };
    encode(head, &changes)
}

/// Bytes that nobody meant as anything.
fn noise(rng: &mut Rng) -> Input {
    let records = rng.below(4) as usize;
    let length = match rng.below(4) {
        0 => rng.below(40) as usize,
        1 => MAX_LENGTH - RECORD + rng.below(3 * RECORD as u64) as usize,
        _ => RECORD * records,
    };
    let Input {
        mut recording,
        mut drill,
    } = small(rng);
    if rng.once_in(2) {
        recording = rng.bytes(length);
    }
    if rng.once_in(2) {
        let length = rng.below(300) as usize;
        drill = rng.bytes(length);
    }
    Input { recording, drill }
}

/// Wrong fields and records out of place rather than wrong lengths, which hide the rest.
fn damage_recording(rng: &mut Rng, bytes: &mut Vec<u8>) {
    if bytes.is_empty() || rng.once_in(6) {
        return damage(rng, bytes, &[0, 1, 0x43, 0x44, 0xFF]);
    }
    let at = rng.below(bytes.len() as u64) as usize;
    match rng.below(4) {
        0 => bytes[at] ^= 1 << rng.below(8),
        1 => bytes[at] = *rng.pick(&[0, 1, 0x43, 0x44, 0xFF]),
        2 => {
            let first = at - at % RECORD;
            let record = bytes[first..]
                .iter()
                .take(RECORD)
                .copied()
                .collect::<Vec<_>>();
            bytes.extend(record);
        }
        _ => {
            let field = *rng.pick(&[2, 3, 6, 7]);
            if let Some(byte) = bytes.get_mut(field) {
                *byte = *rng.pick(&[0, 1, 9, 10, 16, 17, 0xFF]);
            }
        }
    }
}

/// Something else than the bytes given, in most cases: flipped, cut short, drawn out.
fn damage(rng: &mut Rng, bytes: &mut Vec<u8>, alphabet: &[u8]) {
    let at = rng.below(bytes.len() as u64 + 1) as usize;
    let byte = *rng.pick(alphabet);
    match rng.below(6) {
        0 => bytes.truncate(at),
        1 => bytes.insert(at, byte),
        2 => bytes.extend_from_within(at..),
        _ if at == bytes.len() => bytes.push(byte),
        3 => bytes[at] = byte,
        4 => bytes[at] ^= 1 << rng.below(8),
        _ => {
            bytes.remove(at);
        }
    }
}

#[cfg(test)]
mod tests {
    use super::*;
    use crate::finder::{find, find_unless_slow, WORK_WORDS};
    use crate::lesson::{drills, sheet_of, DRILL_ROUNDS};
    use crate::recording::{times, FirstReport, Recording};
    use crate::refusal::Refusal;
    use std::ops::RangeInclusive;

    /// Halves are among durations and among changes, the lower tick even (5) or odd (15).
    #[test]
    fn halves_come_up_in_durations_and_in_changes() {
        let mut rng = Rng::new(1, 5);
        for kind in [small, pieces, large] {
            let recordings: Vec<Vec<u8>> = (0..200).map(|_| kind(&mut rng).recording).collect();
            for half in [5, 15] {
                let is_half = |ms: u32| ms % 20 == half;
                let in_duration = |bytes: &&Vec<u8>| times(bytes).take(1).any(is_half);
                let in_changes = |bytes: &&Vec<u8>| times(bytes).skip(1).any(is_half);
                let durations = recordings.iter().filter(in_duration).count();
                let changes = recordings.iter().filter(in_changes).count();
                assert!(
                    durations > 15 && changes > 50,
                    "{half} {durations} {changes}"
                );
            }
        }
    }

    /// Drives of all kinds are reported from tick 0 on, low or high, and later, and not at all.
    #[test]
    fn drives_are_reported_early_and_late() {
        let mut rng = Rng::new(1, 9);
        for kind in [small, pieces, large, deep, outside] {
            let recordings: Vec<Vec<u8>> = (0..400).map(|_| kind(&mut rng).recording).collect();
            let often = |least: usize, what: &str, meets: &dyn Fn(&Recording) -> bool| {
                let sound = |bytes: &&Vec<u8>| meets(&Recording::read(bytes).expect("sound"));
                let count = recordings.iter().filter(sound).count();
                assert!(count > least, "{what}: {count}");
            };
            for (first, least) in [
                (FirstReport::AtOnce, 130),
                (FirstReport::Late, 40),
                (FirstReport::OnTheLastTick, 10),
                (FirstReport::OnTickD, 3),
                (FirstReport::Never, 5),
            ] {
                let what = format!("{first:?}");
                often(least, &what, &|read| read.first_report() == first);
            }
            let first_run = |read: &Recording, high| {
                let found = read.each_run(0, high, Err);
                found.err().map(|run| run.start)
            };
            often(60, "low at tick 0", &|read| {
                first_run(read, false) == Some(0)
            });
            often(40, "high at tick 0", &|read| {
                first_run(read, true) == Some(0)
            });
            often(60, "a rise", &|read| read.has_event(0, true));
            often(60, "a fall", &|read| read.has_event(0, false));
        }
    }

    /// About half of the drives with many runs have a rise for the first of them.
    #[test]
    fn many_runs_begin_with_a_rise_or_with_the_first_report() {
        let mut rng = Rng::new(1, 10);
        let mut low_first = 0;
        for _ in 0..400 {
            let bytes = many_runs(&mut rng, 3);
            let read = Recording::read(&bytes).expect("sound");
            let found = read.each_run(0, false, Err);
            low_first += u32::from(found.err().is_some_and(|run| run.start == 0));
        }
        assert!((100..300).contains(&low_first), "{low_first}");
    }

    /// Texts beside an event are read and refused often enough.
    #[test]
    fn signs_come_up_right_and_wrong() {
        let mut rng = Rng::new(1, 6);
        let (mut right, mut of_no_form, mut beyond) = (0, 0, 0);
        for _ in 0..1_000 {
            match Drill::read(near_event(&mut rng, 3).as_bytes(), 2) {
                Ok(_) => right += 1,
                Err(Refusal::DrillForm) => of_no_form += 1,
                Err(Refusal::Letter) => beyond += 1,
                Err(_) => (),
            }
        }
        assert!(right > 50, "{right}");
        assert!(of_no_form > 500, "{of_no_form}");
        assert!(beyond > 20, "{beyond}");
    }

    /// Lists of events just fill their room, and just do not.
    #[test]
    fn events_come_up_at_the_edge_of_a_list() {
        let mut rng = Rng::new(1, 7);
        let events = |drill: &[u8]| matches!(drill, b"+a" | b"-a" | b"+a|-a" | b"-a|+a");
        let (mut fitting, mut refused) = (0, 0);
        for _ in 0..2_000 {
            let Input { recording, drill } = crowded(&mut rng);
            if !events(&drill) {
                continue;
            }
            let mut answer = [0; 768];
            let returned = find(&recording, &drill, &mut answer, &mut [0; WORK_WORDS]);
            fitting += u32::from(returned.zones >= 127);
            refused += u32::from(returned.number == Refusal::ListFull.number());
        }
        assert!(fitting > 10, "{fitting}");
        assert!(refused > 10, "{refused}");
    }

    /// Texts beside an absence are read and refused often enough.
    #[test]
    fn tildes_come_up_right_and_wrong() {
        let mut rng = Rng::new(1, 11);
        let taste = Taste {
            leaves: 1,
            channels: 3,
            limit: 12,
            stars: true,
        };
        let (mut right, mut of_no_form, mut twice) = (0, 0, 0);
        for _ in 0..1_000 {
            let text = near_absence(&mut rng, taste);
            let drill = Drill::read(text.as_bytes(), 3);
            of_no_form += u32::from(drill == Err(Refusal::DrillForm));
            right += u32::from(drill.is_ok_and(|drill| drill.count(&is_absent) > 0));
            twice += u32::from(text.contains("~~"));
        }
        assert!(right > 50, "{right}");
        assert!(of_no_form > 500, "{of_no_form}");
        assert!(twice > 100, "{twice}");
    }

    fn is_absent(part: &Drill) -> bool {
        matches!(part, Drill::Absent(_))
    }

    /// Absences stand in every kind of operand, and hold every kind.
    #[test]
    fn absences_come_up_everywhere() {
        let mut rng = Rng::new(1, 12);
        let drills: Vec<Drill> = (0..4_000)
            .filter_map(|_| Drill::read(&small(&mut rng).drill, 3).ok())
            .collect();
        let often = |what: &str, meets: &dyn Fn(&Drill) -> bool| {
            let count = drills.iter().filter(|drill| drill.count(meets) > 0).count();
            assert!(count > 60, "{what}: {count}");
        };
        let has_absent = |part: &Drill| part.operands().into_iter().any(is_absent);
        let holds = |part: &Drill, kind: &dyn Fn(&Drill) -> bool| {
            is_absent(part) && part.operands().into_iter().any(kind)
        };
        type Kind = fn(&Drill) -> bool;
        let kinds: [(&str, Kind); 5] = [
            ("*", |part| matches!(part, Drill::Star(_))),
            (".", |part| matches!(part, Drill::Then(..))),
            ("&", |part| matches!(part, Drill::Both(..))),
            ("|", |part| matches!(part, Drill::Either(..))),
            ("{}", |part| matches!(part, Drill::Within(..))),
        ];
        for (name, kind) in kinds {
            often(&format!("~ in {name}"), &|part| {
                kind(part) && has_absent(part)
            });
            often(&format!("{name} in ~"), &|part| holds(part, &kind));
        }
        often("~ in ~", &|part| holds(part, &is_absent));
        often("~ of a letter", &|part| {
            holds(part, &|part| matches!(part, Drill::Letter { .. }))
        });
        often("~ of an event", &|part| {
            holds(part, &|part| matches!(part, Drill::Event { .. }))
        });
    }

    /// Lists of absences just fill their room, or nearly, and just do not.
    #[test]
    fn absences_come_up_at_the_edge_of_a_list() {
        let mut rng = Rng::new(1, 13);
        let absences = |drill: &[u8]| matches!(drill, b"~a" | b"~!a" | b"~+a" | b"~-a" | b"~(_|a)");
        let (mut fitting, mut refused) = (0, 0);
        for _ in 0..4_000 {
            let Input { recording, drill } = crowded(&mut rng);
            if !absences(&drill) {
                continue;
            }
            let mut answer = [0; 768];
            let returned = find(&recording, &drill, &mut answer, &mut [0; WORK_WORDS]);
            fitting += u32::from(returned.zones >= 124);
            refused += u32::from(returned.number == Refusal::ListFull.number());
        }
        assert!(fitting > 20, "{fitting}");
        assert!(refused > 20, "{refused}");
    }

    /// Sheets are of the right form often enough, and of each wrong one.
    #[test]
    fn sheets_come_up_right_and_wrong() {
        let mut rng = Rng::new(1, 8);
        let sheets: Vec<SheetInput> = (0..2_000).map(|_| sheet(&mut rng)).collect();
        let lines = |sheet: &SheetInput| -> Vec<Vec<u8>> {
            let lines = sheet.text.split_inclusive(|&byte| byte == b'\n');
            lines.map(<[u8]>::to_vec).collect()
        };
        let often = |least: usize, what: &str, meets: &dyn Fn(&SheetInput) -> bool| {
            let count = sheets.iter().filter(|sheet| meets(sheet)).count();
            assert!(count >= least, "{what}: {count}");
        };
        let refused = |sheet: &SheetInput| Recording::read(&sheet.recording).err();
        often(1_000, "right", &|sheet| {
            drills(&sheet.text).is_some() && refused(sheet).is_none()
        });
        often(50, "no line", &|sheet| sheet.text.is_empty());
        often(50, "eight lines", &|sheet| lines(sheet).len() == 8);
        often(100, "too many lines", &|sheet| lines(sheet).len() > 8);
        often(50, "an empty line", &|sheet| {
            lines(sheet).contains(&b"\n".to_vec())
        });
        often(50, "no last newline", &|sheet| {
            sheet.text.last().is_some_and(|&last| last != b'\n')
        });
        often(50, "a carriage return", &|sheet| {
            sheet.text.contains(&b'\r')
        });
        for length in [254, 255, 256, 257, 258] {
            let what = format!("a line of {length} bytes");
            often(10, &what, &|sheet| {
                lines(sheet).iter().any(|line| line.len() == length + 1)
            });
        }
        often(50, "a long line", &|sheet| {
            lines(sheet).iter().any(|line| line.len() > 1_000)
        });
        let causes = [Refusal::RecordingLength, Refusal::Head, Refusal::Change];
        for cause in causes {
            let what = cause.to_string();
            often(50, &what, &|sheet| {
                refused(sheet).is_some_and(|fault| fault.refusal == cause)
            });
        }
    }

    /// A drill that takes more rounds than it has on a sheet always stands before one with a star that
    /// takes fewer. Those about the edge come up on either side of it.
    #[test]
    fn greedy_drills_come_up_before_modest_ones() {
        let mut rng = Rng::new(1, 14);
        let (mut within, mut beyond) = (0, 0);
        for _ in 0..16 {
            let input = greedy(&mut rng);
            let lines: Vec<&[u8]> = input.drills.iter().map(Vec::as_slice).collect();
            assert_eq!(drills(&sheet_of(&lines)).as_ref(), Some(&lines));
            let (mut answer, mut work) = ([0; 768], [0; WORK_WORDS]);
            let rounds_of = |drill: &&[u8]| {
                let recording = &input.recording;
                let found = find_unless_slow(recording, drill, &mut answer, &mut work, 400_000);
                found.map_or(0, |found| found.returned.rounds)
            };
            let rounds: Vec<u64> = lines.iter().map(rounds_of).collect();
            let first = rounds.iter().position(|&rounds| rounds > DRILL_ROUNDS);
            let behind = &rounds[first.expect("a greedy drill")..];
            assert!(
                behind.iter().any(|few| (1..=20).contains(few)),
                "{rounds:?}"
            );
            let count = |about: RangeInclusive<u64>| {
                let inside = rounds.iter().filter(|rounds| about.contains(rounds));
                inside.count()
            };
            within += count(DRILL_ROUNDS - 50..=DRILL_ROUNDS);
            beyond += count(DRILL_ROUNDS + 1..=DRILL_ROUNDS + 50);
        }
        assert!(within >= 3 && beyond >= 3, "{within} {beyond}");
    }

    /// Drills with a `<` are accepted and refused often enough, by 5 and by 7.
    #[test]
    fn bounds_that_are_not_reached_come_up_right_and_wrong() {
        let mut rng = Rng::new(1, 4);
        let (mut right, mut of_no_form, mut wrong) = (0, 0, 0);
        for _ in 0..2_000 {
            let drill = outside(&mut rng).drill;
            if !drill.contains(&b'<') {
                continue;
            }
            match Drill::read(&drill, 16) {
                Ok(_) => right += 1,
                Err(Refusal::DrillForm) => of_no_form += 1,
                Err(Refusal::Band) => wrong += 1,
                Err(_) => (),
            }
        }
        assert!(right > 150, "{right}");
        assert!(of_no_form > 150, "{of_no_form}");
        assert!(wrong > 150, "{wrong}");
    }
}
