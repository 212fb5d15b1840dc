//! The campaign: the proved library, the two plain matchers and brute force on random inputs, until
//! the time is over or something does not agree.

use std::time::{Duration, Instant};

use crate::brute;
use crate::by_times::TriedList;
use crate::compare::{Call, Chain, Outcome, Rounds, Sheet, Taught};
use crate::drill::Drill;
use crate::exchange::Lines;
use crate::finder::{self, Found, Returned, WORK_WORDS};
use crate::inputs::{self, DrillsInput, Input, SheetInput};
use crate::lent::Lent;
use crate::lesson;
use crate::proved::{self, Proved, LESSON_ROOM};
use crate::random::Rng;
use crate::recording::{times, Recording};
use crate::refusal::Refusal;
use crate::tally::Tally;
use crate::zone::{Zone, WORDS};
use crate::zones::{Star, MAX_ZONES};

/// The longest drive, in ticks, that goes through brute force.
const MAX_BRUTE_TICKS: u32 = 12;
/// The longest drive, in ticks, on which all times are tried for each pair of two lists, and the most
/// compositions and rounds of one drill on such a drive, if it is too long for brute force.
const MAX_TRIED_TICKS: u32 = 1_000;
const MAX_TRIED: usize = 8;
/// Pairs of zones that the rounds of one drill may compose; the few cases with a drill above it are
/// passed over.
const MOST_PAIRS: u64 = 400_000;
/// One case in so many, the first one too, is a lesson with a drill that spends all its rounds: each time
/// one is run takes thousandths of a second.
const GREEDY: u64 = 8_000;

pub struct Campaign {
    pub seed: u64,
    pub time: Duration,
    /// Makes this one case of the seed, and no other.
    pub only: Option<u64>,
}

impl Campaign {
    /// A line of counts, or all there is to say about the first case that does not agree.
    pub fn run(&self) -> Result<String, String> {
        let proved = proved::linked();
        let mut tally = Tally::default();
        if let Some(case) = self.only {
            self.case(case, proved, &mut tally)?;
            return Ok(format!("case {case} of seed {} agrees: {tally}", self.seed));
        }
        let begin = Instant::now();
        let mut case = 0;
        while begin.elapsed() < self.time {
            self.case(case, proved, &mut tally)?;
            case += 1;
        }
        let missing = tally.missing();
        if !missing.is_empty() {
            return Err(format!("no call was {}: {tally}", missing.join(", ")));
        }
        let subject = match proved {
            Some(_) => "proved library, plain and quick matcher and brute force agree",
            None => "no proved library linked; plain and quick matcher and brute force agree",
        };
        Ok(format!("seed {}: {subject}: {tally}", self.seed))
    }

    fn case(&self, case: u64, proved: Option<Proved>, tally: &mut Tally) -> Result<(), String> {
        let mut rng = Rng::new(self.seed, case);
        // A lesson or a chain is several calls, so it comes up less often than one call.
        let compared = match rng.below(40) {
            _ if case.is_multiple_of(GREEDY) => greedy_case(&mut rng, proved, tally),
            0 => lesson_case(&mut rng, proved, tally),
            1 => chain_case(&mut rng, proved, tally),
            _ => call_case(&mut rng, proved, tally),
        };
        compared.map_err(|fault| {
            let seed = self.seed;
            format!(
                "case {case} of seed {seed} does not agree: {fault}\
                 again: harness campaign --seed {seed} --only {case}"
            )
        })
    }
}

/// A drill by itself, and told the rounds left.
fn call_case(rng: &mut Rng, proved: Option<Proved>, tally: &mut Tally) -> Result<(), String> {
    let input = inputs::any(rng);
    let Some(lent) = lent_to(rng, &input) else {
        tally.passed_over += 1;
        return Ok(());
    };
    compare_call(rng, &input, &lent, proved, tally).map_err(|fault| {
        let drill = escaped("drill", &input.drill);
        format!(
            "{fault}\n{}{drill}{}",
            hex(&input.recording),
            lengths(&lent)
        )
    })
}

/// One input through everything that has an opinion on it.
fn compare_call(
    rng: &mut Rng,
    input: &Input,
    lent: &Lent,
    proved: Option<Proved>,
    tally: &mut Tally,
) -> Result<(), String> {
    let call = Call {
        recording: &input.recording,
        drill: &input.drill,
        lent,
    };
    let (found, outcome) = find(input, lent).ok_or("too slow the second time")?;
    let number = found.returned.number;
    if number > Refusal::AnswerShort.number() {
        return Err(format!(
            "the plain matcher gives a drill by itself {number}"
        ));
    }
    lent.check_after(&outcome.after, found.returned)?;
    let quick = call.compare_quick(None, &outcome)?;
    if quick.stars != found.stars {
        return Err("the quick matcher has other stars".into());
    }
    if let Some(proved) = proved {
        call.compare(None, &outcome, proved)?;
        compare_front(rng, lent, found.returned, proved)?;
    }
    tally.note(&found);
    if found.returned.is_accepted() {
        let zones = finder::listed(found.returned, outcome.after.answer());
        check_accepted(input, &zones, &found.stars, tally)?;
    }
    if number == Refusal::ListFull.number() {
        note_full(input, tally)?;
    }
    // Each drill with rounds, and some of those without.
    let finished = call.finished(&outcome);
    if finished > 0 || rng.once_in(4) {
        let left = rounds_about(rng, finished);
        note_told(&call.compare_told(left, &outcome, proved)?, tally);
    }
    if rng.once_in(4) {
        compare_pairs(&call, &outcome, &quick.told, tally)?;
    }
    Ok(())
}

/// The pairs that the quick matcher composed, in each finished composition and round, against those
/// for which trying times finds one in common. What comes of it all must be the same once more.
fn compare_pairs(
    call: &Call,
    plain: &Outcome,
    composed: &[usize],
    tally: &mut Tally,
) -> Result<(), String> {
    // Of a wrong recording there are no lists.
    let ticks = Recording::read(call.recording).map_or(0, |recording| recording.ticks());
    let is_short = ticks <= MAX_BRUTE_TICKS;
    if !is_short && (ticks > MAX_TRIED_TICKS || composed.len() > MAX_TRIED) {
        return Ok(());
    }
    let tried = call.compare_lists::<TriedList>("the matcher by times", None, plain)?;
    let counted = tried.told.iter().map(|counted| counted.pairs);
    if !counted.eq(composed.iter().copied()) {
        let tried = tried.told;
        return Err(format!("quick composed {composed:?} pairs of {tried:?}"));
    }
    tally.note_pairs(&tried.told);
    Ok(())
}

/// The plain matcher on a drill by itself, unless it is slow.
fn find(input: &Input, lent: &Lent) -> Option<(Found, Outcome)> {
    let mut after = lent.clone();
    let (answer, work) = after.lend();
    let Input { recording, drill } = input;
    let found = finder::find_unless_slow(recording, drill, answer, work, MOST_PAIRS)?;
    let outcome = Outcome {
        returned: found.returned,
        left: None,
        after,
    };
    Some((found, outcome))
}

/// Buffers of all sorts of lengths, or nothing where the call would take too long.
fn lent_to(rng: &mut Rng, input: &Input) -> Option<Lent> {
    let ample = Lent::of(MAX_ZONES * WORDS, WORK_WORDS, rng);
    let (found, _) = find(input, &ample)?;
    let filled = found.returned.zones as usize * WORDS;
    let answer = match rng.below(8) {
        0 => filled.saturating_sub(1),
        1 => filled,
        2 => filled + 1,
        3 => rng.below(filled as u64 + 1) as usize,
        _ => filled + rng.below(100) as usize,
    };
    let work = work_words(rng);
    Some(Lent::of(answer, work, rng))
}

fn work_words(rng: &mut Rng) -> usize {
    match rng.below(24) {
        0 => WORK_WORDS - 1,
        1 => rng.below(WORK_WORDS as u64) as usize,
        2 => 0,
        3 => WORK_WORDS + rng.below(200) as usize,
        _ => WORK_WORDS,
    }
}

/// Buffers for several drills of one sheet, whatever they list.
fn lent_to_several(rng: &mut Rng) -> Lent {
    let answer = match rng.below(8) {
        0 => 0,
        1 | 2 => rng.below(40) as usize,
        3 => rng.below((MAX_ZONES * WORDS) as u64) as usize,
        _ => MAX_ZONES * WORDS + rng.below(10) as usize,
    };
    let work = work_words(rng);
    Lent::of(answer, work, rng)
}

/// Rounds to be told where a drill finishes so many: none, about as many, any at all.
fn rounds_about(rng: &mut Rng, finished: u64) -> u64 {
    match rng.below(10) {
        0 => 0,
        1 | 2 => finished.saturating_sub(1),
        3 | 4 => finished,
        5 | 6 => finished + 1,
        7 => rng.below(finished + 2),
        8 => u64::MAX - rng.below(2),
        _ => rng.number(),
    }
}

fn note_told(outcome: &Outcome, tally: &mut Tally) {
    tally.told.note(outcome.returned.number);
    let took_the_last = outcome.returned.rounds > 0 && outcome.left == Some(0);
    tally.last_rounds += u64::from(took_the_last);
}

/// Several drills in a row, with about as many rounds as they need together, or fewer: what is left is
/// handed on from call to call. That is no lesson, in which each drill has rounds of its own; it tries
/// the call that is told the rounds left on whatever another call left.
fn chain_case(rng: &mut Rng, proved: Option<Proved>, tally: &mut Tally) -> Result<(), String> {
    let input = inputs::chain(rng);
    let drills: Vec<&[u8]> = input.drills.iter().map(Vec::as_slice).collect();
    let lent = lent_to_several(rng);
    if !none_is_slow(&input.recording, &drills) {
        tally.passed_over += 1;
        return Ok(());
    }
    let needed = rounds_of(&input.recording, &drills, &lent);
    let rounds = if rng.once_in(2) {
        rng.below(needed + 1)
    } else {
        rounds_about(rng, needed)
    };
    let chain = Chain {
        recording: &input.recording,
        drills: &drills,
        rounds: Rounds::HandedOn(rounds),
        lent: &lent,
    };
    let outcomes = chain.compare(proved).map_err(|fault| {
        let drills: String = drills.iter().map(|one| escaped("drill", one)).collect();
        let lengths = lengths(&lent);
        let recording = hex(&input.recording);
        format!("{fault}\n{recording}{drills}{rounds} rounds\n{lengths}")
    })?;
    note_chain(&outcomes, tally);
    Ok(())
}

/// Rounds that drills finish together where there is no end to them.
fn rounds_of(recording: &[u8], drills: &[&[u8]], lent: &Lent) -> u64 {
    let finished = |drill: &&[u8]| {
        let call = Call {
            recording,
            drill,
            lent,
        };
        call.finished(&call.plain(None))
    };
    drills.iter().map(finished).sum()
}

fn note_chain(outcomes: &[Outcome], tally: &mut Tally) {
    let mut stopped = false;
    for outcome in outcomes {
        note_told(outcome, tally);
        tally.after_13 += u64::from(stopped && outcome.returned.is_accepted());
        stopped |= outcome.returned.number == 13;
    }
}

/// Whether no drill takes too long.
fn none_is_slow(recording: &[u8], drills: &[&[u8]]) -> bool {
    let mut answer = [0; MAX_ZONES * WORDS];
    let mut work = [0; WORK_WORDS];
    drills.iter().all(|drill| {
        let found = finder::find_unless_slow(recording, drill, &mut answer, &mut work, MOST_PAIRS);
        found.is_some()
    })
}

/// A sheet with a drill that spends all its rounds, and buffers in which the others have room.
fn greedy_case(rng: &mut Rng, proved: Option<Proved>, tally: &mut Tally) -> Result<(), String> {
    let DrillsInput { recording, drills } = inputs::greedy(rng);
    let mut drills: Vec<&[u8]> = drills.iter().map(Vec::as_slice).collect();
    drills.retain(|drill| none_is_slow(&recording, &[drill]));
    let text = lesson::sheet_of(&drills);
    let lent = Lent::of(MAX_ZONES * WORDS, WORK_WORDS, rng);
    compare_sheet(rng, &SheetInput { recording, text }, &lent, proved, tally)
}

/// A whole sheet.
fn lesson_case(rng: &mut Rng, proved: Option<Proved>, tally: &mut Tally) -> Result<(), String> {
    let input = inputs::sheet(rng);
    let lent = lent_to_several(rng);
    let drills = lesson::drills(&input.text).unwrap_or_default();
    if !none_is_slow(&input.recording, &drills) {
        tally.passed_over += 1;
        return Ok(());
    }
    compare_sheet(rng, &input, &lent, proved, tally)
}

fn compare_sheet(
    rng: &mut Rng,
    input: &SheetInput,
    lent: &Lent,
    proved: Option<Proved>,
    tally: &mut Tally,
) -> Result<(), String> {
    let room = LESSON_ROOM + *rng.pick(&[0, 0, 1, 999]);
    let sheet = Sheet {
        recording: &input.recording,
        text: &input.text,
        lent,
    };
    let compared = sheet.compare(proved, room, MAX_BRUTE_TICKS);
    compared
        .and_then(|taught| {
            note_lesson(&taught, tally);
            compare_lines(rng, &sheet, &taught, proved, tally)
        })
        .map_err(|fault| {
            let text = escaped("sheet", &input.text);
            let lengths = lengths(lent);
            let recording = hex(&input.recording);
            format!("{fault}\n{recording}{text}{lengths}room for {room} bytes\n")
        })
}

/// Two lines of the sheet exchanged, which may be the same one, and each line alone.
fn compare_lines(
    rng: &mut Rng,
    sheet: &Sheet,
    taught: &Taught,
    proved: Option<Proved>,
    tally: &mut Tally,
) -> Result<(), String> {
    let lines = Lines::of(sheet, &taught.lesson);
    if lines.count() == 0 {
        return Ok(());
    }
    let print = |text: &[u8]| Sheet { text, ..*sheet }.printed(proved);
    let [one, other] = [0, 0].map(|_| rng.below(lines.count() as u64) as usize);
    lines.check_exchanged(one, other, print)?;
    tally.exchanged += u64::from(lines.differ(one, other));
    for line in 0..lines.count() {
        lines.check_alone(line, print)?;
        tally.lines_alone += 1;
    }
    Ok(())
}

fn note_lesson(taught: &Taught, tally: &mut Tally) {
    tally.lessons.note(taught.lesson.number);
    tally.stretches += taught.stretches;
    let mut is_behind = false;
    for outcome in &taught.drills {
        note_told(outcome, tally);
        let Returned { number, rounds, .. } = outcome.returned;
        // Every star has a round at least.
        tally.behind_greedy += u64::from(is_behind && rounds > 0);
        let is_stopped = number == Refusal::RoundsSpent.number();
        tally.greedy += u64::from(is_stopped);
        is_behind |= is_stopped;
    }
}

fn compare_front(
    rng: &mut Rng,
    lent: &Lent,
    returned: Returned,
    proved: Proved,
) -> Result<(), String> {
    let held = lent.answer().len() / WORDS;
    let tame = [returned.zones as usize, held, held + 1, 0];
    // Too many to be counted in words.
    let wild = [rng.number() as usize, usize::MAX, usize::MAX / WORDS + 1];
    for told in tame.into_iter().chain(wild) {
        let theirs = (proved.front)(lent.answer(), told);
        let plain = finder::front(lent.answer().len(), told);
        if theirs != plain {
            return Err(format!("told {told} zones, front is {theirs}, not {plain}"));
        }
    }
    Ok(())
}

/// The bound on the rounds of each star, and the meaning of the zones.
fn check_accepted(
    input: &Input,
    zones: &[Zone],
    stars: &[Star],
    tally: &mut Tally,
) -> Result<(), String> {
    let (recording, drill) = read(input)?;
    for star in stars {
        if star.rounds > star.inner as u64 + u64::from(recording.ticks()) {
            return Err(format!("{star:?} took more than n + d rounds"));
        }
    }
    let reached = |part: &Drill| !matches!(part, Drill::Within(_, band) if !band.is_reached());
    tally.not_reached += u64::from(!drill.all(&reached));
    tally.halves_down += u64::from(times(&input.recording).any(is_half_down));
    tally.rises += u64::from(has_event(&drill, &recording, true));
    tally.falls += u64::from(has_event(&drill, &recording, false));
    tally.absences += u64::from(has_absence(&drill, &input.recording));
    tally.absent_absences += u64::from(has_absent_absence(&drill));
    if asks_for_low_or_event(&drill) {
        tally.first_reports.note(recording.first_report());
    }
    if recording.ticks() <= MAX_BRUTE_TICKS {
        tally.stretches += brute::compare(&drill, &recording, zones)?;
    }
    Ok(())
}

/// Both inputs of a call that came as far as its lists.
fn read(input: &Input) -> Result<(Recording<'_>, Drill), String> {
    let recording = Recording::read(&input.recording).map_err(|_| "took a wrong recording")?;
    let drill = Drill::read(&input.drill, recording.channels());
    Ok((recording, drill.map_err(|_| "took a wrong drill")?))
}

/// A drill that is refused by 10.
fn note_full(input: &Input, tally: &mut Tally) -> Result<(), String> {
    let (_, drill) = read(input)?;
    tally.full_absences += u64::from(has_full_absence(&drill, &input.recording));
    Ok(())
}

/// What a part of a drill comes to by itself, unless it is slow.
fn alone(part: &Drill, recording: &[u8]) -> Option<Returned> {
    let (mut answer, mut work) = ([0; MAX_ZONES * WORDS], [0; WORK_WORDS]);
    let text = part.to_string();
    let drill = text.as_bytes();
    let found = finder::find_unless_slow(recording, drill, &mut answer, &mut work, MOST_PAIRS);
    found.map(|found| found.returned)
}

/// Whether some absence of the drill has something to leave out.
fn has_absence(drill: &Drill, recording: &[u8]) -> bool {
    let leaves_out = |part: &Drill| match part {
        Drill::Absent(inner) => alone(inner, recording).is_some_and(|found| found.zones > 0),
        _ => false,
    };
    drill.count(&leaves_out) > 0
}

/// Whether some absence of the drill is in the operand of another.
fn has_absent_absence(drill: &Drill) -> bool {
    let is_absent = |part: &Drill| matches!(part, Drill::Absent(_));
    drill.count(&|part| is_absent(part) && part.count(&is_absent) > 1) > 0
}

/// Whether some absence of the drill has no room for its list though its operand has.
fn has_full_absence(drill: &Drill, recording: &[u8]) -> bool {
    let is_full = |part: &Drill| match part {
        Drill::Absent(inner) => {
            let numbers =
                [inner, part].map(|part| alone(part, recording).map(|found| found.number));
            numbers == [Some(0), Some(Refusal::ListFull.number())]
        }
        _ => false,
    };
    drill.count(&is_full) > 0
}

/// Whether some event of the drill, a rise or a fall, is there in the recording, so that its list is
/// not empty.
fn has_event(drill: &Drill, recording: &Recording, wanted: bool) -> bool {
    let is_there = |part: &Drill| {
        matches!(part, Drill::Event { channel, rise }
            if *rise == wanted && recording.has_event(*channel, *rise))
    };
    drill.count(&is_there) > 0
}

/// Whether a `!` and a letter or an event stands in the drill.
fn asks_for_low_or_event(drill: &Drill) -> bool {
    let asks = |part: &Drill| {
        matches!(
            part,
            Drill::Letter { high: false, .. } | Drill::Event { .. }
        )
    };
    drill.count(&asks) > 0
}

/// Whether a time lies halfway between two ticks of which the lower is even: here, and nowhere
/// else, going to the even tick differs from going up.
fn is_half_down(ms: u32) -> bool {
    ms % 20 == 5
}

/// What is needed to make a case again.
fn hex(recording: &[u8]) -> String {
    let hex: String = recording.iter().map(|byte| format!("{byte:02x}")).collect();
    format!("recording, {} bytes: {hex}\n", recording.len())
}

fn escaped(what: &str, text: &[u8]) -> String {
    let (bytes, text) = (text.len(), text.escape_ascii());
    format!("{what}, {bytes} bytes: \"{text}\"\n")
}

fn lengths(lent: &Lent) -> String {
    let (answer, work) = (lent.answer().len(), lent.work().len());
    format!("answer {answer} words, work {work} words\n")
}

#[cfg(test)]
mod tests {
    use super::*;
    use crate::examples::{low_start_r, pulses, recording, recording_r};
    use crate::recording::tick;

    #[test]
    fn a_short_campaign_agrees() {
        let campaign = Campaign {
            seed: 1,
            time: Duration::from_secs(3),
            only: None,
        };
        let line = campaign.run().expect("agreement");
        assert!(line.starts_with("seed 1: "), "{line}");
    }

    /// Where a half goes down, halves up would give another tick; anywhere else the same.
    #[test]
    fn halves_go_down_where_rounding_up_differs() {
        assert_eq!([5, 25, 105, 9_999_985].map(is_half_down), [true; 4]);
        for ms in 0..1_000 {
            let up = (ms + 5) / 10;
            assert_eq!(is_half_down(ms), tick(ms) != up, "{ms}");
        }
    }

    /// On R with a low start, `a` rises once and falls once; on R itself, and where it is high from the
    /// start on, it only falls.
    #[test]
    fn events_count_where_they_list_a_zone() {
        let counted = |bytes: &[u8], text: &str| {
            let recording = Recording::read(bytes).expect("a sound recording");
            let drill = Drill::read(text.as_bytes(), 1).expect(text);
            [true, false].map(|rise| has_event(&drill, &recording, rise))
        };
        let low_start = low_start_r();
        assert_eq!(counted(&low_start, "+a"), [true, false]);
        assert_eq!(counted(&low_start, "(a.-a)*|_"), [false, true]);
        assert_eq!(counted(&low_start, "+a.-a"), [true, true]);
        assert_eq!(counted(&low_start, "a.!a"), [false, false]);
        assert_eq!(counted(&recording_r(), "+a.-a"), [false, true]);
        let from_the_start = recording(100, 1, &[(0, 1), (50, 0)]);
        assert_eq!(counted(&from_the_start, "+a|-a"), [false, true]);
    }

    /// On R, `a` has a zone and no rise, and with 32 runs `~a` has no room.
    #[test]
    fn absences_count_where_they_leave_something_out() {
        let counted = |bytes: &[u8], text: &str| {
            let drill = Drill::read(text.as_bytes(), 1).expect(text);
            let leaves_out = has_absence(&drill, bytes);
            let is_full = has_full_absence(&drill, bytes);
            [leaves_out, has_absent_absence(&drill), is_full]
        };
        let on_r = |text: &str| counted(&recording_r(), text);
        assert_eq!(on_r("a.!a"), [false, false, false]);
        assert_eq!(on_r("(a.~a)*"), [true, false, false]);
        assert_eq!(on_r("~+a|a"), [false, false, false]);
        assert_eq!(on_r("~a&~a"), [true, false, false]);
        assert_eq!(on_r("~(~+a)"), [true, true, false]);
        assert_eq!(on_r("a|~(a.(~a)*)"), [true, true, false]);
        let full = |text: &str| counted(&pulses(32), text);
        assert_eq!(full("a|~a"), [true, false, true]);
        assert_eq!(full("~(_|a)"), [true, false, false]);
        // The operand has no room itself.
        assert_eq!(counted(&pulses(129), "~a"), [false, false, false]);
    }

    #[test]
    fn what_is_before_the_first_report_shows_in_low_channels_and_events() {
        for (text, asks) in [
            ("a", false),
            ("_.(a|a{1,2})*", false),
            ("!a", true),
            ("(a.!a)*", true),
            ("_|+a", true),
            ("a&-a", true),
        ] {
            let drill = Drill::read(text.as_bytes(), 1).expect(text);
            assert_eq!(asks_for_low_or_event(&drill), asks, "{text}");
        }
    }
}
