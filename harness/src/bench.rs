//! Times of the proved library beside the plain and the quick matcher, on the same inputs in one run.

use std::hint::black_box;
use std::time::{Duration, Instant};

use crate::examples::{pulses, recording, with_runs};
use crate::finder::{self, Returned, WORK_WORDS};
use crate::lesson::DRILL_ROUNDS;
use crate::proved::{self, Proved};
use crate::quick::QuickList;
use crate::random::Rng;
use crate::recording::{encode, tick, Change, Head, MAX_LENGTH, RECORD};
use crate::zone::WORDS;
use crate::zones::{Allowed, MAX_ZONES};

/// One call to be timed.
struct Row {
    /// What sets it apart from the other rows of its table.
    name: String,
    recording: Vec<u8>,
    drill: String,
    /// The rounds left that the call is told, none for a drill by itself.
    left: Option<u64>,
}

impl Row {
    fn new(name: impl Into<String>, recording: Vec<u8>, drill: impl Into<String>) -> Row {
        Row {
            name: name.into(),
            recording,
            drill: drill.into(),
            left: None,
        }
    }

    fn told(self, left: u64) -> Row {
        Row {
            left: Some(left),
            ..self
        }
    }
}

/// Prints the tables, or says where the finders do not agree.
pub fn run() -> Result<(), String> {
    let proved = proved::linked();
    println!("Times in microseconds, the best of many calls, the finders by turns.");
    println!("All work in the same buffers, which are not cleared before a call.");
    println!("All clear the first 16,384 work words themselves, which is part of every time.");
    println!("The ratio is that of proved to plain.");
    say_what_is_linked(proved);
    for (title, rows) in tables() {
        print_table(title, &rows, proved)?;
    }
    Ok(())
}

fn say_what_is_linked(proved: Option<Proved>) {
    if proved.is_none() {
        println!("The proved library is not linked (--features proved): plain and quick alone.");
    }
}

fn tables() -> Vec<(&'static str, Vec<Row>)> {
    vec![
        ("Concatenation on random channels", concatenations()),
        ("Star ((a.b){0,r})* for falling r", falling_bands()),
        ("Oscillation, as in document 004", oscillations()),
        ("Star over many zones for many rounds", crowded_stars()),
        ("Reading the largest recording", largest_recordings()),
        ("A sheet's worth of ordinary drills", ordinary_drills()),
        ("Growth with the zones", growth_with_zones()),
        ("Growth with the rounds", growth_with_rounds()),
        ("Growth with the changes", growth_with_changes()),
        ("Rises and falls", events()),
        ("Calls told the rounds left", told_rounds()),
        ("Long lists, few pairs with a time in common", long_lists()),
        ("Absence", absences()),
    ]
}

/// The times of the finders, or what is made of them.
#[derive(Clone, Copy)]
struct Times {
    plain: f64,
    quick: f64,
    proved: Option<f64>,
}

impl Times {
    /// The same for all finders, of whom the proved one may be missing.
    fn all(time: f64, proved: Option<Proved>) -> Times {
        Times {
            plain: time,
            quick: time,
            proved: proved.map(|_| time),
        }
    }

    /// Each finder's two times made into one.
    fn with(self, other: Times, join: impl Fn(f64, f64) -> f64) -> Times {
        let proved = self.proved.zip(other.proved);
        Times {
            plain: join(self.plain, other.plain),
            quick: join(self.quick, other.quick),
            proved: proved.map(|(one, other)| join(one, other)),
        }
    }

    fn times(self, factor: f64) -> Times {
        self.with(self, |time, _| time * factor)
    }

    /// The last four columns: each finder's time, and proved by plain.
    fn columns(self) -> String {
        let Times {
            plain,
            quick,
            proved,
        } = self;
        match proved {
            Some(proved) => {
                let ratio = proved / plain;
                format!("{plain:>11.2} {quick:>11.2} {proved:>11.2} {ratio:>7.2}")
            }
            None => format!("{plain:>11.2} {quick:>11.2} {:>11} {:>7}", "-", "-"),
        }
    }
}

/// The heads of these columns.
fn heads() -> String {
    let [plain, quick, proved, ratio] = ["plain", "quick", "proved", "ratio"];
    format!("{plain:>11} {quick:>11} {proved:>11} {ratio:>7}")
}

fn print_table(title: &str, rows: &[Row], proved: Option<Proved>) -> Result<(), String> {
    println!("\n{title}");
    println!(
        "{:<44} {:>7} {:>5} {:>7} {}",
        "",
        "number",
        "zones",
        "rounds",
        heads()
    );
    let mut sums = Times::all(0.0, proved);
    for row in rows {
        let best = print_row(row, proved)?;
        sums = sums.with(best, |sum, time| sum + time);
    }
    println!("{:<44} {:>21} {}", "sum", "", sums.columns());
    Ok(())
}

/// Prints a row and gives its times.
fn print_row(row: &Row, proved: Option<Proved>) -> Result<Times, String> {
    let mut bench = Bench::new(row);
    let returned = bench.agreed(proved)?;
    let best = by_turns(&mut bench, proved);
    println!(
        "{:<44} {:>7} {:>5} {:>7} {}",
        row.name,
        returned.number,
        returned.zones,
        returned.rounds,
        best.columns()
    );
    Ok(best)
}

/// A row with buffers for its calls.
struct Bench<'a> {
    row: &'a Row,
    answer: Vec<i32>,
    work: Vec<i32>,
}

impl Bench<'_> {
    fn new(row: &Row) -> Bench<'_> {
        Bench {
            row,
            answer: vec![-1; MAX_ZONES * WORDS],
            work: vec![-1; WORK_WORDS],
        }
    }

    /// What is returned, and the rounds left afterwards if the call is told any.
    fn plain(&mut self) -> (Returned, Option<u64>) {
        let (recording, drill) = (&self.row.recording, self.row.drill.as_bytes());
        let (answer, work) = (&mut self.answer, &mut self.work);
        let Some(left) = self.row.left else {
            return (finder::find(recording, drill, answer, work), None);
        };
        let (returned, left) = finder::find_with_rounds(recording, drill, left, answer, work);
        (returned, Some(left))
    }

    fn quick(&mut self) -> (Returned, Option<u64>) {
        let (recording, drill) = (&self.row.recording, self.row.drill.as_bytes());
        let (answer, work) = (&mut self.answer, &mut self.work);
        let mut allowed = Allowed {
            rounds: self.row.left.unwrap_or(u64::MAX),
            ..Allowed::ALL
        };
        let found = finder::call::<QuickList>(recording, drill, answer, work, &mut allowed);
        let returned = found.expect("no drill takes as many pairs").returned;
        (returned, self.row.left.map(|_| allowed.rounds))
    }

    fn proved(&mut self, proved: Proved) -> (Returned, Option<u64>) {
        let (recording, drill) = (&self.row.recording, self.row.drill.as_bytes());
        let (answer, work) = (&mut self.answer, &mut self.work);
        let mut counts = [0; 2];
        let mut left = self.row.left;
        let number = match &mut left {
            None => (proved.find)(recording, drill, answer, work, &mut counts),
            Some(left) => (proved.within)(recording, drill, left, answer, work, &mut counts),
        };
        let [zones, rounds] = counts;
        let returned = Returned {
            number,
            zones,
            rounds,
        };
        (returned, left)
    }

    /// What the finders return, if they do the same.
    fn agreed(&mut self, proved: Option<Proved>) -> Result<Returned, String> {
        let plain = self.plain();
        let check = |finder: &str, call: &dyn Fn(&mut Bench) -> (Returned, Option<u64>)| {
            let mut other = Bench::new(self.row);
            let theirs = call(&mut other);
            if theirs == plain && other.answer == self.answer {
                return Ok(());
            }
            let name = &self.row.name;
            Err(format!("{name}: {finder} {theirs:?}, not {plain:?}"))
        };
        check("quick", &|bench| bench.quick())?;
        if let Some(proved) = proved {
            check("proved", &|bench| bench.proved(proved))?;
        }
        Ok(plain.0)
    }
}

/// Calls each finder over and over, a few times one and then the next, and keeps the best time
/// of each in microseconds. All work in the same buffers: where a buffer stands in memory decides
/// how fast its 65,536 bytes are cleared, and that is most of a short call.
fn by_turns(bench: &mut Bench, proved: Option<Proved>) -> Times {
    const TURNS: u32 = 5;
    let mut best = Times::all(f64::INFINITY, proved);
    for _ in 0..TURNS {
        let turn = Times {
            plain: best_of_many(|| bench.plain()),
            quick: best_of_many(|| bench.quick()),
            proved: proved.map(|proved| best_of_many(|| bench.proved(proved))),
        };
        best = best.with(turn, f64::min);
    }
    best
}

/// The best time of a call in microseconds. It stays a function of its own, so that the loop around the
/// clock is not mixed into what it times.
#[inline(never)]
fn best_of_many<R>(mut call: impl FnMut() -> R) -> f64 {
    const LEAST_TIME: Duration = Duration::from_millis(15);
    const LEAST_CALLS: u32 = 8;
    let begin = Instant::now();
    let mut best = Duration::MAX;
    let mut calls = 0;
    while calls < LEAST_CALLS || begin.elapsed() < LEAST_TIME {
        let start = Instant::now();
        black_box(call());
        best = best.min(start.elapsed());
        calls += 1;
    }
    best.as_secs_f64() * 1e6
}

/// The first recording that `make` gives for seeds 0, 1, ... in which all drills find something.
fn accepted(make: impl Fn(&mut Rng) -> Vec<u8>, drills: &[&str]) -> Vec<u8> {
    const BUDGET: u64 = 20_000_000;
    let accepts = |recording: &Vec<u8>| {
        let mut answer = vec![0; MAX_ZONES * WORDS];
        let mut work = vec![0; WORK_WORDS];
        drills.iter().all(|drill| {
            let drill = drill.as_bytes();
            finder::find_unless_slow(recording, drill, &mut answer, &mut work, BUDGET)
                .is_some_and(|found| found.returned.is_accepted() && found.returned.zones > 0)
        })
    };
    (0..2_000)
        .map(|seed| make(&mut Rng::new(seed, 0)))
        .find(accepts)
        .unwrap_or_else(|| panic!("no recording is accepted for {drills:?}"))
}

/// Sorted random ticks, all different, below `ticks`.
fn switching_ticks(rng: &mut Rng, count: usize, ticks: u32) -> Vec<u32> {
    let mut chosen = std::collections::BTreeSet::new();
    while chosen.len() < count {
        chosen.insert(rng.between(0, ticks - 1));
    }
    chosen.into_iter().collect()
}

/// A recording in which channel k switches at the k-th list of ticks. All channels are reported from
/// tick 0 on, low until they switch.
fn channels_switching(ticks: u32, switches: &[Vec<u32>]) -> Vec<u8> {
    let mut all: Vec<(u32, u16)> = Vec::new();
    for (channel, ticks) in switches.iter().enumerate() {
        all.extend(ticks.iter().map(|&tick| (tick, 1 << channel)));
    }
    all.sort_unstable();
    let mut levels = 0;
    let mut changes = vec![Change { time: 0, levels }];
    for (at, switched) in all {
        levels ^= switched;
        match changes.last_mut() {
            Some(last) if tick(last.time) == at => last.levels = levels,
            _ => changes.push(Change {
                time: 10 * at,
                levels,
            }),
        }
    }
    let head = Head {
        duration: 10 * ticks,
        channels: switches.len() as u8,
    };
    encode(head, &changes)
}

fn concatenations() -> Vec<Row> {
    let drill = "a.b";
    let mut rows: Vec<Row> = [8, 16, 32, 60]
        .into_iter()
        .map(|runs| {
            let make = |rng: &mut Rng| {
                let ticks = 40 * runs as u32;
                let switches = [0, 1].map(|_| switching_ticks(rng, 2 * runs, ticks));
                channels_switching(ticks, &switches)
            };
            let name = format!("a.b, {runs} runs each, anywhere");
            Row::new(name, accepted(make, &[drill]), drill)
        })
        .collect();
    rows.push(Row::new(
        "a.b, 128 runs each, in pairs",
        accepted(paired_runs, &[drill]),
        drill,
    ));
    // One more, and the runs of !a would be too many.
    rows.push(Row::new("a.!a, 127 runs", pulses(127), "a.!a"));
    rows
}

/// 128 runs of each of two channels, one of each in every 20 ticks, so that a list has room for
/// all that comes of them.
fn paired_runs(rng: &mut Rng) -> Vec<u8> {
    let mut switches = [Vec::new(), Vec::new()];
    for slot in 0..MAX_ZONES as u32 {
        for channel in &mut switches {
            let ticks = switching_ticks(rng, 2, 18);
            channel.extend(ticks.iter().map(|tick| 20 * slot + tick));
        }
    }
    channels_switching(20 * MAX_ZONES as u32, &switches)
}

fn falling_bands() -> Vec<Row> {
    let bands = [128, 64, 32, 16, 8, 4];
    let make = |rng: &mut Rng| {
        let switches = [0, 1].map(|_| switching_ticks(rng, 24, 1200));
        channels_switching(1200, &switches)
    };
    let drills = bands.map(|r| format!("((a.b){{0,{r}}})*"));
    let recording = accepted(make, &drills.each_ref().map(String::as_str));
    let rows = bands.into_iter().zip(drills);
    rows.map(|(r, drill)| Row::new(format!("r = {r}"), recording.clone(), drill))
        .collect()
}

/// The paper's expression, with its times as ticks: both channels switch rapidly for a while.
const OSCILLATION: &str = "(((a.!a){0,10})*&((b.!b){0,10})*){80,}";

fn oscillations() -> Vec<Row> {
    [1, 2, 4, 8]
        .into_iter()
        .map(|segments| {
            let make = |rng: &mut Rng| segmented(rng, segments);
            let name = format!("{segments} segments of 400 ticks");
            let recording = accepted(make, &[OSCILLATION]);
            Row::new(name, recording, OSCILLATION)
        })
        .collect()
}

/// Segments of 400 ticks in which both channels switch together, rapidly at the start, and then
/// settle. A list has room for the stretches of one segment that oscillates for long enough, so
/// the others do so for less.
fn segmented(rng: &mut Rng, segments: u32) -> Vec<u8> {
    let lively = rng.below(segments.into()) as u32;
    let mut switches = [Vec::new(), Vec::new()];
    for segment in 0..segments {
        let (mut at, end) = (400 * segment, 400 * (segment + 1) - 20);
        let mut left = if segment == lively { 21 } else { 3 };
        let mut pause = 8;
        while at < end {
            switches[0].push(at);
            switches[1].push(at + u32::from(rng.once_in(4)));
            if left > 0 {
                left -= 1;
                at += 4 + u32::from(rng.once_in(3));
            } else {
                pause *= 2;
                at += pause;
            }
        }
    }
    channels_switching(400 * segments, &switches)
}

/// One channel with so many runs of this length, 5 ticks apart.
fn apart(runs: u32, length: u32) -> Vec<u8> {
    let changes: Vec<(u32, u16)> = (0..runs)
        .flat_map(|k| [(k, 0, 1), (k, length, 0)])
        .map(|(k, after, level)| (10 * (k * (length + 5) + after), level))
        .collect();
    recording(10 * runs * (length + 5), 1, &changes)
}

fn crowded_stars() -> Vec<Row> {
    vec![
        Row::new("(a{0,1})*, 64 runs of 200", apart(64, 200), "(a{0,1})*"),
        Row::new("(a{0,1})*, 127 runs of 200", apart(127, 200), "(a{0,1})*"),
        Row::new(
            "(a{0,2}.a{0,1})*, 100 runs of 300",
            apart(100, 300),
            "(a{0,2}.a{0,1})*",
        ),
        Row::new("(a{1,1})*, one run of 120", apart(1, 120), "(a{1,1})*"),
        Row::new(
            "(a{3,3}|a{7,7})*, one run of 100",
            apart(1, 100),
            "(a{3,3}|a{7,7})*",
        ),
    ]
}

/// As many changes as a recording holds, each on a tick of its own, on channels b to p.
fn many_changes(changes: u32) -> Vec<u8> {
    let changes: Vec<(u32, u16)> = (0..changes)
        .map(|k| (10 * k, 1 << (1 + k % 15) | u16::from(k >= 100)))
        .collect();
    recording(10 * MAX_LENGTH as u32, 16, &changes)
}

fn largest_recordings() -> Vec<Row> {
    let most = (MAX_LENGTH / RECORD - 1) as u32;
    vec![
        Row::new("_", many_changes(most), "_"),
        Row::new("a", many_changes(most), "a"),
        Row::new("a.!a|a&!a", many_changes(most), "a.!a|a&!a"),
    ]
}

/// Ten minutes with six switches: a indicator, b mirror, c steering, d brake, e platform at full
/// stroke, f clutch.
fn ordinary_drive(rng: &mut Rng) -> Vec<u8> {
    let runs = [12, 30, 20, 25, 6, 28];
    let switches = runs.map(|runs| switching_ticks(rng, 2 * runs, 60_000));
    channels_switching(60_000, &switches)
}

fn ordinary_drills() -> Vec<Row> {
    let drills = [
        "b.a{200,500}.c",
        "(b&!a).a{100,}",
        "a&b&!c",
        "(d.!d){0,300}.f",
        "d{50,}&!e",
        "((d.!d){0,900})*{1000,}",
        "e.(!e&!f){0,400}",
        "(b.!b){0,1500}&(a|!a.a)",
        "(f.!f.f){0,2000}",
        "b.(!b&!a){0,1500}.(a&!b){100,}.(c&a)",
    ];
    let recording = accepted(ordinary_drive, &drills);
    drills
        .into_iter()
        .map(|drill| Row::new(drill, recording.clone(), drill))
        .collect()
}

fn growth_with_zones() -> Vec<Row> {
    let runs = [8, 16, 32, 64, 127];
    let drills = ["a", "a.!a", "a&a", "a|a{1,1}"];
    let pairs = drills.iter().flat_map(|drill| runs.map(|n| (drill, n)));
    pairs
        .map(|(drill, n)| Row::new(format!("{drill}, {n} runs"), pulses(n), *drill))
        .collect()
}

fn growth_with_rounds() -> Vec<Row> {
    [10, 100, 1_000, 10_000, 100_000]
        .into_iter()
        .map(|ticks| {
            let name = format!("(a{{0,1}})*, one run of {ticks}");
            Row::new(name, recording(10 * ticks, 1, &[(0, 1)]), "(a{0,1})*")
        })
        .collect()
}

fn growth_with_changes() -> Vec<Row> {
    [0, 255, 511, 1_023, 2_047, 4_095]
        .into_iter()
        .map(|changes| Row::new(format!("a, {changes} changes"), many_changes(changes), "a"))
        .collect()
}

fn events() -> Vec<Row> {
    let most = (MAX_LENGTH / RECORD - 1) as u32;
    let turn = "(+a.a&!c{0,300}).c";
    vec![
        Row::new("+a, the largest recording", many_changes(most), "+a"),
        Row::new("+a, 128 rises", pulses(128), "+a"),
        Row::new("+a.a{1,}.-a, 127 runs", pulses(127), "+a.a{1,}.-a"),
        Row::new(turn, accepted(ordinary_drive, &[turn]), turn),
        Row::new("(+a|-a|a)*, 42 runs", pulses(42), "(+a|-a|a)*"),
        Row::new("(+a.a.-a.!a)*, 15 runs", pulses(15), "(+a.a.-a.!a)*"),
    ]
}

/// `~a` has four zones for each run, so 30 runs nearly fill a list; the 121 zones that they leave are the
/// operand of the next row.
fn absences() -> Vec<Row> {
    let on_pulses = |drill: &str, runs: u32| {
        let name = format!("{drill}, {runs} runs");
        Row::new(name, pulses(runs), drill)
    };
    let no_glance = "a&~(~(b&!b).b.~(b&!b))";
    let without = "(a&~b).c";
    let ordinary = accepted(ordinary_drive, &[no_glance, without]);
    vec![
        on_pulses("~a", 8),
        on_pulses("~a", 30),
        on_pulses("~(~a)", 30),
        on_pulses("~(_|a)", 63),
        on_pulses("~+a", 63),
        on_pulses("a.~a", 30),
        Row::new(no_glance, ordinary.clone(), no_glance),
        Row::new(without, ordinary, without),
    ]
}

/// The same work as in rows of other tables, with the rounds counted down: enough of them, just
/// enough, and too few.
fn told_rounds() -> Vec<Row> {
    let ordinary = ["b.a{200,500}.c", "((d.!d){0,900})*{1000,}"];
    let drive = accepted(ordinary_drive, &ordinary);
    let mut rows: Vec<Row> = ordinary
        .into_iter()
        .map(|drill| Row::new(drill, drive.clone(), drill).told(DRILL_ROUNDS))
        .collect();
    let run = |left: u64| {
        let name = format!("(a{{0,1}})*, one run of 10000, told {left}");
        Row::new(name, apart(1, 10_000), "(a{0,1})*").told(left)
    };
    rows.extend([run(DRILL_ROUNDS), run(10_000), run(5_000), run(0)]);
    rows.extend([
        Row::new("(a{0,1})*, 127 runs of 200", apart(127, 200), "(a{0,1})*").told(DRILL_ROUNDS),
        Row::new("(a{1,1})*, one run of 120", apart(1, 120), "(a{1,1})*").told(DRILL_ROUNDS),
        Row::new("(a{1,1})*, one run of 200", apart(1, 200), "(a{1,1})*").told(DRILL_ROUNDS),
    ]);
    rows
}

/// Compositions of long lists in which most pairs, or all, have no time in common.
fn long_lists() -> Vec<Row> {
    let any = then_any_of(15);
    let no_order = accepted(runs_in_no_order, &[&any]);
    vec![
        Row::new("a.(b|..|p), right list in no order", no_order, any),
        Row {
            name: format!("a.b, {MANY} runs each, all apart"),
            ..apart_in_rising_time(MANY, MANY)
        },
        Row {
            name: format!("a.(b|..|p), {MANY} and {MANY} runs, all apart"),
            ..apart_in_no_order(MANY, MANY)
        },
        Row::new(
            "((a|b){1,1}|c{2,}|d{0,1})*, 124 in a row",
            neighbours_in_a_row(62),
            "((a|b){1,1}|c{2,}|d{0,1})*",
        ),
    ]
}

/// About 120 short runs of the first channel, and 8 of each of the other fifteen, anywhere: some of
/// them may come to lie side by side, and are one run then.
fn runs_in_no_order(rng: &mut Rng) -> Vec<u8> {
    let ticks = 2_000;
    let mut runs_of = |runs: usize| -> Vec<(u32, u32)> {
        let starts = switching_ticks(rng, runs, ticks - 2);
        starts.iter().map(|&start| (start, start + 1)).collect()
    };
    let mut channels = vec![runs_of(MANY)];
    channels.extend((1..16).map(|_| runs_of(RUNS_OF_A_LETTER)));
    let channels: Vec<&[(u32, u32)]> = channels.iter().map(Vec::as_slice).collect();
    with_runs(ticks, &channels)
}

/// Ticks in which `a` and `b` are high by turns, so many each, and `c` throughout: two neighbours make
/// a stretch of two ticks, which `c{2,}` has already. Behind them `d` is high for 200 ticks, which
/// `d{0,1}` takes as many rounds for.
fn neighbours_in_a_row(each: u32) -> Vec<u8> {
    let by_turns = |first: u32| (0..each).map(move |k| (2 * k + first, 2 * k + first + 1));
    let [a, b] = [0, 1].map(|first| by_turns(first).collect::<Vec<_>>());
    let last = 2 * each;
    with_runs(
        last + 205,
        &[&a, &b, &[(0, last)], &[(last + 5, last + 205)]],
    )
}

/// A drill that spends any number of rounds, up to all that a drill of a sheet has, over lists of one
/// length.
struct Spender {
    name: &'static str,
    recording: Vec<u8>,
    drill: &'static str,
    /// Rounds after which the list is as long as it gets.
    first: u64,
    /// Rounds after these that are timed.
    timed: u64,
}

impl Spender {
    /// The row of a call that is stopped after so many rounds.
    fn stopped_after(&self, rounds: u64) -> Row {
        Row::new(self.name, self.recording.clone(), self.drill).told(rounds)
    }

    /// Microseconds for one of the timed rounds, by each finder.
    fn per_round(&self, proved: Option<Proved>) -> Result<Times, String> {
        let (begin, end) = (
            self.stopped_after(self.first),
            self.stopped_after(self.first + self.timed),
        );
        let (begin, end) = (best_of_few(&begin, proved)?, best_of_few(&end, proved)?);
        let each = |begin: f64, end: f64| (end - begin) / self.timed as f64;
        Ok(begin.with(end, each))
    }
}

/// The best time of each finder in microseconds, for calls that take long.
fn best_of_few(row: &Row, proved: Option<Proved>) -> Result<Times, String> {
    const CALLS: u32 = 3;
    let mut bench = Bench::new(row);
    let returned = bench.agreed(proved)?;
    if returned.number != 13 {
        return Err(format!("{}: {returned:?}, and is not stopped", row.name));
    }
    let mut best = Times::all(f64::INFINITY, proved);
    let timed = |call: &mut dyn FnMut() -> (Returned, Option<u64>)| {
        let start = Instant::now();
        black_box(call());
        start.elapsed().as_secs_f64() * 1e6
    };
    for _ in 0..CALLS {
        let turn = Times {
            plain: timed(&mut || bench.plain()),
            quick: timed(&mut || bench.quick()),
            proved: proved.map(|proved| timed(&mut || bench.proved(proved))),
        };
        best = best.with(turn, f64::min);
    }
    Ok(best)
}

/// Lists from the shortest to the longest, each with a run on which the rounds do not end before those
/// of a drill do.
fn spenders() -> Vec<Spender> {
    let endless = (0, DRILL_ROUNDS as u32 + 1);
    let behind = endless.1 + 1;
    let crowd: Vec<(u32, u32)> = (0..126)
        .map(|k| (behind + 2 * k, behind + 2 * k + 1))
        .collect();
    let crowd = [&[endless][..], &crowd].concat();
    let ladder = with_runs(behind + 127, &[&[(behind, behind + 127)], &[endless]]);
    vec![
        Spender {
            name: "1 zone, 1 inner zone",
            recording: with_runs(behind, &[&[endless]]),
            drill: "(a{0,1})*",
            first: 0,
            timed: DRILL_ROUNDS,
        },
        Spender {
            name: "127 zones, 127 inner, each touches itself",
            recording: with_runs(behind + 252, &[&crowd]),
            drill: "(a{0,1})*",
            first: 0,
            timed: 5_000,
        },
        Spender {
            name: "128 zones, 2 inner, half of all pairs touch",
            recording: ladder.clone(),
            drill: "(a{1,1}|b{0,1})*",
            first: 127,
            timed: 5_000,
        },
        // The inner star has 127 rounds.
        Spender {
            name: "128 zones, 128 inner, half of all pairs touch",
            recording: ladder,
            drill: "((a{1,1})*{<0,}|b{0,1})*",
            first: 127,
            timed: 500,
        },
    ]
}

/// Prints what a round costs, and what all rounds of a drill would cost at that.
pub fn purse() -> Result<(), String> {
    let proved = proved::linked();
    say_what_is_linked(proved);
    let mut rounds = Vec::new();
    for spender in spenders() {
        rounds.push((spender.name, spender.per_round(proved)?));
    }
    println!("\n{:<46} {}", "A round, in microseconds", heads());
    for (name, round) in &rounds {
        println!("{name:<46} {}", round.columns());
    }
    let purse = format!("A drill's {DRILL_ROUNDS} rounds, in milliseconds");
    println!("\n{purse:<46} {}", heads());
    for (name, round) in rounds {
        println!(
            "{name:<46} {}",
            round.times(DRILL_ROUNDS as f64 / 1e3).columns()
        );
    }
    Ok(())
}

/// Compositions of two lists in which no pair has a time in common.
struct Apart {
    name: &'static str,
    /// The composition of so many zones with so many others.
    row: fn(usize, usize) -> Row,
}

/// The sizes of both lists.
const FEW: usize = 32;
const MANY: usize = 120;

impl Apart {
    /// Nanoseconds for a pair, by each finder.
    ///
    /// What a call does for one list alone, reading it or putting its zones, costs the same whatever
    /// the other list is. So it cancels out where the right list grows once beside a long left list
    /// and once beside a short one: what is left is the cost of the pairs that only the former has.
    fn per_pair(&self, proved: Option<Proved>) -> Result<Times, String> {
        let best = |left: usize, right: usize| {
            let row = (self.row)(left, right);
            let mut bench = Bench::new(&row);
            let returned = bench.agreed(proved)?;
            match (returned.number, returned.zones) {
                (0, 0) => Ok(by_turns(&mut bench, proved)),
                _ => Err(format!("{}: {returned:?}, and is not apart", self.name)),
            }
        };
        let growth = |left: usize| {
            let (few, many) = (best(left, FEW)?, best(left, MANY)?);
            Ok::<Times, String>(many.with(few, |many, few| many - few))
        };
        let pairs = (MANY - FEW) * (MANY - FEW);
        let grown = growth(MANY)?.with(growth(FEW)?, |many, few| many - few);
        Ok(grown.times(1e3 / pairs as f64))
    }
}

/// So many runs of two ticks, ten apart: those from different ticks below five and from five on have
/// no time in common.
fn slots(runs: usize, first: u32) -> impl Iterator<Item = (u32, u32)> {
    (0..runs as u32).map(move |k| (10 * k + first, 10 * k + first + 2))
}

fn apart_in_rising_time(left: usize, right: usize) -> Row {
    let (a, b): (Vec<_>, Vec<_>) = (slots(left, 0).collect(), slots(right, 5).collect());
    Row::new("", with_runs(10 * MANY as u32, &[&a, &b]), "a.b")
}

/// The right list takes the letters one after the other, and each of them goes from the start of the
/// drive to its end.
fn apart_in_no_order(left: usize, right: usize) -> Row {
    let a: Vec<_> = slots(left, 0).collect();
    let letters = right / RUNS_OF_A_LETTER;
    let of_letter = |k: usize| slots(MANY, 5).skip(k).step_by(MANY / RUNS_OF_A_LETTER);
    let runs: Vec<Vec<_>> = (0..letters).map(|k| of_letter(k).collect()).collect();
    let mut channels: Vec<&[(u32, u32)]> = vec![&a];
    channels.extend(runs.iter().map(Vec::as_slice));
    let recording = with_runs(10 * MANY as u32, &channels);
    Row::new("", recording, then_any_of(letters))
}

/// Runs of each letter of a right list in no order: half a block, so that a block goes through the
/// whole drive twice.
const RUNS_OF_A_LETTER: usize = 8;

/// `a`, then any of so many letters.
fn then_any_of(letters: usize) -> String {
    let letters: Vec<String> = ('b'..='p').take(letters).map(String::from).collect();
    format!("a.({})", letters.join("|"))
}

fn all_apart() -> [Apart; 2] {
    [
        Apart {
            name: "right list in rising time",
            row: apart_in_rising_time,
        },
        Apart {
            name: "right list in no order",
            row: apart_in_no_order,
        },
    ]
}

/// Prints what a pair without a time in common costs.
pub fn pairs() -> Result<(), String> {
    let proved = proved::linked();
    say_what_is_linked(proved);
    println!("\n{:<46} {}", "A pair apart, in nanoseconds", heads());
    for apart in all_apart() {
        let pair = apart.per_pair(proved)?;
        println!("{:<46} {}", apart.name, pair.columns());
    }
    Ok(())
}

#[cfg(test)]
mod tests {
    use super::*;

    /// The list is full after the first rounds, and the drill is stopped however many it is told.
    #[test]
    fn spenders_are_stopped() {
        for spender in spenders() {
            for rounds in [spender.first, spender.first + 20] {
                let row = spender.stopped_after(rounds);
                let (returned, left) = Bench::new(&row).plain();
                assert_eq!((returned.number, left), (13, Some(0)), "{}", spender.name);
            }
        }
    }

    /// The pairs that each composition and round of an accepted row composes.
    fn pairs_of(row: &Row) -> Vec<usize> {
        let mut answer = vec![0; MAX_ZONES * WORDS];
        let mut work = vec![0; WORK_WORDS];
        let (recording, drill) = (&row.recording, row.drill.as_bytes());
        let mut allowed = Allowed::ALL;
        let found =
            finder::call::<QuickList>(recording, drill, &mut answer, &mut work, &mut allowed);
        let found = found.expect("pairs enough");
        assert!(found.returned.is_accepted(), "{}", row.name);
        found.told
    }

    /// By hand, of the pieces of one tick, in a row of 124: each but the last touches the next; each
    /// but the last two may be followed by two ticks or more, and each but the first two may follow
    /// them; two ticks or more may follow such; and the piece of `d` follows itself.
    #[test]
    fn long_lists_have_few_pairs_with_a_time_in_common() {
        let [no_order, apart, apart_in_no_order, in_a_row] = &long_lists()[..] else {
            panic!("four rows");
        };
        let [few] = pairs_of(no_order)[..] else {
            panic!("one composition");
        };
        assert!((5..100).contains(&few), "{few}");
        assert_eq!(pairs_of(apart), [0]);
        assert_eq!(pairs_of(apart_in_no_order), [0]);
        assert_eq!(pairs_of(in_a_row), [123 + 122 + 122 + 1 + 1; 200]);
    }

    /// By hand: `~a` has four zones for each run and one more, and no other row too many.
    #[test]
    fn absences_have_room() {
        let zones = absences().into_iter().map(|row| {
            let (returned, _) = Bench::new(&row).plain();
            assert!(returned.is_accepted(), "{}", row.name);
            returned.zones
        });
        let zones: Vec<u64> = zones.collect();
        assert_eq!(zones[..2], [33, 121]);
        assert_eq!(zones[3..5], [127, 127]);
    }

    #[test]
    fn lists_of_both_sizes_are_apart() {
        for apart in all_apart() {
            for (left, right) in [(FEW, FEW), (FEW, MANY), (MANY, FEW), (MANY, MANY)] {
                let row = (apart.row)(left, right);
                assert_eq!(pairs_of(&row), [0], "{} {left} {right}", apart.name);
                let lists = [("a", left), (row.drill.trim_start_matches("a."), right)];
                for (drill, zones) in lists {
                    let alone = Row::new("", row.recording.clone(), drill);
                    let (returned, _) = Bench::new(&alone).plain();
                    assert_eq!((returned.number, returned.zones), (0, zones as u64));
                }
            }
        }
    }
}
