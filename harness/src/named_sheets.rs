//! Named sheets: what each drill of them comes to, and what it spends, is worked out by hand, and then
//! asked of the plain lesson, of the program `lesson`, and of the proved library, whole and drill by
//! drill. [`crate::examples::spending_drive`] says how many rounds its drills take.

use crate::compare::Sheet;
use crate::examples::{
    bracketed, late_pulses, low_start_r, one_change_too_many, pulses, recording, recording_r,
    spending_drive, with_runs,
};
use crate::exchange::Lines;
use crate::finder::WORK_WORDS;
use crate::lent::Lent;
use crate::lesson::Lesson;
use crate::named_calls;
use crate::program::Program;
use crate::proved::{self, Proved, LESSON_ROOM};
use crate::random::Rng;
use crate::recording::{MAX_LENGTH, RECORD};
use crate::zone::WORDS;
use crate::zones::MAX_ZONES;

/// What `lesson` lends.
const ANSWER_WORDS: usize = MAX_ZONES * WORDS;
/// The longest drive, in ticks, that goes through brute force.
const MAX_BRUTE_TICKS: u32 = 12;
/// The most rounds of a sheet for all its lines to be exchanged.
const MAX_EXCHANGED_ROUNDS: u64 = 500;

/// Both files, where they are there, and what must come of them.
struct NamedSheet {
    name: String,
    recording: Option<Vec<u8>>,
    text: Option<Vec<u8>>,
    answer_words: usize,
    work_words: usize,
    expected: Expected,
}

#[derive(Debug, PartialEq, Eq)]
enum Expected {
    /// One refusal for the whole sheet.
    Alone(u32),
    /// For each drill its number, 0 for none, and the rounds that are spent on it.
    Each(Vec<(u32, u64)>),
}

impl NamedSheet {
    fn new(
        name: impl Into<String>,
        recording: &[u8],
        text: impl Into<Vec<u8>>,
        expected: Expected,
    ) -> NamedSheet {
        NamedSheet {
            name: name.into(),
            recording: Some(recording.to_vec()),
            text: Some(text.into()),
            answer_words: ANSWER_WORDS,
            work_words: WORK_WORDS,
            expected,
        }
    }

    /// A sheet from a table with a line for each drill: the drill, its number, and the rounds that are
    /// spent on it.
    fn table(name: &str, recording: &[u8], table: &str) -> NamedSheet {
        let mut text = String::new();
        let mut each = Vec::new();
        let lines = table.lines().map(|line| line.split_whitespace());
        for words in lines.map(Vec::from_iter).filter(|words| !words.is_empty()) {
            let [drill, number, spent] = words[..] else {
                panic!("{name}: {words:?} is no line of a table");
            };
            text += &format!("{drill}\n");
            each.push((
                number.parse().expect("a number"),
                spent.parse().expect("rounds"),
            ));
        }
        NamedSheet::new(name, recording, text, Expected::Each(each))
    }

    /// A sheet on R whose drills spend nothing, and the number of each.
    fn numbers(name: impl Into<String>, text: impl Into<Vec<u8>>, numbers: &[u32]) -> NamedSheet {
        let each = numbers.iter().map(|&number| (number, 0)).collect();
        NamedSheet::new(name, &recording_r(), text, Expected::Each(each))
    }

    /// A sheet that is refused whole.
    fn refused(name: &str, recording: &[u8], text: impl Into<Vec<u8>>, number: u32) -> NamedSheet {
        NamedSheet::new(name, recording, text, Expected::Alone(number))
    }

    fn answer(self, answer_words: usize) -> NamedSheet {
        NamedSheet {
            answer_words,
            ..self
        }
    }

    fn work(self, work_words: usize) -> NamedSheet {
        NamedSheet { work_words, ..self }
    }

    fn without_recording(self) -> NamedSheet {
        NamedSheet {
            recording: None,
            ..self
        }
    }

    fn without_text(self) -> NamedSheet {
        NamedSheet { text: None, ..self }
    }

    /// The plain lesson, held to the numbers by hand, to what its lines come to elsewhere and, where it
    /// is linked, to the proved library.
    fn lesson(&self, proved: Option<Proved>) -> Result<Lesson, String> {
        let lent = Lent::of(self.answer_words, self.work_words, &mut Rng::new(1, 1));
        let sheet = Sheet {
            recording: self.recording.as_deref().unwrap_or_default(),
            text: self.text.as_deref().unwrap_or_default(),
            lent: &lent,
        };
        let lesson = sheet.compare(proved, LESSON_ROOM, MAX_BRUTE_TICKS)?.lesson;
        let found = came_to(&lesson);
        if found != self.expected {
            let expected = &self.expected;
            return Err(format!("by hand {expected:?}, plain matcher {found:?}"));
        }
        let lines = Lines::of(&sheet, &lesson);
        let print = |text: &[u8]| Sheet { text, ..sheet }.printed(proved);
        for (one, other) in exchanges(&lesson) {
            lines.check_exchanged(one, other, print)?;
        }
        for line in 0..lines.count() {
            lines.check_alone(line, print)?;
        }
        Ok(lesson)
    }

    /// Whether the program lends as much.
    fn is_for_the_program(&self) -> bool {
        (self.answer_words, self.work_words) == (ANSWER_WORDS, WORK_WORDS)
    }

    fn check(&self, program: &Program, proved: Option<Proved>) -> Result<(), String> {
        let lesson = self.lesson(proved)?;
        if !self.is_for_the_program() {
            return Ok(());
        }
        let files = [
            ("drive.rec", self.recording.as_deref()),
            ("lesson.txt", self.text.as_deref()),
        ];
        program.must_print(&files, &lesson.text)
    }
}

fn came_to(lesson: &Lesson) -> Expected {
    if lesson.number != 0 {
        return Expected::Alone(lesson.number);
    }
    let drills = lesson.drills.iter();
    Expected::Each(drills.map(|one| (one.returned.number, one.spent)).collect())
}

/// Pairs of lines to be exchanged: all of them, a line with itself too; but where the drills take long,
/// the first line with the second and with the last.
fn exchanges(lesson: &Lesson) -> Vec<(usize, usize)> {
    let lines = lesson.drills.len();
    let rounds: u64 = lesson.drills.iter().map(|marked| marked.spent).sum();
    let all = (0..lines).flat_map(|one| (one..lines).map(move |other| (one, other)));
    let is_chosen = |&(one, other): &(usize, usize)| {
        rounds <= MAX_EXCHANGED_ROUNDS || one == 0 && (other == 1 || other + 1 == lines)
    };
    all.filter(is_chosen).collect()
}

/// Runs the program on every sheet, and the proved library, where it is linked, on every sheet and
/// every named call.
pub fn run(program: &str) -> Result<String, String> {
    let program = Program::at(program)?;
    let proved = proved::linked();
    let calls = named_calls::check(proved)?;
    let sheets = all();
    for sheet in &sheets {
        sheet
            .check(&program, proved)
            .map_err(|fault| format!("{}: {fault}", sheet.name))?;
    }
    let printed = sheets.iter().filter(|sheet| sheet.is_for_the_program());
    let (printed, all) = (printed.count(), sheets.len());
    let finders = match proved {
        Some(_) => "proved library and plain matcher agree",
        None => "no proved library linked; plain matcher agrees",
    };
    Ok(format!(
        "lesson agrees on {printed} sheets; {finders} with the numbers by hand on {all} sheets and \
         {calls} calls told the rounds left"
    ))
}

fn all() -> Vec<NamedSheet> {
    let groups = [
        ordinary(),
        first_reports(),
        absences(),
        purses(),
        operands(),
        nested(),
        rounds_of_its_own(),
        full_lists(),
        refusals(),
        short_answers(),
        short_work(),
        numbers_of_lines(),
        lengths_of_lines(),
        seams(),
        carriage_returns(),
        other_bytes(),
        forms(),
        recordings(),
        missing(),
    ];
    groups.into_iter().flatten().collect()
}

fn on_r(name: &str, table: &str) -> NamedSheet {
    NamedSheet::table(name, &recording_r(), table)
}

fn spending(name: &str, table: &str) -> NamedSheet {
    NamedSheet::table(name, &spending_drive(), table)
}

/// Sheets on R without anything special, whose drills brute force tries.
fn ordinary() -> Vec<NamedSheet> {
    let marked_set = "
        a       0 0
        a.a     0 0
        a|a     0 0
        a.!a    0 0
        a{5,5}  0 0
        a{6,}   0 0
        a&!a    0 0
        _       0 0
    ";
    let stars = "
        (a{0,1})*    0 5
        (a{0,<1})*   0 6
        (a{<1,<2})*  0 3
        (a{0,1})**   0 6
        (+a|-a|a)*   0 1
        +a.a{0,3}    0 0
        (a{6,})*     0 1
        _*           0 1
    ";
    vec![
        on_r("one drill", "(a{2,2})* 0 2"),
        on_r("one drill eight times", &"(a{2,2})* 0 2\n".repeat(8)),
        on_r("the marked set", marked_set),
        NamedSheet::table(
            "stars, bounds that are not reached, events",
            &low_start_r(),
            stars,
        ),
    ]
}

/// Nothing is high or low before the first report. On R the first round of `(a|!a)*` adds the stretches
/// over 7, and the second nothing; with a low start, the second adds those over 2 and 7. Where nothing
/// is reported, a star has the one round of an empty list.
fn first_reports() -> Vec<NamedSheet> {
    let from_tick_2 = "
        !a           0 0
        (a|!a)*      0 2
        !a.a         0 0
        +a           0 0
        -a           0 0
        (+a|-a)*     0 1
        (!a{0,1})*   0 3
        (a|!a)*{9,}  0 2
    ";
    let from_tick_0 = "
        !a           0 0
        (a|!a)*      0 3
        !a.a         0 0
        +a           0 0
        (!a{0,1})*   0 3
        (a|!a)*{9,}  0 3
    ";
    let nothing = "
        a           0 0
        !a          0 0
        +a|-a       0 0
        !a.!a&_     0 0
        _           0 0
        (!a{0,1})*  0 1
        (a|!a)**    0 2
        a)          5 0
    ";
    // `a` is low from tick 50 on, for 100,000 ticks.
    let low_for_100_000 = recording(1_000_500, 1, &[(500, 0)]);
    let just_enough = "
        (!a{0,1})*      0 100000
        !a              0      0
        (!a{0,1})*|_*  13 100000
        _*              0      1
    ";
    let full = "
        !a   0 0
        -a   0 0
        !a* 10 1
    ";
    vec![
        on_r("nothing reported before tick 2", from_tick_2),
        NamedSheet::table("low from tick 0 on", &low_start_r(), from_tick_0),
        NamedSheet::table("no change", &recording(100, 1, &[]), nothing),
        NamedSheet::table(
            "a change on tick d alone",
            &recording(104, 1, &[(96, 0)]),
            nothing,
        ),
        NamedSheet::table(
            "just 100,000 rounds from the first report on",
            &low_for_100_000,
            just_enough,
        ),
        NamedSheet::table(
            "128 low runs from the first report on",
            &late_pulses(128),
            full,
        ),
    ]
}

/// An absence spends nothing itself; its operand does, and what is built from its list. On R the first
/// round of `(~a)*` changes nothing, `(a|!a)*` has two rounds and `((~a){1,1})*` three. With 32 runs `~a`
/// has no room, also where the star before it has spent its round. Where the first run is the first
/// report, there are 63 events, whose absence has 127 zones.
fn absences() -> Vec<NamedSheet> {
    let of_r = "
        ~a            0 0
        ~~a           5 0
        ~(~a)         0 0
        a.~a.a        0 0
        (~a)*         0 1
        ~a*           0 1
        ~(a|!a)*      0 2
        ((~a){1,1})*  0 3
    ";
    let of_r_too = "
        ~_         0 0
        ~(a|!a)    0 0
        ~a&!a      0 0
        ~a{1,2}    0 0
        (~a){1,2}  0 0
        !~a        5 0
        ~-a        0 0
        ~          5 0
    ";
    let nothing_reported = "
        ~a        0 0
        ~(~a)     0 0
        (~a)*     0 1
        ~a**      0 2
        ~a&~!a&_  0 0
        a~        5 0
    ";
    let no_room = "
        ~a       10 0
        ~(a|_)   10 0
        ~(_|a)    0 0
        ~a*      10 1
        (~a)*    10 0
        a.~_      0 0
        ~(~a)    10 0
        _         0 0
    ";
    let in_an_operand = "
        ~a&_        10 0
        _|~a        10 0
        _*.~a       10 1
        (~a){9,}    10 0
        ~(~(~a))    10 0
        ~(+a|-a)     0 0
        ~+a          0 0
        ~(a{6,})     0 0
    ";
    let too_long_itself = "
        ~a           10 0
        ~(a&_)       10 0
        ~_            0 0
        ~(a|~a)      10 0
    ";
    let just_enough = "
        (a{0,1})*|~(b{0,1})*          0 100000
        (a{0,1})*.(b{0,1})*|~b        0 100000
        (a{0,1})*.(b{0,1})*|~(f)*    13 100000
        (a{0,1})*.(b{0,1})*|~(~b.~c)  0 100000
        (a{0,1})*.(b{0,1})*|(~f)*    13 100000
        (a{0,1})*.(b{0,1})*|~e       10 100000
        ~((a{0,1})*.(b{0,1})*)        0 100000
        ~((a{0,1})*.(c{0,1})*)       13 100000
    ";
    let in_the_operand = "
        (i{0,1})*|~(d{1,1})*           10  99999
        (i{0,1})*|_*|~(d{1,1})*        13 100000
        (i{0,1})*|(h{1,1})*|~(f)*|~_    0 100000
        (a{0,1})*|~(b{0,1})*.~e        10 100000
        (a{0,1})*|_*|~(b{0,1})*.~e     13 100000
        ~(d{1,1})*                     10    127
        ~(f)*                           0      1
    ";
    vec![
        on_r("absences", of_r),
        on_r("more absences", of_r_too),
        NamedSheet::table(
            "absences where nothing is reported",
            &recording(100, 1, &[]),
            nothing_reported,
        ),
        NamedSheet::table("absences of 32 runs", &pulses(32), no_room),
        NamedSheet::table("10 in an operand", &late_pulses(32), in_an_operand),
        NamedSheet::table("absences of 129 runs", &pulses(129), too_long_itself),
        spending("absences with just 100,000 rounds", just_enough),
        spending("10 and 13 in the operand of an absence", in_the_operand),
    ]
}

/// Drills that spend their rounds to the last one, and those that want one more. Each operand of a join
/// spends the rounds that those before it have left.
fn purses() -> Vec<NamedSheet> {
    let one_run = |ticks: u32| recording(10 * ticks, 1, &[(0, 1)]);
    let just_enough = "
        (a{0,1})*.(b{0,1})*           0 100000
        (b{0,1})*|(a{0,1})*           0 100000
        (a{0,1})*.(b{0,1})*|a.!a      0 100000
        (a{0,1})*.(b{0,1})*&b&c       0 100000
        ((a{0,1})*.(b{0,1})*|_){2,5}  0 100000
        a.!a                          0      0
        b&c                           0      0
        _                             0      0
    ";
    let one_more = "
        (a{0,1})*.(c{0,1})*       13 100000
        (c{0,1})*.(a{0,1})*       13 100000
        a                          0      0
        (a{0,1})*.(b{0,1})*|_*    13 100000
        a|b                        0      0
        (a{0,1})*.(b{0,1})*|(f)*  13 100000
        (f)*                       0      1
        c                          0      0
    ";
    let in_one_star = "
        (a{0,1})*      0 100000
        a              0      0
        (a{0,1})*|_*  13 100000
        _*             0      1
    ";
    let one_more_in_one_star = "
        (a{0,1})*  13 100000
        a           0      0
        _*          0      1
    ";
    let first_spends_all = "
        (j{0,1})*               13 100000
        j                        0      0
        (b{0,1})*                0     10
        +e                      10      0
        b)                       5      0
        b.c                      0      0
        (a{0,1})*.(b{0,1})*|+e  10 100000
    ";
    let in_the_last_round = "
        (i{0,1})*|(d{1,1})*     10  99999
        (d{1,1})*|(i{0,1})*     10    127
        (i{0,1})*|(h{1,1})*|_*   0 100000
        d                        0      0
    ";
    let at_the_round_of_10 = "
        (i{0,1})*|_*|(d{1,1})*         13 100000
        _*.(i{0,1})*.(d{1,1})*         13 100000
        d                               0      0
        (a{0,1})*.(b{0,1})*|(d{1,1})*  13 100000
        (d{1,1})*                      10    127
    ";
    let after_the_last_round = "
        (i{0,1})*|(g{1,1})*     10 100000
        g                        0      0
        (i{0,1})*|(g{1,1})*|_*  10 100000
        (g{1,1})*               10    128
    ";
    let before_the_last_round = "
        (i{0,1})*|(f)*|(g{1,1})*  13 100000
        g                          0      0
    ";
    let nothing_spent = "
        (a{0,1})*)                5      0
        (p{0,1})*                 6      0
        (a{1,0})*                 7      0
        (a{0,1})****************  8      0
        (a{0,1})*                 0  99990
        (b{0,1})*                 0     10
        (c{0,1})*)                5      0
        _*                        0      1
    ";
    let (fits, too_long) = (one_run(100_000), one_run(100_001));
    vec![
        spending(
            "just 100,000 rounds, then operands without a star",
            just_enough,
        ),
        spending("the 100,001st round", one_more),
        NamedSheet::table("just 100,000 rounds in one star", &fits, in_one_star),
        NamedSheet::table(
            "100,001 rounds in one star",
            &too_long,
            one_more_in_one_star,
        ),
        spending("the first drill spends all its rounds", first_spends_all),
        spending("10 in the last round left", in_the_last_round),
        spending("13 at the round in which 10 would come", at_the_round_of_10),
        spending("10 after the last round left", after_the_last_round),
        spending(
            "13 at the round after which 10 would come",
            before_the_last_round,
        ),
        spending("drills refused by 5 to 8 spend nothing", nothing_spent),
    ]
}

/// 13 and 10 in either operand of a join: the left one comes first.
fn operands() -> Vec<NamedSheet> {
    let either = "
        (a{0,1})*|(c{0,1})*.e    13 100000
        (a{0,1})*|e.(c{0,1})*    10  99990
        (a{0,1})*|((c{0,1})*|e)  13 100000
        (a{0,1})*|(e|(c{0,1})*)  10  99990
        (a{0,1})*|(c{0,1})*&e    13 100000
        (a{0,1})*|e&(c{0,1})*    10  99990
        e|(j{0,1})*              10      0
        c                         0      0
    ";
    let left_spends = "
        (a{0,1})*|(b{0,1})*.e     10 100000
        (a{0,1})*.(b{0,1})*|e     10 100000
        (a{0,1})*|(b{0,1})*|_*.e  13 100000
        (b{0,1})*.e               10     10
        _*                         0      1
        b                          0      0
    ";
    vec![
        spending("13 or 10, whichever operand is on the left", either),
        spending("the left operand spends, 10 in the right one", left_spends),
    ]
}

/// Stars in stars. The join of `(b{0,1})*` and `(c{0,1})*`, with 10 and 11 rounds, has the run of `c`
/// and the diagonal, and its star one round. The list of `(h{1,1})*`, with 127 rounds, has all lengths
/// up to 127 and the diagonal: its star has one round too.
fn nested() -> Vec<NamedSheet> {
    let outer = "
        (a{0,1})*|(b{0,1})**     13 100000
        ((a{0,1})*.(b{0,1})*)*   13 100000
        (i{0,1})*|(h{1,1})**      0 100000
        _*|(i{0,1})*|(h{1,1})**  13 100000
        (b{0,1})**                0     11
        b                         0      0
    ";
    let inner = "
        (a{0,1})*|_*|(b{0,1})**    13 100000
        (_*|(a{0,1})*|(b{0,1})*)*  13 100000
        b                           0      0
    ";
    let each = [
        ("(b{0,1})**", 11),
        ("((b{0,1})*.(c{0,1})*)*", 22),
        ("((f)*)*", 2),
        ("(c{0,1})*|(c{0,1})*", 22),
        ("(((b{0,1})*)*)*{0,3}", 12),
        ("(c{0,1})*.(b{0,1})*.(c{0,1})*.(c{0,1})*.(c{0,1})*", 54),
        ("(((c{0,1})*)*)*", 13),
    ];
    let by_itself = each.map(|(drill, rounds)| format!("{drill} 0 {rounds}\n"));
    // 99,995 rounds before the last operand, which is stopped in its innermost star.
    let joined = each.map(|(drill, _)| drill).join("|");
    let in_between = format!("{}(i{{0,1}})*|{joined} 13 100000", by_itself.concat());
    vec![
        spending("stopped in the outer star", outer),
        spending("stopped in the inner star", inner),
        spending("nested stars, and the last one stopped", &in_between),
    ]
}

/// Each drill has 100,000 rounds, whatever is spent on the lines before it.
fn rounds_of_its_own() -> Vec<NamedSheet> {
    let greedy = "(j{0,1})* 13 100000\n";
    let modest = "(b{0,1})* 0 10\n";
    let just_enough = "(a{0,1})*.(b{0,1})* 0 100000\n";
    let by_turns = "
        (j{0,1})*            13 100000
        (b{0,1})*             0     10
        (j{0,1})*.e          13 100000
        (d{1,1})*            10    127
        ~(j{0,1})*           13 100000
        (a{0,1})*             0  99990
        (a{0,1})*.(c{0,1})*  13 100000
        _*                    0      1
    ";
    let full_lists = "
        (i{0,1})*|(d{1,1})*  10  99999
        (a{0,1})*.(b{0,1})*   0 100000
        (i{0,1})*|(g{1,1})*  10 100000
        (b{0,1})*.(a{0,1})*   0 100000
    ";
    let without_a_star = "
        (j{0,1})*  13 100000
        j           0      0
        a.!a        0      0
        b&c         0      0
        e          10      0
        ~b          0      0
        -j          0      0
        _           0      0
    ";
    let mut sheets = vec![
        spending(
            "a greedy drill and a modest one",
            &[greedy, modest].concat(),
        ),
        spending(
            "a modest drill and a greedy one",
            &[modest, greedy].concat(),
        ),
        spending("one greedy drill eight times", &greedy.repeat(8)),
        spending("greedy drills and others by turns", by_turns),
        spending("just 100,000 rounds eight times", &just_enough.repeat(8)),
        spending("10 after many rounds, then just 100,000", full_lists),
        spending("a greedy drill, then drills without a star", without_a_star),
    ];
    let long = "a".repeat(256);
    let refused = [
        (4, long.as_str()),
        (5, "(j{0,1})*)"),
        (6, "(k{0,1})*"),
        (7, "(j{1,0})*"),
        (8, "(j{0,1})****************"),
    ];
    sheets.extend(refused.map(|(number, drill)| {
        let name = format!("refused by {number}, then just 100,000 rounds");
        spending(&name, &format!("{drill} {number} 0\n{just_enough}"))
    }));
    sheets
}

/// Lists of 128 zones, and about as much print as a sheet can come to.
fn full_lists() -> Vec<NamedSheet> {
    let one_zone_more = "
        a          0 0
        a*        10 1
        a.!a      10 0
        a|_       10 0
        a|a{1,1}   0 0
        -a*        0 1
        (a{6,})*   0 1
        +a|-a     10 0
    ";
    let just_filled = "(h{1,1})* 0 127\n".repeat(8);
    vec![
        long_print(),
        NamedSheet::table("full lists and one zone more", &pulses(128), one_zone_more),
        spending("a star that just fills its list", &just_filled),
    ]
}

/// 128 runs of `a` at the end of the longest drive, all within the one of `b`.
fn long_print() -> NamedSheet {
    let runs = (0..128).map(|k| (999_000 + 7 * k, 999_003 + 7 * k));
    let drive = with_runs(1_000_000, &[&Vec::from_iter(runs), &[(100_000, 1_000_000)]]);
    let each_full = "
        b{100000,}.a          0 0
        b{<200000,}.a         0 0
        b{300000,}.+a         0 0
        b{400000,}.-a         0 0
        b{500000,<899999}.a   0 0
        b{600000,899999}.a    0 0
        b{700000,}.a{1,}      0 0
        b{<800000,}.a{<1,<2}  0 0
    ";
    NamedSheet::table("eight full lists with long numbers", &drive, each_full)
}

/// Every number that a drill of a sheet can have in the program.
fn refusals() -> Vec<NamedSheet> {
    let long = "a".repeat(256);
    let each_once = format!(
        "{long}               4      0
        a)                    5      0
        k                     6      0
        a{{3,2}}              7      0
        a****************     8      0
        e                    10      0
        (a{{0,1}})*.(c{{0,1}})* 13 100000
        a                     0      0"
    );
    let backwards = "
        (a{0,1})*.(b{0,1})*             0 100000
        (a{0,1})*.(b{0,1})*.(d{1,1})*  13 100000
        (d{1,1})*                      10    127
        e                              10      0
        a****************               8      0
        a{3,2}                          7      0
        k                               6      0
        a)                              5      0
    ";
    let in_between = "
        a           0      0
        (d{1,1})*  10    127
        b           0      0
        +e.e       10      0
        (b{0,1})*   0     10
        a{<2,2}     7      0
        (j{0,1})*  13 100000
        -b          0      0
    ";
    vec![
        spending("every refusal", &each_once),
        spending("refusals backwards", backwards),
        spending("refusals between drills", in_between),
    ]
}

/// 11 is each drill's own, and comes after 13: the exported calls are lent less than the program lends.
/// The star of a run lists that run and the diagonal.
fn short_answers() -> Vec<NamedSheet> {
    let one_zone_fits = "
        (a{0,1})*            11  99990
        a                     0      0
        (a{0,1})*.(b{0,1})*  11 100000
        (a{0,1})*.(c{0,1})*  13 100000
        f                     0      0
        _*                    0      1
        a|_                  11      0
        _                     0      0
    ";
    let no_zone_fits = "
        a          11 0
        a&!a        0 0
        (a{2,2})*  11 2
        _*         11 1
        a)          5 0
    ";
    vec![
        spending("6 answer words", one_zone_fits).answer(6),
        spending("11 answer words", one_zone_fits).answer(11),
        on_r("no answer word", no_zone_fits).answer(0),
        on_r("5 answer words", no_zone_fits).answer(5),
    ]
}

/// 9 is each drill's own too, and comes before 10 and 11.
fn short_work() -> Vec<NamedSheet> {
    let each = "
        a          9 0
        (a{2,2})*  9 0
        a)         5 0
        b          6 0
        a{2,1}     7 0
        a&!a       9 0
    ";
    let crowded = "
        a   9 0
        _*  9 0
    ";
    let enough = "
        a          0 0
        (a{2,2})*  0 2
        _          0 0
    ";
    let short = WORK_WORDS - 1;
    vec![
        on_r("no work word", each).work(0),
        on_r("16,383 work words", each).work(short),
        on_r("9 before 11", each).work(short).answer(0),
        NamedSheet::table("9 before 10", &pulses(129), crowded).work(short),
        NamedSheet::refused("12 before 9", &recording_r(), "a\n\n", 12).work(0),
        on_r("words to spare", enough).work(short + 7).answer(800),
    ]
}

/// Eight lines and nine, of a few bytes and of as many as a drill may have. A program that reads no
/// more than eight such lines gives itself away.
fn numbers_of_lines() -> Vec<NamedSheet> {
    let refused = |name, text: String| NamedSheet::refused(name, &recording_r(), text, 12);
    let eight = "a\n".repeat(8);
    let eight_longest = format!("{}\n", bracketed("a")).repeat(8);
    vec![
        NamedSheet::numbers("eight lines", eight.clone(), &[0; 8]),
        refused("nine lines", "a\n".repeat(9)),
        refused("nine lines, the first drill wrong", format!(")\n{eight}")),
        refused("eight lines and one without newline", format!("{eight}a")),
        refused("a million lines", "a\n".repeat(1_000_000)),
        NamedSheet::numbers("eight lines of 255 bytes", eight_longest.clone(), &[0; 8]),
        refused(
            "eight lines of 255 bytes and an empty one",
            format!("{eight_longest}\n"),
        ),
        refused(
            "eight lines of 255 bytes and a byte",
            format!("{eight_longest}a"),
        ),
        refused(
            "eight lines of 255 bytes and another",
            format!("{eight_longest}a\n"),
        ),
    ]
}

/// What is too long is refused by 4 in its place, however long it is. Its front would be accepted.
fn lengths_of_lines() -> Vec<NamedSheet> {
    let refused = |name, text: String| NamedSheet::refused(name, &recording_r(), text, 12);
    let numbers = |name, text: String, numbers: &[u32]| NamedSheet::numbers(name, text, numbers);
    let longest = bracketed("a");
    let about = format!(
        "{}&\n{longest}\n{longest}*\n{longest}**\na\n",
        bracketed("_*")
    );
    let vast = format!("{longest}{}", "*".repeat(3_000_000 - longest.len()));
    vec![
        numbers("255 bytes", format!("{longest}\n"), &[0]),
        numbers("256 bytes", format!("{longest}*\n"), &[4]),
        numbers("255 to 257 bytes", about, &[5, 0, 4, 4, 0]),
        numbers("3,000,000 bytes first", format!("{vast}\na\n"), &[4, 0]),
        numbers("3,000,000 bytes last", format!("a\n{vast}\n"), &[0, 4]),
        numbers(
            "3,000,000 bytes in between",
            format!("a\n{vast}\n_\n"),
            &[0, 4, 0],
        ),
        refused("3,000,000 bytes without newline", vast.clone()),
        refused(
            "a drill and 3,000,000 bytes without newline",
            format!("a\n{vast}"),
        ),
        refused(
            "3,000,000 bytes and an empty line",
            format!("a\n{vast}\n\n"),
        ),
    ]
}

/// First lines that end about where a program that reads in pieces has a seam.
fn seams() -> Vec<NamedSheet> {
    let sizes = [512, 1_024, 2_048, 2_056, 4_096, 8_192, 65_536, 131_072];
    let lengths = sizes.iter().flat_map(|size| size - 2..=size + 1);
    let sheet = |length| {
        let name = format!("a first line of {length} bytes");
        NamedSheet::numbers(name, format!("{}\na\n", "(".repeat(length)), &[4, 0])
    };
    lengths.map(sheet).collect()
}

/// A carriage return is a byte of its drill.
fn carriage_returns() -> Vec<NamedSheet> {
    let refused = |name, text: &str| NamedSheet::refused(name, &recording_r(), text, 12);
    vec![
        NamedSheet::numbers("a carriage return", "a\r\na\n", &[5, 0]),
        NamedSheet::numbers("a carriage return alone", "\r\na\n", &[5, 0]),
        NamedSheet::numbers("a carriage return in front", "\ra\na\n", &[5, 0]),
        NamedSheet::numbers("a carriage return inside", "a\r.a\na\n", &[5, 0]),
        NamedSheet::numbers("a carriage return in each line", "a\r\n".repeat(8), &[5; 8]),
        refused("a carriage return and no newline", "a\r"),
        refused("carriage returns for newlines", "a\ra\r"),
        refused("a newline before the carriage return", "a\n\ra"),
    ]
}

/// No other byte ends a line, and none is left out.
fn other_bytes() -> Vec<NamedSheet> {
    vec![
        NamedSheet::numbers("a blank alone", " \na\n", &[5, 0]),
        NamedSheet::numbers("blanks around a drill", " a\na \na\n", &[5, 5, 0]),
        NamedSheet::numbers("zero bytes", "a\0\n\0\na\n", &[5, 5, 0]),
        NamedSheet::numbers("a byte order mark", "\u{FEFF}a\na\n", &[5, 0]),
        NamedSheet::numbers("a byte that is no text", b"\xFF\na\n", &[5, 0]),
        NamedSheet::numbers(
            "other ends of a line",
            "a\x0Ba\na\x0Ca\na\u{2028}a\n",
            &[5; 3],
        ),
    ]
}

/// Sheets that are refused by 12.
fn forms() -> Vec<NamedSheet> {
    let texts = [
        ("no line", ""),
        ("a newline alone", "\n"),
        ("two newlines", "\n\n"),
        ("eight newlines", "\n\n\n\n\n\n\n\n"),
        ("no last newline", "a"),
        ("no last newline after two drills", "a\na\na"),
        ("an empty line first", "\na\n"),
        ("an empty line in the middle", "a\n\na\n"),
        ("an empty line last", "a\n\n"),
        ("two empty lines last", "a\n\n\n"),
        ("an empty line and no last newline", "a\n\na"),
        ("a wrong drill and an empty line", ")\n\n"),
        ("a wrong drill without newline", ")"),
    ];
    let refused = |(name, text): (&str, &str)| NamedSheet::refused(name, &recording_r(), text, 12);
    texts.into_iter().map(refused).collect()
}

/// 1, 2 and 3 come before 12, and once for the whole sheet.
fn recordings() -> Vec<NamedSheet> {
    let long = one_change_too_many();
    let last_wrong = [recording_r(), vec![0; RECORD]].concat();
    let wrong = [
        ("an empty recording", vec![], 1),
        ("a record cut short", recording_r()[..23].to_vec(), 1),
        ("32,769 bytes", long[..MAX_LENGTH + 1].to_vec(), 1),
        ("32,776 bytes", long.clone(), 1),
        ("a wrong head", vec![0; RECORD], 2),
        ("no channel", recording(100, 0, &[]), 2),
        ("a change at the end", recording(100, 1, &[(100, 1)]), 3),
        ("a last change that is wrong", last_wrong, 3),
    ];
    let nine = "a\n".repeat(9);
    let texts = ["a\n", "a\nb\na\n", "", "\n", "a", ")\n", &nine];
    let largest = &long[..MAX_LENGTH];
    let mut sheets = vec![NamedSheet::table("32,768 bytes", largest, "a 0 0\n+a 0 0")];
    for (name, recording, number) in wrong {
        for text in texts {
            let name = format!("{name} and the sheet {text:?}");
            let expected = Expected::Alone(number);
            sheets.push(NamedSheet::new(name, &recording, text, expected));
        }
    }
    sheets
}

/// A file that is missing counts as empty.
fn missing() -> Vec<NamedSheet> {
    let on_r = |name, number| NamedSheet::refused(name, &recording_r(), "a\n", number);
    let without_text = |name, recording: &[u8], number| {
        NamedSheet::refused(name, recording, "", number).without_text()
    };
    let wrong_change = recording(100, 1, &[(100, 1)]);
    vec![
        on_r("no drive.rec", 1).without_recording(),
        on_r("neither file", 1).without_recording().without_text(),
        without_text("no lesson.txt", &recording_r(), 12),
        without_text("a wrong head, no lesson.txt", &[0; RECORD], 2),
        without_text("a wrong change, no lesson.txt", &wrong_change, 3),
        NamedSheet::refused("no drive.rec, a wrong sheet", &[], "\n", 1).without_recording(),
    ]
}

#[cfg(test)]
mod tests {
    use super::*;
    use crate::lesson::{drills, wrong, DRILL_ROUNDS};

    #[test]
    fn every_sheet_has_its_numbers() {
        for sheet in all() {
            let found = sheet.lesson(proved::linked());
            assert_eq!(found.err(), None, "{}", sheet.name);
        }
    }

    /// Other ways to tell the rounds give some drill another number, on these sheets and on those that
    /// spend their rounds to the last one.
    #[test]
    fn rounds_told_by_a_wrong_rule_show_in_the_numbers() {
        let numbers_by = |rule, sheet: &NamedSheet| -> Vec<u32> {
            let [recording, text] = [&sheet.recording, &sheet.text].map(Option::as_deref);
            let drills = drills(text.expect("a text")).expect("drills");
            let (mut answer, mut work) = ([0; ANSWER_WORDS], [0; WORK_WORDS]);
            let recording = recording.expect("a recording");
            let marked = wrong::run(rule, recording, &drills, &mut answer, &mut work);
            marked.iter().map(|one| one.returned.number).collect()
        };
        for (name, rule) in wrong::RULES {
            for sheets in [rounds_of_its_own(), purses()] {
                let shows = |sheet: &NamedSheet| {
                    let right = numbers_by(|_| DRILL_ROUNDS, sheet);
                    numbers_by(rule, sheet) != right
                };
                assert!(sheets.iter().any(shows), "{name}");
            }
        }
    }

    /// Each list of the longest print is full, and there is room for the whole of it.
    #[test]
    fn the_longest_print_fits() {
        let lesson = long_print().lesson(None).expect("a lesson");
        let zones = lesson.drills.iter().map(|marked| marked.returned.zones);
        assert!(zones.eq([128; 8]));
        assert!((60_000..=LESSON_ROOM).contains(&lesson.text.len()));
    }

    /// Each number that a drill of a sheet can have is there, and each that a sheet can have.
    #[test]
    fn every_number_is_there() {
        let sheets = all();
        for number in [1, 2, 3, 12] {
            let is_alone = |sheet: &NamedSheet| sheet.expected == Expected::Alone(number);
            assert!(sheets.iter().any(is_alone), "{number}");
        }
        for number in [0, 4, 5, 6, 7, 8, 9, 10, 11, 13] {
            let has = |sheet: &NamedSheet| match &sheet.expected {
                Expected::Each(each) => each.iter().any(|drill| drill.0 == number),
                Expected::Alone(_) => false,
            };
            assert!(sheets.iter().any(has), "{number}");
        }
    }
}
