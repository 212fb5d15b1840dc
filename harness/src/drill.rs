//! Drills: the text, the tree, and refusals 4 to 8.

use std::cmp::Ordering;
use std::fmt;

use crate::refusal::Refusal;

/// The longest text.
pub const MAX_LENGTH: usize = 255;
/// The deepest tree.
pub const MAX_DEPTH: usize = 16;
/// The highest bound of a band.
pub const MAX_BOUND: u32 = 1_000_000;

/// An end of a band, in ticks.
#[derive(Clone, Copy, Debug, PartialEq, Eq)]
pub enum Bound {
    /// A length of just so many ticks is in the band.
    Reached(u32),
    /// It is not: a `<` stands before the number.
    NotReached(u32),
}

/// Bounds on the length of a stretch.
#[derive(Clone, Copy, Debug, PartialEq, Eq)]
pub struct Band {
    pub lo: Bound,
    /// Missing where there is no upper limit.
    pub hi: Option<Bound>,
}

#[derive(Clone, Debug, PartialEq, Eq)]
pub enum Drill {
    /// `_`
    Empty,
    /// A letter, or `!` and a letter.
    Letter { channel: u8, high: bool },
    /// `+` or `-` and a letter: the moment when the channel rises or falls.
    Event { channel: u8, rise: bool },
    /// `.`
    Then(Box<Drill>, Box<Drill>),
    /// `&`
    Both(Box<Drill>, Box<Drill>),
    /// `|`
    Either(Box<Drill>, Box<Drill>),
    /// `{lo,hi}`
    Within(Box<Drill>, Band),
    /// `*`
    Star(Box<Drill>),
    /// `~`: the stretches that the operand does not fit.
    Absent(Box<Drill>),
}

impl Drill {
    /// Each check runs over the whole drill before the next one starts.
    pub fn read(text: &[u8], channels: u8) -> Result<Drill, Refusal> {
        if text.is_empty() || text.len() > MAX_LENGTH {
            return Err(Refusal::DrillLength);
        }
        let drill = parse(text).ok_or(Refusal::DrillForm)?;
        let known = |part: &Drill| part.channel().is_none_or(|channel| channel < channels);
        if !drill.all(&known) {
            return Err(Refusal::Letter);
        }
        let in_order = |part: &Drill| !matches!(part, Drill::Within(_, band) if !band.is_valid());
        if !drill.all(&in_order) {
            return Err(Refusal::Band);
        }
        if drill.depth() > MAX_DEPTH {
            return Err(Refusal::Depth);
        }
        Ok(drill)
    }

    /// The channel that the drill itself names, without its operands.
    fn channel(&self) -> Option<u8> {
        match self {
            Drill::Letter { channel, .. } | Drill::Event { channel, .. } => Some(*channel),
            _ => None,
        }
    }

    pub fn operands(&self) -> Vec<&Drill> {
        match self {
            Drill::Empty | Drill::Letter { .. } | Drill::Event { .. } => vec![],
            Drill::Then(left, right) | Drill::Both(left, right) | Drill::Either(left, right) => {
                vec![left, right]
            }
            Drill::Within(inner, _) | Drill::Star(inner) | Drill::Absent(inner) => vec![inner],
        }
    }

    /// Whether a condition holds of the drill and of every part of it.
    pub fn all(&self, holds: &dyn Fn(&Drill) -> bool) -> bool {
        holds(self) && self.operands().iter().all(|part| part.all(holds))
    }

    /// How many parts of the drill, itself included, meet a condition.
    pub fn count(&self, meets: &dyn Fn(&Drill) -> bool) -> usize {
        let inside: usize = self.operands().iter().map(|part| part.count(meets)).sum();
        inside + usize::from(meets(self))
    }

    /// Brackets leave no trace in the tree, so they add nothing.
    pub fn depth(&self) -> usize {
        let deepest = self.operands().iter().map(|part| part.depth()).max();
        1 + deepest.unwrap_or(0)
    }

    /// The text of the drill, with as many pairs of needless brackets around each part as
    /// `extra` gives.
    pub fn text(&self, extra: &mut dyn FnMut() -> usize) -> String {
        let mut text = String::new();
        self.write(Level::Alternative, extra, &mut text);
        text
    }

    fn write(&self, place: Level, extra: &mut dyn FnMut() -> usize, text: &mut String) {
        let pairs = extra() + usize::from(self.level() < place);
        text.push_str(&"(".repeat(pairs));
        match self {
            Drill::Empty => text.push('_'),
            Drill::Letter { channel, high } => {
                text.push_str(if *high { "" } else { "!" });
                text.push(char::from(b'a' + channel));
            }
            Drill::Event { channel, rise } => {
                text.push(if *rise { '+' } else { '-' });
                text.push(char::from(b'a' + channel));
            }
            // Joins group to the left, so a right operand of the same join needs brackets.
            Drill::Then(left, right) => {
                left.write(Level::Sequence, extra, text);
                text.push('.');
                right.write(Level::Factor, extra, text);
            }
            Drill::Both(left, right) => {
                left.write(Level::Conjunction, extra, text);
                text.push('&');
                right.write(Level::Sequence, extra, text);
            }
            Drill::Either(left, right) => {
                left.write(Level::Alternative, extra, text);
                text.push('|');
                right.write(Level::Conjunction, extra, text);
            }
            Drill::Within(inner, band) => {
                inner.write(Level::Repeat, extra, text);
                text.push_str(&band.to_string());
            }
            Drill::Star(inner) => {
                inner.write(Level::Repeat, extra, text);
                text.push('*');
            }
            // What follows the `~` is its operand, repeats included; another `~` needs brackets.
            Drill::Absent(inner) => {
                text.push('~');
                inner.write(Level::Repeat, extra, text);
            }
        }
        text.push_str(&")".repeat(pairs));
    }

    fn level(&self) -> Level {
        match self {
            Drill::Either(..) => Level::Alternative,
            Drill::Both(..) => Level::Conjunction,
            Drill::Then(..) => Level::Sequence,
            Drill::Absent(_) => Level::Factor,
            Drill::Within(..) | Drill::Star(_) => Level::Repeat,
            Drill::Empty | Drill::Letter { .. } | Drill::Event { .. } => Level::Primary,
        }
    }
}

/// The levels of the grammar, the loosest first.
#[derive(Clone, Copy, PartialEq, Eq, PartialOrd, Ord)]
enum Level {
    Alternative,
    Conjunction,
    Sequence,
    Factor,
    Repeat,
    Primary,
}

impl fmt::Display for Drill {
    /// With no more brackets than needed.
    fn fmt(&self, out: &mut fmt::Formatter) -> fmt::Result {
        out.write_str(&self.text(&mut || 0))
    }
}

impl Bound {
    pub fn ticks(self) -> u32 {
        match self {
            Bound::Reached(ticks) | Bound::NotReached(ticks) => ticks,
        }
    }

    pub fn is_reached(self) -> bool {
        matches!(self, Bound::Reached(_))
    }
}

impl fmt::Display for Bound {
    fn fmt(&self, out: &mut fmt::Formatter) -> fmt::Result {
        let less = if self.is_reached() { "" } else { "<" };
        write!(out, "{less}{}", self.ticks())
    }
}

impl Band {
    /// Times are fractions, so bounds that differ leave a length between them even where neither
    /// is reached. Equal ones leave that one length, if both are reached.
    fn is_valid(self) -> bool {
        let Some(hi) = self.hi else {
            return self.lo.ticks() <= MAX_BOUND;
        };
        let in_order = match self.lo.ticks().cmp(&hi.ticks()) {
            Ordering::Less => true,
            Ordering::Equal => self.is_reached(),
            Ordering::Greater => false,
        };
        in_order && hi.ticks() <= MAX_BOUND
    }

    /// Whether every bound that it has is reached.
    pub fn is_reached(self) -> bool {
        self.lo.is_reached() && self.hi.is_none_or(Bound::is_reached)
    }
}

impl fmt::Display for Band {
    fn fmt(&self, out: &mut fmt::Formatter) -> fmt::Result {
        match self.hi {
            Some(hi) => write!(out, "{{{},{hi}}}", self.lo),
            None => write!(out, "{{{},}}", self.lo),
        }
    }
}

/// The tree of a text, or nothing where the text is not a whole alternative.
fn parse(text: &[u8]) -> Option<Drill> {
    let mut reader = Reader { rest: text };
    let drill = reader.alternative()?;
    reader.rest.is_empty().then_some(drill)
}

/// The unread text. Each method reads what it is named after from the front of it.
struct Reader<'a> {
    rest: &'a [u8],
}

impl Reader<'_> {
    fn alternative(&mut self) -> Option<Drill> {
        self.joined(b'|', Reader::conjunction, Drill::Either)
    }

    fn conjunction(&mut self) -> Option<Drill> {
        self.joined(b'&', Reader::sequence, Drill::Both)
    }

    fn sequence(&mut self) -> Option<Drill> {
        self.joined(b'.', Reader::factor, Drill::Then)
    }

    fn joined(
        &mut self,
        join: u8,
        operand: fn(&mut Self) -> Option<Drill>,
        node: fn(Box<Drill>, Box<Drill>) -> Drill,
    ) -> Option<Drill> {
        let mut drill = operand(self)?;
        while self.take(join) {
            drill = node(Box::new(drill), Box::new(operand(self)?));
        }
        Some(drill)
    }

    /// A repeat, or `~` and a repeat.
    fn factor(&mut self) -> Option<Drill> {
        if self.take(b'~') {
            return self.repeat().map(|drill| Drill::Absent(Box::new(drill)));
        }
        self.repeat()
    }

    fn repeat(&mut self) -> Option<Drill> {
        let mut drill = self.primary()?;
        loop {
            if self.take(b'*') {
                drill = Drill::Star(Box::new(drill));
            } else if self.take(b'{') {
                drill = Drill::Within(Box::new(drill), self.band()?);
            } else {
                return Some(drill);
            }
        }
    }

    fn primary(&mut self) -> Option<Drill> {
        match self.next()? {
            b'_' => Some(Drill::Empty),
            b'(' => {
                let drill = self.alternative()?;
                self.take(b')').then_some(drill)
            }
            b'!' => self.letter(false),
            b'+' => self.event(true),
            b'-' => self.event(false),
            name => Some(Drill::Letter {
                channel: channel(name)?,
                high: true,
            }),
        }
    }

    /// The letter after a `!`.
    fn letter(&mut self, high: bool) -> Option<Drill> {
        let channel = channel(self.next()?)?;
        Some(Drill::Letter { channel, high })
    }

    /// The letter after a `+` or a `-`.
    fn event(&mut self, rise: bool) -> Option<Drill> {
        let channel = channel(self.next()?)?;
        Some(Drill::Event { channel, rise })
    }

    /// The band after its opening brace.
    fn band(&mut self) -> Option<Band> {
        let lo = self.bound()?;
        if !self.take(b',') {
            return None;
        }
        if self.take(b'}') {
            return Some(Band { lo, hi: None });
        }
        let hi = Some(self.bound()?);
        self.take(b'}').then_some(Band { lo, hi })
    }

    /// A number, with a `<` before it where it is not reached.
    fn bound(&mut self) -> Option<Bound> {
        let bound = if self.take(b'<') {
            Bound::NotReached
        } else {
            Bound::Reached
        };
        self.number().map(bound)
    }

    /// A number of any length. One that does not fit becomes the largest that does, which is
    /// above what a band allows, as it is itself.
    fn number(&mut self) -> Option<u32> {
        let digits = self.rest.iter().take_while(|byte| byte.is_ascii_digit());
        let (number, rest) = self.rest.split_at(digits.count());
        if number.is_empty() || (number[0] == b'0' && number.len() > 1) {
            return None;
        }
        self.rest = rest;
        let digit = |byte: &u8| u32::from(byte - b'0');
        Some(number.iter().fold(0u32, |value, byte| {
            value.saturating_mul(10).saturating_add(digit(byte))
        }))
    }

    fn next(&mut self) -> Option<u8> {
        let (&first, rest) = self.rest.split_first()?;
        self.rest = rest;
        Some(first)
    }

    fn take(&mut self, wanted: u8) -> bool {
        let found = self.rest.first() == Some(&wanted);
        if found {
            self.rest = &self.rest[1..];
        }
        found
    }
}

/// The channel that a letter names.
fn channel(letter: u8) -> Option<u8> {
    (b'a'..=b'p').contains(&letter).then(|| letter - b'a')
}

#[cfg(test)]
mod tests {
    use super::*;

    fn refused(text: &str, channels: u8) -> Option<u32> {
        Drill::read(text.as_bytes(), channels)
            .err()
            .map(Refusal::number)
    }

    fn read(text: &str) -> Drill {
        Drill::read(text.as_bytes(), 16).expect(text)
    }

    #[test]
    fn joins_bind_in_order_and_group_to_the_left() {
        assert_eq!(read("a|b&c.d"), read("a|(b&(c.d))"));
        assert_eq!(read("a.b.c"), read("(a.b).c"));
        assert_ne!(read("a.b.c"), read("a.(b.c)"));
        assert_eq!(read("a|b|c"), read("(a|b)|c"));
        assert_eq!(read("a&b&c"), read("(a&b)&c"));
        assert_eq!(read("!a.b*"), read("(!a).(b*)"));
        assert_eq!(read("a*{1,2}*"), read("((a*){1,2})*"));
    }

    #[test]
    fn a_drill_prints_as_it_reads() {
        for text in [
            "_",
            "!p",
            "a.(b.c)",
            "(a|b)&c",
            "(a.b){0,3}*",
            "((a&b).!a){4,}",
            "a{<200,500}",
            "a{200,<500}",
            "(a.b){<200,<500}*",
            "a{<200,}",
            "+a",
            "-p",
            "+a.a{0,3}",
            "(+a|-b)*",
            "!a.+a.(a&-b){0,0}",
            "~a",
            "~!a*",
            "~(~a)",
            "(~a){1,2}*",
            "~(~+a|_){1,<2}.~(a.~b).c&~p",
            "a.(~a.b)",
        ] {
            assert_eq!(read(text).to_string(), text);
            let bracketed = read(text).text(&mut || 1);
            assert_eq!(read(&bracketed), read(text));
        }
    }

    #[test]
    fn texts_of_another_form_are_refused_by_5() {
        for text in [
            "()", "(", "a)", "(a", "ab", "a|", "|a", "a..b", "!", "!!a", "!(a)", "!_", "A", "q",
            "z", " a", "a ", "a\n", "*", "{1,2}", "a{2}", "a{,2}", "a{,}", "a{}", "a{1,2",
            "a{01,2}", "a{1,02}", "a{00,1}", "a{-1,2}", "a{1 ,2}", "a{1,2}}", "a{1,2,3}", "é",
        ] {
            assert_eq!(refused(text, 16), Some(5), "{text}");
        }
        for text in ["a{0,0}", "a{10,}", "a{0,1000000}", "(((_)))"] {
            assert_eq!(refused(text, 16), None, "{text}");
        }
        assert_eq!(Drill::read(&[0xFF], 16), Err(Refusal::DrillForm));
    }

    #[test]
    fn a_plus_or_a_minus_and_a_letter_are_a_primary() {
        let event = |channel, rise| Drill::Event { channel, rise };
        let events = [
            ("+a", 0, true),
            ("-a", 0, false),
            ("+p", 15, true),
            ("-p", 15, false),
        ];
        for (text, channel, rise) in events {
            assert_eq!(read(text), event(channel, rise), "{text}");
            assert_eq!(read(&format!("({text})")), event(channel, rise), "{text}");
            assert_eq!(read(text).depth(), 1, "{text}");
        }
        // Whatever follows belongs to the event as it does to a letter.
        assert_eq!(read("+a.a"), read("(+a).a"));
        assert_eq!(read("a.+a{0,3}*"), read("a.(((+a){0,3})*)"));
        assert_eq!(read("+a|-a&+b"), read("(+a)|((-a)&(+b))"));
        assert_ne!(read("+a"), read("-a"));
        assert_ne!(read("-a"), read("!a"));
        assert_ne!(read("+a"), read("+b"));
    }

    #[test]
    fn a_plus_or_a_minus_stands_directly_before_a_letter_and_nowhere_else() {
        for sign in ["+", "-"] {
            for form in [
                "?", "?(a)", "!?a", "??a", "?!a", "?+a", "?-a", "a?", "a?b", "a?a", "?a?", "?a?b",
                "?_", "?*", "?*a", "?{1,2}", "?{1,2}a", "?.a", "?|a", "a.?", "(?)a", "(?", "(?a",
                "?a)", "?)", "?ab", "?a b", "? a", "?a ", " ?a", "?a\n", "?\n", "?A", "?P", "?q",
                "?z", "?1", "?`", "a{?1,2}", "a{1,?2}", "a{1,2?}", "a{1,2}?", "a*?", "!?", "!(?a)",
                "?a!", "?é", "_?", "?<a", "a{<?1,2}",
            ] {
                let text = form.replace('?', sign);
                assert_eq!(refused(&text, 16), Some(5), "{text}");
            }
        }
    }

    #[test]
    fn the_letter_of_an_event_is_one_of_the_channels() {
        for text in ["+b", "-b", "a.+b", "(+a|-b)*", "+p", "_&-c{0,0}"] {
            assert_eq!(refused(text, 1), Some(6), "{text}");
        }
        for channels in 1..=16 {
            let last = char::from(b'a' + channels - 1);
            assert_eq!(refused(&format!("+{last}.-{last}"), channels), None);
            if channels < 16 {
                let beyond = char::from(b'a' + channels);
                assert_eq!(refused(&format!("+a|+{beyond}"), channels), Some(6));
                assert_eq!(refused(&format!("-{beyond}&-a"), channels), Some(6));
            }
        }
    }

    #[test]
    fn a_tilde_binds_between_a_dot_and_a_repeat() {
        let absent = |text: &str| Drill::Absent(Box::new(read(text)));
        for operand in [
            "a", "!a", "+a", "-a", "_", "a*", "a{1,2}", "a{1,2}*", "a*{<1,}", "(a)", "(a|b)",
            "(a.b)*", "(~a)",
        ] {
            let text = format!("~{operand}");
            assert_eq!(read(&text), absent(operand), "{text}");
            assert_eq!(read(&text).depth(), read(operand).depth() + 1, "{text}");
            assert_eq!(read(&format!("(({text}))")), absent(operand), "{text}");
        }
        // It takes the whole repeat, and nothing beyond it.
        assert_eq!(read("~a*"), read("~(a*)"));
        assert_ne!(read("~a*"), read("(~a)*"));
        assert_ne!(read("~a{1,2}"), read("(~a){1,2}"));
        assert_eq!(read("a.~b"), read("a.(~b)"));
        assert_eq!(read("~a.b"), read("(~a).b"));
        assert_ne!(read("~a.b"), read("~(a.b)"));
        assert_eq!(read("~a.~b.c"), read("((~a).(~b)).c"));
        assert_eq!(read("~a&~b|~c"), read("((~a)&(~b))|(~c)"));
        assert_eq!(read("~a|b&c.d"), read("(~a)|(b&(c.d))"));
    }

    #[test]
    fn a_tilde_stands_directly_before_a_repeat_and_nowhere_else() {
        for text in [
            "~", "~~a", "~~~a", "~~(a)", "(~~a)", "a.~~b", "~~", "!~a", "+~a", "-~a", "!~", "a~",
            "a~b", "a~a", "_~", "a*~", "a~*", "a{1,2}~", "(a)~", "(a)~b", "~a~", "~a~b", "(~)",
            "(~)a", "~()", "~(~)", "~(a", "~a)", "~)", "~(", "~*", "~*a", "~{1,2}", "~{1,2}a",
            "~.a", "~&a", "~|a", "a.~", "a&~", "a|~", "~!", "~+", "~-", "~!!a", "~ab", "~A", "~q",
            "~1", "~ a", " ~a", "~a ", "~\n", "~a\n", "a{~1,2}", "a{1~,2}", "a{1,~2}", "a{1,2~}",
            "a{~,2}", "~é", "¬a",
        ] {
            assert_eq!(refused(text, 16), Some(5), "{text}");
        }
    }

    #[test]
    fn an_absence_is_checked_as_its_operand_is() {
        for text in ["~b", "~!b", "~+b", "a.~(a|b)", "~(~p)"] {
            assert_eq!(refused(text, 1), Some(6), "{text}");
        }
        for text in ["~a{2,1}", "(~a){2,1}", "~(~a{<2,2})", "~a{1000001,}"] {
            assert_eq!(refused(text, 1), Some(7), "{text}");
        }
        let nested = |tildes: usize| format!("{}a{}", "~(".repeat(tildes), ")".repeat(tildes));
        assert_eq!(refused(&nested(15), 1), None);
        assert_eq!(refused(&nested(16), 1), Some(8));
        assert_eq!(refused(&format!("~a{}", "*".repeat(14)), 1), None);
        assert_eq!(refused(&format!("~a{}", "*".repeat(15)), 1), Some(8));
        assert_eq!(refused(&format!("(~a){}", "*".repeat(15)), 1), Some(8));
        // Each check covers the whole text before the next.
        assert_eq!(refused("~b{2,1}.~~a", 1), Some(5));
        assert_eq!(refused("~a{2,1}.~b", 1), Some(6));
        assert_eq!(refused(&format!("~a{{2,1}}{}", "*".repeat(15)), 1), Some(7));
        assert_eq!(refused(&format!("~{}", "(".repeat(255)), 1), Some(4));
        assert_eq!(refused(&format!("~{}", "(".repeat(254)), 1), Some(5));
    }

    #[test]
    fn a_bound_after_a_less_than_is_not_reached() {
        let band = |text: &str| match read(&format!("a{text}")) {
            Drill::Within(_, band) => band,
            drill => panic!("{drill:?} is no band"),
        };
        let (reached, not_reached) = (Bound::Reached, Bound::NotReached);
        let table = [
            ("{200,500}", reached(200), Some(reached(500))),
            ("{<200,500}", not_reached(200), Some(reached(500))),
            ("{200,<500}", reached(200), Some(not_reached(500))),
            ("{<200,<500}", not_reached(200), Some(not_reached(500))),
            ("{200,}", reached(200), None),
            ("{<200,}", not_reached(200), None),
            ("{<0,}", not_reached(0), None),
            // Fractions lie between neighbouring ticks.
            ("{<2,<3}", not_reached(2), Some(not_reached(3))),
            ("{<0,<1}", not_reached(0), Some(not_reached(1))),
            ("{<1000000,}", not_reached(1_000_000), None),
            (
                "{<999999,<1000000}",
                not_reached(999_999),
                Some(not_reached(1_000_000)),
            ),
        ];
        for (text, lo, hi) in table {
            assert_eq!(band(text), Band { lo, hi }, "{text}");
        }
    }

    #[test]
    fn a_less_than_stands_directly_before_a_number_and_nowhere_else() {
        for text in [
            "a{200,<}",
            "a{<200,<}",
            "a{<,5}",
            "a{<,}",
            "a{<,<}",
            "a{<}",
            "a{<2}",
            "a{,<5}",
            "a{<02,5}",
            "a{2,<05}",
            "a{<00,1}",
            "a{0<2,5}",
            "a{<<2,5}",
            "a{2,<<5}",
            "a{2<,5}",
            "a{2,5<}",
            "a{2<5}",
            "a{<2,5",
            "a{<2,<5,}",
            "a{=<2,5}",
            "a{<=2,5}",
            "a{>2,5}",
            "a{2,>5}",
            "a{<-1,2}",
            "a{< 2,5}",
            "a{ <2,5}",
            "a{<2 ,5}",
            "a{<2, 5}",
            "a{2, <5}",
            "a{2,< 5}",
            "a{2,<5 }",
            "a{<2, }",
            "a<{2,5}",
            "a{2,5}<",
            "<a",
            "a<2",
            "a<b",
        ] {
            assert_eq!(refused(text, 16), Some(5), "{text}");
        }
    }

    /// Whatever the number is: where it is above the highest bound, that refuses it as well.
    #[test]
    fn equal_bounds_are_both_reached() {
        for number in [
            "0",
            "2",
            "1000000",
            "1000001",
            "4294967295",
            "4294967296",
            "99999999999999999999",
        ] {
            for (lo, hi) in [("<", ""), ("", "<"), ("<", "<")] {
                let text = format!("a{{{lo}{number},{hi}{number}}}");
                assert_eq!(refused(&text, 1), Some(7), "{text}");
            }
        }
        for text in ["a{0,0}", "a{2,2}", "a{1000000,1000000}"] {
            assert_eq!(refused(text, 1), None, "{text}");
        }
    }

    #[test]
    fn each_check_covers_the_whole_text_before_the_next() {
        assert_eq!(refused("", 1), Some(4));
        assert_eq!(refused(&"(".repeat(256), 1), Some(4));
        assert_eq!(refused("b{2,1}.a)", 1), Some(5));
        assert_eq!(refused("a{2,1}.b", 1), Some(6));
        assert_eq!(refused("a{2,1}*****************", 1), Some(7));
        assert_eq!(refused("b{<2,2}.a)", 1), Some(5));
        assert_eq!(refused("a{<2,2}.b", 1), Some(6));
        assert_eq!(refused("a{<2,2}*****************", 1), Some(7));
        assert_eq!(refused("a{<2,5}*****************", 1), Some(8));
        assert_eq!(refused("+b{2,1}.+", 1), Some(5));
        assert_eq!(refused("+a{2,1}.-b", 1), Some(6));
        assert_eq!(refused("-a{2,1}*****************", 1), Some(7));
        assert_eq!(refused("-a{0,0}*****************", 1), Some(8));
        assert_eq!(refused("a*****************", 1), Some(8));
    }

    #[test]
    fn bounds_may_have_any_number_of_digits() {
        assert_eq!(refused("a{1000001,}", 1), Some(7));
        assert_eq!(refused("a{0,1000001}", 1), Some(7));
        assert_eq!(refused("a{3,2}", 1), Some(7));
        // 2^32 and 2^64 must not come back as 0.
        assert_eq!(refused("a{0,4294967296}", 1), Some(7));
        assert_eq!(refused("a{18446744073709551616,}", 1), Some(7));
        assert_eq!(refused(&format!("a{{{},}}", "9".repeat(250)), 1), Some(7));
        for text in [
            "a{<1000001,}",
            "a{0,<1000001}",
            "a{<3,2}",
            "a{3,<2}",
            "a{<3,<2}",
            "a{<4294967296,}",
            "a{0,<4294967296}",
            "a{<0,<18446744073709551616}",
        ] {
            assert_eq!(refused(text, 1), Some(7), "{text}");
        }
        assert_eq!(refused(&format!("a{{<{},}}", "9".repeat(249)), 1), Some(7));
    }

    #[test]
    fn depth_counts_operators_and_no_brackets() {
        assert_eq!(refused(&format!("a{}", "*".repeat(15)), 1), None);
        assert_eq!(refused(&format!("a{}", "*".repeat(16)), 1), Some(8));
        assert_eq!(refused(&format!("+a{}", "*".repeat(15)), 1), None);
        assert_eq!(refused(&format!("-a{}", "*".repeat(16)), 1), Some(8));
        let wrapped = format!("{}a{}", "(".repeat(127), ")".repeat(127));
        assert_eq!((wrapped.len(), refused(&wrapped, 1)), (255, None));
        assert_eq!(read("!a.(b|c{1,2})").depth(), 4);
        assert_eq!(read("+a.(-b|c{1,2})").depth(), 4);
        assert_eq!(read("+a.-b").depth(), 2);
    }
}
