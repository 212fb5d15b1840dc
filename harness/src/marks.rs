//! The program `marks`, run on files at the edges of what it accepts.
//!
//! What it must print is worked out from the whole files by the plain matcher: one final newline of
//! the drill is dropped, and a file that is missing counts as empty. Every file that is too long has
//! a front that would be accepted, so that a program that reads less of it gives itself away.

use crate::examples::{bracketed, one_change_too_many, pulses, recording, recording_r};
use crate::finder::{find, WORK_WORDS};
use crate::program::Program;
use crate::recording::{MAX_LENGTH, RECORD};
use crate::sheet;
use crate::zone::WORDS;
use crate::zones::MAX_ZONES;

/// Both files, where they are there, and the refusal that they must get, 0 for none.
struct Case {
    name: &'static str,
    recording: Option<Vec<u8>>,
    drill: Option<Vec<u8>>,
    number: u32,
}

impl Case {
    fn new(name: &'static str, recording: &[u8], drill: &[u8], number: u32) -> Case {
        Case {
            name,
            recording: Some(recording.to_vec()),
            drill: Some(drill.to_vec()),
            number,
        }
    }

    fn without_recording(self) -> Case {
        Case {
            recording: None,
            ..self
        }
    }

    fn without_drill(self) -> Case {
        Case {
            drill: None,
            ..self
        }
    }

    /// All that must be printed.
    fn sheet(&self) -> Result<String, String> {
        let recording = self.recording.as_deref().unwrap_or_default();
        let drill = self.drill.as_deref().unwrap_or_default();
        let drill = drill.strip_suffix(b"\n").unwrap_or(drill);
        let mut answer = [0; MAX_ZONES * WORDS];
        let returned = find(recording, drill, &mut answer, &mut [0; WORK_WORDS]);
        if returned.number != self.number {
            let (found, meant) = (returned.number, self.number);
            return Err(format!("the plain matcher gives {found} and not {meant}"));
        }
        Ok(sheet::text(returned, &answer))
    }

    fn check(&self, program: &Program) -> Result<(), String> {
        let files = [
            ("drive.rec", self.recording.as_deref()),
            ("drill.txt", self.drill.as_deref()),
        ];
        program.must_print(&files, &self.sheet()?)
    }
}

/// Runs the program on every case.
pub fn run(program: &str) -> Result<String, String> {
    let program = Program::at(program)?;
    let cases = all();
    for case in &cases {
        case.check(&program)
            .map_err(|fault| format!("{}: {fault}", case.name))?;
    }
    Ok(format!("marks agrees on {} cases", cases.len()))
}

fn all() -> Vec<Case> {
    let groups = [
        recordings(),
        first_reports(),
        absences(),
        drills(),
        newlines(),
        missing(),
    ];
    groups.into_iter().flatten().collect()
}

/// Recordings at the edge of 32,768 bytes, and with a newline at their end, which is a byte as any
/// other.
fn recordings() -> Vec<Case> {
    let long = one_change_too_many();
    let with_newline = recording(100, 16, &[(20, 0x0A00)]);
    let newline_more = [&recording_r()[..], b"\n"].concat();
    vec![
        Case::new("32,768 bytes", &long[..MAX_LENGTH], b"a", 0),
        Case::new("32,769 bytes", &long[..MAX_LENGTH + 1], b"a", 1),
        Case::new("32,776 bytes", &long, b"a", 1),
        Case::new("a newline as the last byte", &with_newline, b"j&l", 0),
        Case::new("a newline too many", &newline_more, b"a", 1),
    ]
}

/// Drives that are reported late, or never.
fn first_reports() -> Vec<Case> {
    let on_tick_d = recording(104, 1, &[(96, 0)]);
    vec![
        Case::new("nothing before tick 2", &recording_r(), b"!a", 0),
        Case::new("all from tick 2 on", &recording_r(), b"(a|!a)*", 0),
        Case::new("no change", &recording(100, 1, &[]), b"!a|_", 0),
        Case::new("a change on tick d alone", &on_tick_d, b"!a|_", 0),
    ]
}

/// Absences, and a `~` where none may stand.
fn absences() -> Vec<Case> {
    let on_r =
        |name, drill: &str, number| Case::new(name, &recording_r(), drill.as_bytes(), number);
    vec![
        on_r("an absence", "~a\n", 0),
        on_r("an absence of an absence", "~(~a)", 0),
        on_r("two tildes", "~~a\n", 5),
        on_r("a tilde alone", "~\n", 5),
        Case::new("no change, an absence", &recording(100, 1, &[]), b"~a", 0),
        Case::new("an absence of 31 runs", &pulses(31), b"~a\n", 0),
        Case::new("an absence of 32 runs", &pulses(32), b"~a\n", 10),
    ]
}

/// Drills at the edge of 255 bytes.
fn drills() -> Vec<Case> {
    let with = |name, drill: String, behind: &[u8], number| {
        let drill = [drill.as_bytes(), behind].concat();
        Case::new(name, &recording_r(), &drill, number)
    };
    let longest = || bracketed("a");
    vec![
        with("255 bytes", longest(), b"", 0),
        with("255 bytes and a newline", longest(), b"\n", 0),
        with("255 bytes and two newlines", longest(), b"\n\n", 4),
        with("255 bytes, a newline and a byte", longest(), b"\n*", 4),
        with("255 bytes and many newlines", longest(), &[b'\n'; 999], 4),
        with("256 bytes", longest(), b"*", 4),
        with("256 bytes and a newline", longest(), b"*\n", 4),
        with("256 bytes and two newlines", longest(), b"*\n\n", 4),
        with("257 bytes", longest(), b"**", 4),
        with("254 bytes and two newlines", bracketed("_*"), b"\n\n", 5),
    ]
}

/// One final newline is dropped, and nothing else.
fn newlines() -> Vec<Case> {
    let on_r =
        |name, drill: &str, number| Case::new(name, &recording_r(), drill.as_bytes(), number);
    vec![
        on_r("no newline", "(a{2,2})*", 0),
        on_r("a newline", "(a{2,2})*\n", 0),
        on_r("two newlines", "(a{2,2})*\n\n", 5),
        on_r("a newline in front", "\na", 5),
        on_r("a newline inside", "a\n.a", 5),
        on_r("a carriage return and a newline", "a\r\n", 5),
        on_r("nothing", "", 4),
        on_r("a newline alone", "\n", 4),
        on_r("two newlines alone", "\n\n", 5),
    ]
}

/// A file that is missing counts as empty.
fn missing() -> Vec<Case> {
    let on_r = |name, number| Case::new(name, &recording_r(), b"a", number);
    vec![
        on_r("no drive.rec", 1).without_recording(),
        on_r("no drill.txt", 4).without_drill(),
        on_r("neither file", 1).without_recording().without_drill(),
        Case::new("an empty drive.rec", b"", b"a", 1),
        Case::new("no drive.rec, a wrong drill", b"", b"(", 1).without_recording(),
        Case::new("a wrong drive.rec, no drill.txt", &[0; RECORD], b"", 2).without_drill(),
    ]
}

#[cfg(test)]
mod tests {
    use super::*;
    use crate::drill::MAX_LENGTH as MAX_DRILL;

    #[test]
    fn every_case_has_its_number() {
        for case in all() {
            assert_eq!(case.sheet().err(), None, "{}", case.name);
        }
    }

    #[test]
    fn what_is_too_long_has_a_front_that_is_accepted() {
        let long = one_change_too_many();
        assert_eq!(long.len(), MAX_LENGTH + RECORD);
        assert_eq!(bracketed("a").len(), MAX_DRILL);
        assert_eq!(bracketed("_*").len(), MAX_DRILL - 1);
        let sheet = Case::new("", &long[..MAX_LENGTH], b"a", 0).sheet();
        let expected = "zones 1 rounds 0\nstart [4095,5000) end (4095,5000] length (0,905]\n";
        assert_eq!(sheet.as_deref(), Ok(expected));
        // Were the last change read, it would end the run.
        assert_eq!(long[MAX_LENGTH..][..2], [0x43, 0x48]);
    }
}
