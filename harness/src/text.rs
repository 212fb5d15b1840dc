//! Plain-text recordings, for people to write and to read.
//!
//! ```text
//! # a short drive: a is the mirror, b the indicator
//! drive 12000 channels 2
//! 1500 a
//! 1800 ab
//! 2500 -
//! ```
//!
//! The first line gives the duration in milliseconds and the number of channels. Each line after
//! it is a change: the time in milliseconds, and the letters of the channels that are high from
//! then on, `-` for none. Blank lines count for nothing, nor does what follows a `#`. Before the first
//! change no channel is high or low.
//!
//! The text says what stands in the bytes, sound or not, so that a wrong recording can be written
//! too; [`Written::complaint`] says where the finder would refuse it.

use std::fmt;

use crate::recording::{encode, letter, Change, Head, Recording, MAX_CHANNELS, RECORD};

/// What is wrong with a text, and on which line.
#[derive(Debug, PartialEq, Eq)]
pub struct Mistake {
    pub line: usize,
    pub message: String,
}

impl fmt::Display for Mistake {
    fn fmt(&self, out: &mut fmt::Formatter) -> fmt::Result {
        write!(out, "line {}: {}", self.line, self.message)
    }
}

/// A recording made from a text.
#[derive(Debug)]
pub struct Written {
    pub bytes: Vec<u8>,
    /// The line of each record.
    lines: Vec<usize>,
}

impl Written {
    /// Why the finder would refuse the recording, if it would, in terms of the text.
    pub fn complaint(&self) -> Option<String> {
        let fault = Recording::read(&self.bytes).err()?;
        Some(format!("line {}: {fault}", self.lines[fault.record]))
    }
}

/// What some editors put before a text, unseen.
const BYTE_ORDER_MARK: char = '\u{FEFF}';

/// The recording that a text describes.
pub fn to_bytes(text: &str) -> Result<Written, Mistake> {
    let mut lines = text
        .strip_prefix(BYTE_ORDER_MARK)
        .unwrap_or(text)
        .lines()
        .enumerate()
        .map(|(index, line)| (index + 1, words(line)))
        .filter(|(_, words)| !words.is_empty());
    let (number, first) = lines.next().ok_or_else(|| Mistake {
        line: 1,
        message: format!("the text is empty; {HEAD_FORM}"),
    })?;
    let head = head(&first).map_err(|message| Mistake {
        line: number,
        message,
    })?;
    let mut written_lines = vec![number];
    let mut changes = Vec::new();
    for (number, words) in lines {
        changes.push(change(&words).map_err(|message| Mistake {
            line: number,
            message,
        })?);
        written_lines.push(number);
    }
    Ok(Written {
        bytes: encode(head, &changes),
        lines: written_lines,
    })
}

const HEAD_FORM: &str = "expected `drive 12000 channels 3`: the duration in ms and the channels";
const CHANGE_FORM: &str = "expected a time in ms and the letters that are high from then on, \
                           as in `1500 ab`, or `1500 -` for none";

fn words(line: &str) -> Vec<&str> {
    let said = line.split('#').next().unwrap_or("");
    said.split_whitespace().collect()
}

fn head(words: &[&str]) -> Result<Head, String> {
    let ["drive", duration, "channels", channels] = words else {
        return Err(format!("found `{}`; {HEAD_FORM}", words.join(" ")));
    };
    Ok(Head {
        duration: milliseconds(duration, "duration")?,
        channels: number(channels, "channel count", "a whole number", u8::MAX.into())? as u8,
    })
}

fn change(words: &[&str]) -> Result<Change, String> {
    let found = words.join(" ");
    match words {
        [time, high] => Ok(Change {
            time: milliseconds(time, "time")?,
            levels: levels(high)?,
        }),
        [time, apart @ ..] if !apart.is_empty() && levels(&apart.concat()).is_ok() => {
            let (time, together) = (milliseconds(time, "time")?, apart.concat());
            Err(format!(
                "found `{found}`; letters are written together, as in `{time} {together}`"
            ))
        }
        _ => Err(format!("found `{found}`; {CHANGE_FORM}")),
    }
}

fn milliseconds(word: &str, what: &str) -> Result<u32, String> {
    let form = "a whole number in milliseconds, digits alone";
    number(word, what, form, u32::MAX)
}

/// A number that fits its field of the record.
fn number(word: &str, what: &str, form: &str, most: u32) -> Result<u32, String> {
    if word.is_empty() || !word.bytes().all(|byte| byte.is_ascii_digit()) {
        return Err(format!("`{word}` is no {what}; expected {form}"));
    }
    match word.parse() {
        Ok(value) if value <= most => Ok(value),
        _ => Err(format!("the {what} {word} is over {most}")),
    }
}

fn levels(word: &str) -> Result<u16, String> {
    if word == "-" {
        return Ok(0);
    }
    let mut levels = 0;
    for letter in word.chars() {
        if !('a'..='p').contains(&letter) {
            return Err(format!("`{letter}` is no channel; {CHANGE_FORM}"));
        }
        let bit = 1 << (letter as u8 - b'a');
        if levels & bit != 0 {
            return Err(format!("the letter `{letter}` stands twice in `{word}`"));
        }
        levels |= bit;
    }
    Ok(levels)
}

/// The text of a recording, or why no text says these bytes.
pub fn from_bytes(bytes: &[u8]) -> Result<String, String> {
    if bytes.is_empty() || !bytes.len().is_multiple_of(RECORD) {
        let length = bytes.len();
        return Err(format!("{length} bytes are not a number of whole records"));
    }
    let mut records = bytes.chunks_exact(RECORD);
    let head = records.next().and_then(Head::decode);
    let Head { duration, channels } = head.ok_or("the first record is no head")?;
    let mut text = format!("drive {duration} channels {channels}\n");
    for (index, record) in records.enumerate() {
        let Change { time, levels } =
            Change::decode(record).ok_or_else(|| format!("record {} is no change", index + 1))?;
        text.push_str(&format!("{time} {}\n", letters(levels)));
    }
    Ok(text)
}

fn letters(levels: u16) -> String {
    if levels == 0 {
        return "-".into();
    }
    (0..MAX_CHANNELS)
        .filter(|channel| levels >> channel & 1 == 1)
        .map(letter)
        .collect()
}

#[cfg(test)]
mod tests {
    use super::*;
    use crate::examples::{recording, recording_r};

    fn mistake(text: &str) -> String {
        to_bytes(text).expect_err("a mistake").to_string()
    }

    fn complaint(text: &str) -> String {
        let written = to_bytes(text).expect("bytes, if wrong ones");
        written.complaint().expect("a complaint")
    }

    #[test]
    fn r_by_hand() {
        let text = "# recording R\n\ndrive 100 channels 1\n  20 a # high\n70 -\n";
        let written = to_bytes(text).expect("a recording");
        assert_eq!(written.bytes, recording_r());
        assert_eq!(written.complaint(), None);
        let back = from_bytes(&written.bytes).unwrap();
        assert_eq!(back, "drive 100 channels 1\n20 a\n70 -\n");
    }

    #[test]
    fn all_letters_and_any_order() {
        let written = to_bytes("drive 100 channels 16\n5 pa\n6 abcdefghijklmnop\n");
        let expected = recording(100, 16, &[(5, 0x8001), (6, 0xFFFF)]);
        assert_eq!(written.ok().map(|w| w.bytes), Some(expected.clone()));
        assert!(from_bytes(&expected).unwrap().contains("\n5 ap\n"));
    }

    #[test]
    fn a_byte_order_mark_is_skipped() {
        let written = to_bytes("\u{FEFF}drive 100 channels 1\r\n20 a\r\n70 -\r\n");
        assert_eq!(written.expect("a recording").bytes, recording_r());
        assert!(mistake("\u{FEFF}").starts_with("line 1: the text is empty"));
    }

    #[test]
    fn mistakes_name_the_line_and_what_was_expected() {
        assert!(mistake("").starts_with("line 1: the text is empty; expected `drive"));
        assert!(mistake("\ndrive 10").starts_with("line 2: found `drive 10`; expected `drive"));
        assert!(mistake("drive x channels 1").contains("`x` is no duration"));
        assert!(mistake("drive 10 channels 256").contains("over 255"));
        let head = "drive 100 channels 2\n";
        assert!(mistake(&format!("{head}5")).starts_with("line 2: found `5`"));
        assert!(mistake(&format!("{head}\n5 aq")).starts_with("line 3: `q` is no channel"));
        assert!(mistake(&format!("{head}5 aba")).contains("stands twice in `aba`"));
        assert!(mistake(&format!("{head}99999999999 a")).contains("is over 4294967295"));
        assert!(mistake(&format!("{head}-5 a")).contains("`-5` is no time"));
    }

    #[test]
    fn times_are_digits_alone() {
        let form = "expected a whole number in milliseconds, digits alone";
        let duration = mistake("drive 10,000 channels 1");
        assert_eq!(duration, format!("line 1: `10,000` is no duration; {form}"));
        let time = mistake("drive 100 channels 1\n1.5 a");
        assert_eq!(time, format!("line 2: `1.5` is no time; {form}"));
        let count = mistake("drive 100 channels two");
        assert!(count.ends_with("`two` is no channel count; expected a whole number"));
    }

    #[test]
    fn letters_apart_are_told_together() {
        let head = "drive 100 channels 3\n";
        let together = "line 2: found `20 a b c`; letters are written together, as in `20 abc`";
        assert_eq!(mistake(&format!("{head}20 a b c")), together);
        assert!(mistake(&format!("{head}2,0 a b")).contains("`2,0` is no time"));
        for other in ["20", "20 a a", "20 a -", "20 a and b"] {
            let mistake = mistake(&format!("{head}{other}"));
            let found = format!("line 2: found `{other}`; expected a time");
            assert!(mistake.starts_with(&found), "{mistake}");
        }
    }

    #[test]
    fn wrong_recordings_can_be_written_with_a_complaint() {
        let written = to_bytes("drive 100 channels 1\n50 a\n# back in time\n40 -\n");
        let written = written.expect("bytes, if wrong ones");
        assert_eq!(written.bytes, recording(100, 1, &[(50, 1), (40, 0)]));
        let complaint = written.complaint().expect("a complaint");
        assert!(complaint.starts_with("line 4: the time is not above"));
        assert!(complaint.ends_with("; marks will print `refused 3`"));
        let back = from_bytes(&written.bytes).unwrap();
        assert_eq!(back, "drive 100 channels 1\n50 a\n40 -\n");
    }

    #[test]
    fn letters_beyond_the_channels() {
        let one = "line 2: `b` is no channel here: the only one is `a`; \
                   marks will print `refused 3`";
        assert_eq!(complaint("drive 100 channels 1\n20 ab"), one);
        let many = "line 2: `d` is not among the 3 channels, `a` to `c`; \
                    marks will print `refused 3`";
        assert_eq!(complaint("drive 100 channels 3\n20 ped"), many);
        assert!(complaint("drive 100 channels 15\n20 p").contains("`p` is not among"));
    }

    #[test]
    fn changes_beyond_the_last_that_fits() {
        let drive = |changes: usize| {
            let changes = (0..changes).map(|time| format!("{time} -\n"));
            format!("drive 10000 channels 1\n{}", changes.collect::<String>())
        };
        let most = to_bytes(&drive(4_095)).expect("a recording");
        assert_eq!(most.complaint(), None);
        let more = "line 4097: there are 4,100 changes, and at most 4,095 fit; \
                    marks will print `refused 1`";
        assert_eq!(complaint(&drive(4_100)), more);
    }

    #[test]
    fn bytes_that_no_text_says() {
        assert!(from_bytes(&[0; 7]).is_err());
        assert!(from_bytes(&[0; 8]).is_err());
        let twice = [recording_r(), recording_r()].concat();
        assert_eq!(from_bytes(&twice), Err("record 3 is no change".into()));
    }
}
