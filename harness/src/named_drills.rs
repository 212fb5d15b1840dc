//! Drills on named drives, each with its sheet worked out by hand.

/// A drill on a drive, and all that `marks` prints for it.
pub struct NamedDrill {
    pub recording: Vec<u8>,
    pub drill: String,
    pub sheet: String,
}

/// The drills on one drive of so many ticks, a line for each: the drill, its rounds, and its zones in
/// their order. A refused drill has `refused` and the number in place of these.
pub fn table(recording: &[u8], ticks: u32, lines: &str) -> Vec<NamedDrill> {
    let lines = lines.lines().map(|line| line.split_whitespace());
    let lines = lines.map(Vec::from_iter).filter(|words| !words.is_empty());
    lines
        .map(|words| NamedDrill {
            recording: recording.to_vec(),
            drill: words[0].into(),
            sheet: sheet(&words[1..], ticks),
        })
        .collect()
}

fn sheet(words: &[&str], ticks: u32) -> String {
    match words {
        ["refused", number] => format!("refused {number}\n"),
        [rounds, zones @ ..] => {
            let count = zones.len();
            let zones: String = zones.iter().map(|word| zone_line(word, ticks)).collect();
            format!("zones {count} rounds {rounds}\n{zones}")
        }
        [] => panic!("a drill without its sheet"),
    }
}

/// The line of a zone: `2-7` is the run from 2 to 7, `7` the moment 7, `diagonal` every moment,
/// `everything` every stretch, and any other zone has its ranges as in the sheet, with a `/` between
/// them.
fn zone_line(word: &str, ticks: u32) -> String {
    let number = |word: &str| word.parse::<u32>().expect("a tick");
    let ranges = if word == "diagonal" {
        format!("[0,{ticks}]/[0,{ticks}]/[0,0]")
    } else if word == "everything" {
        format!("[0,{ticks}]/[0,{ticks}]/[0,{ticks}]")
    } else if word.contains('/') {
        word.into()
    } else if let Some((start, end)) = word.split_once('-') {
        let length = number(end) - number(start);
        format!("[{start},{end})/({start},{end}]/(0,{length}]")
    } else {
        let at = number(word);
        format!("[{at},{at}]/[{at},{at}]/[0,0]")
    };
    let [start, end, length] = Vec::from_iter(ranges.split('/'))[..] else {
        panic!("`{word}` is no zone");
    };
    format!("start {start} end {end} length {length}\n")
}

/// Each drill must have its sheet, with buffers that are long enough, whatever kind its lists are of.
#[cfg(test)]
pub fn check(drills: Vec<NamedDrill>) {
    use crate::{by_times::TriedList, quick::QuickList, zones::List};

    for named in drills {
        let sheets = [
            sheet_with::<List>(&named),
            sheet_with::<QuickList>(&named),
            sheet_with::<TriedList>(&named),
        ];
        for sheet in sheets {
            assert_eq!(sheet, named.sheet, "{}", named.drill);
        }
    }
}

#[cfg(test)]
fn sheet_with<L: crate::zones::ZoneList>(named: &NamedDrill) -> String {
    use crate::finder::{call, WORK_WORDS};
    use crate::zone::WORDS;
    use crate::zones::{Allowed, MAX_ZONES};

    let mut answer = [7; MAX_ZONES * WORDS];
    let work = &mut [7; WORK_WORDS];
    let mut allowed = Allowed::ALL;
    let (recording, drill) = (&named.recording, named.drill.as_bytes());
    let found = call::<L>(recording, drill, &mut answer, work, &mut allowed);
    crate::sheet::text(found.expect("pairs enough").returned, &answer)
}

#[cfg(test)]
mod tests {
    use super::*;

    #[test]
    fn zones_are_written_as_in_the_sheet() {
        let lines = [
            ("2-7", "start [2,7) end (2,7] length (0,5]\n"),
            ("7", "start [7,7] end [7,7] length [0,0]\n"),
            ("diagonal", "start [0,10] end [0,10] length [0,0]\n"),
            ("everything", "start [0,10] end [0,10] length [0,10]\n"),
            (
                "[2,7)/(7,10]/(0,8]",
                "start [2,7) end (7,10] length (0,8]\n",
            ),
        ];
        for (word, line) in lines {
            assert_eq!(zone_line(word, 10), line);
        }
    }

    #[test]
    fn a_line_of_a_table_is_a_sheet() {
        let drills = table(
            &[1, 2],
            10,
            "\n  a 0\n ~~a  refused 5\n\n a* 1 2-7 diagonal\n",
        );
        let sheets = drills
            .iter()
            .map(|one| (one.drill.as_str(), one.sheet.as_str()));
        let run = "start [2,7) end (2,7] length (0,5]\n";
        let star = format!("zones 2 rounds 1\n{run}start [0,10] end [0,10] length [0,0]\n");
        let expected = [
            ("a", "zones 0 rounds 0\n"),
            ("~~a", "refused 5\n"),
            ("a*", &star),
        ];
        assert!(sheets.eq(expected));
    }
}
