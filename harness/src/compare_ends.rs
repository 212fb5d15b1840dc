//! Calls from a start tick, held to what the list call comes to on the same buffers, and to what the
//! quick matcher and the proved library make of them: numbers, counts, ends, and every word of both
//! buffers and of all margins.

use crate::compare::{Call, Outcome};
use crate::ends::{self, ToldEnds, ENDS_WORDS};
use crate::finder::Returned;
use crate::lent::{Lent, MARGIN};
use crate::proved::{AskedEnds, Proved, NO_ROOM};
use crate::quick::QuickList;
use crate::recording::Recording;
use crate::refusal::Refusal;
use crate::sheet;
use crate::zones::{List, ZoneList};

/// A call on one drill that is told a start tick.
#[derive(Clone, Copy)]
pub struct EndsCall<'a> {
    pub call: Call<'a>,
    pub start: u32,
}

/// What such a call comes to.
#[derive(Clone)]
pub struct EndsOutcome {
    pub told: ToldEnds,
    /// Both buffers afterwards.
    pub after: Lent,
}

/// Places for counts and for words of the ends.
#[derive(Clone, Copy, Debug, PartialEq, Eq)]
pub struct Room {
    pub counts: usize,
    pub ends: usize,
}

/// Counts that a call writes.
const COUNTS: usize = 2;
/// Stands in and around the counts before a call.
const UNTOLD: u64 = 0xC0DE;
/// Stands in and around the ends before a call: no word of an end.
const UNWRITTEN: i32 = i32::MIN + 0xC0DE;

impl Room {
    pub const JUST_ENOUGH: Room = Room {
        counts: COUNTS,
        ends: ENDS_WORDS,
    };

    /// Places that a call has to leave as they were.
    pub const MORE: Room = Room {
        counts: COUNTS + 2,
        ends: ENDS_WORDS + 3,
    };

    /// Too few counts, too few words for the ends, or both.
    fn too_little() -> impl Iterator<Item = Room> {
        let all = (0..=COUNTS).flat_map(|counts| {
            let words = 0..=ENDS_WORDS;
            words.map(move |ends| Room { counts, ends })
        });
        all.filter(|&room| room != Room::JUST_ENOUGH)
    }
}

/// What a call of the proved library returns and writes beside the buffers, margins included.
#[derive(Debug, PartialEq, Eq)]
struct Written {
    number: u32,
    counts: Vec<u64>,
    ends: Vec<i32>,
}

impl Written {
    /// A call that returns a number and writes nothing.
    fn nothing(number: u32, room: Room) -> Written {
        Written {
            number,
            counts: vec![UNTOLD; room.counts + 2 * MARGIN],
            ends: vec![UNWRITTEN; room.ends + 2 * MARGIN],
        }
    }

    /// A call that returns and writes what the plain matcher tells.
    fn of(told: &ToldEnds, room: Room) -> Written {
        let mut written = Written::nothing(told.returned.number, room);
        let counts = [told.returned.zones, told.returned.rounds];
        written.counts[MARGIN..MARGIN + COUNTS].copy_from_slice(&counts);
        written.ends[MARGIN..MARGIN + ENDS_WORDS].copy_from_slice(&told.words());
        written
    }
}

impl EndsCall<'_> {
    /// The call with lists of any kind.
    fn with_lists<L: ZoneList>(&self) -> EndsOutcome {
        let mut after = self.call.lent.clone();
        let (answer, work) = after.lend();
        let Call {
            recording, drill, ..
        } = self.call;
        let told = ends::call::<L>(recording, drill, self.start, answer, work);
        EndsOutcome { told, after }
    }

    /// The call through everything that has an opinion on it: the papers, by way of what the drill comes
    /// to by itself, the quick matcher, and the proved library with this room.
    pub fn compare(
        &self,
        alone: &Outcome,
        proved: Option<Proved>,
        room: Room,
    ) -> Result<EndsOutcome, String> {
        let plain = self.with_lists::<List>();
        let theirs = |proved| self.compare_proved(&plain, proved, room);
        self.check_by_list(&plain, alone)
            .and_then(|()| self.with_lists::<QuickList>().check_same("quick", &plain))
            .and_then(|()| proved.map_or(Ok(()), theirs))
            .map_err(|fault| format!("from start {}: {fault}", self.start))?;
        Ok(plain)
    }

    /// What the list call comes to on the same inputs and buffers decides all but the ends: 1 to 8 come
    /// before 14, which leaves everything as it was, and else the number, the counts and both buffers are
    /// the same.
    fn check_by_list(&self, plain: &EndsOutcome, alone: &Outcome) -> Result<(), String> {
        let comes_before = (1..=8).contains(&alone.returned.number);
        let (returned, after) = if self.is_late() && !comes_before {
            (LATE, self.call.lent)
        } else {
            (alone.returned, &alone.after)
        };
        if plain.told.returned != returned {
            let found = plain.told.returned;
            return Err(format!(
                "the plain matcher returns {found:?}, not {returned:?}"
            ));
        }
        if !returned.is_accepted() && plain.told.ends.is_some() {
            return Err("the plain matcher tells ends and refuses the call".into());
        }
        plain.after.check_equal("the call from a start", after)
    }

    /// Whether the start is above d.
    fn is_late(&self) -> bool {
        let recording = Recording::read(self.call.recording);
        recording.is_ok_and(|recording| self.start > recording.ticks())
    }

    /// The proved library must return the same, write the same and leave the same as the plain matcher;
    /// and with too little room nothing may be touched.
    fn compare_proved(
        &self,
        plain: &EndsOutcome,
        proved: Proved,
        room: Room,
    ) -> Result<(), String> {
        let mut after = self.call.lent.clone();
        let theirs = self.proved(proved, room, &mut after);
        theirs.check_same(&Written::of(&plain.told, room), room)?;
        after.check_equal("proved", &plain.after)?;
        let mut untouched = self.call.lent.clone();
        for room in Room::too_little() {
            let theirs = self.proved(proved, room, &mut untouched);
            theirs.check_same(&Written::nothing(NO_ROOM, room), room)?;
            if untouched != *self.call.lent {
                return Err(format!("proved wrote into a buffer with {room:?}"));
            }
        }
        Ok(())
    }

    fn proved(&self, proved: Proved, room: Room, after: &mut Lent) -> Written {
        let mut written = Written::nothing(0, room);
        let (answer, work) = after.lend();
        written.number = (proved.ends)(AskedEnds {
            recording: self.call.recording,
            drill: self.call.drill,
            start: self.start,
            answer,
            work,
            ends: &mut written.ends[MARGIN..MARGIN + room.ends],
            counts: &mut written.counts[MARGIN..MARGIN + room.counts],
        });
        written
    }
}

/// What a call returns whose start is above d.
const LATE: Returned = Returned {
    number: Refusal::StartLate as u32,
    zones: 0,
    rounds: 0,
};

impl Written {
    fn check_same(&self, plain: &Written, room: Room) -> Result<(), String> {
        if self == plain {
            return Ok(());
        }
        Err(format!(
            "with {room:?}, margins around it, proved gives {self:?}, plain {plain:?}"
        ))
    }
}

impl EndsOutcome {
    /// Whether another finder's call came to the same as the plain matcher's.
    fn check_same(&self, finder: &str, plain: &EndsOutcome) -> Result<(), String> {
        if self.told != plain.told {
            let (theirs, plain) = (self.told, plain.told);
            return Err(format!("{finder} told {theirs:?}, plain {plain:?}"));
        }
        self.after.check_equal(finder, &plain.after)
    }

    /// What is told, in one line without its newline.
    pub fn line(&self) -> String {
        sheet::ends_line(&self.told).trim_end().into()
    }
}
