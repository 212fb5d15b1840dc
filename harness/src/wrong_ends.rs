//! Calls from a start tick by wrong rules, in the place of the proved library: the named calls must give
//! each of them away.

use crate::ends::{self, ENDS_WORDS};
use crate::finder::{self, WORK_WORDS};
use crate::honest::honest_ends;
use crate::proved::{AskedEnds, Ends, NO_ROOM};
use crate::recording::{Recording, RECORD};
use crate::zone::{Range, Zone, WORDS};
use crate::zones::MAX_ZONES;

const ANSWER_WORDS: usize = MAX_ZONES * WORDS;

/// What is wrong, and a call that is wrong so.
pub type Wrong = (&'static str, Ends);

pub fn all() -> Vec<Wrong> {
    let groups = [
        wrong_ends(),
        wrong_orders(),
        wrong_starts(),
        wrong_buffers(),
        wrong_places(),
    ];
    groups.into_iter().flatten().collect()
}

/// The honest call, with the ends of an accepted drill told by a rule on the zones of its list and the
/// start.
pub fn told_by(asked: AskedEnds, rule: fn(&[Zone], i32) -> Option<Range>) -> u32 {
    let start = asked.start as i32;
    let (answer, ends, counts) = (asked.answer, asked.ends, asked.counts);
    let number = honest_ends(AskedEnds {
        answer,
        ends,
        counts,
        ..asked
    });
    if number == 0 {
        let words = answer
            .as_chunks::<WORDS>()
            .0
            .iter()
            .take(counts[0] as usize);
        let zones: Vec<Zone> = words.map(|&words| Zone::from_words(words)).collect();
        let told = rule(&zones, start);
        let words = told.map_or([0; ENDS_WORDS], |told| [1, told.limit, told.minus_limit]);
        ends[..ENDS_WORDS].copy_from_slice(&words);
    }
    number
}

/// The honest answer.
fn right(zones: &[Zone], start: i32) -> Option<Range> {
    ends::of(zones.iter().copied(), start as u32)
}

/// The ends of those zones that meet a condition, whole.
fn whole(zones: &[Zone], meets: impl Fn(&Zone) -> bool) -> Option<Range> {
    let zones = zones.iter().filter(|zone| meets(zone));
    zones.map(Zone::ends).reduce(Range::hull)
}

/// The ends of each zone that has any.
fn each(zones: &[Zone], start: i32) -> impl Iterator<Item = Range> + '_ {
    zones.iter().filter_map(move |zone| zone.ends_from(start))
}

/// Other ends, in calls that are accepted.
fn wrong_ends() -> Vec<Wrong> {
    vec![
        (
            "the limits of a zone before it is cut at the start",
            |asked| {
                told_by(asked, |zones, start| {
                    whole(zones, |zone| zone.ends_from(start).is_some())
                })
            },
        ),
        ("the limits of all zones", |asked| {
            told_by(asked, |zones, _| whole(zones, |_| true))
        }),
        ("the limits of all zones, where any starts there", |asked| {
            told_by(asked, |zones, start| {
                right(zones, start).and(whole(zones, |_| true))
            })
        }),
        ("the limits on the length alone", |asked| {
            told_by(asked, |zones, start| {
                let there = zones.iter().filter(|zone| zone.ends_from(start).is_some());
                let lengths = there.map(|zone| {
                    let [.., l, ml] = *zone.words();
                    Range {
                        limit: l + 2 * start,
                        minus_limit: ml - 2 * start,
                    }
                });
                lengths.reduce(Range::hull)
            })
        }),
        ("a zone that starts just before the start", |asked| {
            told_by(asked, |zones, start| {
                let closed = zones.iter().filter_map(|zone| {
                    let mut words = *zone.words();
                    words[0] |= 1;
                    Zone::from_words(words).ends_from(start)
                });
                closed.reduce(Range::hull)
            })
        }),
        ("a zone that starts just behind the start", |asked| {
            told_by(asked, |zones, start| {
                let closed = zones.iter().filter_map(|zone| {
                    let mut words = *zone.words();
                    words[1] |= 1;
                    Zone::from_words(words).ends_from(start)
                });
                closed.reduce(Range::hull)
            })
        }),
        ("reached for not reached, the latest", |asked| {
            told_by(asked, |zones, start| {
                right(zones, start).map(|ends| Range {
                    limit: ends.limit | 1,
                    ..ends
                })
            })
        }),
        ("reached for not reached, the earliest", |asked| {
            told_by(asked, |zones, start| {
                right(zones, start).map(|ends| Range {
                    minus_limit: ends.minus_limit | 1,
                    ..ends
                })
            })
        }),
        ("not reached for reached, the latest", |asked| {
            told_by(asked, |zones, start| {
                right(zones, start).map(|ends| Range {
                    limit: ends.limit & !1,
                    ..ends
                })
            })
        }),
        ("not reached for reached, the earliest", |asked| {
            told_by(asked, |zones, start| {
                right(zones, start).map(|ends| Range {
                    minus_limit: ends.minus_limit & !1,
                    ..ends
                })
            })
        }),
        (
            "the latest by its number, and reached if the first is",
            |asked| {
                told_by(asked, |zones, start| {
                    each(zones, start).reduce(|one, other| Range {
                        limit: if other.limit >> 1 > one.limit >> 1 {
                            other.limit
                        } else {
                            one.limit
                        },
                        ..one.hull(other)
                    })
                })
            },
        ),
        (
            "the earliest by its number, and reached if the first is",
            |asked| {
                told_by(asked, |zones, start| {
                    each(zones, start).reduce(|one, other| Range {
                        minus_limit: if other.minus_limit >> 1 > one.minus_limit >> 1 {
                            other.minus_limit
                        } else {
                            one.minus_limit
                        },
                        ..one.hull(other)
                    })
                })
            },
        ),
        ("the earliest of the first zone only", |asked| {
            told_by(asked, |zones, start| {
                let first = each(zones, start).next()?;
                right(zones, start).map(|ends| Range {
                    minus_limit: first.minus_limit,
                    ..ends
                })
            })
        }),
        ("the latest of the first zone only", |asked| {
            told_by(asked, |zones, start| {
                let first = each(zones, start).next()?;
                right(zones, start).map(|ends| Range {
                    limit: first.limit,
                    ..ends
                })
            })
        }),
        ("the latest of the last zone only", |asked| {
            told_by(asked, |zones, start| {
                let last = each(zones, start).last()?;
                right(zones, start).map(|ends| Range {
                    limit: last.limit,
                    ..ends
                })
            })
        }),
        ("the earliest of the last zone only", |asked| {
            told_by(asked, |zones, start| {
                let last = each(zones, start).last()?;
                right(zones, start).map(|ends| Range {
                    minus_limit: last.minus_limit,
                    ..ends
                })
            })
        }),
        ("the first zone of the list alone", |asked| {
            told_by(asked, |zones, start| zones.first()?.ends_from(start))
        }),
        ("none where only the stretch of length 0 fits", |asked| {
            told_by(asked, |zones, start| {
                let ends = right(zones, start)?;
                let is_moment = ends == Zone::moment(start).ends();
                (!is_moment).then_some(ends)
            })
        }),
        ("without the stretch of length 0", |asked| {
            told_by(asked, |zones, start| {
                let longer = zones.iter().filter_map(|zone| zone.within(0, None));
                let longer: Vec<Zone> = longer.collect();
                right(&longer, start)
            })
        }),
        ("the moment where there is none", |asked| {
            told_by(asked, |zones, start| {
                let moment = Zone::moment(start).ends();
                right(zones, start).or(Some(moment))
            })
        }),
        ("none from the last tick", |asked| {
            let ticks = ticks(asked.recording).unwrap_or(0);
            let (start, ends, counts) = (asked.start, asked.ends, asked.counts);
            let number = honest_ends(AskedEnds {
                ends,
                counts,
                ..asked
            });
            if number == 0 && start == ticks {
                ends[..ENDS_WORDS].fill(0);
            }
            number
        }),
    ]
}

/// The duration in ticks, where the recording is right.
fn ticks(recording: &[u8]) -> Option<u32> {
    Recording::read(recording).ok().map(|read| read.ticks())
}

fn is_late(asked: &AskedEnds) -> bool {
    ticks(asked.recording).is_some_and(|ticks| asked.start > ticks)
}

/// The call as it would come out with another start.
fn from(asked: AskedEnds, start: u32) -> u32 {
    honest_ends(AskedEnds { start, ..asked })
}

/// Gives 14 in the place of this number, where the start is late.
fn late_before(asked: AskedEnds, wanted: u32) -> u32 {
    let late = is_late(&asked);
    match honest_ends(asked) {
        number if late && number == wanted => 14,
        number => number,
    }
}

/// Gives these numbers before 14.
fn late_behind(asked: AskedEnds, numbers: &[u32]) -> u32 {
    if !is_late(&asked) {
        return honest_ends(asked);
    }
    let mut answer = asked.answer.to_vec();
    let mut work = asked.work.to_vec();
    let found = finder::find(asked.recording, asked.drill, &mut answer, &mut work);
    if numbers.contains(&found.number) {
        return from(asked, 0);
    }
    honest_ends(asked)
}

/// 14 in another place among the numbers, or another number for it.
fn wrong_orders() -> Vec<Wrong> {
    vec![
        ("14 before 8", |asked| late_before(asked, 8)),
        ("14 before 7", |asked| late_before(asked, 7)),
        ("14 before 6", |asked| late_before(asked, 6)),
        ("14 before 5", |asked| late_before(asked, 5)),
        ("14 before 4", |asked| late_before(asked, 4)),
        ("14 before 3", |asked| {
            // The duration alone is read, whatever the changes are.
            let head = asked.recording.get(..RECORD).and_then(ticks);
            let late = head.is_some_and(|ticks| asked.start > ticks);
            match honest_ends(asked) {
                3 if late => 14,
                number => number,
            }
        }),
        ("14 behind 9", |asked| late_behind(asked, &[9])),
        ("14 behind 10", |asked| late_behind(asked, &[10])),
        ("14 behind 11", |asked| late_behind(asked, &[11])),
        ("14 behind all others", |asked| {
            late_behind(asked, &[9, 10, 11])
        }),
        ("13 for 14", |asked| match honest_ends(asked) {
            14 => 13,
            number => number,
        }),
        ("5 for 14", |asked| match honest_ends(asked) {
            14 => 5,
            number => number,
        }),
    ]
}

/// Another start, or another last tick.
fn wrong_starts() -> Vec<Wrong> {
    vec![
        ("14 at d", |asked| match ticks(asked.recording) {
            Some(ticks) if asked.start == ticks => from(asked, ticks + 1),
            _ => honest_ends(asked),
        }),
        ("14 only behind d + 1", |asked| {
            match ticks(asked.recording) {
                Some(ticks) if asked.start == ticks + 1 => from(asked, ticks),
                _ => honest_ends(asked),
            }
        }),
        ("a late start is the last tick", |asked| {
            let last = ticks(asked.recording).unwrap_or(0);
            let start = asked.start.min(last);
            from(asked, start)
        }),
        ("a start of 16 bits", |asked| {
            let start = asked.start & 0xFFFF;
            from(asked, start)
        }),
        ("a start of 31 bits", |asked| {
            let start = asked.start & 0x7FFF_FFFF;
            from(asked, start)
        }),
        ("a start of 30 bits", |asked| {
            let start = asked.start & 0x3FFF_FFFF;
            from(asked, start)
        }),
        ("a start in milliseconds", |asked| {
            let start = asked.start / 10;
            from(asked, start)
        }),
        ("d with halves that go up", |asked| {
            let duration = asked.recording.get(2..6).map(|bytes| {
                let bytes = bytes.try_into().expect("four bytes");
                u32::from_le_bytes(bytes)
            });
            let up = duration.map_or(0, |duration| (duration + 5) / 10);
            let right = ticks(asked.recording).unwrap_or(up);
            if right < asked.start && asked.start <= up {
                return from(asked, right);
            }
            honest_ends(asked)
        }),
    ]
}

/// The call, with both buffers put back as they were where its number is the given one.
fn put_back(asked: AskedEnds, wanted: u32, put_answer: bool, put_work: bool) -> u32 {
    let (answer, work) = (asked.answer, asked.work);
    let before = (answer.to_vec(), work.to_vec());
    let number = honest_ends(AskedEnds {
        answer,
        work,
        ..asked
    });
    if number == wanted && put_answer {
        answer.copy_from_slice(&before.0);
    }
    if number == wanted && put_work {
        work.copy_from_slice(&before.1);
    }
    number
}

/// The call, with as much of the list in the answer as there is room for.
fn without_11(asked: AskedEnds) -> u32 {
    let (answer, ends, counts) = (asked.answer, asked.ends, asked.counts);
    let mut ample = [0; ANSWER_WORDS];
    let number = honest_ends(AskedEnds {
        answer: &mut ample,
        ends,
        counts,
        ..asked
    });
    if number == 0 {
        let listed = answer.len().min(counts[0] as usize * WORDS);
        answer[..listed].copy_from_slice(&ample[..listed]);
    }
    number
}

/// Other words in the buffers, or no 11.
fn wrong_buffers() -> Vec<Wrong> {
    vec![
        ("the answer is left unwritten", |asked| {
            put_back(asked, 0, true, false)
        }),
        ("the work is left uncleared", |asked| {
            put_back(asked, 0, false, true)
        }),
        ("10 leaves the work", |asked| {
            put_back(asked, 10, false, true)
        }),
        ("11 leaves the work", |asked| {
            put_back(asked, 11, false, true)
        }),
        ("14 lists all the same", |asked| {
            let (answer, work) = (asked.answer, asked.work);
            let (recording, drill) = (asked.recording, asked.drill);
            let number = honest_ends(AskedEnds {
                answer,
                work,
                ..asked
            });
            if number == 14 {
                finder::find(recording, drill, answer, work);
            }
            number
        }),
        ("14 clears the work", |asked| {
            let work = asked.work;
            let number = honest_ends(AskedEnds { work, ..asked });
            if number == 14 && work.len() >= WORK_WORDS {
                work[..WORK_WORDS].fill(0);
            }
            number
        }),
        ("no 11 where two numbers have room", |asked| {
            match asked.answer.len() {
                2.. => without_11(asked),
                _ => honest_ends(asked),
            }
        }),
        ("no 11 at all", without_11),
        ("only the zones that start there are listed", |asked| {
            let start = asked.start as i32;
            let (answer, counts) = (asked.answer, asked.counts);
            let number = honest_ends(AskedEnds {
                answer,
                counts,
                ..asked
            });
            if number == 0 {
                let zones = answer.as_chunks::<WORDS>().0.iter();
                let zones = zones.take(counts[0] as usize).copied();
                let there = zones.filter(|&words| {
                    let zone = Zone::from_words(words);
                    zone.ends_from(start).is_some()
                });
                let there: Vec<i32> = there.flatten().collect();
                answer[..there.len()].copy_from_slice(&there);
                counts[0] = (there.len() / WORDS) as u64;
            }
            number
        }),
    ]
}

/// Counts and ends that are written in a wrong place, or with no room for them.
pub fn wrong_places() -> Vec<Wrong> {
    vec![
        ("the rounds are not told", |asked| {
            let counts = asked.counts;
            let number = honest_ends(AskedEnds { counts, ..asked });
            if number == 0 {
                counts[1] = 0;
            }
            number
        }),
        ("a refusal leaves the ends", |asked| {
            let ends = asked.ends;
            let before = ends.to_vec();
            let number = honest_ends(AskedEnds { ends, ..asked });
            if number != 0 {
                ends.copy_from_slice(&before);
            }
            number
        }),
        ("14 leaves the counts", |asked| {
            let counts = asked.counts;
            let before = counts.to_vec();
            let number = honest_ends(AskedEnds { counts, ..asked });
            if number == 14 {
                counts.copy_from_slice(&before);
            }
            number
        }),
        ("none leaves the last two words", |asked| {
            let ends = asked.ends;
            let before = ends.to_vec();
            let number = honest_ends(AskedEnds { ends, ..asked });
            if number == 0 && ends[0] == 0 {
                ends[1..].copy_from_slice(&before[1..]);
            }
            number
        }),
        ("the earliest before the latest", |asked| {
            let ends = asked.ends;
            let number = honest_ends(AskedEnds { ends, ..asked });
            if number != NO_ROOM {
                ends.swap(1, 2);
            }
            number
        }),
        ("the earliest as a limit from below", |asked| {
            let ends = asked.ends;
            let number = honest_ends(AskedEnds { ends, ..asked });
            if number == 0 && ends[0] == 1 {
                ends[2] = -2 * (ends[2] >> 1) + (ends[2] & 1);
            }
            number
        }),
        ("a fourth word is cleared", |asked| {
            let ends = asked.ends;
            let number = honest_ends(AskedEnds { ends, ..asked });
            if let (0, Some(word)) = (number, ends.get_mut(ENDS_WORDS)) {
                *word = 0;
            }
            number
        }),
        ("a third count is cleared", |asked| {
            let counts = asked.counts;
            let number = honest_ends(AskedEnds { counts, ..asked });
            if let (0, Some(count)) = (number, counts.get_mut(2)) {
                *count = 0;
            }
            number
        }),
        ("too few ends are no reason", |asked| {
            let mut own = [0; ENDS_WORDS];
            match asked.ends.len() {
                0..ENDS_WORDS => honest_ends(AskedEnds {
                    ends: &mut own,
                    ..asked
                }),
                _ => honest_ends(asked),
            }
        }),
        ("too few counts are no reason", |asked| {
            let mut own = [0; 2];
            match asked.counts.len() {
                0..2 => honest_ends(AskedEnds {
                    counts: &mut own,
                    ..asked
                }),
                _ => honest_ends(asked),
            }
        }),
        ("the list is made before there is no room", |asked| {
            let (answer, work) = (asked.answer, asked.work);
            let (recording, drill) = (asked.recording, asked.drill);
            let number = honest_ends(AskedEnds {
                answer,
                work,
                ..asked
            });
            if number == NO_ROOM {
                finder::find(recording, drill, answer, work);
            }
            number
        }),
    ]
}
