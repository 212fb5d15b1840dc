//! Calls from a start tick in a campaign: from any start, through everything that has an opinion on them,
//! and on short drives from every tick, against brute force.

use crate::brute::Table;
use crate::compare::{Call, Outcome};
use crate::compare_ends::{EndsCall, Room};
use crate::ends;
use crate::ends_tally::EndsTally;
use crate::finder;
use crate::proved::Proved;
use crate::random::Rng;
use crate::recording::Recording;
use crate::sheet;
use crate::zone::{Range, Zone};

/// A drill from some start, from what it comes to by itself. Now and then, on a drive of at most so many
/// ticks, from every tick and from the first that is too late.
pub fn compare(
    rng: &mut Rng,
    call: &Call,
    alone: &Outcome,
    proved: Option<Proved>,
    short_ticks: u32,
    tally: &mut EndsTally,
) -> Result<(), String> {
    let ticks = Recording::read(call.recording).map_or(0, |recording| recording.ticks());
    let zones = finder::listed(alone.returned, alone.after.answer());
    let starts = if ticks <= short_ticks && rng.once_in(8) {
        (0..=ticks + 1).collect()
    } else {
        vec![any_start(rng, ticks, &zones)]
    };
    for start in starts {
        let from_start = EndsCall { call: *call, start };
        let outcome = from_start.compare(alone, proved, any_room(rng))?;
        call.lent
            .check_after(&outcome.after, outcome.told.returned)?;
        tally.note(&outcome.told, start, ticks, &zones);
    }
    Ok(())
}

/// The ends that the zones have from every tick of a short drive, against the table of what fits.
pub fn compare_every_start(
    fit: &Table,
    ticks: u32,
    zones: &[Zone],
    tally: &mut EndsTally,
) -> Result<(), String> {
    for start in 0..=ticks {
        let tried = fit.ends_from(start as usize)?;
        let told = ends::of(zones.iter().copied(), start);
        if told != tried {
            let in_words = |ends: Option<Range>| ends.map_or("none".into(), sheet::ends_range);
            let (told, tried) = (in_words(told), in_words(tried));
            return Err(format!(
                "from start {start} the zones have the ends {told}, brute force {tried}"
            ));
        }
        tally.tried += 1;
    }
    Ok(())
}

/// Any tick of the drive, a limit of a listed zone or a tick beside it, the last tick, or one too late.
fn any_start(rng: &mut Rng, ticks: u32, zones: &[Zone]) -> u32 {
    match rng.below(16) {
        0 => ticks,
        1 => ticks + 1,
        2 => rng.number() as u32,
        3..9 if !zones.is_empty() => near_a_limit(rng, zones),
        _ => rng.between(0, ticks),
    }
}

fn near_a_limit(rng: &mut Rng, zones: &[Zone]) -> u32 {
    let zone = rng.pick(zones);
    let ranges = [zone.starts(), zone.starts(), zone.ends()];
    let Range { limit, minus_limit } = *rng.pick(&ranges);
    let limit = *rng.pick(&[limit >> 1, -(minus_limit >> 1)]);
    let beside = *rng.pick(&[-1, 0, 0, 0, 1]);
    (limit + beside).max(0) as u32
}

/// Just enough room, or more of one kind or of both.
fn any_room(rng: &mut Rng) -> Room {
    let rooms = [Room::JUST_ENOUGH, Room::MORE];
    Room {
        counts: rng.pick(&rooms).counts,
        ends: rng.pick(&rooms).ends,
    }
}

#[cfg(test)]
mod tests {
    use super::*;
    use crate::brute;
    use crate::drill::Drill;
    use crate::examples::recording_r;
    use crate::finder::WORK_WORDS;
    use crate::honest::HONEST;
    use crate::lent::Lent;
    use crate::wrong_ends;

    /// The last tick, the one behind it, limits of zones and late starts come up often enough, and no
    /// start of a short drive is left out.
    #[test]
    fn starts_come_up_in_time_and_late() {
        let mut rng = Rng::new(1, 16);
        let zones = [Zone::run(200, 700)];
        let starts: Vec<u32> = (0..2_000)
            .map(|_| any_start(&mut rng, 1_000, &zones))
            .collect();
        let often = |least: usize, what: &str, meets: &dyn Fn(u32) -> bool| {
            let count = starts.iter().filter(|&&start| meets(start)).count();
            assert!(count > least, "{what}: {count}");
        };
        often(50, "d", &|start| start == 1_000);
        often(50, "d + 1", &|start| start == 1_001);
        often(50, "far above d", &|start| start > 1_000_000);
        often(800, "in time", &|start| start <= 1_000);
        for limit in [199, 200, 201, 699, 700, 701] {
            often(25, "at a limit", &|start| start == limit);
        }
        let short: Vec<u32> = (0..200).map(|_| any_start(&mut rng, 3, &[])).collect();
        assert!((0..=4).all(|start| short.contains(&start)));
    }

    /// The first complaint about a library in 200 cases on R.
    fn complaint_about(proved: Proved) -> Option<String> {
        let recording = recording_r();
        let mut tally = EndsTally::default();
        (0..200).find_map(|case| {
            let mut rng = Rng::new(1, case);
            let lent = Lent::of(20, WORK_WORDS + 2, &mut rng);
            let call = Call {
                recording: &recording,
                drill: rng.pick(&["(a{2,2})*", "a|_", "a{2,<4}", "a)"]).as_bytes(),
                lent: &lent,
            };
            let alone = call.plain(None);
            compare(&mut rng, &call, &alone, Some(proved), 12, &mut tally).err()
        })
    }

    #[test]
    fn wrong_libraries_are_found_and_an_honest_one_is_not() {
        assert_eq!(complaint_about(HONEST), None);
        for (name, ends) in wrong_ends::wrong_places() {
            let proved = Proved { ends, ..HONEST };
            assert!(complaint_about(proved).is_some(), "{name}");
        }
    }

    /// Zones that are a tick too long, or say that an end is reached which is not.
    #[test]
    fn zones_with_other_ends_are_found() {
        let bytes = recording_r();
        let recording = Recording::read(&bytes).expect("R");
        let drill = Drill::read(b"a", 1).expect("a");
        let fit = brute::exact(&drill, &recording);
        let complaint = |zones: &[Zone]| {
            let mut tally = EndsTally::default();
            let compared = compare_every_start(&fit, recording.ticks(), zones, &mut tally);
            compared.err()
        };
        assert_eq!(complaint(&[Zone::run(2, 7)]), None);
        let beside = [
            vec![],
            vec![Zone::run(2, 8)],
            vec![Zone::run(1, 7)],
            vec![Zone::run(2, 7), Zone::diagonal(10)],
            vec![Zone::run(2, 7), Zone::moment(7)],
        ];
        for zones in beside {
            assert!(complaint(&zones).is_some(), "{zones:?}");
        }
    }
}
