//! Drills on named drives about absence (CR 7 of document 02): `~` fits what the repeat behind it does
//! not fit. Each sheet is worked out by hand from that rule: one zone with all stretches, cut for each
//! zone of the operand into what breaks its first limit, what keeps that one and breaks the second, and
//! so on. The limits of a run are, in their order: start before its end, start from its start on, end
//! up to its end, end behind its start, no longer than the run, longer than 0.

use crate::examples::{low_start_r, pulses, recording, recording_r, with_runs};
use crate::named_drills::{table, NamedDrill};

pub fn all() -> Vec<NamedDrill> {
    let groups = [
        r(),
        r_with_operators(),
        absent_absences(),
        bands(),
        stars(),
        events(),
        nothing_to_leave_out(),
        overlapping_runs(),
        two_channels(),
        at_the_ends(),
        many_runs(),
        many_events(),
        too_long_in_the_middle(),
        depths(),
        refused(),
    ];
    groups.into_iter().flatten().collect()
}

fn on_r(drills: &str) -> Vec<NamedDrill> {
    table(&recording_r(), 10, drills)
}

/// On R, `a` is high from 2 to 7 and low from 7 to 10. What is not `a` starts from 7 on, or before 2, or
/// ends behind 7, or is the moment 2, or a moment in between; nothing is longer than 5. The low run cuts
/// only the zone from 7 on any further: into the moments 10 and 7 and those in between. All other zones
/// start before 7, and break its second limit whole.
fn r() -> Vec<NamedDrill> {
    on_r(
        "
        ~a         0  [7,10]/[7,10]/[0,3] [0,2)/[0,10]/[0,10] [2,7)/(7,10]/(0,8] 2 (2,7)/(2,7)/[0,0]
        ~!a        0  10 [0,7)/[0,10]/[0,10] 7 (7,10)/(7,10)/[0,0]
        ~_         0  0-10
        ~(a|!a)    0  10 7 (7,10)/(7,10)/[0,0] [0,2)/[0,10]/[0,10] [2,7)/(7,10]/(0,8] 2 (2,7)/(2,7)/[0,0]
        ~a&~!a     0  10 7 (7,10)/(7,10)/[0,0] [0,2)/[0,10]/[0,10] [2,7)/(7,10]/(0,8] 2 (2,7)/(2,7)/[0,0]
        ~(a.!a)    0  [7,10]/[7,10]/[0,3] [0,2)/[0,10]/[0,10] [2,7)/[2,7]/[0,5]
        ~a{6,}     0  everything
        ~+a        0  everything
        ~-a        0  (7,10]/(7,10]/[0,3) [0,7)/[0,10]/[0,10] [7,7]/(7,10]/(0,3]
        ",
    )
}

/// The five zones of `~a` on R under the other operators.
fn r_with_operators() -> Vec<NamedDrill> {
    on_r(
        "
        ~a&!a    0  7-10
        !a&~a    0  7-10
        ~a&a     0
        ~a&_     0  [7,10]/[7,10]/[0,0] [0,2)/[0,2)/[0,0] 2 (2,7)/(2,7)/[0,0]
        a|~a     0  2-7 [7,10]/[7,10]/[0,3] [0,2)/[0,10]/[0,10] [2,7)/(7,10]/(0,8] 2 (2,7)/(2,7)/[0,0]
        ~a|a     0  [7,10]/[7,10]/[0,3] [0,2)/[0,10]/[0,10] [2,7)/(7,10]/(0,8] 2 (2,7)/(2,7)/[0,0] 2-7
        ~a|_     0  [7,10]/[7,10]/[0,3] [0,2)/[0,10]/[0,10] [2,7)/(7,10]/(0,8] diagonal
        a.~a     0  [2,7)/[7,10]/(0,8] [2,7)/(2,7)/(0,5)
        ~a.a     0  [0,2)/(2,7]/(0,7] [2,2]/(2,7]/(0,5] (2,7)/(2,7]/(0,5)
        a.~a.a   0  2-7
        ~a.~a    0  [7,10]/[7,10]/[0,3] [0,2)/[0,10]/[0,10] [2,7)/(7,10]/(0,8] 2 (2,7)/(2,7)/[0,0]
        ",
    )
}

/// Absences of absences on R. `~(~a)` fits what `a` fits, cut by the five zones of `~a`: from 7 on,
/// before 2 and behind 7 nothing is left; the moments 2 and in between cut the rest.
fn absent_absences() -> Vec<NamedDrill> {
    on_r(
        "
        ~(~a)       0  (2,7)/[7,7]/(0,5) (2,7)/(2,7)/(0,5) [2,2]/(2,7]/(0,5]
        ~(~(~a))    0  [7,10]/[7,10]/[0,3] [0,2)/[0,10]/[0,10] [2,2]/(7,10]/(5,8] 2 (2,7)/(7,10]/(0,8) (2,7)/(2,7)/[0,0]
        ~(a|~a)     0
        ~(~a|a)     0
        ~(~_)       0  10 0 (0,10)/(0,10)/[0,0]
        ~(~a&~!a)   0  (7,10)/[10,10]/(0,3) (7,10)/(7,10)/(0,3) (2,7)/[7,7]/(0,5) (2,7)/(2,7)/(0,5) [2,2]/(2,7]/(0,5] [7,7]/(7,10]/(0,3]
        ~(~(a&!a))  0
        ",
    )
}

/// The absence of a band, and a band of the absence. Lengths at a bound that is not reached are absent.
fn bands() -> Vec<NamedDrill> {
    on_r(
        "
        ~a{1,2}    0  (6,10]/(6,10]/[0,4) [0,2)/[0,10]/[0,10] [2,6]/(7,10]/(1,8] [2,3)/[2,3)/[0,1) [2,5)/(4,7]/(2,5] (2,6]/[3,7)/[0,1)
        (~a){1,2}  0  [7,9]/[8,10]/[1,2] [0,2)/[1,4)/[1,2] (5,7)/(7,9)/[1,2]
        ~a{<1,<2}  0  [6,10]/[6,10]/[0,4] [0,2)/[0,10]/[0,10] [2,6)/(7,10]/(1,8] [2,3]/[2,3]/[0,1] [2,5]/[4,7]/[2,5] (2,6)/(3,7)/[0,1]
        ~a{2,}     0  (5,10]/(5,10]/[0,5) [0,2)/[0,10]/[0,10] [2,5]/(7,10]/(2,8] [2,4)/[2,4)/[0,2) (2,5]/[4,7)/[0,2)
        ~a{5,5}    0  (2,10]/(2,10]/[0,8) [0,2)/[0,10]/[0,10] [2,2]/(7,10]/(5,8] [2,2]/[2,7)/[0,5)
        (~a){9,}   0  [0,1]/[9,10]/[9,10]
        ",
    )
}

/// Absences around stars and in them, on R. The absence itself has no round.
///
/// `a*` lists the run and the diagonal after one round; `(a{2,2})*` is the printed example; `(a|!a)*`
/// has two rounds. The first round of `(~a)*` changes nothing, and the diagonal takes the place of
/// the moments of `~a`. Of `((~a){1,1})*` the pieces of one tick start in [7,9], [0,2) and (6,7): the
/// first and the last may be followed by one of the first kind, the second by one of its own.
fn stars() -> Vec<NamedDrill> {
    on_r(
        "
        ~a*           1  7-10 [0,2)/(0,10]/(0,10] [2,7)/(7,10]/(0,8]
        ~a**          2  7-10 [0,2)/(0,10]/(0,10] [2,7)/(7,10]/(0,8]
        (~a)*         1  [7,10]/[7,10]/[0,3] [0,2)/[0,10]/[0,10] [2,7)/(7,10]/(0,8] diagonal
        (~a*)*        2  7-10 [0,2)/(0,10]/(0,10] [2,7)/(7,10]/(0,8] diagonal
        ~(~a)*        1  2-7
        ~_*           1  0-10
        (~_)*         1  0-10 diagonal
        ~(a|!a)*      2  [0,2)/(0,10]/(0,10]
        ((~a){1,1})*  3  [7,9]/[8,10]/[1,1] [0,2)/[1,3)/[1,1] (6,7)/(7,8)/[1,1] [7,8]/[9,10]/[2,2] [0,1)/[2,3)/[2,2] (6,7)/(8,9)/[2,2] [7,7]/[10,10]/[3,3] (6,7)/(9,10)/[3,3] diagonal
        ~(a{2,2})*    2  (5,10)/(5,10]/(0,5) [0,2)/(0,10]/(0,10] (3,5]/(7,10]/(2,7) [2,3]/(7,10]/(4,8] (3,4)/(3,4)/(0,1) [2,3]/(2,4)/(0,2) (3,5)/(5,7]/(2,4) [2,3]/(4,6)/(2,4) [2,3)/(6,7]/(4,5] (2,3]/[6,7)/[3,4) (3,5]/[4,7)/(0,2) (2,3]/[4,5)/[1,2)
        (~(a|~a))*    1  diagonal
        ~(~(a|~a))*   1  0-10
        ",
    )
}

/// On R with a low start, `a` rises at 2 and falls at 7. What is not a moment starts behind it, or
/// before it, or starts at it and ends behind it.
fn events() -> Vec<NamedDrill> {
    let drills = "
        ~+a         0  (2,10]/(2,10]/[0,8) [0,2)/[0,10]/[0,10] [2,2]/(2,10]/(0,8]
        ~-a         0  (7,10]/(7,10]/[0,3) [0,7)/[0,10]/[0,10] [7,7]/(7,10]/(0,3]
        ~(+a|-a)    0  (7,10]/(7,10]/[0,3) (2,7)/(2,10]/[0,8) [7,7]/(7,10]/(0,3] [0,2)/[0,10]/[0,10] [2,2]/(2,10]/(0,8]
        ~+a{0,0}    0  (2,10]/(2,10]/[0,8) [0,2)/[0,10]/[0,10] [2,2]/(2,10]/(0,8]
        (~+a){0,0}  0  (2,10]/(2,10]/[0,0] [0,2)/[0,2)/[0,0]
        ~+a{1,}     0  everything
        ~(a.-a)     0  [7,10]/[7,10]/[0,3] [0,2)/[0,10]/[0,10] [2,7)/(7,10]/(0,8] [2,7)/[2,7)/[0,5)
        +a.~a       0  [2,2]/(7,10]/(5,8] 2
        +a&~a       0  2
        ~+a*        1  0-10
        (~+a&_)*    1  diagonal
    ";
    table(&low_start_r(), 10, drills)
}

/// An operand without zones leaves the one zone. Without a report no letter and no event has any.
fn nothing_to_leave_out() -> Vec<NamedDrill> {
    let unreported = "
        ~a        0  everything
        ~!a       0  everything
        ~+a       0  everything
        ~-a       0  everything
        ~_        0  0-10
        ~(~a)     0
        ~a&~!a    0  everything
        ~a.~a     0  everything
        ~a{3,4}   0  everything
        (~a){3,}  0  [0,7]/[3,10]/[3,10]
        (~a)*     1  everything
        ~a*       1  0-10
    ";
    let groups = [
        on_r("~(a&!a) 0 everything\n~(a&!a).a 0 [0,7)/(2,7]/(0,7]\n~a{0,0} 0 everything"),
        table(&recording(100, 1, &[]), 10, unreported),
        table(&recording(104, 1, &[(96, 1)]), 10, "~a 0 everything"),
    ];
    groups.into_iter().flatten().collect()
}

/// `b` is high from 3 to 5 and `c` from 4 to 6. The zones that `b` leaves are cut by the limits of `c`,
/// also those that share nothing with it: the moments between 3 and 5 fall into those before 4, 4
/// itself and those behind it. In the other order the same stretches are listed in another.
fn overlapping_runs() -> Vec<NamedDrill> {
    let drive = with_runs(10, &[&[(2, 7)], &[(3, 5)], &[(4, 6)]]);
    let drills = "
        ~(b|c)  0  [6,10]/[6,10]/[0,4] [5,6)/(6,10]/(0,5] [5,6)/[5,6)/[0,0] [0,3)/[0,10]/[0,10] [3,4)/(5,10]/(1,7] [4,5)/(6,10]/(1,6] 3 (3,4)/(3,4)/[0,0] 4 (4,5)/(4,5)/[0,0]
        ~(c|b)  0  [6,10]/[6,10]/[0,4] [0,3)/[0,10]/[0,10] [3,4)/(5,10]/(1,7] 3 (3,4)/(3,4)/[0,0] [5,6)/(6,10]/(0,5] [4,5)/(6,10]/(1,6] 4 [5,6)/[5,6)/[0,0] (4,5)/(4,5)/[0,0]
        ~(a|b)  0  [7,10]/[7,10]/[0,3] [0,2)/[0,10]/[0,10] [2,7)/(7,10]/(0,8] 2 (2,7)/(2,7)/[0,0]
        ~(b|a)  0  [7,10]/[7,10]/[0,3] [0,2)/[0,10]/[0,10] [2,7)/(7,10]/(0,8] 2 (2,7)/(2,7)/[0,0]
    ";
    table(&drive, 10, drills)
}

/// `a` is high from 2 to 7 and `b` from 4 to 6: `a` without `b` behind it, beside it, in front of it,
/// and the stretches with no glance of `b` anywhere in them. `~(b&!b)` is every stretch.
fn two_channels() -> Vec<NamedDrill> {
    let drive = with_runs(10, &[&[(2, 7)], &[(4, 6)]]);
    let drills = "
        ~b                       0  [6,10]/[6,10]/[0,4] [0,4)/[0,10]/[0,10] [4,6)/(6,10]/(0,6] 4 (4,6)/(4,6)/[0,0]
        a.~b                     0  [2,7)/[6,10]/(0,8] [2,4)/(2,10]/(0,8] [2,6)/(4,6)/(0,4)
        a&~b                     0  6-7 [2,4)/(2,7]/(0,5] [4,6)/(6,7]/(0,3]
        ~(~(b&!b).b.~(b&!b))     0  [6,10]/[6,10]/[0,4] [0,4]/[0,4]/[0,4] (4,6)/(4,6)/[0,0]
        a&~(~(b&!b).b.~(b&!b))   0  6-7 2-4
    ";
    table(&drive, 10, drills)
}

/// Runs from the start of the drive on and up to its end leave fewer parts: nothing is before 0 or
/// behind d.
fn at_the_ends() -> Vec<NamedDrill> {
    let halves = "
        ~a       0  [5,10]/[5,10]/[0,5] [0,5)/(5,10]/(0,10] 0 (0,5)/(0,5)/[0,0]
        ~!a      0  10 [0,5)/[0,10]/[0,10] 5 (5,10)/(5,10)/[0,0]
        ~a&~!a   0  10 5 (5,10)/(5,10)/[0,0] [0,5)/(5,10]/(0,10] 0 (0,5)/(0,5)/[0,0]
    ";
    let throughout = "
        ~a     0  10 0 (0,10)/(0,10)/[0,0]
        ~!a    0  everything
        ~(~a)  0  (0,10)/[10,10]/(0,10) (0,10)/(0,10)/(0,10) [0,0]/(0,10]/(0,10]
    ";
    let longest = "
        ~!a             0  1000000 0 (0,1000000)/(0,1000000)/[0,0]
        ~a              0  everything
        ~!a{1000000,}   0  (0,1000000]/(0,1000000]/[0,1000000) [0,0]/[0,1000000)/[0,1000000)
        ~!a{<999999,}   0  [1,1000000]/[1,1000000]/[0,999999] [0,1)/[0,999999]/[0,999999] (0,1)/(999999,1000000)/(999998,999999]
    ";
    let groups = [
        table(&recording(100, 1, &[(0, 1), (50, 0)]), 10, halves),
        table(&recording(100, 1, &[(0, 1)]), 10, throughout),
        table(
            &recording(10, 1, &[(0, 1)]),
            1,
            "~a 0 1 0 (0,1)/(0,1)/[0,0]",
        ),
        table(&recording(10_000_000, 1, &[(0, 0)]), 1_000_000, longest),
    ];
    groups.into_iter().flatten().collect()
}

/// What n runs leave where they are from 2k - 1 to 2k for k from 1 to n, in d = 2n + 1 ticks: each run
/// cuts the zone behind the run before it, and the others stay behind its parts.
fn absence_of_pulses(runs: u32) -> String {
    let d = 2 * runs + 1;
    let mut zones = vec![format!("[{0},{d}]/[{0},{d}]/[0,1]", 2 * runs)];
    for k in (1..=runs).rev() {
        let (gap, s, e) = (2 * k - 2, 2 * k - 1, 2 * k);
        zones.push(format!("[{gap},{s})/[{gap},{d}]/[0,{}]", d - gap));
        zones.push(format!("[{s},{e})/({e},{d}]/(0,{}]", d - s));
        zones.push(s.to_string());
        zones.push(format!("({s},{e})/({s},{e})/[0,0]"));
    }
    zones.join(" ")
}

/// The same without the stretches of length 0.
fn lasting_absence_of_pulses(runs: u32) -> String {
    let d = 2 * runs + 1;
    let mut zones = vec![format!("{}-{d}", 2 * runs)];
    for k in (1..=runs).rev() {
        let (gap, s, e) = (2 * k - 2, 2 * k - 1, 2 * k);
        zones.push(format!("[{gap},{s})/({gap},{d}]/(0,{}]", d - gap));
        zones.push(format!("[{s},{e})/({e},{d}]/(0,{}]", d - s));
    }
    zones.join(" ")
}

/// What n runs leave where they are from 2k - 2 to 2k - 1, the first from tick 0 on, in d = 2n ticks:
/// nothing is before the first.
fn absence_from_tick_0(runs: u32) -> String {
    let d = 2 * runs;
    let mut zones = vec![format!("[{0},{d}]/[{0},{d}]/[0,1]", d - 1)];
    for k in (1..=runs).rev() {
        let (s, e) = (2 * k - 2, 2 * k - 1);
        if k > 1 {
            zones.push(format!("[{0},{s})/[{0},{d}]/[0,{1}]", s - 1, d - s + 1));
        }
        zones.push(format!("[{s},{e})/({e},{d}]/(0,{}]", d - s));
        zones.push(s.to_string());
        zones.push(format!("({s},{e})/({s},{e})/[0,0]"));
    }
    zones.join(" ")
}

/// Runs from tick 0 on, each a tick long, a tick apart.
fn pulses_from_tick_0(runs: u32) -> Vec<u8> {
    let changes: Vec<(u32, u16)> = (0..2 * runs)
        .map(|k| (10 * k, u16::from(k % 2 == 0)))
        .collect();
    recording(20 * runs, 1, &changes)
}

/// Each run adds four zones to the one, so 31 runs have room for their 125 and 32 have not for 129; with
/// the first run from tick 0 on, 32 have 128, which just fit.
fn many_runs() -> Vec<NamedDrill> {
    let on = |recording: Vec<u8>, drills: String| table(&recording, 0, &drills);
    let groups = [
        on(pulses(2), format!("~a 0 {}", absence_of_pulses(2))),
        on(pulses(31), format!("~a 0 {}", absence_of_pulses(31))),
        on(pulses(32), "~a refused 10".into()),
        on(
            pulses_from_tick_0(32),
            format!("~a 0 {}", absence_from_tick_0(32)),
        ),
    ];
    groups.into_iter().flatten().collect()
}

/// What the rises and then the falls of such a drive leave: each event adds two zones to the one. A fall
/// cuts the zone that the rise behind it has left in front of itself.
fn absence_of_events(runs: u32) -> String {
    let d = 2 * runs + 1;
    let cut_by_the_fall = |fall: u32, next: &str| {
        let (rise, left) = (fall - 1, d - fall);
        format!(
            "({fall},{next}/({fall},{d}]/[0,{left}) ({rise},{fall})/({rise},{d}]/[0,{0}) \
             [{fall},{fall}]/({fall},{d}]/(0,{left}]",
            left + 1
        )
    };
    let mut zones = vec![cut_by_the_fall(2 * runs, &format!("{d}]"))];
    for k in (1..=runs).rev() {
        let rise = 2 * k - 1;
        zones.push(match k {
            1 => format!("[0,1)/[0,{d}]/[0,{d}]"),
            _ => cut_by_the_fall(rise - 1, &format!("{rise})")),
        });
        zones.push(format!("[{rise},{rise}]/({rise},{d}]/(0,{}]", d - rise));
    }
    zones.join(" ")
}

fn many_events() -> Vec<NamedDrill> {
    let listed = |runs: u32| format!("~(+a|-a) 0 {}", absence_of_events(runs));
    let groups = [
        table(&pulses(2), 5, &listed(2)),
        table(&pulses(31), 63, &listed(31)),
        table(&pulses(32), 65, "~(+a|-a) refused 10"),
    ];
    groups.into_iter().flatten().collect()
}

/// With 32 runs before the diagonal, the list after the last run is one zone too long, though the
/// diagonal would take its moments away again; with the diagonal first no run leaves any.
fn too_long_in_the_middle() -> Vec<NamedDrill> {
    let lasting = lasting_absence_of_pulses;
    let one_more = format!("~(a|_) refused 10\n~(_|a) 0 {}", lasting(32));
    let groups = [
        table(&pulses(31), 63, &format!("~(a|_) 0 {}", lasting(31))),
        table(&pulses(32), 65, &one_more),
    ];
    groups.into_iter().flatten().collect()
}

/// On a drive without a change `a` has no zone: what an odd number of absences leaves of it is
/// everything, and what an even number leaves is nothing.
fn depths() -> Vec<NamedDrill> {
    let nested = |tildes: usize| format!("{}a{}", "~(".repeat(tildes), ")".repeat(tildes));
    let stars = |stars: usize| "*".repeat(stars);
    let drills = format!(
        "{}  0 everything
         {}  0
         {}  refused 8
         ~a{}     14  0-10
         ~a{}     refused 8
         (~a){}   14  everything
         (~a){}   refused 8",
        nested(15),
        nested(14),
        nested(16),
        stars(14),
        stars(15),
        stars(14),
        stars(15),
    );
    table(&recording(100, 1, &[]), 10, &drills)
}

/// `~` stands before a repeat, and there is one of it.
fn refused() -> Vec<NamedDrill> {
    let of_another_form = "
        ~ ~~a ~~ ~~(a) !~a +~a -~a a~ a~b a~a (~) ~() ~* ~*a ~{1,2} ~.a ~|a ~&a a.~ a|~ a&~ ~) ~( ~(a ~a)
        ~!!a ~ab ~A ~q a*~ a~* a{1,2}~ (a)~b ~a~ a{~1,2} a{1,~2} (~~a) ~(~~a) a.~~a ~!~a _~_
    ";
    let beyond_the_channels = "~b a.~!b ~(~+p)";
    let out_of_range = "~a{2,1} (~a){1000001,} ~(~a{<3,3})";
    let rows = |drills: &str, number: u32| {
        let lines = drills.split_whitespace();
        let lines: String = lines
            .map(|drill| format!("{drill} refused {number}\n"))
            .collect();
        on_r(&lines)
    };
    let groups = [
        rows(of_another_form, 5),
        rows(beyond_the_channels, 6),
        rows(out_of_range, 7),
    ];
    groups.into_iter().flatten().collect()
}

#[cfg(test)]
mod tests {
    use super::*;
    use crate::drill::Drill;
    use crate::finder::{find_unless_slow, listed, WORK_WORDS};
    use crate::named_drills::check;
    use crate::random::{self, Rng, Taste};
    use crate::recording::{Head, Recording};
    use crate::zone::{Zone, WORDS};
    use crate::zones::MAX_ZONES;

    #[test]
    fn every_drill_has_its_sheet() {
        check(all());
    }

    /// The zones of a drill, if it is accepted, and not slow.
    fn zones(recording: &[u8], drill: &Drill) -> Option<Vec<Zone>> {
        const PAIRS: u64 = 200_000;
        let mut answer = [0; MAX_ZONES * WORDS];
        let text = drill.to_string();
        let work = &mut [0; WORK_WORDS];
        let found = find_unless_slow(recording, text.as_bytes(), &mut answer, work, PAIRS)?;
        let accepted = found.returned.is_accepted();
        accepted.then(|| listed(found.returned, &answer))
    }

    fn absent(drill: &Drill) -> Drill {
        Drill::Absent(Box::new(drill.clone()))
    }

    /// How many drills were tried with their absence, and with the absence of that.
    #[derive(Default)]
    struct Tried {
        once: u32,
        twice: u32,
    }

    /// On each of these stretches, with their ends in parts of a tick, either the drill lies in a zone
    /// or its absence, and the absence of that where the drill does. No two zones of an absence share a
    /// stretch.
    fn try_absence(
        recording: &[u8],
        drill: &Drill,
        stretches: &mut dyn Iterator<Item = (i64, i64, i64)>,
        tried: &mut Tried,
    ) {
        let Some(present) = zones(recording, drill) else {
            return;
        };
        let Some(once) = zones(recording, &absent(drill)) else {
            return;
        };
        let twice = zones(recording, &absent(&absent(drill)));
        for list in [Some(&once), twice.as_ref()].into_iter().flatten() {
            for (k, zone) in list.iter().enumerate() {
                assert!(list[..k].iter().all(|other| other.meet(zone).is_none()));
            }
        }
        for (start, end, parts) in stretches {
            let lies = |list: &[Zone]| list.iter().any(|zone| zone.has(start, end, parts));
            let fits = lies(&present);
            let name = || format!("{drill} {start}/{parts} {end}/{parts}");
            assert_eq!(lies(&once), !fits, "{}", name());
            let again = twice.as_ref().is_none_or(|twice| lies(twice) == fits);
            assert!(again, "twice: {}", name());
        }
        tried.once += 1;
        tried.twice += u32::from(twice.is_some());
    }

    /// CR 7's last sentence, on all stretches of short drives in halves, thirds and sixths of ticks.
    #[test]
    fn a_drill_and_its_absence_share_nothing_and_leave_nothing_out() {
        let mut rng = Rng::new(7, 0);
        let mut tried = Tried::default();
        for _ in 0..2_500 {
            let head = Head {
                duration: random::milliseconds(&mut rng, 10, 125),
                channels: rng.between(1, 3) as u8,
            };
            let taste = Taste {
                leaves: 6,
                channels: head.channels,
                limit: 8,
                stars: true,
            };
            let bytes = random::recording(&mut rng, head, 10);
            let drill = random::drill(&mut rng, taste);
            let ticks = i64::from(Recording::read(&bytes).expect("sound").ticks());
            let with_parts = |parts: i64| {
                let ends = move |start| (start..=parts * ticks).map(move |end| (start, end, parts));
                (0..=parts * ticks).flat_map(ends)
            };
            let mut stretches = [2, 3, 6].into_iter().flat_map(with_parts);
            try_absence(&bytes, &drill, &mut stretches, &mut tried);
        }
        let Tried { once, twice } = tried;
        assert!(once > 2_000 && twice > 1_500, "{once} {twice}");
    }

    /// The same on longer drives, where most stretches are tried at random.
    #[test]
    fn absences_on_longer_drives() {
        let mut rng = Rng::new(7, 1);
        let mut tried = Tried::default();
        for _ in 0..1_200 {
            let head = Head {
                duration: random::milliseconds(&mut rng, 200, 5_000),
                channels: 3,
            };
            let taste = Taste {
                leaves: 5,
                channels: 3,
                limit: *rng.pick(&[3, 40, 500]),
                stars: true,
            };
            let bytes = random::recording(&mut rng, head, 16);
            let drill = random::drill(&mut rng, taste);
            let ticks = Recording::read(&bytes).expect("sound").ticks();
            let stretches: Vec<(i64, i64, i64)> = (0..2_000)
                .map(|_| {
                    let parts = *rng.pick(&[1, 2, 3, 6]);
                    let mut time = || i64::from(rng.between(0, parts * ticks));
                    let (one, other) = (time(), time());
                    (one.min(other), one.max(other), parts.into())
                })
                .collect();
            try_absence(&bytes, &drill, &mut stretches.into_iter(), &mut tried);
        }
        let Tried { once, twice } = tried;
        assert!(once > 700 && twice > 400, "{once} {twice}");
    }
}
