//! Drills on named drives about the first report (CR 6 of document 02): before the tick of the first
//! change no channel is high or low. The sheet of each drill is worked out by hand.

use crate::examples::{low_start_r, recording, recording_r};
use crate::named_drills::{table, NamedDrill};

pub fn all() -> Vec<NamedDrill> {
    let groups = [
        r(),
        r_low_at_the_start(),
        rounded_times(),
        at_the_end(),
        no_change(),
        several_on_the_first_tick(),
        several_channels(),
    ];
    groups.into_iter().flatten().collect()
}

/// On R, `a` is high from 2 to 7 and low from 7 to 10. The first round of `(a|!a)*` adds the stretches
/// over 7, and the second nothing.
fn r() -> Vec<NamedDrill> {
    let drills = "
        !a           0  7-10
        (a|!a)*      2  2-7 7-10 [2,7)/(7,10]/(0,8] diagonal
        (a|!a)*{8,}  2  [2,2]/[10,10]/[8,8]
        a.!a         0  [2,7)/(7,10]/(0,8]
        !a.a         0
        +a           0
        -a           0  7
        -a.!a{0,3}   0  [7,7]/(7,10]/(0,3]
        !a*          1  7-10 diagonal
    ";
    table(&recording_r(), 10, drills)
}

/// With a report at tick 0, `a` is low from 0 to 2 too. The first round of `(a|!a)*` adds the stretches
/// over 7 and those over 2, the second those over both, and the third nothing.
fn r_low_at_the_start() -> Vec<NamedDrill> {
    let drills = "
        !a|+a    0  0-2 7-10 2
        (a|!a)*  3  2-7 0-2 7-10 [2,7)/(7,10]/(0,8] [0,2)/(2,7]/(0,7] [0,2)/(7,10]/(5,10] diagonal
    ";
    table(&low_start_r(), 10, drills)
}

/// One report, low or high, at times that are rounded: 4 and 5 ms are tick 0, 15 ms is tick 2.
fn rounded_times() -> Vec<NamedDrill> {
    let on = |ms: u32, level: u16, drill: &str| {
        let drive = recording(100, 1, &[(ms, level)]);
        table(&drive, 10, drill)
    };
    let groups = [
        on(0, 0, "!a 0 0-10"),
        on(4, 0, "!a 0 0-10"),
        on(5, 0, "!a 0 0-10"),
        on(15, 0, "!a 0 2-10"),
        on(5, 1, "a|!a 0 0-10"),
        on(15, 1, "a|!a 0 2-10"),
    ];
    groups.into_iter().flatten().collect()
}

/// A first report on the last tick, and on tick d, where it reports nothing.
fn at_the_end() -> Vec<NamedDrill> {
    let on = |duration: u32, changes: &[_], ticks: u32, drill: &str| {
        let drive = recording(duration, 1, changes);
        table(&drive, ticks, drill)
    };
    let groups = [
        on(104, &[(94, 0)], 10, "!a 0 9-10"),
        on(104, &[(94, 1)], 10, "a|!a|+a|-a 0 9-10"),
        on(104, &[(96, 0)], 10, "a|!a|_ 0 diagonal"),
        on(104, &[(96, 1)], 10, "(a|!a)* 1 diagonal"),
        // The half goes to tick 10, which is d.
        on(105, &[(95, 0)], 10, "!a|_ 0 diagonal"),
        on(105, &[(95, 0), (100, 1)], 10, "a|!a|+a|-a 0"),
        on(10, &[(6, 0)], 1, "!a 0"),
        on(10_000_000, &[(9_999_999, 1)], 1_000_000, "!a 0"),
    ];
    groups.into_iter().flatten().collect()
}

/// Every operator on a drive without a change: only what fits a moment by itself fits anything.
fn no_change() -> Vec<NamedDrill> {
    let drills = "
        a        0
        !a       0
        +a       0
        -a       0
        _        0  diagonal
        a|!b     0
        !a&!b    0
        !a&_     0
        a.!a     0
        _.!a     0
        !a*      1  diagonal
        (a|!a)*  1  diagonal
        !a{0,}   0
    ";
    table(&recording(100, 2, &[]), 10, drills)
}

/// The last of the changes on the first tick stands, and none of them is an event.
fn several_on_the_first_tick() -> Vec<NamedDrill> {
    let on = |changes: &[_], drills: &str| {
        let drive = recording(100, 1, changes);
        table(&drive, 10, drills)
    };
    let groups = [
        on(&[(46, 0), (49, 1), (52, 0), (80, 1)], "!a 0 5-8\n+a|-a 0 8"),
        on(&[(46, 1), (52, 0)], "a|!a|+a|-a 0 5-10"),
        on(&[(15, 0), (20, 0), (25, 1)], "a|!a|+a 0 2-10"),
        on(&[(0, 1), (5, 0), (50, 1)], "!a|+a 0 0-5 5"),
    ];
    groups.into_iter().flatten().collect()
}

/// One change reports all channels, whichever of them is high.
fn several_channels() -> Vec<NamedDrill> {
    // `a` is high from 3 to 8, `b` from 6 to 8.
    let a_first = recording(100, 2, &[(30, 0b01), (60, 0b11), (80, 0b00)]);
    let of_a_first = "
        !b           0  3-6 8-10
        +a|+b|-a|-b  0  6 8
        !b.+b.b      0  [3,6)/(6,8]/(0,5]
    ";
    // Both are low from 3 on, `a` to 5 and `b` to 7.
    let both_low = recording(100, 2, &[(30, 0b00), (50, 0b01), (70, 0b11)]);
    let of_both_low = "
        !a&!b  0  3-5
        +a|+b  0  5 7
    ";
    let p_first = recording(100, 16, &[(30, 0x8000)]);
    let groups = [
        table(&a_first, 10, of_a_first),
        table(&both_low, 10, of_both_low),
        table(&p_first, 10, "!a&p 0 3-10"),
    ];
    groups.into_iter().flatten().collect()
}

#[cfg(test)]
mod tests {
    use super::*;
    use crate::named_drills::check;

    #[test]
    fn every_drill_has_its_sheet() {
        check(all());
    }
}
