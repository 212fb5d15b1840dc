//! Small recordings that the tests, the cases and the measurements share.

use crate::drill::MAX_LENGTH as MAX_DRILL;
use crate::recording::{encode, Change, Head, MAX_CHANGES};

/// A recording, right or wrong, from its duration in milliseconds, its channel count and its
/// changes as pairs of time and levels.
pub fn recording(duration: u32, channels: u8, changes: &[(u32, u16)]) -> Vec<u8> {
    let head = Head { duration, channels };
    let changes: Vec<Change> = changes
        .iter()
        .map(|&(time, levels)| Change { time, levels })
        .collect();
    encode(head, &changes)
}

/// Document 01's recording R: 100 ms, one channel, high from 20 to 70. Nothing is reported before
/// tick 2.
pub fn recording_r() -> Vec<u8> {
    recording(100, 1, &[(20, 1), (70, 0)])
}

/// R with its channel reported from tick 0 on: low up to tick 2, so that `a` rises there.
pub fn low_start_r() -> Vec<u8> {
    recording(100, 1, &[(0, 0), (20, 1), (70, 0)])
}

/// One channel with this many runs, each a tick long, a tick apart, the first from tick 1. Before it
/// the channel is low.
pub fn pulses(runs: u32) -> Vec<u8> {
    let changes = [vec![(0, 0)], pulsing(runs)].concat();
    recording(10 * (2 * runs + 1), 1, &changes)
}

/// The same runs, with nothing reported before the first of them.
pub fn late_pulses(runs: u32) -> Vec<u8> {
    recording(10 * (2 * runs + 1), 1, &pulsing(runs))
}

/// High at tick 1, low at tick 2, and so on.
fn pulsing(runs: u32) -> Vec<(u32, u16)> {
    let changes = (0..2 * runs).map(|k| (10 * (k + 1), (k % 2 == 0).into()));
    changes.collect()
}

/// A recording in which the k-th channel is high in the k-th list of runs, each given by the tick it
/// starts at and the tick it ends at. All channels are reported from tick 0 on, low outside their runs.
pub fn with_runs(ticks: u32, channels: &[&[(u32, u32)]]) -> Vec<u8> {
    let runs = channels.iter().flat_map(|runs| runs.iter());
    let mut edges: Vec<u32> = runs.flat_map(|&(start, end)| [start, end]).collect();
    edges.push(0);
    edges.sort_unstable();
    edges.dedup();
    let is_high = |runs: &[(u32, u32)], tick| runs.iter().any(|&(s, e)| s <= tick && tick < e);
    let levels = |tick| {
        let bits = channels.iter().enumerate();
        bits.map(|(k, runs)| u16::from(is_high(runs, tick)) << k)
            .sum()
    };
    let inside = edges.into_iter().filter(|&tick| tick < ticks);
    let changes: Vec<(u32, u16)> = inside.map(|tick| (10 * tick, levels(tick))).collect();
    recording(10 * ticks, channels.len() as u8, &changes)
}

/// Right but for its length: the last change that a recording has room for switches a on, and one
/// more follows.
pub fn one_change_too_many() -> Vec<u8> {
    let last = MAX_CHANGES as u32;
    let changes: Vec<(u32, u16)> = (1..=last + 1)
        .map(|k| (10 * k, (k == last).into()))
        .collect();
    recording(50_000, 1, &changes)
}

/// A drill in as many brackets as the longest has room for.
pub fn bracketed(inner: &str) -> String {
    let brackets = (MAX_DRILL - inner.len()) / 2;
    format!("{}{inner}{}", "(".repeat(brackets), ")".repeat(brackets))
}

/// A drive with a channel for each way to spend rounds.
///
/// Where a channel is high for n ticks in one run, `(a{0,1})*` takes n rounds: round k makes the one
/// zone of its list a tick longer, up to length k + 1, so the n-th, which would go beyond the run, is
/// the first that changes nothing. `(a{1,1})*` has the zones of the lengths 1 to k + 1 after round k:
/// 128 of them after round 127, and room for no other.
pub fn spending_drive() -> Vec<u8> {
    let crowd: Vec<(u32, u32)> = (0..129).map(|k| (300 + 2 * k, 301 + 2 * k)).collect();
    let a = &[(0, 99_990)];
    let b = &[(0, 10)];
    let c = &[(0, 11)];
    // `(d{1,1})*` has no room in round 128.
    let d = &[(0, 200)];
    // One run too many for a list.
    let e = &crowd;
    let f = &[];
    // `(g{1,1})*` finishes 128 rounds, and then has no room for the diagonal.
    let g = &[(0, 128)];
    // `(h{1,1})*` just fits, after 127 rounds.
    let h = &[(0, 127)];
    // 128 rounds less than a drill of a sheet has, and one more.
    let i = &[(0, 99_872)];
    let j = &[(0, 100_001)];
    with_runs(100_100, &[a, b, c, d, e, f, g, h, i, j])
}
