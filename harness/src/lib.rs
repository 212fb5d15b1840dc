//! A second drill finder, written from the papers alone, and what the proved one is compared
//! with it by.
//!
//! Three matchers stand beside each other. [`zones`] follows document 01's rules for lists of
//! zones, on plain words and fast: it must agree with the proved library byte for byte, and is
//! what that one is timed against. [`quick`] does the same without composing pairs that have no time
//! in common. [`brute`] knows nothing of zones and tries fractions, so that all are held to the
//! meaning of a drill.

#![deny(unsafe_code)]

pub mod absence;
pub mod bench;
pub mod brute;
pub mod by_times;
pub mod campaign;
pub mod cases;
pub mod compare;
pub mod drill;
pub mod examples;
pub mod exchange;
pub mod finder;
pub mod first_reports;
pub mod inputs;
pub mod lent;
pub mod lesson;
pub mod marks;
pub mod named_calls;
pub mod named_drills;
pub mod named_sheets;
pub mod program;
pub mod proved;
pub mod quick;
pub mod random;
pub mod recording;
pub mod refusal;
pub mod sheet;
pub mod tally;
pub mod text;
pub mod zone;
pub mod zones;
