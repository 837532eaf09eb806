//! Marks in the branches of the road, for the coverage table. Only the marked build has them.

use std::cell::{Cell, RefCell};

/// Every mark. One that begins with `fact` is expected never to be met.
pub const ALL: [&str; 106] = [
    "11: bisection",
    "11: break thinning",
    "11: probe",
    "11: segment floor's points",
    "11: sweep",
    "8: bisected",
    "8: closed form",
    "8: segment floor",
    "arc: least step",
    "arc: radius within the sag",
    "arc: step by the angle",
    "arc: step by the sag",
    "bisected",
    "bisection: chord without length",
    "bisection: depth spent",
    "bisection: no tangent",
    "bisection: split for both",
    "bisection: split for sag alone",
    "bisection: split for turn alone",
    "breaks: chord without length",
    "breaks: dropped",
    "breaks: equal ones",
    "breaks: inside the range",
    "breaks: kept",
    "breaks: walked backwards",
    "closed form: accepted",
    "closed form: failed its sag test",
    "closed form: last is not hi",
    "composite: at its very end",
    "composite: clamped",
    "composite: no segment",
    "composite: segment backwards",
    "ends apart: kept",
    "ends apart: reversed",
    "ends together: kept by sense",
    "ends together: reversed by sense",
    "equal: a hyperbola's parameter and 100",
    "equal: break's deviation and sag",
    "equal: closed form's gap and sag",
    "equal: deviation and sag",
    "equal: distance and limit",
    "equal: largest distances",
    "equal: last gap and floor",
    "equal: merge distance and floor",
    "equal: nearest places",
    "equal: start as far from first as from last",
    "equal: thinning's distance and tolerance",
    "equal: thinning's turn and angle",
    "equal: turn and angle",
    "equal: vertices as far apart as the tolerance",
    "fact: a hyperbola asked for NaN",
    "fact: closure of a trim asked",
    "fact: probe not finite",
    "fact: remainder below zero, t not subnormal",
    "fact: sag not above zero",
    "fact: sag under 2^-1025",
    "fact: short arc does not reach",
    "fact: tolerance of thin not above zero",
    "math: no direction",
    "math: no direction, though a length",
    "merge: floor above zero",
    "merge: last popped",
    "merge: some dropped",
    "merge: start and end alone, too close",
    "options: a quarter of the model or smaller",
    "options: an eighth of the model's sag",
    "options: angle lowered to a half turn",
    "options: angle raised to 1e-4",
    "options: as large as the model or larger",
    "options: depth lowered to 24",
    "options: depth raised to 1",
    "options: no scale",
    "options: sag raised",
    "options: segments raised to 1",
    "polyline: closed, remainder below zero",
    "polyline: closed, wrapped",
    "polyline: no point",
    "polyline: one point",
    "polyline: open, clamped",
    "range: backwards by clamping",
    "range: clamped above",
    "range: clamped below",
    "range: equal",
    "range: natural and backwards",
    "range: natural instead",
    "range: none",
    "range: not finite",
    "range: of a period, kept",
    "range: reversed",
    "repair: box without size",
    "repair: complement escapes",
    "repair: complement without span",
    "repair: empty box",
    "repair: escapes",
    "repair: escapes, no period",
    "repair: natural range without span",
    "repair: nearest ends exchanged",
    "repair: short arc escapes",
    "repair: short arc without span",
    "segment floor",
    "thin: chord without length",
    "thin: fewer than three points",
    "thin: segment floor",
    "thin: some dropped",
    "thin: split for distance",
    "thin: split for turn alone",
];

/// Those that strict mode alone can meet. Its thinned joints are marked as breaks are.
pub const STRICT: [&str; 7] = [
    "joints: dropped by thinning",
    "joints: inside",
    "joints: kept",
    "joints: no break of the Rust",
    "joints: nearer to an end than is told from it",
    "joints: nearer to each other than the Rust keeps apart",
    "joints: walked backwards",
];

thread_local! {
    static MET: RefCell<Vec<&'static str>> = const { RefCell::new(Vec::new()) };
    static PLACE: Cell<&'static str> = const { Cell::new("") };
}

/// Notes that a branch was met, where `when` holds.
pub fn mark(name: &'static str, when: bool) {
    if when {
        MET.with_borrow_mut(|met| {
            if !met.contains(&name) {
                met.push(name);
            }
        });
    }
}

/// The step of the road that begins here, by the mark that stands for 11 in it.
pub fn at_work(name: &'static str) {
    PLACE.set(name);
}

/// The step that began last.
pub fn place() -> &'static str {
    PLACE.get()
}

/// The marks met since this was last asked.
pub fn take() -> Vec<&'static str> {
    MET.take()
}
