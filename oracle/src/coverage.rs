//! The coverage table: what a run of generated sheets reached.

use crate::causes::{cause, nestings};
use crate::draw::{Drawn, draw, room};
use crate::forms;
use crate::generate;
use crate::shapes::NEXT;
use crate::sheet::{LENT, Sheet, read};
use crate::tables::{HYPERBOLA, KIND_WORDS};
use road::edge::Way;
use road::marks;
use std::collections::BTreeMap;
use std::fmt::Write;

const WAYS: [Way; 5] =
    [Way::AsDrawn, Way::ChordForWantOfARange, Way::Complement, Way::ShortArc, Way::RunawayChord];

/// Counts by name, each name met at most once a sheet.
struct Counts(BTreeMap<String, u64>);

/// The table for `count` sheets of a seed.
pub fn table(seed: u64, count: u64) -> String {
    let mut counts = Counts(names());
    for index in 0..count {
        let bytes = generate::bytes(seed, index);
        marks::take(); // what making the sheet met
        tally(&mut counts, &bytes);
    }
    let mut text = format!("seed {seed}, {count} sheets\n");
    for (name, met) in counts.0 {
        writeln!(text, "{met:>9} {:>7.3}%  {name}", 100.0 * met as f64 / count as f64).unwrap();
    }
    text
}

/// What one sheet meets, a line for each name.
pub fn met(bytes: &[u8]) -> String {
    let mut counts = Counts(names());
    marks::take();
    tally(&mut counts, bytes);
    counts.0.iter().filter(|(_, met)| **met > 0).map(|(name, _)| format!("{name}\n")).collect()
}

/// Every name at zero, so that the table shows what was never met.
fn names() -> BTreeMap<String, u64> {
    let refusals = [2, 3, 4, 5, 6, 8, 9, 10, 11].map(|number| format!("answer: refusal {number}"));
    let others = [8, 9, 11].map(|number| format!("refusal {number} in repair"));
    let others = others.into_iter().chain([
        "refusal 11 in a drawing of repair".to_string(),
        "a chain that fills its room".to_string(),
    ]);
    let others = others.map(|name| format!("answer: {name}"));
    let ways = WAYS.map(|way| format!("answer: {way:?}"));
    let by_kind =
        WAYS.iter().flat_map(|way| KIND_WORDS.map(|kind| format!("way: {way:?} of {kind}")));
    let kinds = KIND_WORDS.map(|word| format!("kind: {word}"));
    let nestings = (0..=9).map(|nesting| format!("nesting: {nesting}"));
    let marks = marks::ALL.map(|name| format!("branch: {name}"));
    refusals
        .into_iter()
        .chain(others)
        .chain(ways)
        .chain(by_kind)
        .chain(kinds)
        .chain(nestings)
        .chain(marks)
        .chain(forms::names())
        .chain(value_tests().map(|(name, _)| format!("value: {name}")))
        .map(|name| (name, 0))
        .collect()
}

impl Counts {
    fn met(&mut self, name: String) {
        *self.0.get_mut(&name).unwrap_or_else(|| panic!("no such name: {name}")) += 1;
    }
}

fn tally(counts: &mut Counts, bytes: &[u8]) {
    let Some(sheet) = read(bytes) else {
        counts.met("answer: refusal 10".to_string());
        return;
    };
    for (name, test) in value_tests() {
        if test(&sheet) {
            counts.met(format!("value: {name}"));
        }
    }
    tally_curve(counts, &sheet);
    let mut first = vec![0.0; LENT];
    let mut second = first.clone();
    let drawn = draw(&sheet.tables.lent(), &sheet.edge, &sheet.options, &mut first, &mut second);
    let marks = marks::take();
    tally_answer(counts, &sheet, drawn, &marks);
    for name in marks {
        counts.met(format!("branch: {name}"));
    }
    if !matches!(drawn, Drawn::Refused(1..=7)) {
        forms::met(&sheet, drawn).into_iter().for_each(|name| counts.met(name));
    }
}

fn tally_answer(counts: &mut Counts, sheet: &Sheet, drawn: Drawn, marks: &[&str]) {
    match drawn {
        Drawn::Refused(number) => {
            counts.met(format!("answer: refusal {number}"));
            let escaped = marks.contains(&"repair: escapes");
            if matches!(number, 8 | 9 | 11) && escaped {
                counts.met(format!("answer: refusal {number} in repair"));
            }
            if number == 11 && escaped && !marks.contains(&"11: sweep") {
                counts.met("answer: refusal 11 in a drawing of repair".to_string());
            }
        }
        Drawn::Chain(way, count) => {
            let kind = sheet.tables.lent().row(sheet.edge.curve as usize).kind as usize;
            counts.met(format!("answer: {way:?}"));
            counts.met(format!("way: {way:?} of {}", KIND_WORDS[kind - 1]));
            if count == room(LENT, LENT) {
                counts.met("answer: a chain that fills its room".to_string());
            }
        }
    }
}

/// The kind and the nesting of the edge's curve, where the tables pass causes 2 to 4.
fn tally_curve(counts: &mut Counts, sheet: &Sheet) {
    let tables = sheet.tables.lent();
    let passes = !matches!(cause(&tables, &sheet.edge, &sheet.options, 8, 8), Some(2 | 3 | 4));
    if passes && (sheet.edge.curve as usize) < tables.row_count() {
        let row = sheet.edge.curve as usize;
        let kind = tables.row(row).kind as usize;
        counts.met(format!("kind: {}", KIND_WORDS[kind - 1]));
        counts.met(format!("nesting: {}", nestings(&tables)[row].min(9)));
    }
}

type ValueTest = (&'static str, fn(&Sheet) -> bool);

/// Values at the rules' boundaries.
fn value_tests() -> [ValueTest; 20] {
    [
        ("a -0.0", |s| any_float(s, |x| x.to_bits() == 1 << 63)),
        ("a subnormal", |s| any_float(s, f64::is_subnormal)),
        ("exactly 1e9", |s| any_float(s, |x| x.abs() == 1e9)),
        ("just above 1e9", |s| any_float(s, |x| x.abs().to_bits() == 1e9f64.to_bits() + 1)),
        ("exactly 100", |s| any_float(s, |x| x.abs() == 100.0)),
        ("just above 100", |s| any_float(s, |x| x.abs() == NEXT)),
        ("a hyperbola's semi-axis of zero", |s| any_semi_axis(s, |x| x == 0.0)),
        ("a hyperbola's semi-axis below zero", |s| any_semi_axis(s, |x| x < 0.0)),
        ("a NaN range", |s| s.edge.lo.is_nan() || s.edge.hi.is_nan()),
        ("a NaN range with payload", |s| payload(s.edge.lo) || payload(s.edge.hi)),
        ("a signalling NaN range", |s| signalling(s.edge.lo) || signalling(s.edge.hi)),
        ("an infinite range", |s| s.edge.lo.is_infinite() || s.edge.hi.is_infinite()),
        ("an equal range", |s| s.edge.lo == s.edge.hi),
        ("a reversed range", |s| s.edge.lo > s.edge.hi),
        ("a NaN scale", |s| s.options.scale.is_nan()),
        ("an infinite scale", |s| s.options.scale.is_infinite()),
        ("a tolerance below zero", |s| s.edge.tolerance < 0.0),
        ("one vertex for both ends", |s| s.edge.start == s.edge.end),
        ("a sense of 0", |s| s.edge.sense == 0),
        ("more segments than 32 bits hold", |s| s.options.segments > u32::MAX as u64),
    ]
}

fn any_float(sheet: &Sheet, test: fn(f64) -> bool) -> bool {
    let (e, o) = (&sheet.edge, &sheet.options);
    let single = [e.lo, e.hi, e.tolerance, o.deflection, o.angle, o.scale];
    let tables = [&sheet.tables.points, &sheet.tables.reals, &sheet.tables.ranges];
    tables.into_iter().flatten().chain(&single).any(|x| test(*x))
}

fn any_semi_axis(sheet: &Sheet, test: fn(f64) -> bool) -> bool {
    sheet.tables.lent().rows().any(|row| row.kind == HYPERBOLA && (test(row.p) || test(row.q)))
}

fn payload(x: f64) -> bool {
    x.is_nan() && x.abs().to_bits() != 0x7ff8000000000000
}

fn signalling(x: f64) -> bool {
    x.is_nan() && x.to_bits() & 1 << 51 == 0
}
