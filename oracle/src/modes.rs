//! The coverage table of strict mode: how edges are answered in it, where that is something else than the published Rust's answer,
//! and what becomes of a composite's joints.

use crate::draw::{Drawn, draw_in, reference, resolved};
use crate::sheet::{LENT, Sheet, read};
use crate::strict;
use crate::tables::{COMPOSITE, HYPERBOLA, PARABOLA, TRIMMED, Tables};
use road::edge::Way;
use road::marks;
use road::mode::Mode;
use std::collections::BTreeMap;
use std::fmt::Write;

const WAYS: [&str; 8] = [
    "AsDrawn",
    "ChordForWantOfARange",
    "Complement",
    "ShortArc",
    "RunawayChord",
    "refusal 8",
    "refusal 9",
    "refusal 11",
];
/// Edges that are chords in strict mode alone, by what the Rust makes of them.
const CHORDS: [&str; 9] = [
    "of a hyperbola, for refusal 11",
    "of a parabola, for AsDrawn",
    "of a parabola, for RunawayChord",
    "of a parabola, for ShortArc",
    "of a parabola, for refusal 8",
    "outside its box",
    "over an equal range",
    "over a reversed range",
    "over a range not finite",
];
/// Edges that strict mode draws or refuses otherwise, by their row and by the way.
const OTHERS: [&str; 7] = [
    "of a composite: AsDrawn",
    "of a composite: ShortArc",
    "of a composite: refused in one mode alone",
    "of a trim: AsDrawn",
    "of a trim: ShortArc",
    "of a trim: refused in one mode alone",
    "of a composite or trim: in another way",
];

/// The table for `count` sheets of strict mode's own, of a seed.
pub fn table(seed: u64, count: u64) -> String {
    let mut counts: BTreeMap<String, u64> = names().map(|name| (name, 0)).collect();
    for index in 0..count {
        for name in of_bytes(&strict::bytes(seed, index)) {
            *counts.get_mut(&name).unwrap_or_else(|| panic!("no such name: {name}")) += 1;
        }
    }
    let mut text = format!("strict mode, seed {seed}, {count} sheets\n");
    for (name, met) in counts {
        writeln!(text, "{met:>9} {:>7.3}%  {name}", 100.0 * met as f64 / count as f64).unwrap();
    }
    text
}

/// What one sheet meets, a line for each name.
pub fn met(bytes: &[u8]) -> String {
    of_bytes(bytes).iter().map(|name| format!("{name}\n")).collect()
}

fn names() -> impl Iterator<Item = String> {
    let ways = WAYS.iter().map(|way| format!("answer: {way}"));
    let chords = CHORDS.iter().map(|what| format!("chord {what}"));
    let others = OTHERS.iter().map(|what| format!("another answer {what}"));
    ways.chain(chords).chain(others).chain(marks::STRICT.map(str::to_string))
}

/// The names that a sheet meets; none where one of causes 1 to 7 or 10 applies.
fn of_bytes(bytes: &[u8]) -> Vec<String> {
    let Some(sheet) = read(bytes) else {
        return vec![];
    };
    let usual = drawn(&sheet, Mode::Reference);
    marks::take();
    let strict = drawn(&sheet, Mode::Strict);
    let marked = marks::take();
    if matches!(strict.0, Drawn::Refused(1..=7)) {
        return vec![];
    }
    let mut names = vec![format!("answer: {}", way(strict.0))];
    names.extend(marked.iter().filter_map(|mark| of_mark(mark, &marked)));
    let row = sheet.tables.lent().row(sheet.edge.curve as usize).kind;
    if matches!(row, PARABOLA | HYPERBOLA) && usual != strict {
        names.extend(of_chord(&sheet, row, usual.0));
    } else if usual != strict {
        names.push(of_other(&sheet.tables.lent(), row, usual.0, strict.0));
    }
    names
}

/// The answer in the program's buffers, and what both then hold.
fn drawn(sheet: &Sheet, mode: Mode) -> (Drawn, Vec<u64>) {
    let (mut first, mut second) = (vec![0.0; LENT], vec![0.0; LENT]);
    let (tables, edge) = (sheet.tables.lent(), &sheet.edge);
    let drawn = draw_in(&tables, edge, &sheet.options, mode, &mut first, &mut second);
    (drawn, first.iter().chain(&second).map(|x| x.to_bits()).collect())
}

fn way(drawn: Drawn) -> String {
    match drawn {
        Drawn::Chain(way, _) => format!("{way:?}"),
        Drawn::Refused(number) => format!("refusal {number}"),
    }
}

/// Marks of strict mode alone, and those of thinning where a composite's joints are what is thinned.
fn of_mark(mark: &str, met: &[&str]) -> Option<String> {
    let name = match mark {
        "breaks: kept" => "joints: kept",
        "breaks: dropped" => "joints: dropped by thinning",
        "breaks: walked backwards" => "joints: walked backwards",
        _ => return marks::STRICT.contains(&mark).then(|| mark.to_string()),
    };
    met.contains(&"joints: inside").then(|| name.to_string())
}

/// A chord that strict mode alone draws.
fn of_chord(sheet: &Sheet, row: u32, usual: Drawn) -> Vec<String> {
    let kind = if row == PARABOLA { "parabola" } else { "hyperbola" };
    let edge = &sheet.edge;
    let reference = reference(&sheet.tables.lent(), edge);
    let limit = reference.diagonal() + 16.0 * 2.0 * resolved(&sheet.options).sag;
    let far = |i: u32| (sheet.tables.lent().point(i) - reference.centre()).length() > limit;
    let sized = !reference.is_empty() && reference.diagonal() > 0.0;
    let tests = [
        ("outside its box", sized && (far(edge.start) || far(edge.end))),
        ("over an equal range", edge.lo == edge.hi),
        ("over a reversed range", edge.lo > edge.hi && edge.lo - edge.hi < f64::INFINITY),
        ("over a range not finite", !edge.lo.is_finite() || !edge.hi.is_finite()),
    ];
    let told = tests.into_iter().filter(|(_, is)| *is).map(|(what, _)| format!("chord {what}"));
    told.chain([format!("chord of a {kind}, for {}", way(usual))]).collect()
}

fn of_other(tables: &Tables, row: u32, usual: Drawn, strict: Drawn) -> String {
    assert!(
        matches!(row, TRIMMED | COMPOSITE),
        "another answer on a row of kind {row}: {tables:?}"
    );
    let row = if row == TRIMMED { "trim" } else { "composite" };
    let what = match (usual, strict) {
        (Drawn::Chain(Way::AsDrawn, _), Drawn::Chain(Way::AsDrawn, _)) => format!("{row}: AsDrawn"),
        (Drawn::Chain(Way::ShortArc, _), Drawn::Chain(Way::ShortArc, _)) => {
            format!("{row}: ShortArc")
        }
        (Drawn::Chain(..), Drawn::Chain(..)) => "composite or trim: in another way".to_string(),
        _ => format!("{row}: refused in one mode alone"),
    };
    format!("another answer of a {what}")
}
