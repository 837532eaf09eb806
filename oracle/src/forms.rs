//! What the coverage table says of hyperbolas: where under the edge's row they stand, how such edges are answered, and which of 8 and
//! 11 comes first.

use crate::draw::{Drawn, draw, reference, resolved, room, solid};
use crate::sheet::Sheet;
use crate::tables::{COMPOSITE, HYPERBOLA, TRIMMED, Tables};
use road::edge::discretise_all;
use road::marks;
use road::mode::Mode;

const PLAIN: u32 = 1;
const TRIM: u32 = 2;
const TRIMS: u32 = 4;
const DOWN: u32 = 8;
const COMPOSED: u32 = 16;
const COMPOSITES: u32 = 32;
const BACKWARDS: u32 = 64;

const FORMS: [(u32, &str); 7] = [
    (PLAIN, "plain"),
    (TRIM, "in a trim"),
    (TRIMS, "in a trim of a trim"),
    (DOWN, "in a trim from high to low"),
    (COMPOSED, "in a composite"),
    (COMPOSITES, "in a composite of composites"),
    (BACKWARDS, "in a segment backwards"),
];
/// How edges with hyperbolas are called by their answers, and what these can be.
const GROUPS: [(&str, &[&str]); 3] = [
    ("plain", &["AsDrawn", "refusal 8", "refusal 11"]),
    ("in trims alone", &REFERRED_TO),
    ("in a composite", &REFERRED_TO),
];
const REFERRED_TO: [&str; 6] =
    ["AsDrawn", "ChordForWantOfARange", "ShortArc", "RunawayChord", "refusal 8", "refusal 11"];
const EIGHT_FIRST: &str = "order: 11, but 8 in a room of two";
const ELEVEN_FIRST: &str = "order: 11 in bisection in a room of two, where 8 would be next";
const EIGHT_FIRST_LENT: &str = "order: 8, but 11 in the most room";

/// Every name that `met` can give.
pub fn names() -> impl Iterator<Item = String> {
    let forms = FORMS.iter().map(|(_, name)| format!("hyperbola: {name}"));
    let answers = GROUPS.iter().flat_map(|(group, answers)| {
        answers.iter().map(move |answer| format!("hyperbola {group}: {answer}"))
    });
    let orders = [EIGHT_FIRST, ELEVEN_FIRST, EIGHT_FIRST_LENT].map(str::to_string);
    forms.chain(answers).chain(orders)
}

/// The names that a sheet meets whose answer in the program's buffers is this one, and whose edge's row is in its table.
pub fn met(sheet: &Sheet, drawn: Drawn) -> Vec<String> {
    let found = forms(&sheet.tables.lent())[sheet.edge.curve as usize];
    if found == 0 {
        return vec![];
    }
    let mut names: Vec<String> = FORMS
        .iter()
        .filter(|(form, _)| found & form != 0)
        .map(|(_, name)| format!("hyperbola: {name}"))
        .collect();
    let (group, _) = GROUPS[if found & COMPOSED != 0 { 2 } else { (found & TRIM != 0) as usize }];
    match drawn {
        Drawn::Chain(way, _) => names.push(format!("hyperbola {group}: {way:?}")),
        Drawn::Refused(number @ (8 | 11)) => {
            names.push(format!("hyperbola {group}: refusal {number}"));
            names.extend(order(sheet, number).map(str::to_string));
        }
        Drawn::Refused(_) => {}
    }
    names
}

/// Where hyperbolas stand under each row. Each row refers to lower rows alone.
fn forms(tables: &Tables) -> Vec<u32> {
    let mut forms: Vec<u32> = Vec::with_capacity(tables.row_count());
    for row in tables.rows() {
        let run = row.first as usize..row.first as usize + row.count as usize;
        forms.push(match row.kind {
            HYPERBOLA => PLAIN,
            TRIMMED => trim_of(forms[row.first as usize], row.p > row.q),
            COMPOSITE => {
                let segments = run.map(|i| tables.segment(i));
                segments.fold(0, |all, s| all | segment_of(forms[s.curve as usize], s.sense == 0))
            }
            _ => 0,
        });
    }
    forms
}

fn trim_of(base: u32, down: bool) -> u32 {
    let again = if base & TRIM != 0 { TRIMS } else { 0 };
    let down = if down { DOWN } else { 0 };
    if base == 0 { 0 } else { base & !PLAIN | TRIM | again | down }
}

fn segment_of(curve: u32, backwards: bool) -> u32 {
    let again = if curve & COMPOSED != 0 { COMPOSITES } else { 0 };
    let backwards = if backwards { BACKWARDS } else { 0 };
    if curve == 0 { 0 } else { curve & !PLAIN | COMPOSED | again | backwards }
}

/// What another room, or a road without 11, says of an edge that was answered by 8 or 11.
fn order(sheet: &Sheet, number: u32) -> Option<&'static str> {
    const LEAST: usize = 8;
    const MOST: usize = 65_536;
    marks::take();
    let name = match (number, refusal_in(sheet, LEAST), refusal_in(sheet, MOST)) {
        (8, _, 11) => Some(EIGHT_FIRST_LENT),
        (11, 8, _) => Some(EIGHT_FIRST),
        _ => {
            marks::take();
            refusal_in(sheet, LEAST);
            let bisected = marks::take().contains(&"11: bisection");
            (bisected && too_long_without_11(sheet)).then_some(ELEVEN_FIRST)
        }
    };
    marks::take();
    name
}

fn refusal_in(sheet: &Sheet, floats: usize) -> u32 {
    let (mut first, mut second) = (vec![0.0; floats], vec![0.0; floats]);
    match draw(&sheet.tables.lent(), &sheet.edge, &sheet.options, &mut first, &mut second) {
        Drawn::Refused(number) => number,
        Drawn::Chain(..) => 0,
    }
}

/// Whether a list is too long for a room of two where hyperbolas are asked for whatever comes.
fn too_long_without_11(sheet: &Sheet) -> bool {
    let (tables, edge) = (sheet.tables.lent(), &sheet.edge);
    let options = resolved(&sheet.options);
    let (solid, reference) = (solid(&tables, edge), reference(&tables, edge));
    discretise_all(&solid, &options, &reference, room(8, 8), Mode::Reference).is_err_and(|n| n == 8)
}
