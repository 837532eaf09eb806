//! Demand 3's five clauses, and what the buffers hold, checked on drawn edges.

use crate::draw::{Drawn, WIDTH, draw_in, in_first, resolved, room, solid};
use crate::generate;
use crate::random::Random;
use crate::sheet::{LENT, Sheet, write};
use crate::strict;
use road::brep::Curve;
use road::edge::edge_extent;
use road::math::Vec3;
use road::mode::Mode;
use road::steps::{max, min};
use std::fmt::Write;

/// Floats in the shortest buffer that gives the most room.
const MOST: usize = 16_384 * WIDTH;

/// What no drawing writes, so that a float left alone shows.
const UNTOUCHED: f64 = f64::from_bits(0x7ff4dead0000beef);

/// How an edge was drawn in buffers of one room.
struct Known {
    room: usize,
    drawn: Drawn,
    /// Empty where it was refused.
    chain: Vec<f64>,
}

/// What a run found.
#[derive(Default)]
struct Found {
    draws: u64,
    chains: u64,
    longest: usize,
    not_finite: u64,
    violations: u64,
    report: String,
}

/// Draws `count` generated sheets and as many of strict mode's own, each in both modes, in the program's buffers and in others, and
/// reports.
pub fn report(seed: u64, count: u64) -> String {
    let mut found = Found::default();
    let mut accepted = 0;
    for index in 0..count {
        for sheet in [generate::contents(seed, index), strict::contents(seed, index)] {
            let before = found.chains;
            for mode in [Mode::Reference, Mode::Strict] {
                let random = &mut Random::new(seed ^ 0x5bd1e995, index);
                check_sheet(&mut found, &sheet, mode, random);
            }
            accepted += u64::from(found.chains > before);
        }
    }
    let Found { draws, chains, longest, not_finite, violations, report } = found;
    format!(
        "{report}seed {seed}: {count} sheets and {count} of strict mode's, each in both modes, {accepted} accepted in some buffers, \
         {draws} draws, {chains} chains, longest {longest} points, {not_finite} with a float not finite that is no copy of lo or hi, \
         {violations} violations\n"
    )
}

/// Draws in the program's buffers, in some of other lengths, and in some that the chain just fills.
fn check_sheet(found: &mut Found, sheet: &Sheet, mode: Mode, random: &mut Random) {
    let known = check_draw(found, sheet, mode, (LENT, LENT), None);
    let any = (any_length(random), any_length(random));
    check_draw(found, sheet, mode, any, Some(&known));
    match known.drawn {
        Drawn::Chain(..) => {
            let exact = (known.chain.len(), known.chain.len() + random.below(WIDTH));
            check_draw(found, sheet, mode, exact, Some(&known));
            check_draw(found, sheet, mode, (exact.1, exact.0 - 1), Some(&known));
        }
        // With the most room, for some: what was refused for room may take long to draw.
        Drawn::Refused(_) if random.percent(25) => {
            check_draw(found, sheet, mode, (MOST + random.below(3), MOST), Some(&known));
        }
        Drawn::Refused(_) => {}
    }
}

fn any_length(random: &mut Random) -> usize {
    match random.below(4) {
        0 => 6 + random.below(12),
        1 => 8 + random.below(200),
        2 => random.below(LENT),
        _ => LENT + random.below(LENT),
    }
}

/// Draws once and notes whatever is wrong, also beside how it was drawn before, where that is known.
fn check_draw(
    found: &mut Found,
    sheet: &Sheet,
    mode: Mode,
    (m, n): (usize, usize),
    known: Option<&Known>,
) -> Known {
    let (mut first, mut second) = (vec![UNTOUCHED; m], vec![UNTOUCHED; n]);
    let tables = sheet.tables.lent();
    let (edge, options) = (&sheet.edge, &sheet.options);
    let drawn = draw_in(&tables, edge, options, mode, &mut first, &mut second);
    found.draws += 1;
    let (mut wrong, chain) = match drawn {
        Drawn::Refused(number) => (broken_refusal(number, &first, &second), vec![]),
        Drawn::Chain(way, count) => {
            let (held, other) = if in_first(way) { (first, second) } else { (second, first) };
            let (chain, rest) = held.split_at(WIDTH * count);
            let mut wrong = broken_clauses(sheet, &records(chain));
            if !all(rest, 0.0) || !all(&other, 0.0) {
                wrong.push("buffers after a chain");
            }
            (wrong, chain.to_vec())
        }
    };
    let new = Known { room: room(m, n), drawn, chain };
    if known.is_some_and(|known| !agree(known, &new)) {
        wrong.push("another answer in other buffers");
    }
    note_chain(found, sheet, &new.chain);
    for what in wrong {
        found.violations += 1;
        writeln!(found.report, "{what}, mode {mode:?}, buffers {m} {n}:\n{}", write(sheet))
            .unwrap();
    }
    new
}

/// Room refuses and does nothing else: an edge has one answer, and 8 instead of it where the room is too small.
fn agree(one: &Known, other: &Known) -> bool {
    let (less, more) = if one.room <= other.room { (one, other) } else { (other, one) };
    match (less.drawn, more.drawn) {
        (Drawn::Refused(7), _) | (_, Drawn::Refused(7)) => true,
        (Drawn::Refused(8), Drawn::Refused(8 | 9 | 11) | Drawn::Chain(..)) => true,
        (a, b) => a == b && same_bits(&less.chain, &more.chain),
    }
}

fn note_chain(found: &mut Found, sheet: &Sheet, chain: &[f64]) {
    if chain.is_empty() {
        return;
    }
    found.chains += 1;
    found.longest = found.longest.max(chain.len() / WIDTH);
    let copied = |t: f64| [sheet.edge.lo, sheet.edge.hi].map(f64::to_bits).contains(&t.to_bits());
    let made = |(p, t): (Vec3, f64)| !p.is_finite() || !(t.is_finite() || copied(t));
    found.not_finite += u64::from(records(chain).into_iter().any(made));
}

/// Causes 1 to 7 leave the buffers as they were, 8, 9 and 11 leave them all +0.0.
fn broken_refusal(number: u32, first: &[f64], second: &[f64]) -> Vec<&'static str> {
    let left = if number <= 7 { UNTOUCHED } else { 0.0 };
    if all(first, left) && all(second, left) { vec![] } else { vec!["buffers after a refusal"] }
}

fn all(floats: &[f64], value: f64) -> bool {
    floats.iter().all(|x| x.to_bits() == value.to_bits())
}

fn same_bits(a: &[f64], b: &[f64]) -> bool {
    a.len() == b.len() && a.iter().zip(b).all(|(x, y)| x.to_bits() == y.to_bits())
}

fn records(chain: &[f64]) -> Vec<(Vec3, f64)> {
    chain.chunks_exact(WIDTH).map(|record| (Vec3::from_slice(record), record[3])).collect()
}

/// Those of the five clauses that a chain breaks.
fn broken_clauses(sheet: &Sheet, chain: &[(Vec3, f64)]) -> Vec<&'static str> {
    if chain.len() < 2 {
        return vec!["clause 1, at least two points"];
    }
    let solid = solid(&sheet.tables.lent(), &sheet.edge);
    let (start, end, curve) = (solid.vertices[0], solid.vertices[1], &solid.curves[0]);
    let sag = resolved(&sheet.options).sag_for(edge_extent(&solid, &solid.edges[0]));
    let clauses = [
        ("clause 2, its ends are the vertices", ends_are(chain, start, end)),
        ("clause 3, the curve's own points between", points_of(chain, curve)),
        ("clause 4, parameters one way", one_way(chain)),
        ("clause 5, neighbours apart", apart(chain, merge_floor(sheet.edge.tolerance, sag))),
    ];
    clauses.into_iter().filter(|(_, holds)| !holds).map(|(name, _)| name).collect()
}

fn ends_are(chain: &[(Vec3, f64)], start: Vec3, end: Vec3) -> bool {
    same(chain[0].0, start) && same(chain[chain.len() - 1].0, end)
}

/// Bit for bit, every NaN counting as one.
fn same(a: Vec3, b: Vec3) -> bool {
    let same = |x: f64, y: f64| x.to_bits() == y.to_bits() || (x.is_nan() && y.is_nan());
    same(a.x, b.x) && same(a.y, b.y) && same(a.z, b.z)
}

fn points_of(chain: &[(Vec3, f64)], curve: &Curve) -> bool {
    let between = &chain[1..chain.len() - 1];
    between.iter().all(|(p, t)| same(*p, curve.point_at(*t)))
}

fn one_way(chain: &[(Vec3, f64)]) -> bool {
    let rises = chain.windows(2).any(|w| w[1].1 > w[0].1);
    let falls = chain.windows(2).any(|w| w[1].1 < w[0].1);
    !(rises && falls)
}

fn merge_floor(tolerance: f64, sag: f64) -> f64 {
    min(4.0 * max(tolerance, 0.0), 0.5 * sag)
}

/// No two neighbours, the last pair excepted, at or under the floor, where that is above zero.
fn apart(chain: &[(Vec3, f64)], floor: f64) -> bool {
    let but_the_last = &chain[..chain.len() - 1];
    let close = but_the_last.windows(2).any(|w| (w[1].0 - w[0].0).length() <= floor);
    !(floor > 0.0 && close)
}
