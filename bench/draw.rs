// Times drawing: the library, the oracle (fixed steps) and the original (native functions), in one run.
//
// The library draws under its C names: by cs_flat_draw, which checks tables, edge and options, and by cs_flat_draw_over, whose tables
// were checked once before and which checks edge and options. For each case all draw the same edge from the same tables into
// buffers that just hold the chain. Before anything is timed the library's and the oracle's answers and both buffers are
// compared bit for bit. The functions take turns, and each figure is the least of many rounds, so that a busy machine does
// not show. Of the composites of arcs it also says how much shorter than their arcs their chains are.
use std::hint::black_box;
use std::time::Instant;

// the functions of cornsunset
#[allow(dead_code)]
#[path = "../bindings/rust/src/raw.rs"]
mod raw;

unsafe extern "C" {
    fn cs_point_at(
        points: *const f64, points_n: usize, curves: *const u32, curves_n: usize, reals: *const f64, reals_n: usize,
        parts: *const u32, parts_n: usize, ranges: *const f64, ranges_n: usize,
        row: u32, t: f64, x: &mut f64, y: &mut f64, z: &mut f64,
    );
    fn cs_breaks(knots: *mut f64, n: usize, lo: f64, hi: f64) -> usize;
    fn cs_clear(buffer: *mut f64, n: usize);
}

use ::fixed::tables::{CIRCLE, COMPOSITE, ELLIPSE, HYPERBOLA, LINE, PARABOLA, POLYLINE, Row, Segment, TRIMMED};
use ::fixed::{Edge, Options, OwnedTables};

#[derive(Debug, Clone, Copy, PartialEq)]
enum Answer {
    /// The way's number and the count of points.
    Chain(u32, usize),
    Refused(u32),
}

struct Case {
    name: &'static str,
    tables: OwnedTables,
    edge: Edge,
    options: Options,
}

fn answer(refusal: u32, way: u32, count: usize) -> Answer {
    if refusal == 0 { Answer::Chain(way, count) } else { Answer::Refused(refusal) }
}

fn ours(t: &OwnedTables, e: &Edge, o: &Options, first: &mut [f64], second: &mut [f64]) -> Answer {
    let (mut way, mut count) = (0, 0);
    let (a, m, b, n) = (first.as_mut_ptr(), first.len(), second.as_mut_ptr(), second.len());
    let refusal = unsafe { raw::call!(cs_flat_draw, t, e, o, o.angle, a, m, b, n, &mut way, &mut count) };
    answer(refusal, way, count)
}

/// `check_tables` has accepted the tables.
fn ours_over(t: &OwnedTables, e: &Edge, o: &Options, first: &mut [f64], second: &mut [f64]) -> Answer {
    let (mut way, mut count) = (0, 0);
    let (a, m, b, n) = (first.as_mut_ptr(), first.len(), second.as_mut_ptr(), second.len());
    let refusal = unsafe { raw::call!(cs_flat_draw_over, t, e, o, o.angle, a, m, b, n, &mut way, &mut count) };
    answer(refusal, way, count)
}

fn check(t: &OwnedTables, e: &Edge, o: &Options) -> u32 {
    unsafe { raw::call!(cs_flat_check, t, e, o, o.angle) }
}

/// Stops unless the tables are accepted.
fn check_tables(t: &OwnedTables) {
    let refusal = unsafe {
        raw::cs_flat_check_tables(
            t.points.as_ptr(), t.points.len(), t.curves.as_ptr(), t.curves.len(), t.reals.as_ptr(), t.reals.len(),
            t.parts.as_ptr(), t.parts.len(), t.ranges.as_ptr(), t.ranges.len(),
        )
    };
    assert_eq!(refusal, 0, "the tables are refused");
}

// The same for either build of the Rust, whose types are apart.
macro_rules! rust {
    ($name:ident) => {
        mod $name {
            use super::Answer;
            use ::$name::draw::{draw, reference, resolved, room, solid};
            use ::$name::{Drawn, Way};

            pub fn tables(t: &super::OwnedTables) -> ::$name::OwnedTables {
                ::$name::OwnedTables {
                    points: t.points.clone(),
                    curves: t.curves.clone(),
                    reals: t.reals.clone(),
                    parts: t.parts.clone(),
                    ranges: t.ranges.clone(),
                }
            }

            pub fn edge(e: &super::Edge) -> ::$name::Edge {
                ::$name::Edge {
                    curve: e.curve,
                    start: e.start,
                    end: e.end,
                    sense: e.sense,
                    lo: e.lo,
                    hi: e.hi,
                    tolerance: e.tolerance,
                    low: e.low,
                    high: e.high,
                }
            }

            pub fn options(o: &super::Options) -> ::$name::Options {
                ::$name::Options {
                    deflection: o.deflection,
                    angle: o.angle,
                    relative: o.relative,
                    segments: o.segments,
                    depth: o.depth,
                    scale: o.scale,
                }
            }

            fn way(w: Way) -> u32 {
                match w {
                    Way::AsDrawn => 1,
                    Way::ChordForWantOfARange => 2,
                    Way::Complement => 3,
                    Way::ShortArc => 4,
                    Way::RunawayChord => 5,
                }
            }

            /// The whole entry point.
            pub fn drawing(c: &super::Case) -> impl Fn(&mut [f64], &mut [f64]) -> Answer + use<> {
                let (t, e, o) = (tables(&c.tables), edge(&c.edge), options(&c.options));
                move |first, second| match draw(&t.lent(), &e, &o, first, second) {
                    Drawn::Refused(n) => Answer::Refused(n),
                    Drawn::Chain(w, n) => Answer::Chain(way(w), n),
                }
            }

            /// `discretise_all` alone, on a solid that stands ready; how many points it gave.
            pub fn road(c: &super::Case, floats: usize) -> impl Fn() -> usize + use<> {
                let (t, e, o) = (tables(&c.tables), edge(&c.edge), options(&c.options));
                let (solid, reference, resolved) = (solid(&t.lent(), &e), reference(&t.lent(), &e), resolved(&o));
                move || {
                    let chains = ::$name::discretise_all(&solid, &resolved, &reference, room(floats, floats));
                    chains.map_or(0, |c| c.iter().map(|c| c.len()).sum())
                }
            }

            /// The same for a part: a solid of all its edges.
            pub fn part_road(c: &super::Case, edges: &[super::Edge], floats: usize) -> impl Fn() -> usize + use<> {
                let (t, o) = (tables(&c.tables), options(&c.options));
                let t = t.lent();
                let all = edges.iter().map(|e| solid(&t, &edge(e)));
                let mut whole = solid(&t, &edge(&c.edge));
                whole.vertices.clear();
                whole.edges.clear();
                whole.curves = (0..t.row_count()).map(|i| t.curve(i as u32)).collect();
                for (e, s) in edges.iter().zip(all) {
                    let mut one = s.edges[0].clone();
                    one.start.0 = whole.vertices.len() as _;
                    whole.vertices.push(s.vertices[0]);
                    one.end.0 = whole.vertices.len() as _;
                    whole.vertices.push(s.vertices[1]);
                    one.curve.0 = e.curve as _;
                    whole.edges.push(one);
                }
                let (reference, resolved) = (reference(&t, &edge(&c.edge)), resolved(&o));
                move || {
                    let chains = ::$name::discretise_all(&whole, &resolved, &reference, room(floats, floats));
                    chains.map_or(0, |c| c.iter().map(|c| c.len()).sum())
                }
            }

            /// The point of a row's curve.
            pub fn point_at(t: &super::OwnedTables, row: u32) -> impl Fn(f64) -> [f64; 3] + use<> {
                let curve = tables(t).lent().curve(row);
                move |t| {
                    let p = curve.point_at(t);
                    [p.x, p.y, p.z]
                }
            }
        }
    };
}

rust!(fixed);
rust!(native);

// ---- the cases

const DEGREES: f64 = std::f64::consts::PI / 180.0;

fn options(deflection: f64, scale: f64) -> Options {
    Options { deflection, angle: 8.0 * DEGREES, relative: 1, segments: 1, depth: 12, scale }
}

struct Draft {
    tables: OwnedTables,
}

impl Draft {
    fn new() -> Draft {
        Draft { tables: OwnedTables::default() }
    }

    fn row(&mut self, kind: u32, points: &[[f64; 3]], p: f64, q: f64) -> u32 {
        let first = self.tables.points.len() as u32 / 3;
        for x in points {
            self.tables.push_point(*x);
        }
        self.tables.push_row(Row { kind, first, count: points.len() as u32, p, q })
    }

    fn frame(&mut self, kind: u32, origin: [f64; 3], p: f64, q: f64) -> u32 {
        self.row(kind, &[origin, [0.0, 0.0, 1.0], [1.0, 0.0, 0.0]], p, q)
    }

    /// The edge over lo to hi, with vertices on the curve and a box about them.
    fn edge(&mut self, row: u32, lo: f64, hi: f64, half: f64) -> Edge {
        let at = fixed::point_at(&self.tables, row);
        let (start, end) = (at(lo), at(hi));
        self.edge_between(row, lo, hi, start, end, [-half; 3], [half; 3])
    }

    fn edge_between(&mut self, curve: u32, lo: f64, hi: f64, start: [f64; 3], end: [f64; 3], low: [f64; 3], high: [f64; 3]) -> Edge {
        let t = &mut self.tables;
        let (start, end) = (t.push_point(start), t.push_point(end));
        let (low, high) = (t.push_point(low), t.push_point(high));
        Edge { curve, start, end, sense: 1, lo, hi, tolerance: 1e-6, low, high }
    }

    fn case(self, name: &'static str, edge: Edge, options: Options) -> Case {
        Case { name, tables: self.tables, edge, options }
    }
}

fn line() -> Case {
    let mut d = Draft::new();
    let row = d.row(LINE, &[[0.0; 3], [1.0, 0.5, 0.0]], 0.0, 0.0);
    let e = d.edge(row, 0.0, 50.0, 1e3);
    d.case("line", e, options(4e-4, 480.0))
}

/// A whole circle of n points.
fn circle(name: &'static str, n: usize) -> Case {
    let mut d = Draft::new();
    let row = d.frame(CIRCLE, [1.0, 2.0, 3.0], 50.0, 0.0);
    let e = d.edge(row, 0.0, std::f64::consts::TAU, 1e4);
    let angle = std::f64::consts::TAU / (n as f64 - 1.5);
    d.case(name, e, Options { angle, deflection: 100.0 * angle * angle, relative: 0, ..options(0.0, 480.0) })
}

fn ellipse() -> Case {
    let mut d = Draft::new();
    let row = d.frame(ELLIPSE, [1.0, 2.0, 3.0], 40.0, 25.0);
    let e = d.edge(row, 0.0, std::f64::consts::TAU, 1e4);
    d.case("ellipse", e, options(4e-4, 480.0))
}

fn parabola() -> Case {
    let mut d = Draft::new();
    let row = d.frame(PARABOLA, [0.0; 3], 5.0, 0.0);
    let e = d.edge(row, -4.0, 4.0, 1e4);
    d.case("parabola, bisected", e, options(4e-4, 480.0))
}

/// A plane's cut through a cone.
fn hyperbola() -> Case {
    let mut d = Draft::new();
    let row = d.frame(HYPERBOLA, [0.0; 3], 20.0, 12.0);
    let e = d.edge(row, -1.5, 2.0, 1e4);
    d.case("hyperbola", e, options(4e-4, 480.0))
}

/// A line to a cone's cut, the cut, a line on, and an arc.
fn around_a_cut() -> Case {
    let mut d = Draft::new();
    let to = d.row(LINE, &[[-60.0, -25.5, 0.0], [1.0, 0.0, 0.0]], 0.0, 0.0);
    let cut = d.frame(HYPERBOLA, [0.0; 3], 20.0, 12.0);
    let on = d.row(LINE, &[[47.0, 25.5, 0.0], [0.0, 1.0, 0.0]], 0.0, 0.0);
    let arc = d.frame(CIRCLE, [37.0, 60.0, 0.0], 10.0, 0.0);
    for (curve, lo, hi) in [(to, 0.0, 107.0), (cut, -1.5, 1.5), (on, 0.0, 34.5), (arc, 0.0, std::f64::consts::FRAC_PI_2)] {
        d.tables.push_segment(Segment { curve, lo, hi, sense: 1 });
    }
    let row = d.tables.push_row(Row { kind: COMPOSITE, first: 0, count: 4, p: 0.0, q: 0.0 });
    let e = d.edge(row, 0.0, 4.0, 1e4);
    d.case("composite with a hyperbola", e, options(4e-4, 480.0))
}

/// An arc of n points as a polyline.
fn polyline(name: &'static str, n: usize) -> Case {
    let mut d = Draft::new();
    let points: Vec<[f64; 3]> = (0..n)
        .map(|i| {
            let t = 2.0 * i as f64 / (n - 1) as f64;
            [100.0 * t.cos(), 100.0 * t.sin(), 0.0]
        })
        .collect();
    let row = d.row(POLYLINE, &points, 0.0, 0.0);
    let e = d.edge(row, 0.0, (n - 1) as f64, 1e4);
    d.case(name, e, options(4e-4, 480.0))
}

/// n arcs of half a turn, one after another. In a straight row the middle of many of them lies on their chord, and halving ends there;
/// rough, it does not.
fn composite(name: &'static str, n: usize, rough: f64) -> Case {
    let mut d = Draft::new();
    for i in 0..n {
        let row = d.frame(CIRCLE, [20.0 * i as f64, rough * (i * i % 7) as f64, 0.0], 10.0, 0.0);
        d.tables.push_segment(Segment { curve: row, lo: 0.0, hi: std::f64::consts::PI, sense: 0 });
    }
    let row = d.tables.push_row(Row { kind: COMPOSITE, first: 0, count: n as u32, p: 0.0, q: 0.0 });
    let e = d.edge(row, 0.0, n as f64, 1e5);
    d.case(name, e, Options { relative: 0, ..options(0.01, 480.0) })
}

/// A flat spiral of n quarter turns, a turn 1 from the next, as of a spring or a coil. It bends one way and passes smoothly from arc
/// to arc, so that halving finds no middle on its chord, and draws it within the sag.
fn spiral(name: &'static str, n: usize) -> Case {
    const GROWTH: f64 = 0.25;
    let quarter = std::f64::consts::FRAC_PI_2;
    let mut d = Draft::new();
    let mut centre = [0.0; 3];
    for i in 0..n {
        let row = d.frame(CIRCLE, centre, 10.0 + GROWTH * i as f64, 0.0);
        let lo = quarter * (i % 4) as f64;
        d.tables.push_segment(Segment { curve: row, lo, hi: lo + quarter, sense: 1 });
        // back from the joint by what the radius grows
        centre[0] -= GROWTH * (lo + quarter).cos();
        centre[1] -= GROWTH * (lo + quarter).sin();
    }
    let row = d.tables.push_row(Row { kind: COMPOSITE, first: 0, count: n as u32, p: 0.0, q: 0.0 });
    let e = d.edge(row, 0.0, n as f64, 1e5);
    d.case(name, e, Options { relative: 0, ..options(0.01, 480.0) })
}

/// A short arc of a circle, whose range in the file is the long way round: the complement serves.
fn complement() -> Case {
    let mut d = Draft::new();
    let row = d.frame(CIRCLE, [0.0; 3], 100.0, 0.0);
    let at = fixed::point_at(&d.tables, row);
    let (start, end) = (at(0.0), at(0.2));
    let e = d.edge_between(row, 0.2, std::f64::consts::TAU, end, start, [90.0, -5.0, -1.0], [105.0, 25.0, 1.0]);
    d.case("repair: complement", e, options(4e-4, 480.0))
}

/// A trimmed parabola that runs away from its box, and whose middle part joins the vertices.
fn short_arc(name: &'static str, (low, high): ([f64; 3], [f64; 3]), options: Options) -> Case {
    let mut d = Draft::new();
    let row = d.frame(PARABOLA, [0.0; 3], 5.0, 0.0);
    let base = d.tables.push_row(Row { kind: TRIMMED, first: row, count: 1, p: -4.0, q: 4.0 });
    let at = fixed::point_at(&d.tables, base);
    let (start, end) = (at(-0.5), at(0.5));
    let e = d.edge_between(base, -4.0, 4.0, start, end, low, high);
    d.case(name, e, options)
}

/// The box of the short arc, and one about its first half.
const AROUND: ([f64; 3], [f64; 3]) = ([-2.0, -6.0, -1.0], [4.0, 6.0, 1.0]);
const AROUND_HALF: ([f64; 3], [f64; 3]) = ([0.25, -6.0, -1.0], [2.25, -2.0, 1.0]);

/// 16,000 even steps, of which none is merged or thinned.
fn fine() -> Options {
    Options { deflection: 1e-9, relative: 0, segments: 16000, depth: 1, ..options(0.0, 480.0) }
}

/// The vertices lie off the curve.
fn runaway() -> Case {
    let mut d = Draft::new();
    let row = d.frame(PARABOLA, [0.0; 3], 5.0, 0.0);
    let e = d.edge_between(row, -4.0, 4.0, [900.0, 0.0, 0.0], [901.0, 1.0, 0.0], [900.0, 0.0, 0.0], [901.0, 1.0, 1.0]);
    d.case("repair: runaway chord", e, options(4e-4, 480.0))
}

/// A part: lines, arcs, ellipses and polylines of five points, 4,000 rows, and 10,000 edges over them. The edges of one row
/// share its range and its vertices, which lie on the curve.
fn part() -> (Case, Vec<Edge>) {
    let mut d = Draft::new();
    let mut rows = vec![];
    for i in 0..4000u32 {
        let x = i as f64 * 0.25;
        rows.push(match i % 4 {
            0 => d.row(LINE, &[[x, 0.0, 0.0], [1.0, 0.5, 0.0]], 0.0, 0.0),
            1 => d.frame(CIRCLE, [x, 1.0, 0.0], 2.0 + (i % 7) as f64, 0.0),
            2 => d.frame(ELLIPSE, [x, 2.0, 0.0], 6.0, 4.0),
            _ => d.row(POLYLINE, &[[x, 0.0, 0.0], [x + 1.0, 0.2, 0.0], [x + 2.0, 0.1, 0.0], [x + 3.0, 0.4, 0.0], [x + 4.0, 0.0, 0.0]], 0.0, 0.0),
        });
    }
    let (low, high) = (d.tables.push_point([-1e4; 3]), d.tables.push_point([1e4; 3]));
    let whole: Vec<Edge> = rows
        .iter()
        .map(|&curve| {
            let (lo, hi) = match curve % 4 {
                0 => (0.0, 10.0),
                3 => (0.0, 4.0),
                _ => (0.1, 1.7),
            };
            let at = fixed::point_at(&d.tables, curve);
            let (start, end) = (d.tables.push_point(at(lo)), d.tables.push_point(at(hi)));
            Edge { curve, start, end, sense: 1, lo, hi, tolerance: 1e-6, low, high }
        })
        .collect();
    let edges: Vec<Edge> = (0..10_000).map(|i| whole[i * 7 % whole.len()]).collect();
    (d.case("part of 10,000 edges, per edge", edges[0], options(4e-4, 480.0)), edges)
}

// ---- comparing and timing

/// The least number of floats with which the edge is drawn as in large buffers.
fn least_floats(c: &Case) -> usize {
    let draw = fixed::drawing(c);
    let answer = |n: usize| draw(&mut vec![0.0; n], &mut vec![0.0; n]);
    let wanted = answer(65536);
    assert!(matches!(wanted, Answer::Chain(..)), "{}: {wanted:?}", c.name);
    let (mut lo, mut hi) = (4, 65536);
    while lo + 4 < hi {
        let middle = (lo + hi) / 8 * 4;
        if answer(middle) == wanted { hi = middle } else { lo = middle }
    }
    hi
}

/// All draw alike, and both buffers hold the same bits; the way and the count of points. The tables have been accepted.
fn compare(c: &Case, n: usize) -> (u32, usize) {
    let draw = fixed::drawing(c);
    let (mut a, mut b, mut x, mut y) = (vec![7.0; n], vec![7.0; n], vec![7.0; n], vec![7.0; n]);
    let answer = draw(&mut a, &mut b);
    assert_eq!(answer, ours(&c.tables, &c.edge, &c.options, &mut x, &mut y), "{}", c.name);
    let same = |p: &[f64], q: &[f64]| p.iter().zip(q).all(|(p, q)| p.to_bits() == q.to_bits());
    assert!(same(&a, &x) && same(&b, &y), "{}: the buffers differ", c.name);
    (x, y) = (vec![7.0; n], vec![7.0; n]);
    assert_eq!(answer, ours_over(&c.tables, &c.edge, &c.options, &mut x, &mut y), "{}", c.name);
    assert!(same(&a, &x) && same(&b, &y), "{}: the buffers differ", c.name);
    let Answer::Chain(way, count) = answer else { panic!("{}: {answer:?}", c.name) };
    (way, count)
}

const ROUNDS: usize = 60;
const ROUND: u128 = 400_000;

/// How many edges of a part are drawn with the check of the whole tables for each.
const FEW: usize = 20;

/// A number rounded to a whole one, its digits in threes.
fn whole(x: f64) -> String {
    let digits = format!("{x:.0}");
    let threes: Vec<&str> = digits.as_bytes().rchunks(3).rev().map(|c| std::str::from_utf8(c).unwrap()).collect();
    threes.join(",")
}

/// Nanoseconds a call of each, by turns, the least over the rounds.
fn least<const N: usize>(mut calls: [&mut dyn FnMut(); N]) -> [f64; N] {
    let run = |call: &mut dyn FnMut(), times: u32| {
        let start = Instant::now();
        for _ in 0..times {
            call();
        }
        start.elapsed().as_nanos()
    };
    let mut times = [1; N];
    for (n, call) in times.iter_mut().zip(&mut calls) {
        while run(call, *n) < ROUND && *n < 1 << 20 {
            *n *= 2;
        }
    }
    let mut best = [f64::INFINITY; N];
    for _ in 0..ROUNDS {
        for i in 0..N {
            best[i] = best[i].min(run(calls[i], times[i]) as f64 / times[i] as f64);
        }
    }
    best
}

/// A case's name and its six figures, in the order of the table's columns.
type Figures = (&'static str, [f64; 6]);

fn row(name: &'static str, points: usize, way: u32, t: [f64; 6]) -> Figures {
    let [draw, over, fixed_draw, fixed_road, native_draw, native_road] = t;
    let ways = ["as drawn", "chord", "complement", "short arc", "runaway"];
    println!(
        "| {name} | {points} | {} | {draw:.0} | {over:.0} | {fixed_draw:.0} | {fixed_road:.0} | {native_draw:.0} | {native_road:.0} | {:.2} | {:.2} | {:.2} | {:.2} |",
        ways[way as usize - 1],
        fixed_draw / draw,
        fixed_road / over,
        native_draw / draw,
        native_road / over
    );
    (name, t)
}

/// The entry points' figures as README.md has them.
fn entries(cases: &[Figures], part: Figures) {
    println!("\n| | `draw` | oracle | original's entry | oracle / `draw` | original / `draw` |");
    println!("|---|---|---|---|---|---|");
    for (name, [draw, _, fixed, _, native, _]) in cases {
        let (name, d, f, n) = (name.trim_start_matches("repair: "), whole(*draw), whole(*fixed), whole(*native));
        println!("| {name} | {d} | {f} | {n} | {:.2} | {:.2} |", fixed / draw, native / draw);
    }
    let [draw, over, fixed, fixed_road, native, native_road] = part.1.map(whole);
    println!(
        "\nMany edges over one table: {over} ns an edge over tables that were checked once (the oracle's road alone {fixed_road}, the \
         original's {native_road}), {draw} ns where each draw checks them (oracle {fixed}, original {native})."
    );
}

fn time(c: &Case) -> Figures {
    let n = least_floats(c);
    check_tables(&c.tables);
    let (way, size) = compare(c, n);
    let (f, r) = (fixed::drawing(c), native::drawing(c));
    let (froad, nroad) = (fixed::road(c, n), native::road(c, n));
    let (mut a, mut b) = (vec![0.0; n], vec![0.0; n]);
    let (mut a2, mut b2) = (vec![0.0; n], vec![0.0; n]);
    let (mut a3, mut b3) = (vec![0.0; n], vec![0.0; n]);
    let (mut a4, mut b4) = (vec![0.0; n], vec![0.0; n]);
    let t = least([
        &mut || {
            black_box(ours(black_box(&c.tables), &c.edge, &c.options, &mut a, &mut b));
        },
        &mut || {
            black_box(ours_over(black_box(&c.tables), &c.edge, &c.options, &mut a2, &mut b2));
        },
        &mut || {
            black_box(f(&mut a3, &mut b3));
        },
        &mut || {
            black_box(froad());
        },
        &mut || {
            black_box(r(&mut a4, &mut b4));
        },
        &mut || {
            black_box(nroad());
        },
    ]);
    row(c.name, size, way, t)
}

fn time_part() -> Figures {
    let (c, edges) = part();
    let n = 4 * 128;
    let (mut a, mut b) = (vec![0.0; n], vec![0.0; n]);
    // every edge is drawn as the oracle draws it
    let one = |e: &Edge| Case { name: c.name, tables: c.tables.clone(), edge: *e, options: c.options };
    check_tables(&c.tables);
    let drawn: Vec<(u32, usize)> = edges.iter().map(|e| compare(&one(e), n)).collect();
    assert!(drawn.iter().all(|&(way, _)| way == 1), "each edge is drawn, not repaired");
    let total: usize = drawn.iter().map(|&(_, count)| count).sum();
    let (froad, nroad) = (fixed::part_road(&c, &edges, n), native::part_road(&c, &edges, n));
    assert_eq!(total, froad());
    let few = &edges[..FEW];
    let fixed_few: Vec<_> = few.iter().map(|e| fixed::drawing(&one(e))).collect();
    let native_few: Vec<_> = few.iter().map(|e| native::drawing(&one(e))).collect();
    let (mut a2, mut b2) = (vec![0.0; n], vec![0.0; n]);
    let (mut a3, mut b3) = (vec![0.0; n], vec![0.0; n]);
    let (mut a4, mut b4) = (vec![0.0; n], vec![0.0; n]);
    let t = least([
        &mut || {
            for e in few {
                black_box(ours(black_box(&c.tables), e, &c.options, &mut a, &mut b));
            }
        },
        &mut || {
            // the tables once for all edges
            check_tables(black_box(&c.tables));
            for e in &edges {
                black_box(ours_over(black_box(&c.tables), e, &c.options, &mut a2, &mut b2));
            }
        },
        &mut || {
            for draw in &fixed_few {
                black_box(draw(&mut a3, &mut b3));
            }
        },
        &mut || {
            black_box(froad());
        },
        &mut || {
            for draw in &native_few {
                black_box(draw(&mut a4, &mut b4));
            }
        },
        &mut || {
            black_box(nroad());
        },
    ]);
    let (all, few) = (edges.len() as f64, FEW as f64);
    row(c.name, total, 1, [t[0] / few, t[1] / all, t[2] / few, t[3] / all, t[4] / few, t[5] / all])
}

fn others() {
    // point_at through two trims
    let mut d = Draft::new();
    let circle = d.frame(CIRCLE, [1.0, 2.0, 3.0], 10.0, 0.0);
    let one = d.tables.push_row(Row { kind: TRIMMED, first: circle, count: 1, p: 0.0, q: 6.0 });
    let two = d.tables.push_row(Row { kind: TRIMMED, first: one, count: 1, p: 0.0, q: 5.0 });
    let t = d.tables;
    let (f, n) = (fixed::point_at(&t, two), native::point_at(&t, two));
    let ours = |u: f64| {
        let mut p = [0.0; 3];
        let [x, y, z] = &mut p;
        unsafe {
            cs_point_at(
                t.points.as_ptr(), t.points.len(), t.curves.as_ptr(), t.curves.len(), t.reals.as_ptr(), t.reals.len(),
                t.parts.as_ptr(), t.parts.len(), t.ranges.as_ptr(), t.ranges.len(), two, u, x, y, z,
            )
        };
        p
    };
    let us: Vec<f64> = (0..500).map(|i| i as f64 * 0.01).collect();
    assert!(us.iter().all(|&u| ours(u) == f(u)));
    let (mut i, mut j, mut k) = (0, 0, 0);
    let r = least([
        &mut || {
            i = (i + 1) % 500;
            black_box(ours(us[i]));
        },
        &mut || {
            j = (j + 1) % 500;
            black_box(f(us[j]));
        },
        &mut || {
            k = (k + 1) % 500;
            black_box(n(us[k]));
        },
    ]);
    println!("\n- point_at on a circle through two trims: {:.1} ns, oracle {:.1} ns, native {:.1} ns.", r[0], r[1], r[2]);
    // breaks
    let up: Vec<f64> = (0..8192).map(|i| i as f64).collect();
    let down: Vec<f64> = up.iter().rev().copied().collect();
    let mut one = up.clone();
    let mut two = up.clone();
    let r = least([
        &mut || {
            one.copy_from_slice(&up);
            black_box(unsafe { cs_breaks(one.as_mut_ptr(), 8192, -1.0, 1e4) });
        },
        &mut || {
            two.copy_from_slice(&down);
            black_box(unsafe { cs_breaks(two.as_mut_ptr(), 8192, -1.0, 1e4) });
        },
    ]);
    println!("- 8,192 breaks: in order {} ns, in reverse order {} ns, ratio {:.1}.", whole(r[0]), whole(r[1]), r[1] / r[0]);
    // zeroing
    let mut one = vec![1.0; 65536];
    let mut two = one.clone();
    let (mut first, mut second, mut third, mut fourth) = (one.clone(), one.clone(), one.clone(), one.clone());
    let c = line();
    let r = least([
        &mut || unsafe { cs_clear(black_box(one.as_mut_ptr()), 65536) },
        &mut || black_box(&mut two).fill(0.0),
        &mut || {
            black_box(draw(&c, &mut first, &mut second));
        },
        &mut || {
            black_box(draw(&c, &mut [0.0; 8], &mut [0.0; 8]));
        },
        &mut || {
            black_box(&mut third).fill(0.0);
            black_box(&mut fourth).fill(0.0);
        },
    ]);
    println!("- zeroing 65,536 floats: {} ns, a plain fill {} ns.", whole(r[0]), whole(r[1]));
    println!("- the line in two buffers of 65,536 floats less the line in two of 8: {} ns, two plain fills {} ns.", whole(r[2] - r[3]), whole(r[4]));
}

/// The points and parameters of a case's chain, x y z t.
fn chain_of(c: &Case) -> Vec<[f64; 4]> {
    let (mut first, mut second) = (vec![0.0; 65536], vec![0.0; 65536]);
    let Answer::Chain(1, count) = draw(c, &mut first, &mut second) else { panic!("{}: not as drawn", c.name) };
    first.as_chunks().0[..count].to_vec()
}

fn between(a: &[f64], b: &[f64]) -> [f64; 3] {
    [b[0] - a[0], b[1] - a[1], b[2] - a[2]]
}

fn dot(a: [f64; 3], b: [f64; 3]) -> f64 {
    a[0] * b[0] + a[1] * b[1] + a[2] * b[2]
}

fn length(v: [f64; 3]) -> f64 {
    dot(v, v).sqrt()
}

/// How far a point lies from the chord of a and b.
fn off(p: [f64; 3], a: &[f64], b: &[f64]) -> f64 {
    let (chord, away) = (between(a, b), between(a, &p));
    let t = (dot(away, chord) / dot(chord, chord)).clamp(0.0, 1.0);
    length(std::array::from_fn(|i| away[i] - t * chord[i]))
}

/// How far the points of a composite's n segments, 256 of each, lie at most from the chord over their parameter.
fn farthest(c: &Case, chain: &[[f64; 4]], n: usize) -> f64 {
    let at = fixed::point_at(&c.tables, c.edge.curve);
    let places = (0..=256 * n).map(|i| i as f64 / 256.0);
    let offs = places.map(|t| {
        let chord = chain[1..chain.len() - 1].partition_point(|record| record[3] < t);
        off(at(t), &chain[chord], &chain[chord + 1])
    });
    offs.fold(0.0, f64::max)
}

/// What the chains of the composites of arcs are worth beside their arcs. A case is called all drawn where its arcs lie within the sag.
fn fits(cases: &[Case]) {
    let of_arcs = |c: &&Case| {
        let t = c.tables.lent();
        t.segment_count() > 0 && t.segments().all(|s| t.row(s.curve as usize).kind == CIRCLE)
    };
    for c in cases.iter().filter(of_arcs) {
        let t = c.tables.lent();
        let arcs: f64 = t.segments().map(|s| t.row(s.curve as usize).p * (s.hi - s.lo)).sum();
        let chain = chain_of(c);
        let drawn: f64 = chain.windows(2).map(|w| length(between(&w[0], &w[1]))).sum();
        let (far, sag) = (farthest(c, &chain, t.segment_count()), c.options.deflection);
        assert_eq!(c.name.ends_with("all drawn"), far <= sag, "{}: {far} from the chain", c.name);
        println!(
            "- {}: {arcs:.1} long, the chain {:.3} % shorter; the arcs lie within {far:.4} of it, the sag is {sag}.",
            c.name,
            100.0 * (1.0 - drawn / arcs)
        );
    }
}

fn draw(c: &Case, first: &mut [f64], second: &mut [f64]) -> Answer {
    ours(black_box(&c.tables), &c.edge, &c.options, first, second)
}

/// So many composites that all have the same run of as many segments, and an edge over the line that those refer to.
fn composites(n: usize) -> Case {
    let mut c = line();
    for _ in 0..n {
        c.tables.push_segment(Segment { curve: 0, lo: 0.0, hi: 1.0, sense: 1 });
    }
    for _ in 0..n {
        c.tables.push_row(Row { kind: COMPOSITE, first: 0, count: n as u32, p: 0.0, q: 0.0 });
    }
    c
}

/// A composite of n arcs of one radian, each over the part of the circle that the composite's own parameter has there: the
/// breaks, which are the segments' lo and hi, part it where it passes from segment to segment, and seed the walk.
fn seeded(n: usize) -> Case {
    let mut d = Draft::new();
    let row = d.frame(CIRCLE, [1.0, 2.0, 3.0], 50.0, 0.0);
    for i in 0..n {
        d.tables.push_segment(Segment { curve: row, lo: i as f64, hi: i as f64 + 1.0, sense: 1 });
    }
    let row = d.tables.push_row(Row { kind: COMPOSITE, first: 0, count: n as u32, p: 0.0, q: 0.0 });
    let e = d.edge(row, 0.0, n as f64, 1e4);
    d.case("composite", e, Options { deflection: 8.0, angle: 1.5, relative: 0, ..options(0.0, 480.0) })
}

/// Cost against size: ns of one draw, check or sort, and that by the size.
fn sizes() {
    println!("| what | size | ns | ns / size |");
    println!("|---|---|---|---|");
    let show = |what: &str, n: usize, ns: f64| println!("| {what} | {n} | {ns:.0} | {:.1} |", ns / n as f64);
    let time = |c: &Case| {
        let n = least_floats(c);
        let (mut a, mut b) = (vec![0.0; n], vec![0.0; n]);
        let [ns] = least([&mut || {
            black_box(draw(c, &mut a, &mut b));
        }]);
        ns
    };
    for n in [25, 100, 400, 1600, 4000] {
        show("circle, points", n, time(&circle("circle", n)));
    }
    for n in [2000, 8000, 32000] {
        show("polyline, its points", n, time(&polyline("polyline", n)));
    }
    for n in [3, 6, 12, 24, 48] {
        show("composite, half turns", n, time(&composite("composite", n, 1.0)));
    }
    for n in [16, 64, 256, 1024, 4096] {
        show("composite, breaks", n, time(&seeded(n)));
    }
    for n in [4, 16, 64, 256, 1024, 4096] {
        let mut c = line();
        while c.tables.lent().row_count() < n {
            c.tables.push_row(Row { kind: LINE, first: 0, count: 2, p: 0.0, q: 0.0 });
        }
        show("line, rows of the tables", n, time(&c));
    }
    for n in [64, 256, 1024, 4095] {
        let c = composites(n);
        assert_eq!(check(&c.tables, &c.edge, &c.options), 0);
        let [ns] = least([&mut || {
            black_box(check(black_box(&c.tables), &c.edge, &c.options));
        }]);
        show("composites over one run", n, ns);
    }
    // multiplying by an odd number mixes the order
    for n in [128usize, 512, 2048, 8192] {
        let mixed: Vec<f64> = (0..n).map(|i| (i * 2_654_435_761 % n) as f64).collect();
        let mut knots = mixed.clone();
        let [ns] = least([&mut || {
            knots.copy_from_slice(&mixed);
            black_box(unsafe { cs_breaks(knots.as_mut_ptr(), n, -1.0, 1e4) });
        }]);
        show("breaks in mixed order", n, ns);
    }
}

fn cases() -> Vec<Case> {
    vec![
        line(),
        circle("circle of 13 points", 13),
        circle("circle of 2,000 points", 2000),
        ellipse(),
        parabola(),
        hyperbola(),
        polyline("polyline of 1,000 points", 1000),
        composite("composite of 100 arcs, half missed", 100, 0.0),
        spiral("composite of 100 arcs, all drawn", 100),
        around_a_cut(),
        complement(),
        short_arc("repair: short arc", AROUND, options(4e-4, 480.0)),
        short_arc("repair: short arc of 16,001 points", AROUND, fine()),
        short_arc("repair: such an arc that leaves its box at the middle", AROUND_HALF, fine()),
        runaway(),
    ]
}

fn main() {
    let wanted: Vec<String> = std::env::args().skip(1).collect();
    if wanted == ["sizes"] {
        return sizes();
    }
    if let [one, times] = &wanted[..] {
        // one case over and over, for a profiler
        let c = cases().into_iter().find(|c| c.name.contains(one.as_str())).expect("a case of this name");
        let n = least_floats(&c);
        let (mut a, mut b) = (vec![0.0; n], vec![0.0; n]);
        for _ in 0..times.parse().expect("a number") {
            black_box(ours(&c.tables, &c.edge, &c.options, &mut a, &mut b));
        }
        return;
    }
    println!("| case | points | way | draw | draw_over | oracle | its road | native | its road | oracle / draw | its road / over | native / draw | its road / over |");
    println!("|---|---|---|---|---|---|---|---|---|---|---|---|---|");
    let cases = cases();
    let figures: Vec<Figures> = cases.iter().map(time).collect();
    let part = time_part();
    others();
    fits(&cases);
    entries(&figures, part);
}
