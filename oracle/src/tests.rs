//! What no sheet can hold: tables above their size, slices that are not whole rows, other buffers. And the settings of a batch,
//! the fixed steps beside Rust's own functions, where evaluation refuses, what strict mode changes, and the two measures.

use crate::batch::{Settings, answers};
use crate::causes::cause;
use crate::draw::{Drawn, draw, draw_chain, draw_in, reference, resolved, solid};
use crate::generate::contents;
use crate::measure::{Measured, answers as measures, bisection, thinning};
use crate::sheet::{Sheet, hex, write};
use crate::strict;
use crate::tables::{
    COMPOSITE, Edge, HYPERBOLA, LINE, Options, OwnedTables, PARABOLA, POLYLINE, Row, Segment,
    TRIMMED,
};
use road::asks::farthest;
use road::edge::{Way, discretise_all};
use road::knots::curve_breaks;
use road::math::Vec3;
use road::mode::Mode;
use road::steps::{cosh, exp, sinh};

/// The scope's line: origin 0, direction (2, 0, 0), vertices x 0 and 10.
fn line() -> OwnedTables {
    let mut tables = OwnedTables::default();
    for x in [0.0, 2.0, 10.0] {
        tables.push_point([x, 0.0, 0.0]);
    }
    tables.push_row(Row { kind: LINE, first: 0, count: 2, p: 0.0, q: 0.0 });
    tables
}

const EDGE: Edge = Edge {
    curve: 0,
    start: 0,
    end: 2,
    sense: 1,
    lo: 0.0,
    hi: 5.0,
    tolerance: 0.0,
    low: 0,
    high: 2,
};

const OPTIONS: Options =
    Options { deflection: 1.0, angle: 1.0, relative: 0, segments: 4, depth: 12, scale: 0.0 };

fn drawn(tables: &OwnedTables, first: usize, second: usize) -> Drawn {
    let (mut first, mut second) = (vec![7.0; first], vec![7.0; second]);
    draw(&tables.lent(), &EDGE, &OPTIONS, &mut first, &mut second)
}

fn drawn_of(tables: &OwnedTables) -> Drawn {
    drawn(tables, 400, 400)
}

const ACCEPTED: Drawn = Drawn::Chain(Way::AsDrawn, 5);

#[test]
fn room_is_the_whole_fours_of_the_shorter_buffer() {
    assert_eq!(drawn(&line(), 20, 400), ACCEPTED);
    assert_eq!(drawn(&line(), 400, 20), ACCEPTED);
    assert_eq!(drawn(&line(), 23, 400), ACCEPTED);
    assert_eq!(drawn(&line(), 19, 400), Drawn::Refused(8));
    assert_eq!(drawn(&line(), 8, 8), Drawn::Refused(8));
}

#[test]
fn a_buffer_shorter_than_eight_floats_gives_7() {
    assert_eq!(drawn(&line(), 7, 400), Drawn::Refused(7));
    assert_eq!(drawn(&line(), 400, 0), Drawn::Refused(7));
}

#[test]
fn a_table_at_its_size_passes_and_above_it_gives_1() {
    let mut tables = line();
    tables.points.resize(3 * 65_536, 0.0);
    assert_eq!(drawn_of(&tables), ACCEPTED);
    tables.points.push(f64::NAN); // 1 before 2 and 3
    assert_eq!(drawn_of(&tables), Drawn::Refused(1));

    let mut tables = line();
    while tables.lent().row_count() < 4_096 {
        tables.push_row(Row { kind: POLYLINE, first: 3, count: 0, p: 0.0, q: -0.0 });
    }
    assert_eq!(drawn_of(&tables), ACCEPTED);
    tables.reals.push(0.0);
    assert_eq!(drawn_of(&tables), Drawn::Refused(1));

    let mut tables = line();
    tables.parts.resize(2 * 4_096, 0);
    tables.ranges.resize(2 * 4_096, 0.0);
    assert_eq!(drawn_of(&tables), ACCEPTED);
    tables.parts.push(0);
    assert_eq!(drawn_of(&tables), Drawn::Refused(1));
}

#[test]
fn slices_that_are_not_whole_rows_give_3() {
    let spoil: [fn(&mut OwnedTables); 6] = [
        |t| t.points.push(0.0),
        |t| t.curves.push(0),
        |t| t.reals.push(0.0),
        |t| t.reals.truncate(0),
        |t| t.parts.push(0),
        |t| t.ranges.extend([0.0, 0.0]),
    ];
    for spoil in spoil {
        let mut tables = line();
        spoil(&mut tables);
        assert_eq!(drawn_of(&tables), Drawn::Refused(3));
    }
}

#[test]
fn an_unknown_kind_gives_3() {
    for kind in [0, 9, u32::MAX] {
        let mut tables = line();
        tables.curves[0] = kind;
        assert_eq!(drawn_of(&tables), Drawn::Refused(3));
    }
}

/// A hyperbola with semi-axes 2 and 1, and an edge over lo to hi in an empty box.
fn hyperbola(lo: f64, hi: f64) -> (OwnedTables, Edge) {
    let mut tables = OwnedTables::default();
    for p in [[0.0; 3], [0.0, 0.0, 1.0], [1.0, 0.0, 0.0], [2.0, 0.0, 0.0], [3.0, 1.0, 0.0]] {
        tables.push_point(p);
    }
    tables.push_row(Row { kind: HYPERBOLA, first: 0, count: 3, p: 2.0, q: 1.0 });
    (tables, Edge { start: 3, end: 4, lo, hi, low: 4, high: 3, ..EDGE })
}

const NEXT: f64 = 100.00000000000001;

#[test]
fn a_hyperbola_asked_beyond_100_gives_11_and_clears_both_buffers() {
    for (lo, hi, refused) in [
        (-2.0, 2.0, false),
        (-100.0, 100.0, false),
        (-100.0, NEXT, true),
        (-NEXT, 100.0, true),
        (0.0, f64::NAN, true),
        (2.0, -2.0, true),
    ] {
        let (tables, edge) = hyperbola(lo, hi);
        let (mut first, mut second) = (vec![7.0; 8192], vec![7.0; 8192]);
        let drawn = draw(&tables.lent(), &edge, &OPTIONS, &mut first, &mut second);
        assert_eq!(drawn == Drawn::Refused(11), refused, "{lo} {hi}: {drawn:?}");
        if refused {
            assert!(first.iter().chain(&second).all(|x| x.to_bits() == 0));
        }
    }
}

/// A parabola or hyperbola without a range, in a box that neither vertex lies near.
fn lost(kind: u32, lo: f64, hi: f64) -> Sheet {
    let (mut tables, edge) = hyperbola(lo, hi);
    tables.curves[0] = kind;
    tables.reals = vec![2.0, if kind == PARABOLA { 0.0 } else { 1.0 }];
    let (low, high) = (tables.push_point([50.0; 3]), tables.push_point([51.0; 3]));
    let options = Options { segments: u64::MAX, ..OPTIONS };
    Sheet { tables, edge: Edge { low, high, sense: 0, ..edge }, options }
}

fn drawn_in(sheet: &Sheet, mode: Mode, buffers: &mut [Vec<f64>; 2]) -> Drawn {
    let [first, second] = buffers;
    draw_in(&sheet.tables.lent(), &sheet.edge, &sheet.options, mode, first, second)
}

#[test]
fn a_lost_open_conic_is_the_chord_of_its_vertices_in_strict_mode() {
    let payload = f64::from_bits(0xfff4dead0000beef);
    for kind in [PARABOLA, HYPERBOLA] {
        for (lo, hi) in [(payload, 1.0), (f64::NEG_INFINITY, payload), (3.0, 3.0), (2.0, -0.0)] {
            let sheet = lost(kind, lo, hi);
            let mut buffers = [vec![7.0; 9], vec![7.0; 8]];
            let number = if kind == PARABOLA { 8 } else { 11 };
            assert_eq!(drawn_in(&sheet, Mode::Reference, &mut buffers), Drawn::Refused(number));
            buffers[0].fill(7.0);
            let chord = Drawn::Chain(Way::ChordForWantOfARange, 2);
            assert_eq!(drawn_in(&sheet, Mode::Strict, &mut buffers), chord);
            let bits = |floats: &[f64]| floats.iter().map(|x| x.to_bits()).collect::<Vec<_>>();
            assert_eq!(bits(&buffers[0]), bits(&[2.0, 0.0, 0.0, lo, 3.0, 1.0, 0.0, hi, 0.0]));
            assert_eq!(bits(&buffers[1]), [0; 8]);
        }
    }
}

#[test]
fn causes_1_to_7_come_before_a_strict_chord() {
    let spoil: [(u32, fn(&mut Sheet)); 6] = [
        (1, |s| s.tables.points.resize(3 * 65_537, 0.0)),
        (2, |s| s.edge.hi = 1e10),
        (3, |s| s.tables.curves[2] = 2),
        (4, |s| {
            s.tables.push_row(Row { kind: TRIMMED, first: 1, count: 1, p: 0.0, q: 1.0 });
        }),
        (5, |s| {
            (0..9).for_each(|first| {
                s.tables.push_row(Row { kind: TRIMMED, first, count: 1, p: 0.0, q: 1.0 });
            })
        }),
        (6, |s| s.edge.high = 7),
    ];
    for (number, spoil) in spoil {
        let mut sheet = lost(HYPERBOLA, f64::NAN, 0.0);
        spoil(&mut sheet);
        let mut buffers = [vec![7.0; 8], vec![7.0; 8]];
        assert_eq!(drawn_in(&sheet, Mode::Strict, &mut buffers), Drawn::Refused(number));
        assert!(buffers.concat().iter().all(|x| *x == 7.0));
    }
    let mut buffers = [vec![7.0; 8], vec![7.0; 7]];
    let sheet = lost(PARABOLA, f64::NAN, 0.0);
    assert_eq!(drawn_in(&sheet, Mode::Strict, &mut buffers), Drawn::Refused(7));
}

/// So many segments of the line, each over a range of its own behind `from`.
fn composite(count: u32, from: f64) -> OwnedTables {
    let mut tables = line();
    for k in 0..count as usize {
        let lo = from + k as f64;
        tables.push_segment(Segment { curve: 0, lo, hi: lo + 1.0, sense: 1 });
    }
    tables.push_row(Row { kind: COMPOSITE, first: 0, count, p: 0.0, q: 0.0 });
    tables.push_row(Row { kind: TRIMMED, first: 1, count: 1, p: -1e9, q: 1e9 });
    tables
}

#[test]
fn a_composite_breaks_at_its_joints_in_strict_mode() {
    let all = [1.0, 2.0, 3.0, 4.0, 5.0, 6.0, 7.0, 8.0, 9.0];
    for row in [1, 2] {
        let usual = composite(10, 0.0).lent().curve(row);
        let away = composite(10, 20.0).lent().curve(row);
        let breaks =
            |lo, hi, mode| (curve_breaks(&usual, lo, hi, mode), curve_breaks(&away, lo, hi, mode));
        let strict = |lo, hi| {
            let (one, other) = breaks(lo, hi, Mode::Strict);
            assert_eq!(one, other);
            one
        };
        assert_eq!(strict(0.0, 10.0), all);
        assert_eq!(strict(10.0, 0.0), all);
        assert_eq!(strict(1.0, 4.0), all[1..3]);
        assert_eq!(strict(2.0 - 4e-9, 5.0), all[1..4]);
        assert_eq!(strict(2.0 - 2e-9, 5.0), all[2..4]);
        // none is merged, and those within a billionth of the width of an end are none
        assert_eq!(strict(-1e9, 1e9), all);
        assert_eq!(strict(0.0, 1e9), all[1..]);
        assert_eq!(strict(3.0, 3.0), []);
        assert_eq!(strict(f64::NAN, 3.0), []);
        let (one, other) = breaks(-1e9, 1e9, Mode::Reference);
        assert_eq!(one, [0.0, 3.0, 6.0, 9.0]);
        assert_eq!(other, [20.0, 23.0, 26.0, 29.0]);
        assert_eq!(breaks(0.0, 10.0, Mode::Reference), (all.to_vec(), vec![]));
    }
    for count in [0, 1] {
        let few = composite(count, 0.0).lent().curve(2);
        assert_eq!(curve_breaks(&few, -5.0, 5.0, Mode::Strict), []);
    }
    let mut tables = line();
    tables.push_row(Row { kind: POLYLINE, first: 0, count: 3, p: 0.0, q: 0.0 });
    for row in [0, 1] {
        assert_eq!(curve_breaks(&tables.lent().curve(row), -5.0, 5.0, Mode::Strict), []);
    }
}

/// The kind of a row, and of what lies under its trims.
fn kinds(tables: &OwnedTables, row: u32) -> (u32, u32) {
    let Row { kind, first, .. } = tables.lent().row(row as usize);
    let trims = kind == TRIMMED && first < row;
    (kind, if trims { kinds(tables, first).1 } else { kind })
}

/// Strict mode gives what the published road gives, but for lost ranges on rows of parabolas and hyperbolas, where it gives a chord, and
/// for composites and trims of them.
#[test]
fn strict_mode_changes_nothing_else() {
    let mut met = [0; 3];
    let sheets = (0..1000).flat_map(|i| [contents(12, i), strict::contents(12, i)]);
    for sheet in sheets {
        let mut both = [[vec![7.0; 2000], vec![7.0; 2000]], [vec![7.0; 2000], vec![7.0; 2000]]];
        let [usual, strict] = &mut both;
        let answers =
            (drawn_in(&sheet, Mode::Reference, usual), drawn_in(&sheet, Mode::Strict, strict));
        let Edge { curve, lo, hi, .. } = sheet.edge;
        let bits = |floats: &[Vec<f64>; 2]| {
            floats.concat().iter().map(|x| x.to_bits()).collect::<Vec<_>>()
        };
        let same = answers.0 == answers.1 && bits(usual) == bits(strict);
        let refused = matches!(answers.1, Drawn::Refused(1..=7));
        let (kind, under) = kinds(&sheet.tables, if refused { 0 } else { curve });
        let lost = !lo.is_finite() || !hi.is_finite() || hi - lo <= 0.0;
        match (kind, under) {
            (PARABOLA | HYPERBOLA, _) if lost && !refused => {
                assert_eq!(answers.1, Drawn::Chain(Way::ChordForWantOfARange, 2));
                met[0] += 1;
            }
            (_, COMPOSITE) => met[1] += !same as usize,
            _ => {
                assert!(same, "{sheet:?}");
                met[2] += !refused as usize;
            }
        }
    }
    assert!(met.into_iter().all(|n| n > 100), "{met:?}");
}

#[test]
fn evaluation_outside_a_drawing_never_refuses() {
    let (tables, edge) = hyperbola(0.0, 200.0);
    let curve = tables.lent().curve(0);
    assert!(curve.point_at(200.0).is_finite());
    assert_eq!(farthest(), Some(200.0));
    assert_eq!(farthest(), None);
    assert!(curve.point_at(f64::NAN).x.is_nan() && curve.derivative_at(1e6).x.is_nan());
    assert_eq!(farthest(), Some(1e6));
    let mut buffers = [[7.0; 8]; 2];
    let [first, second] = &mut buffers;
    assert_eq!(draw(&tables.lent(), &edge, &OPTIONS, first, second), Drawn::Refused(11));
    // what a drawing asks is not noted, and it has ended
    assert_eq!(farthest(), None);
    assert!(curve.point_at(NEXT).is_finite());
    assert_eq!(farthest(), Some(NEXT));
}

/// The road without cause 11 asks for nothing beyond 100 where an edge is drawn or refused otherwise, and gives the same; where it is
/// refused by 11, it does.
#[test]
fn eleven_is_what_the_road_alone_asks_beyond() {
    let mut met = [0; 3];
    for index in 0..6000 {
        let sheet = contents(11, index);
        let mode = [Mode::Reference, Mode::Strict][index as usize / 4 % 2];
        let (tables, room) = (sheet.tables.lent(), [2, 5, 40, 2048][index as usize % 4]);
        if cause(&tables, &sheet.edge, &sheet.options, 8, 8).is_some() {
            continue;
        }
        let solid = solid(&tables, &sheet.edge);
        let box_of = reference(&tables, &sheet.edge);
        farthest();
        let alone = discretise_all(&solid, &resolved(&sheet.options), &box_of, room, mode);
        let beyond = farthest();
        match draw_chain(&tables, &sheet.edge, &sheet.options, mode, room) {
            Err(11) => {
                assert!(beyond.is_some(), "{index}");
                met[0] += 1;
            }
            Err(number) => {
                assert_eq!((alone.err(), beyond), (Some(number), None), "{index}");
                met[1] += 1;
            }
            Ok(chain) => {
                let alone = &alone.expect("drawn")[0];
                assert_eq!((alone.len(), alone.way, beyond), (chain.len(), chain.way, None));
                met[2] += 1;
            }
        }
    }
    assert!(met.into_iter().all(|n| n > 100), "{met:?}");
}

#[test]
fn the_steps_of_exp_are_near_the_platforms() {
    let mut t = -700.0;
    while t <= 700.0 {
        let off = |ours: f64, theirs: f64| ((ours - theirs) / theirs).abs();
        assert!(off(exp(t), t.exp()) < 3e-16, "e^{t}");
        assert!(off(cosh(t), t.cosh()) < 5e-16, "cosh {t}");
        t += 0.0371;
    }
    assert_eq!(sinh(-0.0).to_bits(), 0);
    assert_eq!(1.4426950408889634f64.to_bits(), 0x3FF71547652B82FE);
}

/// The line of `line()` as a sheet of one segment: two points.
const SHEET: &str = include_str!("../examples/sheet.in");

fn batch(text: &str) -> String {
    let settings = Settings::of((8, 8));
    answers(text.as_bytes(), settings).collect::<Vec<_>>().join("====\n")
}

fn floats(words: [&str; 9]) -> String {
    words.join(" ") + "\n"
}

#[test]
fn both_buffers_are_told_whole() {
    let (o, x, b) = ("0000000000000000", "4024000000000000", "4055555555555555");
    let drawn = floats([o, o, o, o, x, o, o, "4014000000000000", o]);
    let text = format!("ask both\n====\nbuffers 9 9\n====\n{SHEET}");
    let answer = format!("====\n====\nway as drawn points 2\n{drawn}{}", floats([o; 9]));
    assert_eq!(batch(&text), answer);
    let outside = SHEET.replace("\n0 0 2 1 ", "\n1 0 2 1 ");
    let text = format!("buffers 9 9\n====\nask both\n====\n{outside}");
    assert_eq!(
        batch(&text),
        format!("====\n====\nrefusal 6\n{}{}", floats([b; 9]), floats([b; 9]))
    );
    let text = format!("ask both\n====\nbuffers 1 0\n====\n{SHEET}");
    assert_eq!(batch(&text), format!("====\n====\nrefusal 7\n{b}\n\n"));
    assert_eq!(batch("ask both\n====\n"), "====\nrefusal 10\n");
}

#[test]
fn a_setting_holds_for_the_sheets_behind_it() {
    let parts = [
        SHEET,
        "buffers 7 8\n",
        SHEET,
        "ask both\n",
        "",
        "ask chain\n",
        SHEET,
        "buffers 8 8\n",
        SHEET,
    ];
    let listing = include_str!("../examples/sheet.out");
    let answers =
        [listing, "", "refusal\n7\n", "", "refusal 10\n", "", "refusal\n7\n", "", listing];
    assert_eq!(batch(&parts.join("====\n")), answers.join("====\n"));
}

#[test]
fn a_mode_holds_for_the_sheets_behind_it() {
    let sheet = write(&lost(HYPERBOLA, f64::NAN, 0.0));
    let parts = [
        "mode strict\n",
        &sheet,
        "ask both\n",
        &sheet,
        "buffers 9 8\n",
        "ask chain\n",
        &sheet,
        "mode reference\n",
        &sheet,
    ];
    let texts = batch(&parts.join("====\n"));
    let answers: Vec<&str> = texts.split("====\n").collect();
    let way = "way chord for want of a range points 2\n";
    assert!(answers[1].starts_with("x y z t\n") && answers[3].starts_with(way));
    assert_eq!((answers[6], answers[8]), (answers[1], "refusal\n11\n"));
}

#[test]
fn what_is_no_setting_is_a_text_that_is_no_sheet() {
    for text in [
        "ask",
        "ask\n",
        "ask both",
        "ask  both\n",
        "ask both \n",
        "ask both\n\n",
        "ask neither\n",
        "Ask both\n",
        "buffers 8\n",
        "buffers 8 8",
        "buffers 8 8 8\n",
        "buffers 08 8\n",
        "buffers 8 65537\n",
        "buffers 8 -1\n",
        "buffers 8 8\n\n",
        "mode\n",
        "mode strict",
        "mode  strict\n",
        "mode strict \n",
        "mode strict\n\n",
        "mode Strict\n",
        "mode default\n",
        "mode strict reference\n",
    ] {
        assert_eq!(batch(text), "refusal\n10\n", "{text}");
    }
}

/// What both measures answer of a chord and a point.
fn both(a: [f64; 3], b: [f64; 3], p: [f64; 3]) -> [Measured; 2] {
    let [a, b, p] = [a, b, p].map(|point| Vec3::from_slice(&point));
    [thinning(a, b, p), bisection(a, b, p)]
}

/// Both measures answer this to the bit.
fn agree(a: [f64; 3], b: [f64; 3], p: [f64; 3], distance: f64, place: f64) {
    for measured in both(a, b, p) {
        assert_eq!(hex(&measured), hex(&[distance, place]), "{a:?} {b:?} {p:?}");
    }
}

#[test]
fn the_place_on_a_chord_without_length_is_zero() {
    agree([0.0; 3], [0.0; 3], [2.0, 3.0, 6.0], 7.0, 0.0);
    agree([0.0; 3], [-0.0; 3], [-2.0, -3.0, -6.0], 7.0, 0.0);
    agree([-0.0; 3], [0.0; 3], [-0.0; 3], 0.0, 0.0);
    agree([-1.5; 3], [-1.5; 3], [-1.5; 3], 0.0, 0.0);
    // so much less than a length that it is none, and what is no number
    agree([5e-324; 3], [-1e-300; 3], [0.0, 0.0, -1.0], 1.0, 0.0);
    let [thinned, bisected] = both([f64::NAN; 3], [1.0; 3], [0.0; 3]);
    assert!(thinned[0].is_nan() && bisected[0].is_nan());
    assert_eq!(hex(&[thinned[1], bisected[1]]), hex(&[0.0, 0.0]));
}

#[test]
fn the_place_stays_between_the_ends() {
    let (a, b) = ([1.0, 0.0, 0.0], [3.0, 0.0, 0.0]);
    agree(a, b, [2.5, -2.0, 0.0], 2.0, 0.75);
    agree(a, b, b, 0.0, 1.0);
    agree(a, b, [6.0, 4.0, 0.0], 5.0, 1.0);
    agree(a, b, [-2.0, 4.0, 0.0], 5.0, 0.0);
    agree(a, b, [f64::INFINITY, 0.0, 0.0], f64::INFINITY, 1.0);
    agree(a, b, [f64::NEG_INFINITY, 0.0, 0.0], f64::INFINITY, 0.0);
}

#[test]
fn the_place_at_the_start_of_a_falling_chord_is_minus_zero() {
    agree([1.0; 3], [0.5; 3], [1.0; 3], 0.0, -0.0);
    agree([1e9; 3], [-1e9; 3], [1e9; 3], 0.0, -0.0);
    agree([1.0; 3], [0.5, 0.5, 1.0], [1.0; 3], 0.0, 0.0);
}

#[test]
fn a_place_that_is_no_number_passes() {
    for p in [[f64::NAN, 0.0, 0.0], [f64::INFINITY, f64::NEG_INFINITY, 0.0]] {
        let measured = both([0.0; 3], [1.0; 3], p).concat();
        assert!(measured.iter().all(|x| x.is_nan()), "{measured:?}");
    }
}

/// The square of the root of 2 is above 2.
#[test]
fn the_two_places_may_differ() {
    let [thinned, bisected] = both([0.0; 3], [1.0, 1.0, 0.0], [1.0, 0.0, 0.0]);
    assert_eq!(hex(&thinned), "3fe6a09e667f3bcd 3fe0000000000000");
    assert_eq!(hex(&bisected), "3fe6a09e667f3bcd 3fdffffffffffffe");
}

/// No length lies between zero and 2.2e-162, the root of the least float: 1e-300 stands for zero.
#[test]
fn a_chord_has_length_where_its_square_is_not_zero() {
    let along_x = |x: f64| both([0.0; 3], [x, 0.0, 0.0], [1.0, 0.0, 0.0]);
    let half = 2.0_f64.powi(-538); // its square is a quarter of the least float, that of √2 times it half
    for (x, place) in [
        (1e-300, 0.0),
        (half, 0.0),
        (half * std::f64::consts::SQRT_2.next_down(), 0.0),
        (half * std::f64::consts::SQRT_2, 1.0),
        (2.0 * half, 1.0),
        (1e-160, 1.0),
        (1e-150, 1.0),
    ] {
        for measured in along_x(x) {
            assert_eq!(hex(&measured), hex(&[1.0, place]), "{x:e}");
        }
    }
    // Each of the three squares is zero.
    agree([0.0; 3], [1.3e-162; 3], [1.0, 0.0, 0.0], 1.0, 0.0);
}

fn measured(text: &str) -> String {
    measures(text.as_bytes())
}

#[test]
fn a_digest_takes_each_distance_and_place() {
    let mixed = |digest: u64, x: f64| {
        (digest.rotate_left(5) ^ x.to_bits()).wrapping_mul(0x517cc1b727220a95)
    };
    let line = |measured: [f64; 4]| {
        let digest = measured.into_iter().fold(0, mixed);
        format!("{digest:016x} {digest:016x}\n")
    };
    let points = hex(&[0.0; 3]) + "\n" + &hex(&[2.0, 0.0, 0.0]) + "\n";
    let lines =
        [[0.0, 0.0, 2.0, 0.0], [0.0, 0.0, 0.0, 1.0], [0.0, 1.0, 0.0, 0.0], [2.0, 0.0, 0.0, 0.0]];
    let answer = lines.map(line).concat() + "====\n";
    assert_eq!(measured(&format!("every\n{points}====\n")), answer);
}

#[test]
fn any_nan_is_measured_as_one() {
    let nans = |bits: u64| {
        let point = hex(&[f64::from_bits(bits); 3]);
        measured(&format!(
            "every\n{point}\n{}\n====\nmeasure\n{point} {point} {point}\n====\n",
            hex(&[1.0; 3])
        ))
    };
    let answer = nans(0x7ff8000000000000);
    assert!(
        answer
            .ends_with(&format!("{}\n====\n", ["7ff8000000000000 0000000000000000"; 2].join(" ")))
    );
    assert_eq!(nans(0xfff8000000000000), answer);
    assert_eq!(nans(0x7ff0000000000001), answer);
}

#[test]
fn parts_that_ask_for_no_measure() {
    let points = |count: usize| format!("every\n{}====\n", (hex(&[1.0; 3]) + "\n").repeat(count));
    assert_eq!(measured(&points(0)), "====\n");
    assert_eq!(measured(&points(64)).lines().count(), 64 * 64 + 1);
    assert_eq!(measured(&points(65)), "?\n====\n");
    let (point, line) = (hex(&[1.0; 3]), hex(&[1.0; 9]));
    for (part, answer) in [
        ("measure\n".to_string(), ""),
        (format!("measure\n{line}\n"), &(hex(&[0.0; 4]) + "\n")),
        (format!("measure\n{line}"), "?\n"),
        (format!("measure\n{line} \n"), "?\n"),
        (format!("measure\n{line}\r\n"), "?\n"),
        (format!("measure\n{point}\n\n"), "?\n?\n"),
        (format!("every\n{point}"), "?\n"),
        (format!("every\n{point}\n{line}\n"), "?\n"),
        (format!("every\n{point}\n\n"), "?\n"),
        ("every".to_string(), "?\n"),
        ("every \n".to_string(), "?\n"),
        (String::new(), "?\n"),
    ] {
        assert_eq!(measured(&format!("{part}====\n")), format!("{answer}====\n"), "{part}");
        assert_eq!(measured(&part), "", "{part}");
    }
}
