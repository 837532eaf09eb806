//! Modes: what strict mode changes, what it leaves, and that the reference's is what is drawn where no mode is named.
use cornsunset::{
    check_tables, draw, draw_in_mode, draw_over, draw_over_in_mode, Angle, Edge, Mode, Options, Part, Refusal, Segment,
    Tables, Way, MOST_POINTS, WIDTH,
};
use std::f64::consts::PI;

/// What no drawing writes.
const MARK: f64 = f64::from_bits(0x7ff4_dead_0000_beef);

const INFINITY: f64 = f64::INFINITY;
/// NaNs with payloads, quiet and signalling.
const NAN: f64 = f64::from_bits(0x7ff8_0000_dead_beef);
const OTHER: f64 = f64::from_bits(0xfff4_0123_4567_89ab);

/// Ranges that are lost: NaN, infinite, empty and reversed.
const LOST: [(f64, f64); 11] = [
    (NAN, OTHER),
    (OTHER, NAN),
    (NAN, 1.5),
    (0.0, OTHER),
    (-INFINITY, 1.5),
    (0.0, INFINITY),
    (-INFINITY, INFINITY),
    (1.0, 1.0),
    (-0.0, 0.0),
    (0.0, -0.0),
    (1.5, 0.0),
];

/// A frame in the plane, two vertices, and a point near the first. A parabola of focal distance 2 (row 0) is at the first vertex
/// at -2 and at the second at 3; a hyperbola (row 1) is near both; rows 2 and 3 are trims of the two.
const POINTS: [f64; 18] =
    [0.0, 0.0, 0.0, 0.0, 0.0, 1.0, 1.0, 0.0, 0.0, 8.0, -8.0, 0.0, 18.0, 12.0, 0.0, 9.0, -7.0, 0.0];
const CONICS: Tables = Tables {
    points: &POINTS,
    curves: &[4, 0, 3, 8, 0, 3, 6, 0, 1, 6, 1, 1],
    reals: &[2.0, 0.0, 4.0, 3.0, -2.0, 3.0, -1.5, 2.0],
    parts: &[],
    ranges: &[],
};
const PARABOLA: Edge =
    Edge { curve: 0, start: 3, end: 4, sense: 1, lo: -2.0, hi: 3.0, tolerance: 0.0, low: 3, high: 4 };
const HYPERBOLA: Edge = Edge { curve: 1, lo: -1.5, hi: 2.0, ..PARABOLA };

/// The edge with each lost range, of either sense, with its vertices either way round and with one vertex.
fn lost(edge: Edge) -> impl Iterator<Item = Edge> {
    let vertices = [(3, 4), (4, 3), (3, 3)].into_iter().flat_map(|ends| [0, 1].map(|sense| (ends, sense)));
    vertices.flat_map(move |((start, end), sense)| LOST.map(|(lo, hi)| Edge { start, end, sense, lo, hi, ..edge }))
}

fn options() -> Options {
    Options { deflection: 0.01, angle: Angle::degrees(8.0), relative: 0, ..Options::default() }
}

/// An answer, and the bits of both buffers.
type Told = (Result<(Way, usize), Refusal>, Vec<u64>, Vec<u64>);

/// What a drawing into buffers of these lengths leaves of them.
fn told(
    (m, n): (usize, usize),
    drawing: impl for<'b> FnOnce(&'b mut [f64], &'b mut [f64]) -> Result<cornsunset::Chain<'b>, Refusal>,
) -> Told {
    let (mut first, mut second) = (vec![MARK; m], vec![MARK; n]);
    let answer = drawing(&mut first, &mut second).map(|chain| (chain.way(), chain.len()));
    let bits = |floats: Vec<f64>| floats.into_iter().map(f64::to_bits).collect();
    (answer, bits(first), bits(second))
}

/// By `draw_in_mode`. Over the tables, checked, the answer is the same; in the reference's mode it is that of what names none.
fn drawn(tables: &Tables, edge: &Edge, options: &Options, mode: Mode, lengths: (usize, usize)) -> Told {
    let all = told(lengths, |first, second| draw_in_mode(tables, edge, options, mode, first, second));
    let checked = check_tables(tables).unwrap();
    let over = told(lengths, |first, second| draw_over_in_mode(&checked, edge, options, mode, first, second));
    assert_eq!(over, all, "{edge:?}");
    if mode == Mode::Reference {
        assert_eq!(told(lengths, |first, second| draw(tables, edge, options, first, second)), all, "{edge:?}");
        assert_eq!(told(lengths, |first, second| draw_over(&checked, edge, options, first, second)), all, "{edge:?}");
    }
    all
}

/// What both modes make of an edge, where it is the same.
fn alike(tables: &Tables, edge: &Edge, options: &Options, lengths: (usize, usize)) -> Result<(Way, usize), Refusal> {
    let reference = drawn(tables, edge, options, Mode::Reference, lengths);
    assert_eq!(drawn(tables, edge, options, Mode::Strict, lengths), reference, "{edge:?}");
    reference.0
}

/// The chord in the first buffer, with lo and hi by their bits and nothing behind it.
fn chord(edge: &Edge, (m, n): (usize, usize)) -> Told {
    let vertex = |i: u32| &POINTS[3 * i as usize..][..3];
    let mut first = [vertex(edge.start), &[edge.lo], vertex(edge.end), &[edge.hi]].concat();
    first.resize(m, 0.0);
    (Ok((Way::Chord, 2)), first.into_iter().map(f64::to_bits).collect(), vec![0; n])
}

#[test]
fn the_reference_is_the_default() {
    assert_eq!(Mode::default(), Mode::Reference);
    assert_ne!(Mode::Reference, Mode::Strict);
}

#[test]
fn a_parabola_or_hyperbola_without_a_range_gets_the_chord_in_strict_mode() {
    for (conic, refusal) in [(PARABOLA, Refusal::NoRoom), (HYPERBOLA, Refusal::TooFar)] {
        for edge in lost(conic) {
            for lengths in [(400, 401), (2 * WIDTH, 2 * WIDTH), (4 * WIDTH - 1, 1_000)] {
                let strict = drawn(&CONICS, &edge, &options(), Mode::Strict, lengths);
                assert_eq!(strict, chord(&edge, lengths), "{edge:?}");
                let (answer, first, second) = drawn(&CONICS, &edge, &options(), Mode::Reference, lengths);
                assert_eq!(answer, Err(refusal), "{edge:?}");
                assert!(first.iter().chain(&second).all(|bits| *bits == 0));
            }
        }
    }
}

#[test]
fn segments_tolerance_and_scale_make_nothing_else_of_the_chord() {
    let many = Options { segments: u64::MAX, relative: 1, scale: f64::NAN, depth: 0, ..options() };
    let edge = Edge { lo: NAN, tolerance: 1e9, ..PARABOLA };
    assert_eq!(drawn(&CONICS, &edge, &many, Mode::Strict, (8, 9)), chord(&edge, (8, 9)));
}

#[test]
fn the_strict_chord_is_not_repaired() {
    // A box at the origin, outside which both vertices lie, and one at the start.
    for (low, high) in [(0, 2), (3, 5)] {
        for edge in [PARABOLA, HYPERBOLA] {
            let edge = Edge { lo: NAN, hi: OTHER, low, high, ..edge };
            assert_eq!(drawn(&CONICS, &edge, &options(), Mode::Strict, (40, 41)), chord(&edge, (40, 41)));
        }
    }
    // A line's chord is, in both modes, with lo twice.
    let line = Tables { curves: &[1, 0, 2], reals: &[0.0; 2], ..CONICS };
    let edge = Edge { lo: NAN, hi: OTHER, low: 0, high: 2, ..PARABOLA };
    assert_eq!(alike(&line, &edge, &options(), (40, 41)), Ok((Way::Runaway, 2)));
    let (_, _, second) = drawn(&line, &edge, &options(), Mode::Strict, (40, 41));
    assert_eq!([second[3], second[7]], [NAN.to_bits(); 2]);
}

#[test]
fn refusals_1_to_7_come_before_the_strict_chord() {
    let lost = Edge { lo: NAN, ..PARABOLA };
    assert_eq!(alike(&CONICS, &Edge { sense: 2, ..lost }, &options(), (80, 80)), Err(Refusal::IllFormed));
    assert_eq!(alike(&CONICS, &Edge { tolerance: NAN, ..lost }, &options(), (80, 80)), Err(Refusal::Unbounded));
    assert_eq!(alike(&CONICS, &Edge { hi: 2e9, ..lost }, &options(), (80, 80)), Err(Refusal::Unbounded));
    assert_eq!(alike(&CONICS, &Edge { end: 6, ..lost }, &options(), (80, 80)), Err(Refusal::Missing));
    for lengths in [(7, 80), (80, 0)] {
        assert_eq!(alike(&CONICS, &lost, &options(), lengths), Err(Refusal::ShortBuffer));
    }
    let unordered = Tables { curves: &[4, 0, 3, 6, 1, 1], reals: &[2.0, 0.0, 0.0, 1.0], ..CONICS };
    let (mut first, mut second) = ([MARK; 80], [MARK; 80]);
    let refused = draw_in_mode(&unordered, &lost, &options(), Mode::Strict, &mut first, &mut second);
    assert_eq!(refused.unwrap_err(), Refusal::Unordered);
    assert!(first.iter().chain(&second).all(|x| x.to_bits() == MARK.to_bits()));
}

#[test]
fn all_other_edges_are_drawn_as_in_the_reference() {
    // Trims of the two have a range of their own, and a good one is good in both modes.
    let whole = |edge| alike(&CONICS, &edge, &options(), (4_000, 4_000)).unwrap();
    for edge in [PARABOLA, HYPERBOLA, Edge { curve: 2, ..PARABOLA }, Edge { curve: 3, ..HYPERBOLA }] {
        let (way, points) = whole(edge);
        assert!(way == Way::AsDrawn && points > 4);
    }
    for (lo, hi) in LOST {
        assert_eq!(whole(Edge { curve: 2, lo, hi, ..PARABOLA }), whole(Edge { curve: 2, ..PARABOLA }));
        assert_eq!(whole(Edge { curve: 3, lo, hi, ..PARABOLA }), whole(Edge { curve: 3, ..HYPERBOLA }));
    }
    // A good range that leaves the box, or asks beyond 100.
    let small = |edge| Edge { low: 0, high: 2, ..edge };
    assert_eq!(alike(&CONICS, &small(PARABOLA), &options(), (4_000, 4_000)), Ok((Way::Runaway, 2)));
    assert_eq!(alike(&CONICS, &small(HYPERBOLA), &options(), (4_000, 4_000)), Err(Refusal::TooFar));
    assert_eq!(alike(&CONICS, &Edge { hi: 101.0, ..HYPERBOLA }, &options(), (4_000, 4_000)), Err(Refusal::TooFar));
    // Rows of the other kinds, with a good range and without one.
    for (kind, count, reals, whole) in [
        (1, 2, [0.0; 2], 5.0),
        (2, 3, [3.0, 0.0], 6.0),
        (3, 3, [3.0, 1.0], 6.0),
        (5, 5, [0.0; 2], 4.0),
        (7, 0, [0.0; 2], 1.0),
    ] {
        let tables = Tables { curves: &[kind, 0, count], reals: &reals, ..CONICS };
        for (lo, hi) in [(0.0, whole), (NAN, OTHER), (1.0, 1.0), (whole, 0.0)] {
            for lengths in [(4_000, 4_001), (8, 8)] {
                // The answers of both modes are compared.
                let _ = alike(&tables, &Edge { lo, hi, ..PARABOLA }, &options(), lengths);
            }
        }
    }
}

/// A corner of two lines, (0,0,0) to (4,0,0) to (4,4,0), whose own ranges are 0.25..1.25; row 3 is a trim of it.
const CORNER: Tables = Tables {
    points: &[
        -1.0, 0.0, 0.0, 4.0, 0.0, 0.0, 4.0, -1.0, 0.0, 0.0, 4.0, 0.0, 0.0, 0.0, 0.0, 4.0, 4.0, 0.0, 2.0, 0.0, 0.0,
    ],
    curves: &[1, 0, 2, 1, 2, 2, 7, 0, 2, 6, 2, 1],
    reals: &[0.0, 0.0, 0.0, 0.0, 0.0, 0.0, 0.5, 2.0],
    parts: &[0, 1, 1, 1],
    ranges: &[0.25, 1.25, 0.25, 1.25],
};
const ROUND: Edge = Edge { curve: 2, start: 4, end: 5, sense: 1, lo: 0.0, hi: 2.0, tolerance: 0.0, low: 4, high: 5 };

/// The parameters of the chain in the first buffer.
fn parameters((answer, first, _): Told) -> Vec<f64> {
    let (way, points) = answer.unwrap();
    assert_eq!(way, Way::AsDrawn);
    (0..points).map(|i| f64::from_bits(first[WIDTH * i + 3])).collect()
}

#[test]
fn a_composite_breaks_where_its_segments_meet_in_strict_mode() {
    let coarse = Options { deflection: 0.5, angle: Angle::radians(PI), relative: 0, depth: 1, ..Options::default() };
    let of = |edge: &Edge, mode| drawn(&CORNER, edge, &coarse, mode, (400, 401));
    // The reference breaks at its segments' own 0.25 and 1.25, and halves between them.
    assert_eq!(parameters(of(&ROUND, Mode::Reference)), [0.0, 0.25, 0.75, 1.25, 2.0]);
    assert_eq!(parameters(of(&ROUND, Mode::Strict)), [0.0, 1.0, 2.0]);
    let corner = of(&ROUND, Mode::Strict).1;
    assert_eq!(corner[WIDTH..][..3], [4.0, 0.0, 0.0].map(f64::to_bits));
    // A trim of it, to 0.5..2, has the same breaks inside it, and a lost range is the whole.
    let trim = Edge { curve: 3, start: 6, lo: 0.5, ..ROUND };
    assert_eq!(parameters(of(&trim, Mode::Strict)), [0.5, 1.0, 2.0]);
    assert_eq!(parameters(of(&Edge { lo: NAN, ..trim }, Mode::Strict)), [0.5, 1.0, 2.0]);
    assert_eq!(parameters(of(&Edge { lo: NAN, ..ROUND }, Mode::Strict)), [0.0, 1.0, 2.0]);
    // Where 1 is an end of the range it is no break, and breaks are thinned: this sag lets the corner pass.
    assert_eq!(parameters(of(&Edge { lo: 1.0, ..ROUND }, Mode::Strict)), [1.0, 2.0]);
    let coarser = Options { deflection: 3.0, ..coarse };
    assert_eq!(parameters(drawn(&CORNER, &ROUND, &coarser, Mode::Strict, (400, 401))), [0.0, 2.0]);
}

#[test]
fn no_joint_is_merged_beside_a_wide_range() {
    // Nine points to and fro, (4 i, 0 or 4, 0), as eight segments, the n-th over n - 1..n of its line, under a trim to -0.5..1e9.
    let height = |i: usize| if i % 2 == 0 { 0.0 } else { 4.0 };
    let mut part = Part::new([0.0; 3], [32.0, 4.0, 0.0]);
    let segments: Vec<Segment> = (0..8)
        .map(|i| {
            let (at, rise) = (i as f64, height(i + 1) - height(i));
            let line = part.line([0.0, height(i) - at * rise, 0.0], [4.0, rise, 0.0]).unwrap();
            Segment::new(line, at..at + 1.0)
        })
        .collect();
    let all = part.composite(&segments);
    let trim = part.trimmed(all, -0.5..1e9);
    let (start, end) = (part.point([0.0; 3]), part.point([32.0, 0.0, 0.0]));
    let edge = part.edge(trim, start, end, -0.5..1e9);
    let part = part.check().unwrap();
    let coarse = Options { deflection: 0.5, angle: Angle::radians(PI), relative: 0, depth: 1, ..Options::default() };
    let of = |mode| parameters(drawn(&part.checked().tables(), &edge, &coarse, mode, (400, 401)));
    // But for 7: the three places that are looked at between 6 and 1e9 all lie at the end.
    let joints = [-0.5, 1.0, 2.0, 3.0, 4.0, 5.0, 6.0, 1e9];
    assert_eq!(of(Mode::Strict), joints);
    assert_ne!(of(Mode::Reference), joints);
}

#[test]
fn a_part_is_drawn_in_a_mode() {
    // An S of two half circles, whose own ranges are 0..π and π..2π: its middle lies on the chord, and so it is missed.
    let mut part = Part::new([0.0; 3], [20.0, 40.0, 0.0]);
    let (up, along) = ([0.0, 0.0, 1.0], [0.0, 1.0, 0.0]);
    let upper = part.circle([10.0, 30.0, 0.0], up, along, 10.0).unwrap();
    let lower = part.circle([10.0, 10.0, 0.0], up, along, 10.0).unwrap();
    let half = Angle::degrees(180.0);
    let turns = [Segment::new(upper, Angle::ZERO..half), Segment::new(lower, half..Angle::FULL_TURN).reversed()];
    let s = part.composite(&turns);
    let (start, end) = (part.point([10.0, 40.0, 0.0]), part.point([10.0, 0.0, 0.0]));
    let edge = part.edge(s, start, end, 0.0..2.0);
    let parabola = part.parabola([0.0; 3], up, along, 2.0).unwrap();
    let lost = part.edge(parabola, start, end, f64::NAN..1.0);
    let part = part.check().unwrap();

    let missed = part.draw(&edge, &options()).unwrap();
    assert_eq!((missed.len(), missed.length()), (2, 40.0));
    assert_eq!(part.draw_in_mode(&edge, &options(), Mode::Reference), Ok(missed));
    let strict = part.draw_in_mode(&edge, &options(), Mode::Strict).unwrap();
    assert!(strict.iter().any(|p| p.t() == 1.0 && (p.x() - 10.0).abs() < 1e-12 && (p.y() - 20.0).abs() < 1e-12));
    assert!((strict.length() - 20.0 * PI).abs() < 0.1, "{}", strict.length());
    // It grows its buffers, and is what is drawn over the checked tables.
    let fine = Options { segments: 5_000, ..options() };
    assert_eq!(part.draw_in_mode(&edge, &fine, Mode::Strict).map(|chain| chain.len()), Ok(5_001));
    let (mut first, mut second) = (vec![MARK; 4_000], vec![MARK; 4_000]);
    let over = draw_over_in_mode(&part.checked(), &edge, &options(), Mode::Strict, &mut first, &mut second).unwrap();
    assert_eq!(over.to_owned_chain(), strict);
    assert_eq!(part.checked().draw_in_mode(&edge, &options(), Mode::Strict), Ok(strict));

    let deep = Options { depth: 24, ..options() };
    assert_eq!(part.draw(&lost, &deep), Err(Refusal::NoRoom));
    let chord = part.draw_in_mode(&lost, &Options { segments: MOST_POINTS as u64, ..deep }, Mode::Strict).unwrap();
    assert_eq!((chord.way(), chord.len(), chord[1].t()), (Way::Chord, 2, 1.0));
}
