//! The builder: what it puts into the tables, frames, errors of its own, ranges, and buffers that grow.
use cornsunset::{draw, Angle, Edge, Kind, Options, Part, PartError, Refusal, Segment, Way, MOST_POINTS, WIDTH};
use std::f64::consts::{FRAC_PI_2, PI, TAU};

const X: [f64; 3] = [1.0, 0.0, 0.0];
const Y: [f64; 3] = [0.0, 1.0, 0.0];
const Z: [f64; 3] = [0.0, 0.0, 1.0];
const O: [f64; 3] = [0.0; 3];

fn part() -> Part {
    Part::new([-50.0, -50.0, 0.0], [50.0, 50.0, 0.0])
}

fn options() -> Options {
    Options { deflection: 0.01, relative: 0, ..Options::default() }
}

/// The axis and ref_dir that a circle gets.
fn frame(axis: [f64; 3], ref_dir: [f64; 3]) -> [[f64; 3]; 2] {
    let mut part = part();
    part.circle(O, axis, ref_dir, 1.0).unwrap();
    let points = part.tables().points;
    [3, 4].map(|i| [points[3 * i], points[3 * i + 1], points[3 * i + 2]])
}

fn dot(a: [f64; 3], b: [f64; 3]) -> f64 {
    a[0] * b[0] + a[1] * b[1] + a[2] * b[2]
}

#[test]
fn rows_of_each_kind_stand_in_the_tables() {
    let mut part = Part::new([-1.0; 3], [2.0; 3]);
    let line = part.line([5.0; 3], [0.0, 2.0, 0.0]).unwrap();
    let circle = part.circle(O, Z, X, 3.0).unwrap();
    let ellipse = part.ellipse(O, Z, Y, [4.0, 2.0]).unwrap();
    let parabola = part.parabola(O, X, Y, 0.5).unwrap();
    let corners = part.points(&[O, X, Y]);
    let polyline = part.polyline(corners);
    let trim = part.trimmed(ellipse, Angle::ZERO..Angle::radians(1.5));
    let segments = [Segment::new(line, -1.0..1.0), Segment::new(trim, Angle::ZERO..Angle::radians(1.0)).reversed()];
    let composite = part.composite(&segments);
    let hyperbola = part.hyperbola(O, Z, X, [6.0, 7.0]).unwrap();
    let numbers = [line.number(), circle.number(), ellipse.number(), parabola.number(), polyline.number()];
    assert_eq!((numbers, trim.number(), composite.number(), hyperbola.number()), ([0, 1, 2, 3, 4], 5, 6, 7));
    assert_eq!((corners.at(0).number(), corners.at(2).number(), corners.count()), (13, 15, 3));

    let tables = part.tables();
    let rows = [[2, 2], [4, 3], [7, 3], [10, 3], [13, 3], [2, 1], [0, 2], [16, 3]];
    let kinds = Kind::ALL.iter().map(|kind| kind.number());
    let curves: Vec<u32> = kinds.zip(rows).flat_map(|(kind, [first, count])| [kind, first, count]).collect();
    assert_eq!(tables.curves, curves);
    assert_eq!(tables.reals, [0.0, 0.0, 3.0, 0.0, 4.0, 2.0, 0.5, 0.0, 0.0, 0.0, 0.0, 1.5, 0.0, 0.0, 6.0, 7.0]);
    assert_eq!((tables.parts, tables.ranges), (&[0, 1, 5, 0][..], &[-1.0, 1.0, 0.0, 1.0][..]));
    assert_eq!(tables.points[..12], [-1.0, -1.0, -1.0, 2.0, 2.0, 2.0, 5.0, 5.0, 5.0, 0.0, 2.0, 0.0]);
    assert!(part.check().is_ok());
}

#[test]
fn an_edge_names_its_row_its_points_and_the_box() {
    let mut part = part();
    let circle = part.circle(O, Z, X, 3.0).unwrap();
    let (start, end) = (part.point([3.0, 0.0, 0.0]), part.point([0.0, 3.0, 0.0]));
    let edge = part.edge(circle, start, end, Angle::ZERO..Angle::degrees(90.0));
    let expected =
        Edge { curve: 0, start: 5, end: 6, sense: 1, lo: 0.0, hi: FRAC_PI_2, tolerance: 0.0, low: 0, high: 1 };
    assert_eq!(edge, expected);
    part.set_box([-7.0; 3], [7.0; 3]);
    assert_eq!(part.tables().points[..6], [-7.0, -7.0, -7.0, 7.0, 7.0, 7.0]);
}

#[test]
fn a_frame_is_made_unit_and_square() {
    assert_eq!(frame(Z, X), [Z, X]);
    assert_eq!(frame([0.0, 0.0, 5.0], [2.0, 0.0, 7.0]), [Z, X]);
    assert_eq!(frame([0.0, 0.0, 1e-300], [1e300, 0.0, 1e300]), [Z, X]);
    let skewed =
        [([1.0, 2.0, 3.0], [3.0, 1.0, -2.0]), ([1.0, 1.0, 1.0], [1.0, 1.0, 1.0 + 1e-8]), ([-2.0, 0.1, 9.0], Z)];
    for (axis, ref_dir) in skewed {
        let [a, r] = frame(axis, ref_dir);
        assert!((dot(a, a) - 1.0).abs() < 1e-15 && (dot(r, r) - 1.0).abs() < 1e-15 && dot(a, r).abs() < 1e-15);
        // The axis as it was, ref_dir still on its own side.
        assert!(dot(a, axis) > 0.0 && dot(r, ref_dir) > 0.0);
    }
}

#[test]
fn directions_and_sizes_that_say_nothing_are_errors() {
    let mut part = part();
    for none in [O, [f64::NAN, 1.0, 0.0], [f64::INFINITY, 0.0, 0.0]] {
        assert_eq!(part.line(O, none), Err(PartError::NoDirection));
        assert_eq!(part.circle(O, none, X, 1.0), Err(PartError::NoDirection));
        assert_eq!(part.circle(O, Z, none, 1.0), Err(PartError::NoDirection));
        assert_eq!(part.parabola(O, Z, none, 1.0), Err(PartError::NoDirection));
        assert_eq!(part.hyperbola(O, none, X, [2.0, 1.0]), Err(PartError::NoDirection));
    }
    for along in [Z, [0.0, 0.0, -3.0], [1e-12, 0.0, 1.0]] {
        assert_eq!(part.ellipse(O, Z, along, [2.0, 1.0]), Err(PartError::Parallel));
        assert_eq!(part.hyperbola(O, Z, along, [2.0, 1.0]), Err(PartError::Parallel));
    }
    for none in [0.0, -1.0, f64::NAN] {
        assert_eq!(part.circle(O, Z, X, none), Err(PartError::NoSize));
        assert_eq!(part.ellipse(O, Z, X, [1.0, none]), Err(PartError::NoSize));
        assert_eq!(part.parabola(O, Z, X, none), Err(PartError::NoSize));
        assert_eq!(part.hyperbola(O, Z, X, [none, 1.0]), Err(PartError::NoSize));
        assert_eq!(part.hyperbola(O, Z, X, [1.0, none]), Err(PartError::NoSize));
    }
    // Nothing was added.
    assert_eq!((part.tables().points.len(), part.tables().curves.len()), (6, 0));
    for error in [PartError::NoDirection, PartError::Parallel, PartError::NoSize] {
        assert!(error.to_string().starts_with("a") && !error.to_string().ends_with('.'));
    }
}

#[test]
fn a_check_refuses_what_the_library_refuses() {
    let mut nan = part();
    nan.point([f64::NAN, 0.0, 0.0]);
    assert_eq!(nan.check().unwrap_err(), Refusal::Unbounded);
    let mut many = part();
    many.points(&vec![O; 65_535]);
    assert_eq!(many.check().unwrap_err(), Refusal::Oversize);
    let mut deep = part();
    let mut row = deep.line(O, X).unwrap();
    for _ in 0..8 {
        row = deep.trimmed(row, 0.0..1.0);
    }
    let mut deeper = deep.clone().check().unwrap().into_part();
    deeper.trimmed(row, 0.0..1.0);
    assert_eq!((deep.check().err(), deeper.check().err()), (None, Some(Refusal::TooDeep)));
}

#[test]
fn a_circle_of_any_ref_dir_has_its_radius() {
    let mut part = part();
    let circle = part.circle(O, [0.0, 0.0, 4.0], [2.0, 0.0, 0.0], 20.0).unwrap();
    let vertex = part.point([20.0, 0.0, 0.0]);
    let edge = part.edge(circle, vertex, vertex, Angle::ZERO..Angle::FULL_TURN);
    let part = part.check().unwrap();
    let chain = part.draw(&edge, &options()).unwrap();
    assert_eq!(chain.way(), Way::AsDrawn);
    assert!(chain.iter().all(|p| (p.x().hypot(p.y()) - 20.0).abs() < 1e-12));
    assert!(chain.length() < 20.0 * TAU && chain.length() > 20.0 * TAU * 0.999);
    // Against the curve, the other way round, at the same length; and walked there and back.
    let against = part.draw(&Edge { sense: 0, ..edge }, &options()).unwrap();
    assert!(against.forwards().eq(chain.backwards()) && against.backwards().eq(chain.forwards()));
    assert!((against.length() - chain.length()).abs() < 1e-12);
}

#[test]
fn an_owned_chain_is_what_is_drawn_into_buffers() {
    let mut part = part();
    let parabola = part.parabola(O, Z, X, 2.0).unwrap();
    let (start, end) = (part.point([8.0, -8.0, 0.0]), part.point([18.0, 12.0, 0.0]));
    let edge = part.edge(parabola, start, end, -2.0..3.0);
    let part = part.check().unwrap();
    let owned = part.draw(&edge, &options()).unwrap();
    let (mut first, mut second) = (vec![1.0; 4_000], vec![1.0; 4_000]);
    let lent = draw(&part.checked().tables(), &edge, &options(), &mut first, &mut second).unwrap();
    assert_eq!((owned.points(), owned.way(), owned.length()), (lent.points(), lent.way(), lent.length()));
    assert_eq!(owned, lent.to_owned_chain());
    // Points of the parabola: x is y² / 8.
    assert!(owned.iter().all(|p| (p.x() - p.y() * p.y() / 8.0).abs() < 1e-12));
}

#[test]
fn a_hyperbola_is_drawn_within_a_hundred_of_zero() {
    let mut part = part();
    let hyperbola = part.hyperbola(O, Z, X, [3.0, 4.0]).unwrap();
    let end = 8.0f64.ln();
    let (start, end) = (part.point([3.0, 0.0, 0.0]), part.point([3.0 * end.cosh(), 4.0 * end.sinh(), 0.0]));
    let edge = part.edge(hyperbola, start, end, 0.0..8.0f64.ln());
    let trim = part.trimmed(hyperbola, 0.0..8.0f64.ln());
    let trimmed = part.edge(trim, start, end, 0.0..8.0f64.ln());
    let part = part.check().unwrap();
    let chain = part.draw(&edge, &options()).unwrap();
    assert_eq!(chain.way(), Way::AsDrawn);
    assert!(
        chain.len() > 4 && chain.iter().all(|p| ((p.x() / 3.0).powi(2) - (p.y() / 4.0).powi(2) - 1.0).abs() < 1e-12)
    );
    assert_eq!(part.draw(&trimmed, &options()), Ok(chain.clone()));
    // Without a range a hyperbola is asked at -1e6, and a trim of one over its own range.
    for (lo, hi) in [(f64::NAN, 2.0), (0.0, f64::INFINITY), (1.0, 1.0), (2.0, 0.0), (0.0, 100.1), (-101.0, 0.0)] {
        assert_eq!(part.draw(&Edge { lo, hi, ..edge }, &options()), Err(Refusal::TooFar));
    }
    assert_eq!(part.draw(&Edge { lo: f64::NAN, ..trimmed }, &options()), Ok(chain));
    // And so is one that leaves the box.
    let mut small = part.into_part();
    small.set_box([0.0; 3], [3.0, 1.0, 0.0]);
    assert_eq!(small.check().unwrap().draw(&edge, &options()), Err(Refusal::TooFar));
}

#[test]
fn buffers_grow_up_to_the_most_points() {
    let mut part = part();
    let line = part.line(O, X).unwrap();
    let (start, end) = (part.point(O), part.point([10.0, 0.0, 0.0]));
    let edge = part.edge(line, start, end, 0.0..10.0);
    let part = part.check().unwrap();
    let drawn = |segments| part.draw(&edge, &Options { segments, ..options() }).map(|chain| chain.len());
    for points in [2, 63, 64, 65, 256, 257, 5_000, MOST_POINTS] {
        assert_eq!(drawn(points as u64 - 1), Ok(points));
    }
    assert_eq!(drawn(MOST_POINTS as u64), Err(Refusal::NoRoom));
    let (mut first, mut second) = (vec![0.0; 20_000 * WIDTH], vec![0.0; 20_000 * WIDTH]);
    let many = Options { segments: MOST_POINTS as u64, ..options() };
    let refusal = draw(&part.checked().tables(), &edge, &many, &mut first, &mut second).unwrap_err();
    assert_eq!(refusal, Refusal::NoRoom);
    // What is no want of room is answered at once.
    assert_eq!(part.draw(&Edge { curve: 9, ..edge }, &options()), Err(Refusal::Missing));
}

#[test]
fn a_checked_part_is_drawn_from_many_threads() {
    let mut part = part();
    let circle = part.circle(O, Z, X, 20.0).unwrap();
    let vertex = part.point([20.0, 0.0, 0.0]);
    let edge = part.edge(circle, vertex, vertex, Angle::ZERO..Angle::FULL_TURN);
    let part = part.check().unwrap();
    let expected = part.draw(&edge, &options()).unwrap();
    std::thread::scope(|scope| {
        let threads = [0; 3].map(|_| scope.spawn(|| part.draw(&edge, &options())));
        assert!(threads.into_iter().all(|thread| thread.join().unwrap() == Ok(expected.clone())));
    });
}

#[test]
fn composites_and_trims_run_on() {
    let mut part = part();
    let line = part.line([10.0, 0.0, 0.0], [-1.0, 0.0, 0.0]).unwrap();
    let circle = part.circle([10.0, 5.0, 0.0], Z, [0.0, -1.0, 0.0], 5.0).unwrap();
    let half = part.trimmed(circle, Angle::ZERO..Angle::degrees(180.0));
    let there = Segment::new(line, 0.0..10.0).reversed();
    let round = Segment::new(half, Angle::ZERO..Angle::degrees(180.0));
    let both = part.composite(&[there, round]);
    let (start, end) = (part.point(O), part.point([10.0, 10.0, 0.0]));
    let edge = part.edge(both, start, end, 0.0..2.0);
    let chain = part.check().unwrap().draw(&edge, &options()).unwrap();
    assert_eq!((chain.first().unwrap().position(), chain.last().unwrap().position()), (O, [10.0, 10.0, 0.0]));
    assert!((chain.length() - 10.0 - 5.0 * PI).abs() < 0.05, "{}", chain.length());
}

#[test]
#[should_panic(expected = "a run of 2 points has none with the index 2")]
fn a_run_has_no_point_behind_its_last() {
    part().points(&[O, X]).at(2);
}
