//! Tables, edges, checking and drawing over slices that the caller lends.
use crate::answer::{Refusal, Way};
use crate::chain::{Chain, OwnedChain, MOST_POINTS, WIDTH};
use crate::numbered::numbered;
use crate::options::{Mode, Options};
use crate::raw;

numbered! {
    /// The kind of a curve row: the first of its three numbers in [`Tables::curves`].
    ///
    /// ```
    /// use cornsunset::Kind;
    /// const ROW: [u32; 3] = [Kind::Circle.number(), 0, 3];
    /// assert_eq!(ROW[0], 2);
    /// ```
    Kind {
        /// Points: origin, direction. The parameter counts directions.
        Line = 1,
        /// Points: origin, axis, ref_dir; p is the radius. The parameter is in radians.
        Circle = 2,
        /// Points: origin, axis, ref_dir; p and q are the semi-axes. The parameter is in radians.
        Ellipse = 3,
        /// Points: origin, axis, ref_dir; p is the focal distance.
        Parabola = 4,
        /// Any run of points. The parameter is the point's index.
        Polyline = 5,
        /// `first` is the base's row, `count` is 1; p and q are the range. The parameter is the base's.
        Trimmed = 6,
        /// A run of segments. The parameter is the segment's index.
        Composite = 7,
        /// Points: origin, axis, ref_dir; p and q are the semi-axes. The parameter is a plain number from -100 to 100.
        Hyperbola = 8,
    }
}

/// Points, curve rows and segments as five lent slices. [`Part`](crate::Part) builds such tables and needs no counting.
///
/// At most 65,536 points, 4,096 rows and 4,096 segments; floats finite and at most 1e9 in magnitude.
///
/// ```
/// use cornsunset::{check_tables, Kind, Refusal, Tables};
/// // A line along x from the origin, and the trim of it from 2 to 5.
/// let curves = [Kind::Line.number(), 0, 2, Kind::Trimmed.number(), 0, 1];
/// let points = [0.0, 0.0, 0.0, 1.0, 0.0, 0.0];
/// let tables =
///     Tables { points: &points, curves: &curves, reals: &[0.0, 0.0, 2.0, 5.0], ..Tables::default() };
/// assert!(check_tables(&tables).is_ok());
/// // The trim alone is a trim of itself.
/// let tables = Tables { curves: &curves[3..], reals: &[2.0, 5.0], ..tables };
/// assert_eq!(check_tables(&tables).unwrap_err(), Refusal::Unordered);
/// ```
#[derive(Debug, Clone, Copy, Default)]
pub struct Tables<'a> {
    /// x y z of each point. A curve's axis and ref_dir are points too, and are taken as they are: hand unit vectors at right
    /// angles. A circle of radius 20 with ref_dir (2,0,0) is drawn with radius 40, and nothing tells.
    pub points: &'a [f64],
    /// kind first count of each curve row: see [`Kind`]. `first` is the first of `count` points or segments, or a base's row.
    pub curves: &'a [u32],
    /// p q of each curve row, zero where unused; a trim's range is in its base's own parameter.
    pub reals: &'a [f64],
    /// curve sense of each segment; sense is 0 or 1.
    pub parts: &'a [u32],
    /// lo hi of each segment, in its curve's own parameter.
    pub ranges: &'a [f64],
}

/// An edge: rows of the tables, and a range in its curve's own parameter: radians on a circle or an ellipse, the point's index
/// on a polyline, the segment's index on a composite, the base's parameter on a trim.
///
/// A range has to rise. One that does not, or is not finite, counts as lost: then the curve's whole range is drawn, a full
/// turn on a circle, and on a line the chord of the vertices; a hyperbola that is no trim is refused with [`Refusal::TooFar`],
/// and so is one that leaves the box. In [`Mode::Strict`] a parabola and a hyperbola that are no trims get the chord for a lost
/// range. The chain runs from start to end whichever way the range does.
///
/// ```
/// # use cornsunset::{Angle, Edge, Options, Part};
/// # let mut part = Part::new([-1.0, -1.0, 0.0], [1.0, 1.0, 0.0]);
/// # let circle = part.circle([0.0; 3], [0.0, 0.0, 1.0], [1.0, 0.0, 0.0], 1.0).unwrap();
/// # let vertex = part.point([1.0, 0.0, 0.0]);
/// let hole = part.edge(circle, vertex, vertex, Angle::ZERO..Angle::FULL_TURN);
/// let clockwise = Edge { sense: 0, ..hole };
/// # let part = part.check()?;
/// # let second = |edge| part.draw(&edge, &Options::default()).map(|chain| chain[1].y());
/// # assert!(second(hole)? > 0.0 && second(clockwise)? < 0.0);
/// # Ok::<(), cornsunset::Refusal>(())
/// ```
#[derive(Debug, Clone, Copy, PartialEq)]
pub struct Edge {
    /// Its curve row.
    pub curve: u32,
    /// The point of its start vertex.
    pub start: u32,
    /// The point of its end vertex.
    pub end: u32,
    /// 1 if it runs with its curve, 0 if against it; looked at where start and end are within ten tolerances of each other,
    /// as on a full circle.
    pub sense: u32,
    /// Where its range begins; may be NaN or infinite.
    pub lo: f64,
    /// Where its range ends; may be NaN or infinite.
    pub hi: f64,
    /// How exact the file says the edge is, in the part's unit of length; 0 where it says nothing. Neighbours in the chain
    /// within four tolerances, and within half the sag, become one; 0 or less merges none.
    pub tolerance: f64,
    /// The point that is the least corner of the part's box.
    pub low: u32,
    /// The point that is its greatest corner.
    pub high: u32,
}

/// Draws an edge into one of two buffers, and returns the part that holds its chain.
///
/// [`WIDTH`] floats make a point, so that a buffer of n floats has room for n / WIDTH points. The shorter buffer says what room
/// there is, [`MOST_POINTS`] at most. Whatever of the buffers is not the chain is +0.0 afterwards.
///
/// ```
/// use cornsunset::{draw, Angle, Edge, Kind, Options, Tables, WIDTH};
///
/// // A circle's origin, axis and ref_dir; its vertex; the corners of the part's box.
/// let points = [0., 0., 0., 0., 0., 1., 1., 0., 0., 2., 0., 0., -2., -2., 0., 2., 2., 0.];
/// let curves = [Kind::Circle.number(), 0, 3];
/// let tables =
///     Tables { points: &points, curves: &curves, reals: &[2.0, 0.0], parts: &[], ranges: &[] };
/// let (lo, hi) = (0.0, std::f64::consts::TAU);
/// let edge =
///     Edge { curve: 0, start: 3, end: 3, sense: 1, lo, hi, tolerance: 0.0, low: 4, high: 5 };
/// let options =
///     Options { deflection: 0.02, angle: Angle::degrees(20.0), scale: 4.0, ..Options::default() };
///
/// let (mut first, mut second) = ([0.0; 256 * WIDTH], [0.0; 256 * WIDTH]);
/// let chain = draw(&tables, &edge, &options, &mut first, &mut second)?;
/// assert_eq!(chain.len(), 19);
/// # Ok::<(), cornsunset::Refusal>(())
/// ```
pub fn draw<'b>(
    tables: &Tables,
    edge: &Edge,
    options: &Options,
    first: &'b mut [f64],
    second: &'b mut [f64],
) -> Result<Chain<'b>, Refusal> {
    let radians = options.angle.to_radians();
    drawn(first, second, |first, m, second, n, way, count| {
        // SAFETY: slices are lent for the call; those that are written are borrowed alone. The function is proved to write
        // nothing else, whatever it is handed.
        unsafe { raw::call!(cs_flat_draw, tables, edge, options, radians, first, m, second, n, way, count) }
    })
}

/// Draws an edge in a mode: in [`Mode::Reference`] as [`draw`] does, and with the same answer.
///
/// ```
/// use cornsunset::{draw_in_mode, Edge, Kind, Mode, Options, Refusal, Tables, Way};
///
/// // A parabola's origin, axis and ref_dir, and its vertices; its range was lost.
/// let points = [0., 0., 0., 0., 0., 1., 1., 0., 0., 8., -8., 0., 18., 12., 0.];
/// let curves = [Kind::Parabola.number(), 0, 3];
/// let tables =
///     Tables { points: &points, curves: &curves, reals: &[2.0, 0.0], parts: &[], ranges: &[] };
/// let (lo, hi) = (3.0, 3.0);
/// let edge =
///     Edge { curve: 0, start: 3, end: 4, sense: 1, lo, hi, tolerance: 0.0, low: 0, high: 4 };
/// let options = Options { deflection: 0.01, ..Options::default() };
///
/// let (mut first, mut second) = ([0.0; 1_024], [0.0; 1_024]);
/// let refused = draw_in_mode(&tables, &edge, &options, Mode::Reference, &mut first, &mut second);
/// assert_eq!(refused.unwrap_err(), Refusal::NoRoom);
/// let chain = draw_in_mode(&tables, &edge, &options, Mode::Strict, &mut first, &mut second)?;
/// assert_eq!(chain.way(), Way::Chord);
/// assert_eq!(chain.floats(), [8.0, -8.0, 0.0, lo, 18.0, 12.0, 0.0, hi]);
/// # Ok::<(), Refusal>(())
/// ```
pub fn draw_in_mode<'b>(
    tables: &Tables,
    edge: &Edge,
    options: &Options,
    mode: Mode,
    first: &'b mut [f64],
    second: &'b mut [f64],
) -> Result<Chain<'b>, Refusal> {
    let (radians, strict) = (options.angle.to_radians(), mode == Mode::Strict);
    drawn(first, second, |first, m, second, n, way, count| {
        // SAFETY: as in `draw`.
        unsafe {
            raw::call!(cs_flat_draw_in_mode, tables, edge, options, radians, strict, first, m, second, n, way, count)
        }
    })
}

/// The chain that a call drew, or its refusal.
fn drawn<'b>(
    first: &'b mut [f64],
    second: &'b mut [f64],
    call: impl FnOnce(*mut f64, usize, *mut f64, usize, &mut u32, &mut usize) -> u32,
) -> Result<Chain<'b>, Refusal> {
    let (mut way, mut count) = (0, 0);
    let refusal = call(first.as_mut_ptr(), first.len(), second.as_mut_ptr(), second.len(), &mut way, &mut count);
    Refusal::none_in(refusal)?;
    let way = Way::of_chain(way);
    // The points are proved to fit.
    let buffer = if way.in_first() { first } else { second };
    Ok(Chain::new(&buffer[..WIDTH * count], way))
}

/// The lowest of the refusals 1 to 6 that applies to an edge: what drawing it looks at before it looks at its buffers.
///
/// ```
/// # use cornsunset::{check, Edge, Options, Refusal, Tables};
/// # let points = [0., 0., 0., 2., 0., 0., 10., 0., 0.];
/// # let tables = Tables { points: &points, curves: &[1, 0, 2], reals: &[0.0; 2], parts: &[], ranges: &[] };
/// # let edge = Edge { curve: 0, start: 0, end: 2, sense: 1, lo: 0.0, hi: 5.0, tolerance: 0.0, low: 0, high: 2 };
/// assert_eq!(check(&tables, &edge, &Options::default()), Ok(()));
/// let astray = Edge { end: 3, ..edge };
/// assert_eq!(check(&tables, &astray, &Options::default()), Err(Refusal::Missing));
/// ```
pub fn check(tables: &Tables, edge: &Edge, options: &Options) -> Result<(), Refusal> {
    let radians = options.angle.to_radians();
    // SAFETY: slices are lent for the call.
    Refusal::none_in(unsafe { raw::call!(cs_flat_check, tables, edge, options, radians) })
}

/// Tables that [`check_tables`] accepted, for many edges over them: drawing does not check the tables again.
///
/// ```
/// # use cornsunset::{check_tables, draw_over, Edge, Options, Refusal, Tables};
/// # let points = [0., 0., 0., 2., 0., 0., 10., 0., 0.];
/// # let tables = Tables { points: &points, curves: &[1, 0, 2], reals: &[0.0; 2], parts: &[], ranges: &[] };
/// # let edge = Edge { curve: 0, start: 0, end: 2, sense: 1, lo: 0.0, hi: 5.0, tolerance: 0.0, low: 0, high: 2 };
/// # let edges = [edge, Edge { sense: 0, start: 2, end: 0, ..edge }, Edge { curve: 1, ..edge }];
/// # let (mut first, mut second, mut total) = ([0.0; 64], [0.0; 64], 0);
/// let checked = check_tables(&tables)?;
/// for edge in &edges {
///     match draw_over(&checked, edge, &Options::default(), &mut first, &mut second) {
///         Ok(chain) => total += chain.len(),
///         Err(refusal) => assert_eq!(refusal, Refusal::Missing),
///     }
/// }
/// # assert_eq!(total, 4);
/// # Ok::<(), Refusal>(())
/// ```
///
/// There is no other way to make one, and the slices stay lent to it:
///
/// ```compile_fail,E0451
/// let checked = cornsunset::Checked { tables: Default::default() };
/// ```
///
/// ```compile_fail,E0506
/// let mut points = [0.0; 9];
/// let tables = cornsunset::Tables { points: &points, ..Default::default() };
/// let checked = cornsunset::check_tables(&tables).unwrap();
/// points[0] = f64::NAN;
/// let tables = checked.tables();
/// ```
#[derive(Debug, Clone, Copy)]
pub struct Checked<'a> {
    tables: Tables<'a>,
}

impl<'a> Checked<'a> {
    /// Tables of which it is known that they were accepted and have not changed since.
    pub(crate) fn again(tables: Tables<'a>) -> Checked<'a> {
        Checked { tables }
    }

    /// The tables.
    pub fn tables(&self) -> Tables<'a> {
        self.tables
    }

    /// Draws an edge into buffers of its own, which grow while the edge is refused for want of room: a refusal 8 from here
    /// means that [`MOST_POINTS`] points are too few.
    pub fn draw(&self, edge: &Edge, options: &Options) -> Result<OwnedChain, Refusal> {
        self.draw_in_mode(edge, options, Mode::Reference)
    }

    /// The same in a mode.
    pub fn draw_in_mode(&self, edge: &Edge, options: &Options, mode: Mode) -> Result<OwnedChain, Refusal> {
        // Most edges have few points, and the library clears whatever it is lent.
        let mut room = 64;
        loop {
            let (mut first, mut second) = (vec![0.0; WIDTH * room], vec![0.0; WIDTH * room]);
            match draw_over_in_mode(self, edge, options, mode, &mut first, &mut second) {
                Err(Refusal::NoRoom) if room < MOST_POINTS => room = MOST_POINTS.min(4 * room),
                answer => return answer.map(|chain| chain.to_owned_chain()),
            }
        }
    }
}

/// The lowest of the refusals 1 to 5 that the tables have, whatever the edge; or the tables, checked.
pub fn check_tables<'a>(tables: &Tables<'a>) -> Result<Checked<'a>, Refusal> {
    let Tables { points, curves, reals, parts, ranges } = *tables;
    // SAFETY: slices are lent for the call.
    Refusal::none_in(unsafe {
        raw::cs_flat_check_tables(
            points.as_ptr(),
            points.len(),
            curves.as_ptr(),
            curves.len(),
            reals.as_ptr(),
            reals.len(),
            parts.as_ptr(),
            parts.len(),
            ranges.as_ptr(),
            ranges.len(),
        )
    })?;
    Ok(Checked { tables: *tables })
}

/// Draws an edge over tables that [`check_tables`] accepted, as [`draw`] does and with the same answer; only the edge, the
/// options and the buffers are checked, so that it is refused with 2, 3, 6 to 9 or 11 alone.
pub fn draw_over<'b>(
    checked: &Checked,
    edge: &Edge,
    options: &Options,
    first: &'b mut [f64],
    second: &'b mut [f64],
) -> Result<Chain<'b>, Refusal> {
    let (tables, radians) = (&checked.tables, options.angle.to_radians());
    drawn(first, second, |first, m, second, n, way, count| {
        // SAFETY: as in `draw`. That the tables were accepted, and have been lent since, makes the answer `draw`'s.
        unsafe { raw::call!(cs_flat_draw_over, tables, edge, options, radians, first, m, second, n, way, count) }
    })
}

/// Draws an edge in a mode over tables that [`check_tables`] accepted: as [`draw_over`], with the answer of [`draw_in_mode`].
///
/// ```
/// # use cornsunset::{check_tables, draw_in_mode, draw_over_in_mode, Edge, Mode, Options, Refusal, Tables};
/// # let points = [0., 0., 0., 0., 0., 1., 1., 0., 0., 3., 4., 0.];
/// # let tables = Tables { points: &points, curves: &[8, 0, 3], reals: &[1.0, 2.0], parts: &[], ranges: &[] };
/// # let edge = Edge { curve: 0, start: 2, end: 3, sense: 1, lo: f64::NAN, hi: 1.5, tolerance: 0.0, low: 0, high: 3 };
/// # let (mut first, mut second, mut third, mut fourth) = ([1.0; 64], [2.0; 64], [3.0; 64], [4.0; 64]);
/// let options = Options::default();
/// let chain = draw_in_mode(&tables, &edge, &options, Mode::Strict, &mut first, &mut second)?;
/// let checked = check_tables(&tables)?;
/// let over = draw_over_in_mode(&checked, &edge, &options, Mode::Strict, &mut third, &mut fourth)?;
/// assert_eq!((over.way(), over.len()), (chain.way(), chain.len()));
/// # Ok::<(), Refusal>(())
/// ```
pub fn draw_over_in_mode<'b>(
    checked: &Checked,
    edge: &Edge,
    options: &Options,
    mode: Mode,
    first: &'b mut [f64],
    second: &'b mut [f64],
) -> Result<Chain<'b>, Refusal> {
    let (t, radians, strict) = (&checked.tables, options.angle.to_radians(), mode == Mode::Strict);
    drawn(first, second, |first, m, second, n, way, count| {
        // SAFETY: as in `draw_over`.
        unsafe {
            raw::call!(cs_flat_draw_over_in_mode, t, edge, options, radians, strict, first, m, second, n, way, count)
        }
    })
}
