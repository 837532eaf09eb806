//! Chains, lent and owned, their points, and walks over them.
use crate::answer::Way;
use crate::raw;
use std::ops::Deref;

/// How many floats a point of a chain takes in a buffer. A later version may take more.
pub const WIDTH: usize = 4;

/// The most points that a chain can have: a buffer of `WIDTH * MOST_POINTS` floats gives all the room there is.
pub const MOST_POINTS: usize = 16_384;

/// A point of a chain: where it lies, and the parameter of the curve there.
///
/// ```
/// use cornsunset::Walk;
/// let point = Walk::new(&[1.0, 2.0, 3.0, 0.5], true).next().unwrap();
/// assert_eq!(point.position(), [point.x(), point.y(), point.z()]);
/// assert_eq!(point.t(), 0.5);
/// ```
#[derive(Debug, Clone, Copy, PartialEq)]
#[repr(C)]
pub struct Point {
    x: f64,
    y: f64,
    z: f64,
    t: f64,
}

// A buffer's floats are read as points.
const _: () = assert!(size_of::<Point>() == WIDTH * size_of::<f64>() && align_of::<Point>() == align_of::<f64>());

impl Point {
    const ORIGIN: Point = Point { x: 0.0, y: 0.0, z: 0.0, t: 0.0 };

    /// Its x.
    pub const fn x(&self) -> f64 {
        self.x
    }

    /// Its y.
    pub const fn y(&self) -> f64 {
        self.y
    }

    /// Its z.
    pub const fn z(&self) -> f64 {
        self.z
    }

    /// The curve's own parameter at it.
    pub const fn t(&self) -> f64 {
        self.t
    }

    /// Its x, y and z.
    pub const fn position(&self) -> [f64; 3] {
        [self.x, self.y, self.z]
    }

    /// How far another lies, in the steps by which drawing takes a distance.
    fn distance(&self, other: &Point) -> f64 {
        let (x, y, z) = (other.x - self.x, other.y - self.y, other.z - self.z);
        (x * x + y * y + z * z).sqrt()
    }
}

/// A chain: the part of the caller's buffer that holds it. It is a slice of points.
///
/// ```
/// # use cornsunset::{draw, Edge, Options, Tables, Way};
/// # let points = [0., 0., 0., 2., 0., 0., 10., 0., 0.];
/// # let tables = Tables { points: &points, curves: &[1, 0, 2], reals: &[0.0; 2], parts: &[], ranges: &[] };
/// # let edge = Edge { curve: 0, start: 0, end: 2, sense: 1, lo: 0.0, hi: 5.0, tolerance: 0.0, low: 0, high: 2 };
/// # let (mut first, mut second) = ([0.0; 64], [0.0; 64]);
/// let chain = draw(&tables, &edge, &Options::default(), &mut first, &mut second)?;
/// assert_eq!((chain.way(), chain.len(), chain.length()), (Way::AsDrawn, 2, 10.0));
/// assert!(chain.backwards().map(|point| point.t()).eq([5.0, 0.0]));
/// assert_eq!(chain.floats(), [0.0, 0.0, 0.0, 0.0, 10.0, 0.0, 0.0, 5.0]);
/// # Ok::<(), cornsunset::Refusal>(())
/// ```
#[derive(Debug, Clone, Copy)]
pub struct Chain<'b> {
    floats: &'b [f64],
    way: Way,
}

impl<'b> Chain<'b> {
    /// The chain of this way in the buffer's first floats.
    pub(crate) fn new(floats: &'b [f64], way: Way) -> Chain<'b> {
        Chain { floats, way }
    }

    /// The way in which it was got.
    pub fn way(&self) -> Way {
        self.way
    }

    /// Its points.
    pub fn points(&self) -> &'b [Point] {
        let whole = self.floats.len() / WIDTH;
        // SAFETY: a point lies as its floats do (asserted beside it), and there are WIDTH times so many.
        unsafe { std::slice::from_raw_parts(self.floats.as_ptr().cast(), whole) }
    }

    /// Its points as plain floats, [`WIDTH`] each.
    pub fn floats(&self) -> &'b [f64] {
        self.floats
    }

    /// Its length: the distances from each point to its next, summed from the start. This is what a cutter runs.
    pub fn length(&self) -> f64 {
        self.points().windows(2).fold(0.0, |sum, pair| sum + pair[0].distance(&pair[1]))
    }

    /// A walk from its start.
    pub fn forwards(&self) -> Walk<'b> {
        Walk::new(self.floats, true)
    }

    /// A walk from its end.
    pub fn backwards(&self) -> Walk<'b> {
        Walk::new(self.floats, false)
    }

    /// A copy that owns its points.
    pub fn to_owned_chain(&self) -> OwnedChain {
        OwnedChain { floats: self.floats.into(), way: self.way }
    }
}

impl Deref for Chain<'_> {
    type Target = [Point];

    fn deref(&self) -> &[Point] {
        self.points()
    }
}

/// A chain that owns its points: what [`CheckedPart::draw`](crate::CheckedPart::draw) returns. It is a slice of points.
///
/// ```
/// # use cornsunset::{Edge, OwnedChain, Options, Part, Refusal};
/// /// What a cutter runs for these edges.
/// fn cut_length(part: Part, edges: &[Edge], options: &Options) -> Result<f64, Refusal> {
///     let part = part.check()?;
///     let chains: Result<Vec<OwnedChain>, Refusal> =
///         edges.iter().map(|edge| part.draw(edge, options)).collect();
///     Ok(chains?.iter().map(OwnedChain::length).sum())
/// }
/// # let mut part = Part::new([0.0; 3], [1.0; 3]);
/// # let line = part.line([0.0; 3], [1.0, 0.0, 0.0]).unwrap();
/// # let (start, end) = (part.point([0.0; 3]), part.point([1.0, 0.0, 0.0]));
/// # let edge = part.edge(line, start, end, 0.0..1.0);
/// # assert_eq!(cut_length(part, &[edge, edge], &Options::default()), Ok(2.0));
/// ```
#[derive(Debug, Clone, PartialEq)]
pub struct OwnedChain {
    floats: Box<[f64]>,
    way: Way,
}

impl OwnedChain {
    /// The same chain, lent.
    pub fn as_chain(&self) -> Chain<'_> {
        Chain { floats: &self.floats, way: self.way }
    }

    /// The way in which it was got.
    pub fn way(&self) -> Way {
        self.way
    }

    /// Its points.
    pub fn points(&self) -> &[Point] {
        self.as_chain().points()
    }

    /// Its length, as [`Chain::length`].
    pub fn length(&self) -> f64 {
        self.as_chain().length()
    }

    /// A walk from its start.
    pub fn forwards(&self) -> Walk<'_> {
        self.as_chain().forwards()
    }

    /// A walk from its end.
    pub fn backwards(&self) -> Walk<'_> {
        self.as_chain().backwards()
    }
}

impl Deref for OwnedChain {
    type Target = [Point];

    fn deref(&self) -> &[Point] {
        self.points()
    }
}

/// A walk over the whole points of a chain. A step with no point left keeps its place.
///
/// ```
/// use cornsunset::Walk;
/// let floats = [0.0, 0.0, 0.0, 0.0, 7.0, 0.0, 0.0, 1.0];
/// let mut walk = Walk::new(&floats, true);
/// assert!(walk.by_ref().map(|point| point.x()).eq([0.0, 7.0]));
/// walk.turn();
/// assert!(walk.map(|point| point.x()).eq([7.0, 0.0]));
/// ```
#[derive(Debug, Clone)]
pub struct Walk<'a> {
    chain: &'a [f64],
    at: usize,
    forward: bool,
}

impl<'a> Walk<'a> {
    /// A walk over floats that are read as points, from their start if forward, else from their end.
    pub fn new(chain: &'a [f64], forward: bool) -> Walk<'a> {
        // SAFETY: a slice is lent for the call.
        let at = unsafe { raw::cs_start(chain.as_ptr(), chain.len(), forward) };
        Walk { chain, at, forward }
    }

    /// Turns round: the next step passes the last point again.
    pub fn turn(&mut self) {
        self.forward = !self.forward;
    }
}

impl Iterator for Walk<'_> {
    type Item = Point;

    fn next(&mut self) -> Option<Point> {
        let (chain, mut point) = (self.chain, Point::ORIGIN);
        let floats: *mut f64 = (&raw mut point).cast();
        // SAFETY: a slice is lent for the call, and two values of its own to write; the point is WIDTH floats.
        let passed = unsafe { raw::cs_step(chain.as_ptr(), chain.len(), self.forward, &mut self.at, floats) };
        (passed == 1).then_some(point)
    }
}
