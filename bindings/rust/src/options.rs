//! Angles, how finely to draw, and in which mode.
use crate::numbered::numbered;
use crate::raw;

/// An angle, made by [`Angle::degrees`] or [`Angle::radians`]: a bare number is none.
///
/// ```
/// use cornsunset::Angle;
/// assert_eq!(Angle::degrees(360.0), Angle::FULL_TURN);
/// assert!(Angle::radians(8.0).is_clamped() && !Angle::degrees(8.0).is_clamped());
/// ```
///
/// ```compile_fail,E0308
/// let options = cornsunset::Options { angle: 8.0, ..Default::default() };
/// ```
#[derive(Debug, Clone, Copy, PartialEq, PartialOrd)]
pub struct Angle(f64);

impl Angle {
    /// No angle: where a circle begins.
    pub const ZERO: Angle = Angle(0.0);

    /// Once round.
    pub const FULL_TURN: Angle = Angle(std::f64::consts::TAU);

    /// So many degrees.
    pub fn degrees(x: f64) -> Angle {
        // SAFETY: a number for a number.
        Angle(unsafe { raw::cs_degrees(x) })
    }

    /// So many radians.
    pub const fn radians(x: f64) -> Angle {
        Angle(x)
    }

    /// In radians.
    pub const fn to_radians(self) -> f64 {
        self.0
    }

    /// Whether drawing changes it where it stands in [`Options`], as it does below 1e-4 and above π: a caller can warn.
    pub fn is_clamped(self) -> bool {
        // SAFETY: a bool for a number.
        unsafe { raw::cs_is_clamped(self.0) }
    }
}

/// How finely to draw. `deflection` and `angle` are what a span is tested by, and no bounds on the chain: what a curve does
/// between the places that are looked at is not seen, and a span with no depth left is not tested again.
///
/// ```
/// use cornsunset::{Angle, Options};
/// let options = Options { angle: Angle::degrees(20.0), scale: 470.0, ..Options::default() };
/// assert_eq!((options.deflection, options.relative), (0.0004, 1));
/// ```
#[derive(Debug, Clone, Copy, PartialEq)]
pub struct Options {
    /// The sag: how far a span's chord may lie from the curve at the span's middle parameter. A length, unless relative is 1 and
    /// there is a scale: then this fraction of the scale for an edge whose extent is a quarter of the scale up to all of it, of
    /// its own extent for a larger edge, and for a smaller one four times this fraction of its extent, but never less than an
    /// eighth of what it is for the whole.
    pub deflection: f64,
    /// Where a curve is bisected, how far the tangents at a span's two ends may turn from each other; on a circle or an ellipse
    /// the largest step of its parameter, 1e-3 at least, and no tangent is looked at, unless these even steps miss the sag: then it
    /// is bisected too. Held to 1e-4 radians to π.
    pub angle: Angle,
    /// 0 or 1.
    pub relative: u32,
    /// The least number of segments that an edge is sampled with, before points are merged; a chord has one. 0 counts as 1. Where
    /// halving gives fewer, so many even steps of the parameter are drawn instead, and these are not tested. It has no upper end
    /// but the room: n segments need n + 1 points.
    pub segments: u64,
    /// How often a span may be halved, where a curve is bisected. Held to 1 to 24.
    pub depth: u32,
    /// The size of the part, in its own unit of length, as the diagonal of its box; not finite or not above zero, it is none,
    /// and the deflection is a length whatever `relative` says.
    pub scale: f64,
}

impl Options {
    fn preset(store: raw::Preset) -> Options {
        let mut o = Options { deflection: 0.0, angle: Angle(0.0), relative: 0, segments: 0, depth: 0, scale: 0.0 };
        // SAFETY: six numbers of its own to write.
        unsafe {
            store(&mut o.deflection, &mut o.angle.0, &mut o.relative, &mut o.segments, &mut o.depth, &mut o.scale);
        }
        o
    }

    /// For a quick preview: 0.01 of the scale and 35 degrees. Set the scale before drawing.
    pub fn draft() -> Options {
        Options::preset(raw::cs_flat_draft)
    }

    /// For close inspection: 0.0001 of the scale and 4 degrees. Set the scale before drawing.
    pub fn fine() -> Options {
        Options::preset(raw::cs_flat_fine)
    }
}

/// 0.0004 of the scale and 8 degrees. Set the scale before drawing.
impl Default for Options {
    fn default() -> Options {
        Options::preset(raw::cs_flat_default)
    }
}

numbered! {
    /// What a lost range means, and where a composite breaks. It stands beside the options, and is none of them: whatever draws
    /// by a name that ends in `_in_mode` takes one, and all else draws in the reference's.
    ///
    /// ```
    /// # use cornsunset::{Mode, Options, Part, Refusal, Way};
    /// // A dish of focal distance 250 and 800 across, of which the range was lost.
    /// let mut part = Part::new([0.0, -400.0, 0.0], [160.0, 400.0, 0.0]);
    /// let dish = part.parabola([0.0; 3], [0.0, 0.0, 1.0], [1.0, 0.0, 0.0], 250.0)?;
    /// let (start, end) = (part.point([160.0, -400.0, 0.0]), part.point([160.0, 400.0, 0.0]));
    /// let profile = part.edge(dish, start, end, f64::NAN..f64::NAN);
    /// let part = part.check()?;
    ///
    /// let options = Options { deflection: 0.05, relative: 0, depth: 20, ..Options::default() };
    /// assert_eq!(part.draw(&profile, &options), Err(Refusal::NoRoom));
    /// let chain = part.draw_in_mode(&profile, &options, Mode::Strict)?;
    /// assert_eq!((chain.way(), chain.length()), (Way::Chord, 800.0));
    /// # Ok::<(), Box<dyn std::error::Error>>(())
    /// ```
    #[derive(Default)]
    Mode {
        /// The default: the chain is that of the Rust from which the library was rewritten, bit for bit.
        #[default]
        Reference = 0,
        /// Two things differ from `Reference`, and nothing else does.
        ///
        /// A parabola or a hyperbola whose range is lost (not finite, or not rising) has no real domain. Where it is the edge's
        /// own row, and not under a trim, which has a range of its own, the chain is the chord of the edge's vertices:
        /// [`Way::Chord`](crate::Way::Chord), in the first buffer, with the parameters lo and hi, their bits and all, whatever
        /// the sense. Repair does not touch it, and it is refused neither with 8 nor with 11.
        ///
        /// A composite of n segments, or a trim of one, breaks where its segments meet: at each of the whole numbers 1 to n - 1
        /// that lies inside the range by more than 1e-9 of its width, and none is merged with another. In `Reference` the breaks
        /// are the lo and hi of its segments, taken for parameters of the composite. In both a break is dropped where three places
        /// between those beside it show no bend, and composites inside segments add none.
        ///
        /// No refusal is new, and 1 to 7 are the same in both.
        Strict = 1,
    }
}
