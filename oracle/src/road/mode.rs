//! The mode in which an edge is drawn. A caller chooses it beside the options.

/// How lost ranges of open conics are drawn, and where composites break.
#[derive(Debug, Clone, Copy, Default, PartialEq, Eq, Hash)]
pub enum Mode {
    /// As the published Rust does.
    #[default]
    Reference,
    /// An edge on a parabola or hyperbola without a range is a chord, and a composite breaks where its segments meet.
    Strict,
}
