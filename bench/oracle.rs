// What bench/draw.rs needs of the oracle, as a crate.
#[path = "../oracle/src/causes.rs"]
pub mod causes;
#[path = "../oracle/src/draw.rs"]
pub mod draw;
#[path = "../oracle/src/tables.rs"]
pub mod tables;

pub use draw::Drawn;
pub use road::edge::Way;
pub use tables::{Edge, Options, OwnedTables};

use road::brep::Solid;
use road::edge::Chain;
use road::math::Aabb;
use road::mode::Mode;
use road::options::Resolved;

/// The road of the published Rust.
pub fn discretise_all(solid: &Solid, options: &Resolved, reference: &Aabb, room: usize) -> Result<Vec<Chain>, u32> {
    road::edge::discretise_all(solid, options, reference, room, Mode::Reference)
}
