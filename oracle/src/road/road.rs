//! The road from an edge to its chain: the six supplied files at their own module names, patched.

// The two published crates are one here, and edge.rs asks rayon for `par_iter` alone.
extern crate self as cad_ir;
extern crate self as rayon;

pub mod asks;
pub mod brep;
pub mod edge;
pub mod eval {
    pub mod curve;
    pub mod nurbs;
}
pub mod knots;
#[cfg(marked)]
pub mod marks;
pub mod math;
pub mod mode;
pub mod options;
pub mod steps;

/// Stands for `rayon::prelude`: the same items, one after another.
pub mod prelude {
    pub trait ParallelSlice<T> {
        fn par_iter(&self) -> std::slice::Iter<'_, T>;
    }

    impl<T> ParallelSlice<T> for Vec<T> {
        fn par_iter(&self) -> std::slice::Iter<'_, T> {
            self.iter()
        }
    }
}
