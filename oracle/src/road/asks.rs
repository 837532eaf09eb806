//! Cause 11: the parameters that a hyperbola is asked for. Evaluation itself is total; but while an edge is drawn, the first
//! parameter beyond the limit ends the drawing, wherever on the road it is asked for.

use std::cell::Cell;
use std::panic::{AssertUnwindSafe, catch_unwind, resume_unwind};

/// The largest magnitude that a hyperbola may be asked for.
const MOST: f64 = 100.0;

/// What a drawing is unwound with.
struct Beyond;

thread_local! {
    static DRAWING: Cell<bool> = const { Cell::new(false) };
    static FARTHEST: Cell<f64> = const { Cell::new(0.0) };
}

/// A hyperbola is asked for its point or its derivative at `t`. NaN is not beyond.
pub fn asked(t: f64) {
    #[cfg(marked)]
    {
        crate::marks::mark("equal: a hyperbola's parameter and 100", t.abs() == MOST);
        crate::marks::mark("fact: a hyperbola asked for NaN", t.is_nan());
    }
    if t.abs() > MOST {
        beyond(t);
    }
}

#[cold]
fn beyond(t: f64) {
    if DRAWING.get() {
        #[cfg(marked)]
        crate::marks::mark(crate::marks::place(), true);
        resume_unwind(Box::new(Beyond)); // no message, as a panic would have
    }
    FARTHEST.set(FARTHEST.get().max(t.abs()));
}

/// What draws an edge, ended by 11 where a hyperbola is asked for a parameter beyond the limit.
pub fn drawing<T>(draw: impl FnOnce() -> Result<T, u32>) -> Result<T, u32> {
    DRAWING.set(true);
    let drawn = catch_unwind(AssertUnwindSafe(draw));
    DRAWING.set(false);
    match drawn {
        Ok(answer) => answer,
        Err(ended) if ended.is::<Beyond>() => Err(11),
        Err(panic) => resume_unwind(panic),
    }
}

/// The largest magnitude beyond the limit that was asked for outside any drawing since this was last called, if any was.
pub fn farthest() -> Option<f64> {
    Some(FARTHEST.take()).filter(|t| *t > 0.0)
}
