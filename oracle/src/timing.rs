//! How long a draw takes, in process.

use crate::draw::{Drawn, draw, reference, resolved, road, room, solid};
use crate::sheet::{LENT, Sheet, read};
use road::mode::Mode;
use std::hint::black_box;
use std::time::{Duration, Instant};

/// A line for one sheet of a batch: its answer, ns per draw, and ns of the road alone.
///
/// The draw is the whole entry point: causes, tables turned into the Rust's curves, the road, both
/// buffers. The road alone is `discretise_all`, with cause 11, on a solid that stands ready.
pub fn line(number: usize, bytes: &[u8]) -> String {
    let Some(sheet) = read(bytes) else {
        return format!("{number} refusal 10\n");
    };
    let mut first = vec![0.0; LENT];
    let mut second = first.clone();
    let tables = sheet.tables.lent();
    let mut draws =
        || draw(black_box(&tables), &sheet.edge, &sheet.options, &mut first, &mut second);
    let drawn = draws();
    let answer = match drawn {
        Drawn::Refused(number) => format!("refusal {number}"),
        Drawn::Chain(way, count) => format!("{way:?} {count}"),
    };
    let draw_ns = nanoseconds(draws);
    if matches!(drawn, Drawn::Refused(1..=7)) {
        return format!("{number} {answer} draw {draw_ns:.0}\n");
    }
    format!("{number} {answer} draw {draw_ns:.0} road {:.0}\n", road_ns(&sheet))
}

fn road_ns(sheet: &Sheet) -> f64 {
    let tables = sheet.tables.lent();
    let solid = solid(&tables, &sheet.edge);
    let reference = reference(&tables, &sheet.edge);
    let resolved = resolved(&sheet.options);
    let room = room(LENT, LENT);
    nanoseconds(|| road(black_box(&solid), &resolved, Mode::Reference, &reference, room))
}

/// The least mean of many short runs: another program's turn on the machine spoils few of them.
fn nanoseconds<T>(mut work: impl FnMut() -> T) -> f64 {
    const RUN: Duration = Duration::from_millis(2);
    const RUNS: usize = 25;
    let mut run = |times: u32| {
        let start = Instant::now();
        (0..times).for_each(|_| {
            black_box(work());
        });
        start.elapsed()
    };
    let mut times = 1;
    while run(times) < RUN {
        times *= 2;
    }
    let least = (0..RUNS).map(|_| run(times)).min().expect("more runs than none");
    least.as_nanos() as f64 / times as f64
}
