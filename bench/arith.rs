// Times root against f64::sqrt, and sin_cos against the same steps in Rust, inlined and behind a
// call, in one run.
//
// Latency: a chain of calls in which each argument waits for the answer before. Throughput: calls
// that do not wait for each other. Each figure is the least of many short rounds, in which the
// functions take turns, so a figure is not the noise of a busy machine. The chain's own work, timed
// with a function that gives its argument back, is taken off the latencies.
use std::hint::black_box;
use std::time::Instant;

extern "C" {
    fn cs_root(x: f64) -> f64;
    fn cs_sin_cos(t: f64, sin: &mut f64, cos: &mut f64);
}

const COUNT: usize = 4096;
const ROUNDS: usize = 400;

// a name and what it calls
type Case = (&'static str, fn(f64) -> f64);

#[inline(never)]
fn nothing(x: f64) -> f64 {
    x
}

#[inline(never)]
fn root(x: f64) -> f64 {
    unsafe { cs_root(x) }
}

#[inline(never)]
fn rust_sqrt(x: f64) -> f64 {
    x.sqrt()
}

#[inline(never)]
fn sin_cos(t: f64) -> f64 {
    let (mut s, mut c) = (0.0, 0.0);
    unsafe { cs_sin_cos(t, &mut s, &mut c) };
    s + c
}

// The Rust inlined here: it makes no call and stores nothing, as a Rust program would have it.
#[inline(never)]
fn inlined_sin_cos(t: f64) -> f64 {
    let (s, c) = fixed_steps(t);
    s + c
}

// The Rust called as the library is: a call of its own, which stores both answers.
#[inline(never)]
fn called_sin_cos(t: f64) -> f64 {
    let (mut s, mut c) = (0.0, 0.0);
    stored_steps(t, &mut s, &mut c);
    s + c
}

#[inline(never)]
extern "C" fn stored_steps(t: f64, sin: &mut f64, cos: &mut f64) {
    (*sin, *cos) = fixed_steps(t);
}

// The steps of sin and cos: the quarter turns k, what is left r, the two kernels, and k mod 4.
#[inline(always)]
fn fixed_steps(t: f64) -> (f64, f64) {
    let k = (t * f64::from_bits(0x3FE45F306DC9C883) + 0.5).floor();
    let r = (t - k * f64::from_bits(0x3FF921FB54400000)) - k * f64::from_bits(0x3DD0B4611A626331);
    let z = r * r;
    let mut w = 1.0;
    for d in [272.0, 210.0, 156.0, 110.0, 72.0, 42.0, 20.0, 6.0] {
        w = 1.0 - (z / d) * w;
    }
    let s = r * w;
    let mut c = 1.0;
    for d in [240.0, 182.0, 132.0, 90.0, 56.0, 30.0, 12.0, 2.0] {
        c = 1.0 - (z / d) * c;
    }
    match k.rem_euclid(4.0) as u64 {
        0 => (s, c),
        1 => (c, -s),
        2 => (-s, -c),
        _ => (-c, s),
    }
}

// xorshift64: the same numbers in every run
struct Random(u64);

impl Random {
    fn next(&mut self) -> u64 {
        self.0 ^= self.0 << 13;
        self.0 ^= self.0 >> 7;
        self.0 ^= self.0 << 17;
        self.0
    }

    // 52 random digits, and an exponent from -16 to 15
    fn float(&mut self) -> f64 {
        let digits = self.next() >> 12;
        let field = 1007 + (self.next() >> 59);
        f64::from_bits(field << 52 | digits)
    }
}

// nanoseconds a call: the least over the rounds, for each case
fn least(cases: &[Case], round: impl Fn(fn(f64) -> f64) -> f64) -> Vec<f64> {
    let mut best = vec![f64::INFINITY; cases.len()];
    for _ in 0..ROUNDS {
        for (b, (_, call)) in best.iter_mut().zip(cases) {
            let start = Instant::now();
            black_box(round(*call));
            *b = b.min(start.elapsed().as_nanos() as f64 / COUNT as f64);
        }
    }
    best
}

// a + answer * 1e-300 is a, but has to wait for the answer
fn chained(call: fn(f64) -> f64, args: &[f64]) -> f64 {
    args.iter().fold(1.0, |x, a| a + call(x) * 1e-300)
}

fn apart(call: fn(f64) -> f64, args: &[f64]) -> f64 {
    let mut answers = [0.0; COUNT];
    for (r, a) in answers.iter_mut().zip(args) {
        *r = call(*a);
    }
    black_box(&answers)[COUNT - 1]
}

// what is timed, latency and throughput of ours and of theirs, and how theirs is described
struct Figures {
    ours: &'static str,
    theirs: &'static str,
    latency: [f64; 2],
    throughput: [f64; 2],
}

// ours against each of theirs, all of them in the same rounds
fn compare(ours: Case, theirs: &[Case], args: &[f64]) -> Vec<Figures> {
    let mut cases = vec![("", nothing as fn(f64) -> f64), ours];
    cases.extend(theirs);
    let latency = least(&cases, |call| chained(call, args));
    let throughput = least(&cases, |call| apart(call, args));
    let figures = |i: usize| Figures {
        ours: ours.0,
        theirs: cases[i].0,
        latency: [latency[1] - latency[0], latency[i] - latency[0]],
        throughput: [throughput[1], throughput[i]],
    };
    (2..cases.len()).map(figures).collect()
}

// both times and their ratio as cells of a table
fn cells([a, b]: [f64; 2], more: &str) -> String {
    let digits = if a < b { 2 } else { 1 };
    format!("{a:.1} ns | {b:.1} ns{more} | {:.*}", digits, a / b)
}

// the table of bench/README.md, then that of README.md
fn report(all: &[Figures]) {
    println!("| | latency | Rust | ratio | throughput | Rust | ratio |\n|---|---|---|---|---|---|---|");
    for f in all {
        let (x, y) = (f.ours, f.theirs);
        println!("| {x}, against {y} | {} | {} |", cells(f.latency, ""), cells(f.throughput, ""));
    }
    println!("\n| | ours | Rust | ratio |\n|---|---|---|---|");
    for f in all {
        println!("| `{}`, latency | {} |", f.ours, cells(f.latency, &format!(" ({})", f.theirs)));
        println!("| `{}`, throughput | {} |", f.ours, cells(f.throughput, ""));
    }
}

fn same(a: f64, b: f64) -> bool {
    a.to_bits() == b.to_bits() || a.is_nan() && b.is_nan()
}

// the answers are the same bits: on special values, on random patterns, and where roots come near
// a midpoint or are whole, and angles are even steps
fn agree(random: &mut Random) -> usize {
    let mut args = vec![
        0.0,
        -0.0,
        1.0,
        -1.0,
        f64::INFINITY,
        f64::NEG_INFINITY,
        f64::NAN,
    ];
    args.extend([f64::MAX, f64::MIN_POSITIVE, 5e-324]);
    args.extend((0..1_000_000).map(|_| f64::from_bits(random.next())));
    args.extend((0..2000).map(|i| f64::from_bits(0x3FEFFFFFFFFFFC18 + i)));
    args.extend((1..100_000u64).map(|i| (i * i) as f64));
    args.extend((0..1_000_000).map(|i| (i as f64 - 5e5) * 1e-3));
    for &x in &args {
        assert!(same(root(x), x.sqrt()), "root of {x:e}");
        let (mut s, mut c) = (0.0, 0.0);
        unsafe { cs_sin_cos(x, &mut s, &mut c) };
        let (rust_s, rust_c) = fixed_steps(x);
        assert!(same(s, rust_s) && same(c, rust_c), "sin_cos of {x:e}");
    }
    args.len()
}

fn main() {
    let mut random = Random(0x9E3779B97F4A7C15);
    println!("{} arguments give the same bits\n", agree(&mut random));
    let args: Vec<f64> = (0..COUNT).map(|_| random.float()).collect();
    let angles: Vec<f64> = (0..COUNT).map(|_| random.float() % 6.5).collect();
    let mut all = compare(("root", root), &[("`f64::sqrt`", rust_sqrt)], &args);
    all.extend(compare(
        ("sin_cos", sin_cos),
        &[
            ("the same steps, inlined", inlined_sin_cos),
            ("the same steps, by a call", called_sin_cos),
        ],
        &angles,
    ));
    report(&all);
}
