//! Times of the geometry layer beside the published Rust, on the same inputs in one run. Answers are compared first.
use mefikit::geometry::{Intersection, Intersections, PointId, Polygon, Segment};
use std::hint::black_box;

unsafe extern "C" {
    fn geometry_orient2d(ax: f64, ay: f64, bx: f64, by: f64, cx: f64, cy: f64) -> u8;
    fn geometry_angles(x: f64, y: f64, u: f64, v: f64) -> u8;
    #[allow(clippy::too_many_arguments)]
    fn geometry_meet(
        x1: f64, y1: f64, x2: f64, y2: f64, x3: f64, y3: f64, x4: f64, y4: f64, point: *mut f64, length: usize,
    ) -> u8;
    fn geometry_inner(
        coords: *const f64, count: usize, corners: *const u32, n: usize, point: *mut f64, length: usize,
    ) -> u8;
    fn geometry_turned(coords: *const f64, count: usize, corners: *const u32, n: usize) -> bool;
    fn geometry_contains_stable(
        coords: *const f64, count: usize, corners: *const u32, n: usize, back: bool, x: f64, y: f64,
    ) -> bool;
}

/// xorshift: the same numbers in every run.
struct Numbers(u64);

impl Numbers {
    fn next(&mut self) -> u64 {
        self.0 ^= self.0 << 13;
        self.0 ^= self.0 >> 7;
        self.0 ^= self.0 << 17;
        self.0
    }
    fn unit(&mut self) -> f64 {
        (self.next() >> 11) as f64 / (1u64 << 53) as f64
    }
    fn within(&mut self, a: f64, b: f64) -> f64 {
        a + (b - a) * self.unit()
    }
    /// Any exponent from low to high, any sign.
    fn of_size(&mut self, low: i32, high: i32) -> f64 {
        let e = low + (self.next() % (high - low + 1) as u64) as i32;
        let s = if self.next() & 1 == 0 { 1.0 } else { -1.0 };
        s * (1.0 + self.unit()) * 2f64.powi(e)
    }
}

const CASES: usize = 1024;
const ROUNDS: usize = 41;

#[repr(C)]
struct Time {
    s: i64,
    ns: i64,
}

/// Processor nanoseconds of this thread: the machine may be busy with other work.
fn now() -> f64 {
    unsafe extern "C" {
        fn clock_gettime(clock: i32, t: *mut Time) -> i32;
    }
    let mut t = Time { s: 0, ns: 0 };
    unsafe { clock_gettime(3, &mut t) };
    t.s as f64 * 1e9 + t.ns as f64
}

/// Processor nanoseconds a call, each round being the cases several times: the best and the middle of many rounds, each side in turn.
fn timed(times: usize, mut ours: impl FnMut(usize), mut rust: impl FnMut(usize)) -> [f64; 4] {
    let mut a = Vec::new();
    let mut b = Vec::new();
    for _ in 0..ROUNDS {
        let t = now();
        for i in 0..times * CASES {
            ours(i % CASES);
        }
        let u = now();
        for i in 0..times * CASES {
            rust(i % CASES);
        }
        a.push((u - t) / (times * CASES) as f64);
        b.push((now() - u) / (times * CASES) as f64);
    }
    a.sort_by(f64::total_cmp);
    b.sort_by(f64::total_cmp);
    [a[0], a[ROUNDS / 2], b[0], b[ROUNDS / 2]]
}

fn row(what: &str, t: [f64; 4], bar: &str) {
    println!("| {what} | {:.1} | {:.1} | {:.1} | {:.1} | {:.2} | {bar} |", t[0], t[1], t[2], t[3], t[0] / t[2]);
}

fn orient(what: &str, bar: &str, cases: &[[f64; 6]]) {
    let ours = |v: &[f64; 6]| unsafe { geometry_orient2d(v[0], v[1], v[2], v[3], v[4], v[5]) };
    let rust = |v: &[f64; 6]| {
        let c = |i: usize| robust::Coord { x: v[i], y: v[i + 1] };
        robust::orient2d(c(0), c(2), c(4))
    };
    for v in cases {
        assert_eq!(ours(v) as i32 - 1, rust(v).partial_cmp(&0.0).unwrap() as i32);
    }
    let t = timed(
        8,
        |i| {
            black_box(ours(black_box(&cases[i])));
        },
        |i| {
            black_box(rust(black_box(&cases[i])));
        },
    );
    row(what, t, bar);
}

fn angles(what: &str, bar: &str, cases: &[[f64; 4]]) {
    let ours = |v: &[f64; 4]| unsafe { geometry_angles(v[0], v[1], v[2], v[3]) };
    let rust = |v: &[f64; 4]| v[1].atan2(v[0]).total_cmp(&v[3].atan2(v[2])).reverse();
    let t = timed(
        8,
        |i| {
            black_box(ours(black_box(&cases[i])));
        },
        |i| {
            black_box(rust(black_box(&cases[i])));
        },
    );
    row(what, t, bar);
}

fn number(p: PointId) -> u8 {
    match p {
        PointId::P1 => 1,
        PointId::P2 => 2,
        PointId::P3 => 3,
        PointId::P4 => 4,
    }
}

fn meet(what: &str, bar: &str, cases: &[[f64; 8]]) {
    let ours = |v: &[f64; 8], p: &mut [f64; 2]| unsafe {
        geometry_meet(v[0], v[1], v[2], v[3], v[4], v[5], v[6], v[7], p.as_mut_ptr(), 2)
    };
    let rust =
        |v: &[f64; 8]| Segment::new([v[0], v[1]], [v[2], v[3]]).intersect(Segment::new([v[4], v[5]], [v[6], v[7]]));
    for v in cases {
        let mut p = [0.0; 2];
        let n = ours(v, &mut p);
        match rust(v) {
            Intersections::None => assert_eq!(n, 0),
            Intersections::One(Intersection::Existing(q)) => assert_eq!(n, number(q)),
            Intersections::One(Intersection::New(c)) => {
                assert_eq!(n, 5);
                assert_eq!(c.map(f64::to_bits), p.map(f64::to_bits));
            }
            Intersections::Two(_) => unreachable!(),
            Intersections::Segment([a, b]) => assert_eq!(n, 10 * number(a) + number(b)),
        }
    }
    let mut p = [0.0; 2];
    let t = timed(
        8,
        |i| {
            black_box(ours(black_box(&cases[i]), &mut p));
        },
        |i| {
            black_box(rust(black_box(&cases[i])));
        },
    );
    row(what, t, bar);
}

/// A star of n corners: simple, mostly not convex.
fn star(r: &mut Numbers, n: usize) -> Vec<[f64; 2]> {
    (0..n)
        .map(|i| {
            let a = (i as f64 + r.unit()) * std::f64::consts::TAU / n as f64;
            let d = r.within(0.4, 1.0);
            [3.0 + d * a.cos(), 5.0 + d * a.sin()]
        })
        .collect()
}

struct Shape {
    coords: Vec<f64>,
    corners: Vec<u32>,
    rust: Polygon<2>,
    back: bool,
    at: [f64; 2],
}

fn shapes(r: &mut Numbers, n: usize) -> Vec<Shape> {
    (0..CASES)
        .map(|_| {
            let mut p = star(r, n);
            if r.next() & 1 == 0 {
                p.reverse();
            }
            let coords: Vec<f64> = p.iter().flatten().copied().collect();
            let corners: Vec<u32> = (0..n as u32).collect();
            let back = unsafe { geometry_turned(coords.as_ptr(), coords.len(), corners.as_ptr(), corners.len()) };
            let at = [r.within(2.0, 4.0), r.within(4.0, 6.0)];
            Shape { coords, corners, rust: Polygon::unknown(p).into_ccw(), back, at }
        })
        .collect()
}

fn polygons(r: &mut Numbers, n: usize) {
    let s = shapes(r, n);
    let inner = |s: &Shape, p: &mut [f64; 2]| unsafe {
        geometry_inner(s.coords.as_ptr(), s.coords.len(), s.corners.as_ptr(), s.corners.len(), p.as_mut_ptr(), 2)
    };
    let holds = |s: &Shape| unsafe {
        geometry_contains_stable(
            s.coords.as_ptr(), s.coords.len(), s.corners.as_ptr(), s.corners.len(), s.back, s.at[0], s.at[1],
        )
    };
    for s in &s {
        assert_eq!(holds(s), s.rust.contains_stable(&s.at));
        let p = Polygon::unknown(s.coords.chunks_exact(2).map(|c| [c[0], c[1]]).collect::<Vec<_>>());
        let mut q = [0.0; 2];
        let n = inner(s, &mut q);
        assert_eq!(p.strict_interior_point().map(|p| p.map(f64::to_bits)), (n == 1).then(|| q.map(f64::to_bits)));
    }
    let mut q = [0.0; 2];
    let t = timed(
        (32 / n).max(1),
        |i| {
            black_box(inner(black_box(&s[i]), &mut q));
        },
        |i| {
            black_box(black_box(&s[i]).rust.strict_interior_point());
        },
    );
    row(&format!("`strict_interior_point`, {n} corners"), t, "");
    let t = timed(
        (32 / n).max(1),
        |i| {
            black_box(holds(black_box(&s[i])));
        },
        |i| {
            let s = black_box(&s[i]);
            black_box(s.rust.contains_stable(&s.at));
        },
    );
    row(&format!("`contains_stable`, {n} corners"), t, "");
}

fn many<const N: usize>(mut f: impl FnMut(usize) -> [f64; N]) -> Vec<[f64; N]> {
    (0..CASES).map(|i| f(i)).collect()
}

fn main() {
    let mut r = Numbers(88172645463325252);
    println!("| function | Rattle best | middle | Rust best | middle | best / best | bar |");
    println!("|---|---|---|---|---|---|---|");
    let c = many(|_| std::array::from_fn(|_| r.within(-100.0, 100.0)));
    orient("`orient2d`, close exponents: coordinates within ±100", "< 100 ns", &c);
    let c = many(|_| std::array::from_fn(|_| (r.next() % 401) as f64 / 64.0 - 3.0));
    orient("`orient2d`, close exponents: a grid of 1/64", "< 100 ns", &c);
    let c = many(|_| {
        let (x, y, u, v, t) = (r.within(-9.0, 9.0), r.within(-9.0, 9.0), r.within(-9.0, 9.0), r.within(-9.0, 9.0), r.unit());
        [x, y, u, v, x + t * (u - x), y + t * (v - y)]
    });
    orient("`orient2d`, close exponents: nearly on the line", "< 100 ns", &c);
    let c = many(|_| std::array::from_fn(|_| r.of_size(-60, 39)));
    orient("`orient2d`, far exponents: 2^-60 to 2^40", "", &c);
    let c = many(|_| std::array::from_fn(|_| r.of_size(-1000, 39)));
    orient("`orient2d`, far exponents: 2^-1000 to 2^40", "", &c);
    let c = many(|_| std::array::from_fn(|_| r.within(-1.0, 1.0)));
    angles("angle order, any two directions", "< 30 ns", &c);
    let c = many(|_| {
        let (x, y) = (r.within(-1.0, 1.0), r.within(-1.0, 1.0));
        [x, y, f64::from_bits(x.to_bits() + r.next() % 3), y]
    });
    angles("angle order, nearly one direction", "< 30 ns", &c);
    let c = many(|_| std::array::from_fn(|_| r.within(-1.0, 1.0)));
    meet("`Segment::intersect`, any two segments", "within 2 x", &c);
    let c = many(|_| {
        let (x, y) = (r.within(-1.0, 1.0), r.within(-1.0, 1.0));
        let mut d = || (r.within(0.1, 1.0), r.within(-1.0, 1.0));
        let ((a, b), (c, e)) = (d(), d());
        [x - a, y - b, x + a, y + b, x - e, y + c, x + e, y - c]
    });
    meet("`Segment::intersect`, a new point", "within 2 x", &c);
    let c = many(|_| {
        let (x, y, a, b) = (r.within(-1.0, 1.0), r.within(-1.0, 1.0), r.within(-1.0, 1.0), r.within(-1.0, 1.0));
        let mut at = || {
            let t = r.within(-1.0, 2.0);
            [x + t * a, y + t * b]
        };
        let ([u, v], [w, z]) = (at(), at());
        [x, y, x + a, y + b, u, v, w, z]
    });
    meet("`Segment::intersect`, colinear", "within 2 x", &c);
    let c = many(|i| {
        let (x, y, a, b) = (r.within(-1.0, 1.0), r.within(-1.0, 1.0), r.within(-1.0, 1.0), r.within(-1.0, 1.0));
        let (u, v) = (r.within(-1.0, 1.0), r.within(-1.0, 1.0));
        if i % 2 == 0 { [x, y, a, b, a, b, u, v] } else { [x, y, a, b, u, v, x, y] }
    });
    meet("`Segment::intersect`, an end in common", "within 2 x", &c);
    for n in [4, 8, 32, 256] {
        polygons(&mut r, n);
    }
}
