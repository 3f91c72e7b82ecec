//! Reads document 01's program input, runs the published overlay, prints its listing.
use crate::mefikit;
use mefikit::geometry::{Intersection, Intersections, PointId, Polygon, Segment};
use mefikit::mesh::{ElementType, UMesh};
use mefikit::tools::{OverlayOperation, Overlayable, intersect_2d1d, spatial_index};
use ndarray as nd;
use std::fmt::Write as _;
use std::io::{Read, Write as _};
use std::panic::{AssertUnwindSafe, catch_unwind};

type Coords = Vec<f64>;
type Cells = Vec<(u8, usize, Vec<usize>)>;

fn umesh(coords: Coords, cells: &Cells) -> Option<UMesh> {
    let n = coords.len() / 2;
    let coords = nd::Array2::from_shape_vec((n, 2), coords).ok()?.into_shared();
    let mut m = UMesh::new(coords);
    for (kind, family, nodes) in cells {
        m.add_element(kind_of(*kind)?, nodes, Some(*family));
    }
    Some(m)
}

fn kind_of(kind: u8) -> Option<ElementType> {
    Some(match kind {
        1 => ElementType::SEG2,
        5 => ElementType::TRI3,
        8 => ElementType::QUAD4,
        11 => ElementType::PGON,
        _ => return None,
    })
}

fn run(op: u32, subject: UMesh, cutter: UMesh) -> UMesh {
    let op = match op {
        0 => OverlayOperation::Imprint,
        1 => OverlayOperation::Union,
        2 => OverlayOperation::Intersection,
        3 => OverlayOperation::Difference,
        4 => OverlayOperation::SymmetricDifference,
        _ => return intersect_2d1d(&subject, cutter),
    };
    subject.overlay(cutter, op)
}

fn listing(m: &UMesh, given: usize, counts: bool) -> String {
    let mut s = String::from("(overlay\n");
    let c = m.coords();
    for i in 0..c.nrows() {
        let _ = writeln!(s, "(node {:016x} {:016x})", c[(i, 0)].to_bits(), c[(i, 1)].to_bits());
    }
    let mut pieces = 0;
    for e in m.elements() {
        pieces += 1;
        let _ = write!(s, "(cell {} {}", e.element_type as u8, e.family);
        for n in e.connectivity {
            let _ = write!(s, " {n}");
        }
        s.push_str(")\n");
    }
    if counts {
        let _ = writeln!(s, "(count {} {})", pieces, c.nrows() - given);
    }
    s.push_str(")\n");
    s
}

/// The text of a caught panic, on one line; the walk's todo! by its short name.
fn panic_text(p: Box<dyn std::any::Any + Send>) -> String {
    let t = if let Some(s) = p.downcast_ref::<String>() {
        s.clone()
    } else if let Some(s) = p.downcast_ref::<&str>() {
        s.to_string()
    } else {
        "without text".to_string()
    };
    if t.contains("no next dart to follow") {
        return "no next dart".to_string();
    }
    t.replace('\n', " ")
}

fn guarded<R>(f: impl FnOnce() -> R) -> Result<R, String> {
    catch_unwind(AssertUnwindSafe(f)).map_err(panic_text)
}

// ------------------------------------------------------------------ reading

struct Words<'a> {
    it: std::iter::Peekable<std::vec::IntoIter<&'a str>>,
}

fn words(text: &str) -> Vec<&str> {
    let mut out = Vec::new();
    let mut rest = text;
    while let Some(i) = rest.find(|c: char| !c.is_whitespace()) {
        rest = &rest[i..];
        let b = rest.as_bytes()[0];
        let end = if b == b'(' || b == b')' {
            1
        } else {
            rest.find(|c: char| c.is_whitespace() || c == '(' || c == ')').unwrap_or(rest.len())
        };
        out.push(&rest[..end]);
        rest = &rest[end..];
    }
    out
}

impl<'a> Words<'a> {
    fn is(&mut self, w: &str) -> Option<()> {
        (self.it.next()? == w).then_some(())
    }
    fn num<T: std::str::FromStr>(&mut self) -> Option<T> {
        self.it.next()?.parse().ok()
    }
    fn float(&mut self) -> Option<f64> {
        Some(f64::from_bits(u64::from_str_radix(self.it.next()?, 16).ok()?))
    }
    fn mesh(&mut self) -> Option<(Coords, Cells)> {
        self.is("(")?;
        self.is("mesh")?;
        let mut coords = Vec::new();
        let mut cells = Vec::new();
        loop {
            match self.it.next()? {
                ")" => return Some((coords, cells)),
                "(" => {}
                _ => return None,
            }
            match self.it.next()? {
                "node" => {
                    coords.push(self.float()?);
                    coords.push(self.float()?);
                    let _layer: u32 = self.num()?;
                    self.is(")")?;
                }
                "cell" => {
                    let kind = self.num()?;
                    let family = self.num()?;
                    let mut nodes = Vec::new();
                    while *self.it.peek()? != ")" {
                        nodes.push(self.num()?);
                    }
                    self.it.next();
                    cells.push((kind, family, nodes));
                }
                _ => return None,
            }
        }
    }
    fn overlay(&mut self) -> Option<(u32, (Coords, Cells), (Coords, Cells))> {
        self.is("(")?;
        self.is("overlay")?;
        let op: u32 = self.num()?;
        let _m: u64 = self.num()?;
        let a = self.mesh()?;
        let b = self.mesh()?;
        self.is(")")?;
        Some((op, a, b))
    }
}

fn one(op: u32, a: (Coords, Cells), b: (Coords, Cells), counts: bool) -> String {
    let given = (a.0.len() + b.0.len()) / 2;
    let got = guarded(|| {
        let subject = umesh(a.0, &a.1)?;
        let cutter = umesh(b.0, &b.1)?;
        Some(run(op, subject, cutter))
    });
    match got {
        Ok(Some(m)) => listing(&m, given, counts),
        Ok(None) => "(unread)\n".to_string(),
        Err(t) => format!("(panic {t})\n"),
    }
}

// ------------------------------------------------------------------ geometry by itself

fn name(p: PointId) -> &'static str {
    match p {
        PointId::P1 => "P1",
        PointId::P2 => "P2",
        PointId::P3 => "P3",
        PointId::P4 => "P4",
    }
}

fn meet(v: &[f64]) -> String {
    let s = Segment::new([v[0], v[1]], [v[2], v[3]]);
    let t = Segment::new([v[4], v[5]], [v[6], v[7]]);
    match guarded(|| s.intersect(t)) {
        Err(e) => format!("(panic {e})"),
        Ok(Intersections::None) => "none".into(),
        Ok(Intersections::One(Intersection::Existing(p))) => name(p).into(),
        Ok(Intersections::One(Intersection::New(c))) => {
            format!("new {:016x} {:016x}", c[0].to_bits(), c[1].to_bits())
        }
        Ok(Intersections::Two(_)) => "two".into(),
        Ok(Intersections::Segment([a, b])) => format!("{},{}", name(a), name(b)),
    }
}

fn pairs(v: &[f64]) -> Vec<[f64; 2]> {
    v.chunks_exact(2).map(|c| [c[0], c[1]]).collect()
}

fn inner(v: &[f64]) -> String {
    match guarded(|| Polygon::unknown(pairs(v)).strict_interior_point()) {
        Err(e) => format!("(panic {e})"),
        Ok(None) => "none".into(),
        Ok(Some(p)) => format!("{:016x} {:016x}", p[0].to_bits(), p[1].to_bits()),
    }
}

/// Point first, then the polygon in any direction.
fn inside(v: &[f64]) -> String {
    match guarded(|| Polygon::unknown(pairs(&v[2..])).into_ccw().contains_stable(&[v[0], v[1]])) {
        Err(e) => format!("(panic {e})"),
        Ok(b) => b.to_string(),
    }
}

/// Point first, then the polygon as it is: `Polygon::contains`.
fn holds(v: &[f64]) -> String {
    match guarded(|| Polygon::unknown(pairs(&v[2..])).contains(&[v[0], v[1]])) {
        Err(e) => format!("(panic {e})"),
        Ok(b) => b.to_string(),
    }
}

/// Centre first, then the neighbours; prints their places (from 0) as sorted.
fn around(v: &[f64]) -> String {
    let p = pairs(v);
    match guarded(|| mefikit::probe::cut::sorted_around(p[0], &p[1..])) {
        Err(e) => format!("(panic {e})"),
        Ok(l) => l.iter().map(|n| (n - 1).to_string()).collect::<Vec<_>>().join(" "),
    }
}

fn orient(v: &[f64]) -> String {
    let c = |i: usize| robust::Coord { x: v[i], y: v[i + 1] };
    format!("{}", robust::orient2d(c(0), c(2), c(4)) as i32)
}

fn geometry(text: &str) -> String {
    let mut out = String::new();
    for line in text.lines() {
        let mut w = line.split_whitespace();
        let Some(what) = w.next() else { continue };
        let v: Option<Vec<f64>> =
            w.map(|h| u64::from_str_radix(h, 16).ok().map(f64::from_bits)).collect();
        let a = match (what, v) {
            ("meet", Some(v)) if v.len() == 8 => meet(&v),
            ("inner", Some(v)) if v.len() % 2 == 0 => inner(&v),
            ("inside", Some(v)) if v.len() % 2 == 0 && v.len() >= 2 => inside(&v),
            ("holds", Some(v)) if v.len() % 2 == 0 && v.len() >= 2 => holds(&v),
            ("around", Some(v)) if v.len() % 2 == 0 && v.len() >= 2 => around(&v),
            ("orient", Some(v)) if v.len() == 6 => orient(&v),
            _ => "(unread)".into(),
        };
        out.push_str(&a);
        out.push('\n');
    }
    out
}

// ------------------------------------------------------------------ K1 to K10

const K1: &str = "(overlay 0 9\n(mesh\n(node 0000000000000000 0000000000000000 0)\n(node 4000000000000000 0000000000000000 0)\n(node 4000000000000000 4000000000000000 0)\n(node 0000000000000000 4000000000000000 0)\n(cell 8 7 0 1 2 3)\n)\n(mesh\n(node 3ff0000000000000 bff0000000000000 0)\n(node 4008000000000000 bff0000000000000 0)\n(node 4008000000000000 4008000000000000 0)\n(node 3ff0000000000000 4008000000000000 0)\n(cell 11 0 0 1 2 3)\n)\n)\n";
const K1_TAIL: &str = "(node 3ff0000000000000 0000000000000000)\n(node 3ff0000000000000 4000000000000000)\n(cell 11 7 3 0 8 9)\n(cell 11 7 9 8 1 2)\n(count 2 2)\n)\n";
const K10: &str = "(overlay 5 9\n(mesh\n(node 0000000000000000 0000000000000000 0)\n(node 4000000000000000 0000000000000000 0)\n(node 4000000000000000 4000000000000000 0)\n(node 0000000000000000 4000000000000000 0)\n(cell 8 7 0 1 2 3)\n)\n(mesh\n(node 3ff0000000000000 bff0000000000000 0)\n(node 3ff0000000000000 3ff0000000000000 0)\n(cell 1 0 0 1)\n)\n)\n";

fn forms(text: &str, counts: bool) -> String {
    let mut w = Words { it: words(text).into_iter().peekable() };
    let mut out = String::new();
    while w.it.peek().is_some() {
        match w.overlay() {
            Some((op, a, b)) => out.push_str(&one(op, a, b, counts)),
            None => {
                out.push_str("(unread)\n");
                break;
            }
        }
    }
    out
}

/// The two meshes of each form joined (nodes and, within a kind, cells of the first
/// before those of the second), then the published `merge_nodes` with the distance given as bits.
fn joined(text: &str, eps: f64) -> String {
    let mut w = Words { it: words(text).into_iter().peekable() };
    let mut out = String::new();
    while w.it.peek().is_some() {
        let Some((_, a, b)) = w.overlay() else {
            out.push_str("(unread)\n");
            break;
        };
        let shift = a.0.len() / 2;
        let mut coords = a.0;
        coords.extend(b.0);
        let mut cells = a.1;
        cells.extend(b.1.into_iter().map(|(k, f, n)| (k, f, n.iter().map(|n| n + shift).collect())));
        let got = guarded(|| {
            let mut m = umesh(coords, &cells)?;
            mefikit::tools::snap::merge_nodes(&mut m, eps);
            Some(m)
        });
        match got {
            Ok(Some(m)) => out.push_str(&listing(&m, 0, false).replace("(overlay", "(mesh")),
            Ok(None) => out.push_str("(unread)\n"),
            Err(t) => out.push_str(&format!("(panic {t})\n")),
        }
    }
    out
}

fn selftest() -> bool {
    let mut bad = 0;
    let mut check = |k: &str, got: String, want: String| {
        let ok = got == want;
        println!("{k}: {}", if ok { "as document 01" } else { "DIFFERS" });
        if !ok {
            bad += 1;
            println!("got\n{got}\nwant\n{want}");
        }
    };
    let mut want1 = String::from("(overlay\n");
    for l in K1.lines().filter(|l| l.starts_with("(node")) {
        want1.push_str(&l.replace(" 0)", ")"));
        want1.push('\n');
    }
    want1.push_str(K1_TAIL);
    check("K1", forms(K1, true), want1);
    check(
        "K2",
        meet(&[0., 0., 2., 0., 1., 3., 1., -1.]),
        format!("new {:016x} {:016x}", 1f64.to_bits(), 0f64.to_bits()),
    );
    check("K3", meet(&[0., 0., 2., 0., 1., 0., 3., 0.]), "P3,P2".into());
    check("K4", meet(&[0., 0., 1., 0., 1., 0., 2., 0.]), "none".into());
    check("K5", meet(&[1., 0., 2., 0., 0., 0., 1., 0.]), "P1,P4".into());
    check("K6", meet(&[3., 4., 3., 4., 3., 4., 3., 4.]), "none".into());
    check("K6 (apart)", meet(&[0., 0., 0., 0., 3., 4., 3., 4.]), "none".into());
    check("K7", meet(&[0., 0., 2., 0., 1., 0., 1., 2.]), "P3".into());
    check("K8", around(&[0., 0., -1., 0., 0., 1., 1., 0., 0., -1.]), "0 1 2 3".into());
    check("K8 (turned)", around(&[0., 0., 0., -1., 1., 0., 0., 1., -1., 0.]), "3 2 1 0".into());
    check(
        "K9",
        inner(&[0., 2., 0., 0., 1., 0., 1., 2.]),
        format!("{:016x} {:016x}", 0.5f64.to_bits(), 1f64.to_bits()),
    );
    check("K10", forms(K10, false), "(panic no next dart)\n".into());
    bad == 0
}

// ------------------------------------------------------------------ bench

/// n x n cells of side 1, as QUAD4 (kind 8) or PGON (kind 11), turned and moved.
fn grid_mesh(n: usize, side: f64, kind: u8, angle: f64, at: [f64; 2]) -> (Coords, Cells) {
    let (s, c) = angle.sin_cos();
    let mut coords = Vec::with_capacity(2 * (n + 1) * (n + 1));
    for j in 0..=n {
        for i in 0..=n {
            let (x, y) = (i as f64 * side, j as f64 * side);
            coords.push(at[0] + (c * x - s * y));
            coords.push(at[1] + (s * x + c * y));
        }
    }
    let mut cells = Vec::with_capacity(n * n);
    for j in 0..n {
        for i in 0..n {
            let a = j * (n + 1) + i;
            cells.push((kind, (j * n + i) % 7, vec![a, a + 1, a + n + 2, a + n + 1]));
        }
    }
    (coords, cells)
}

fn fnv(m: &UMesh) -> u64 {
    let mut h = 0xcbf29ce484222325u64;
    let mut add = |v: u64| {
        for b in v.to_le_bytes() {
            h = (h ^ b as u64).wrapping_mul(0x100000001b3);
        }
    };
    for v in m.coords().iter() {
        add(v.to_bits());
    }
    for e in m.elements() {
        add(e.element_type as u64);
        add(*e.family as u64);
        for n in e.connectivity {
            add(*n as u64);
        }
    }
    h
}

#[repr(C)]
struct Timespec {
    s: i64,
    ns: i64,
}
unsafe extern "C" {
    fn clock_gettime(clock: i32, t: *mut Timespec) -> i32;
}
/// Processor seconds of this process (the machine may be busy with other work).
fn cpu() -> f64 {
    let mut t = Timespec { s: 0, ns: 0 };
    unsafe { clock_gettime(2, &mut t) };
    t.s as f64 + t.ns as f64 * 1e-9
}

fn bench(args: &[String]) {
    let sizes: Vec<(usize, usize)> = if args.len() >= 2 {
        args.chunks_exact(2).map(|c| (c[0].parse().unwrap(), c[1].parse().unwrap())).collect()
    } else {
        vec![(10, 10), (20, 20), (50, 50), (100, 100), (127, 127), (200, 200)]
    };
    println!("subject n x n QUAD4 of side 1; cutter m x m PGON of side 0.9n/m, turned by 0.3, moved; Imprint");
    println!("index  n    m    cells   cuts    pieces  new      best elapsed  best cpu   answer");
    for (n, m) in sizes {
        for grid in [false, true] {
            if !grid && n > 127 {
                continue;
            }
            spatial_index::use_grid(grid);
            let a = grid_mesh(n, 1.0, 8, 0.0, [0.0, 0.0]);
            let b = grid_mesh(m, 0.9 * n as f64 / m as f64, 11, 0.3, [0.25 * n as f64, 0.0173]);
            let given = (a.0.len() + b.0.len()) / 2;
            let subject = umesh(a.0, &a.1).unwrap();
            let cutter = umesh(b.0, &b.1).unwrap();
            let reps = if n <= 50 { 10 } else { 4 };
            let mut best = f64::INFINITY;
            let mut best_cpu = f64::INFINITY;
            let mut last = None;
            for _ in 0..reps {
                let cutter = cutter.clone();
                let t = std::time::Instant::now();
                let c = cpu();
                let r = guarded(|| subject.overlay(cutter, OverlayOperation::Imprint));
                let d = t.elapsed().as_secs_f64();
                best = best.min(d);
                best_cpu = best_cpu.min(cpu() - c);
                last = Some(r);
            }
            let way = if grid { "grid " } else { "brute" };
            match last.unwrap() {
                Ok(r) => println!(
                    "{way}  {n:<4} {m:<4} {:<7} {:<7} {:<7} {:<8} {:<13.4} {:<10.4} {:016x}",
                    n * n,
                    m * m,
                    r.num_elements(),
                    r.coords().nrows() - given,
                    best,
                    best_cpu,
                    fnv(&r)
                ),
                Err(e) => println!("{way}  {n:<4} {m:<4} (panic {e})"),
            }
        }
    }
}

/// The input text of a bench case, for another implementation.
fn bench_text(n: usize, m: usize) -> String {
    let a = grid_mesh(n, 1.0, 8, 0.0, [0.0, 0.0]);
    let b = grid_mesh(m, 0.9 * n as f64 / m as f64, 11, 0.3, [0.25 * n as f64, 0.0173]);
    let mut s = String::from("(overlay 0 65536\n");
    for (coords, cells) in [a, b] {
        s.push_str("(mesh\n");
        for c in coords.chunks_exact(2) {
            let _ = writeln!(s, "(node {:016x} {:016x} 0)", c[0].to_bits(), c[1].to_bits());
        }
        for (k, f, nodes) in cells {
            let _ = write!(s, "(cell {k} {f}");
            for n in nodes {
                let _ = write!(s, " {n}");
            }
            s.push_str(")\n");
        }
        s.push_str(")\n");
    }
    s.push_str(")\n");
    s
}

pub fn main() {
    std::panic::set_hook(Box::new(|_| {}));
    let args: Vec<String> = std::env::args().skip(1).collect();
    let input = || {
        let mut s = String::new();
        std::io::stdin().read_to_string(&mut s).expect("text on standard input");
        s
    };
    let out = match args.first().map(|s| s.as_str()) {
        None => forms(&input(), false),
        Some("count") => forms(&input(), true),
        Some("geom") => geometry(&input()),
        Some("join") => {
            let eps = u64::from_str_radix(&args[1], 16).expect("16 hexadecimal digits");
            joined(&input(), f64::from_bits(eps))
        }
        Some("grid") => {
            spatial_index::use_grid(true);
            forms(&input(), false)
        }
        Some("selftest") => std::process::exit(if selftest() { 0 } else { 1 }),
        Some("bench") => return bench(&args[1..]),
        Some("bench-text") => bench_text(args[1].parse().unwrap(), args[2].parse().unwrap()),
        Some(_) => {
            eprintln!("oracle [count|grid|geom|join HEXDISTANCE|selftest|bench [n m]...|bench-text n m] < input");
            std::process::exit(2);
        }
    };
    std::io::stdout().write_all(out.as_bytes()).unwrap();
}
