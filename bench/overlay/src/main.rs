//! Times of the overlay beside the published Rust, on the same inputs in one run. Answers are compared first.
//!
//!     bench-overlay [n]...            the table for n x n cells each (by default 10 20 50 100 127), and one of all operations
//!     bench-overlay alone op n k [grid]   k calls of the library alone, for a profiler; a grid of 1/2^grid metre
use mefikit::mesh::{ElementType, UMesh};
use mefikit::tools::{OverlayOperation, Overlayable, spatial_index};

#[rustfmt::skip]
unsafe extern "C" {
    fn daqwimay_overlay(
        op: u32, m: u32, grid: u32,
        sc: *const f64, sc_len: usize, sl: *const u32, sl_len: usize, sn: *const u32, sn_len: usize, se: *const u32, se_len: usize,
        sk: *const u8, sk_len: usize, sf: *const u32, sf_len: usize,
        cc: *const f64, cc_len: usize, cl: *const u32, cl_len: usize, cn: *const u32, cn_len: usize, ce: *const u32, ce_len: usize,
        ck: *const u8, ck_len: usize, cf: *const u32, cf_len: usize,
        oc: *mut f64, oc_len: usize, ol: *mut u32, ol_len: usize, on: *mut u32, on_len: usize, oe: *mut u32, oe_len: usize,
        ok: *mut u8, ok_len: usize, of: *mut u32, of_len: usize, om: *mut u32, om_len: usize, oi: *mut u32, oi_len: usize,
        work: *mut u32, work_len: usize, counts: *mut u32, counts_len: usize,
    ) -> u32;
}

/// The largest meeting limit.
const M: u32 = 65536;
const NO_GRID: u32 = u32::MAX;

#[derive(Default)]
struct Mesh {
    coords: Vec<f64>,
    /// Those that are lent are all 0: the Rust has none.
    layers: Vec<u32>,
    nodes: Vec<u32>,
    ends: Vec<u32>,
    kinds: Vec<u8>,
    families: Vec<u32>,
}

/// n x n cells, turned and moved, as `oracle bench` makes them.
fn grid(n: usize, side: f64, kind: u8, angle: f64, at: [f64; 2]) -> Mesh {
    let (s, c) = angle.sin_cos();
    let mut m = Mesh::default();
    for j in 0..=n {
        for i in 0..=n {
            let (x, y) = (i as f64 * side, j as f64 * side);
            m.coords.push(at[0] + (c * x - s * y));
            m.coords.push(at[1] + (s * x + c * y));
        }
    }
    m.layers = vec![0; m.coords.len() / 2];
    for j in 0..n {
        for i in 0..n {
            let a = (j * (n + 1) + i) as u32;
            let up = n as u32 + 1;
            m.nodes.extend([a, a + 1, a + up + 1, a + up]);
            m.ends.push(m.nodes.len() as u32);
            m.kinds.push(kind);
            m.families.push(((j * n + i) % 7) as u32);
        }
    }
    m
}

fn meshes(n: usize) -> (Mesh, Mesh) {
    (grid(n, 1.0, 8, 0.0, [0.0, 0.0]), grid(n, 0.9 * n as f64 / n as f64, 11, 0.3, [0.25 * n as f64, 0.0173]))
}

/// The lists lent to a call: the pieces, the mesh and the index of each one's cell, the working list and the counts.
struct Lists {
    out: Mesh,
    meshes: Vec<u32>,
    cells: Vec<u32>,
    work: Vec<u32>,
    counts: [u32; 4],
}

fn lists(s: &Mesh, c: &Mesh) -> Lists {
    let given = (s.coords.len() + c.coords.len()) / 2;
    let entries = s.nodes.len() + c.nodes.len();
    let pieces = 4 * (s.ends.len() + c.ends.len()) + 1000;
    Lists {
        out: Mesh {
            coords: vec![0.0; 2 * (given + M as usize)],
            layers: vec![0; given + M as usize],
            nodes: vec![0; 8 * pieces],
            ends: vec![0; pieces],
            kinds: vec![0; pieces],
            families: vec![0; pieces],
        },
        meshes: vec![0; pieces],
        cells: vec![0; pieces],
        work: vec![0; 16 * (given + entries + M as usize) + 64],
        counts: [0; 4],
    }
}

#[rustfmt::skip]
fn ours(op: u32, grid: u32, s: &Mesh, c: &Mesh, l: &mut Lists) -> u32 {
    let o = &mut l.out;
    unsafe {
        daqwimay_overlay(
            op, M, grid,
            s.coords.as_ptr(), s.coords.len(), s.layers.as_ptr(), s.layers.len(), s.nodes.as_ptr(), s.nodes.len(), s.ends.as_ptr(), s.ends.len(),
            s.kinds.as_ptr(), s.kinds.len(), s.families.as_ptr(), s.families.len(),
            c.coords.as_ptr(), c.coords.len(), c.layers.as_ptr(), c.layers.len(), c.nodes.as_ptr(), c.nodes.len(), c.ends.as_ptr(), c.ends.len(),
            c.kinds.as_ptr(), c.kinds.len(), c.families.as_ptr(), c.families.len(),
            o.coords.as_mut_ptr(), o.coords.len(), o.layers.as_mut_ptr(), o.layers.len(), o.nodes.as_mut_ptr(), o.nodes.len(),
            o.ends.as_mut_ptr(), o.ends.len(), o.kinds.as_mut_ptr(), o.kinds.len(),
            o.families.as_mut_ptr(), o.families.len(),
            l.meshes.as_mut_ptr(), l.meshes.len(), l.cells.as_mut_ptr(), l.cells.len(),
            l.work.as_mut_ptr(), l.work.len(), l.counts.as_mut_ptr(), l.counts.len(),
        )
    }
}

fn umesh(m: &Mesh) -> UMesh {
    let n = m.coords.len() / 2;
    let mut u = UMesh::new(ndarray::Array2::from_shape_vec((n, 2), m.coords.clone()).ok().unwrap().into_shared());
    let mut from = 0;
    for i in 0..m.ends.len() {
        let nodes: Vec<usize> = m.nodes[from..m.ends[i] as usize].iter().map(|n| *n as usize).collect();
        let kind = if m.kinds[i] == 8 { ElementType::QUAD4 } else { ElementType::PGON };
        u.add_element(kind, &nodes, Some(m.families[i] as usize));
        from = m.ends[i] as usize;
    }
    u
}

/// Bits of the coordinates, and the pieces by kind: kind, family, corners. The Rust answers no parents.
type Answer = (Vec<u64>, Vec<(u8, usize, Vec<usize>)>);

fn answer_of(given: usize, l: &Lists) -> Answer {
    let o = &l.out;
    let coords = o.coords[..2 * (given + l.counts[3] as usize)].iter().map(|x| x.to_bits()).collect();
    let mut pieces = Vec::new();
    let mut from = 0;
    for i in 0..l.counts[0] as usize {
        let corners = o.nodes[from..o.ends[i] as usize].iter().map(|n| *n as usize).collect();
        pieces.push((o.kinds[i], o.families[i] as usize, corners));
        from = o.ends[i] as usize;
    }
    pieces.sort_by_key(|p: &(u8, usize, Vec<usize>)| p.0);
    (coords, pieces)
}

fn answer_of_rust(u: &UMesh) -> Answer {
    let pieces = u.elements().map(|e| (e.element_type as u8, *e.family, e.connectivity.to_vec())).collect();
    (u.coords().iter().map(|x| x.to_bits()).collect(), pieces)
}

#[repr(C)]
struct Time {
    s: i64,
    ns: i64,
}

/// Processor seconds of this thread: the machine may be busy with other work.
fn now() -> f64 {
    unsafe extern "C" {
        fn clock_gettime(clock: i32, t: *mut Time) -> i32;
    }
    let mut t = Time { s: 0, ns: 0 };
    unsafe { clock_gettime(3, &mut t) };
    t.s as f64 + t.ns as f64 * 1e-9
}

const STACK: usize = 64 << 20;
const PAINT: u8 = 0xa5;

/// The deepest stack place that f writes, in bytes below its caller: the stack is painted, then looked through.
#[inline(never)]
fn stack_of(f: impl FnOnce() + Send) -> usize {
    std::thread::scope(|s| {
        let thread = std::thread::Builder::new().stack_size(STACK);
        let painted = thread.spawn_scoped(s, || {
            let here = 0u8;
            let top = std::hint::black_box(&here) as *const u8 as usize;
            let (low, high) = (top - (STACK - (1 << 20)), top - 4096);
            for a in low..high {
                unsafe { (a as *mut u8).write_volatile(PAINT) };
            }
            f();
            let mut a = low;
            while a < high && unsafe { (a as *const u8).read_volatile() } == PAINT {
                a += 1;
            }
            top - a
        });
        painted.unwrap().join().unwrap()
    })
}

/// Seconds of each side, best of several rounds, the sides in turn; fewer rounds where one is slow.
fn timed(sides: &mut [&mut dyn FnMut()]) -> Vec<f64> {
    let mut best = vec![f64::INFINITY; sides.len()];
    let start = now();
    for round in 0..15 {
        if round > 0 && now() - start > 4.0 {
            break;
        }
        for (b, f) in best.iter_mut().zip(sides.iter_mut()) {
            let t = now();
            f();
            *b = b.min(now() - t);
        }
    }
    best
}

fn milliseconds(t: f64) -> String {
    let ms = t * 1e3;
    if ms < 10.0 { format!("{ms:.2}") } else if ms < 100.0 { format!("{ms:.1}") } else { format!("{ms:.0}") }
}

/// Both sides compared and timed: the first column, then the counts, times, ratios and the stack.
fn row(first: &str, op: u32, n: usize) {
    use OverlayOperation::*;
    let operation = [Imprint, Union, Intersection, Difference, SymmetricDifference][op as usize];
    let (s, c) = meshes(n);
    let given = (s.coords.len() + c.coords.len()) / 2;
    let mut l = lists(&s, &c);
    let (subject, cutter) = (umesh(&s), umesh(&c));
    let mut code = 0;
    let stack = stack_of(|| code = ours(op, NO_GRID, &s, &c, &mut l));
    assert_eq!(code, 0, "refused");
    let (pieces, added) = (l.counts[0], l.counts[3]);
    spatial_index::use_grid(false);
    let rust = answer_of_rust(&subject.overlay(cutter.clone(), operation));
    assert!(answer_of(given, &l) == rust, "the answers differ");
    let by_rust = |grid: bool| {
        spatial_index::use_grid(grid);
        std::hint::black_box(subject.overlay(cutter.clone(), operation));
    };
    let t = timed(&mut [
        &mut || {
            std::hint::black_box(ours(op, NO_GRID, &s, &c, &mut l));
        },
        &mut || by_rust(false),
        &mut || by_rust(true),
    ]);
    println!(
        "| {first} | {} | {pieces} | {added} | {} | {} | {} | {:.2} | {:.2} | {} |",
        n * n,
        milliseconds(t[0]),
        milliseconds(t[1]),
        milliseconds(t[2]),
        t[0] / t[1],
        t[0] / t[2],
        stack
    );
}

/// Imprint without a survey grid and with one, in turn.
fn grid_row(n: usize, grid: u32) {
    let (s, c) = meshes(n);
    let mut l = lists(&s, &c);
    assert_eq!(ours(0, grid, &s, &c, &mut l), 0, "refused");
    let (pieces, added) = (l.counts[0], l.counts[3]);
    let (mut with, mut without) = (lists(&s, &c), l);
    let t = timed(&mut [
        &mut || {
            std::hint::black_box(ours(0, NO_GRID, &s, &c, &mut without));
        },
        &mut || {
            std::hint::black_box(ours(0, grid, &s, &c, &mut with));
        },
    ]);
    println!("| {n} | 1/{} | {pieces} | {added} | {} | {} | {:.2} |", 1 << grid, milliseconds(t[0]), milliseconds(t[1]), t[1] / t[0]);
}

/// A comb of so many teeth, counterclockwise; `folded`: its last tooth is a spike, there and back at x = 1, where the bars have nodes.
fn comb(teeth: usize, folded: bool) -> Mesh {
    let mut m = Mesh::default();
    m.coords.extend([0.0, -1.0, 2.0 * teeth as f64, -1.0]);
    for i in (0..teeth).rev() {
        let x = 2.0 * i as f64;
        let thin = if folded && i == 0 { 0.0 } else { 0.5 };
        m.coords.extend([x + 1.0 + thin, 0.0, x + 1.0, 10.0]);
        if thin == 0.0 {
            m.coords.extend([x + 1.0, 0.0]);
        }
    }
    m.nodes.extend(0..(m.coords.len() / 2) as u32);
    m.layers = vec![0; m.nodes.len()];
    m.ends.push(m.nodes.len() as u32);
    m.kinds.push(11);
    m.families.push(1);
    m
}

/// So many flat cells across all teeth of a comb.
fn bars(teeth: usize, n: usize) -> Mesh {
    let mut m = Mesh::default();
    for i in 0..n {
        let (low, high) = (1.0 + 8.0 * i as f64 / n as f64, 1.0 + 8.0 * (i as f64 + 0.5) / n as f64);
        let (left, right) = (-1.0, 2.0 * teeth as f64 + 1.0);
        let at = m.coords.len() as u32 / 2;
        m.coords.extend([left, low, 1.0, low, right, low, right, high, 1.0, high, left, high]);
        m.layers.extend([0; 6]);
        m.nodes.extend(at..at + 6);
        m.ends.push(m.nodes.len() as u32);
        m.kinds.push(11);
        m.families.push(0);
    }
    m
}

/// An outline as cut that has too many darts for the table: the refusal, the time of the call and its stack.
fn outline_row(teeth: usize, n: usize, folded: bool) {
    let (s, c) = (comb(teeth, folded), bars(teeth, n));
    let corners = s.coords.len() / 2;
    let mut l = lists(&s, &c);
    let mut code = 0;
    let stack = stack_of(|| code = ours(0, NO_GRID, &s, &c, &mut l));
    assert_eq!(code, if folded { 19 } else { 10 });
    let t = timed(&mut [&mut || {
        std::hint::black_box(ours(0, NO_GRID, &s, &c, &mut l));
    }]);
    println!("| {corners} | {n} | {} | {code} | {} | {stack} |", corners + 4 * teeth * n, milliseconds(t[0]));
}

fn table(first: &str) {
    println!("| {first} | cells, each mesh | pieces | added points | Rattle ms | Rust ms | Rust ms, grid index | to Rust | to Rust, grid index | stack bytes |");
    println!("|---|---|---|---|---|---|---|---|---|---|");
}

fn main() {
    let args: Vec<String> = std::env::args().skip(1).collect();
    if args.first().is_some_and(|a| a == "alone") {
        let op = args[1].parse().unwrap();
        let (s, c) = meshes(args[2].parse().unwrap());
        let mut l = lists(&s, &c);
        let grid = args.get(4).map_or(NO_GRID, |k| k.parse().unwrap());
        for _ in 0..args[3].parse().unwrap() {
            let t = now();
            assert_eq!(ours(op, grid, &s, &c, &mut l), 0);
            println!("{}", now() - t);
        }
        return;
    }
    let sizes: Vec<usize> = if args.is_empty() {
        vec![10, 20, 50, 100, 127]
    } else {
        args.iter().map(|a| a.parse().unwrap()).collect()
    };
    table("n");
    for n in sizes {
        row(&n.to_string(), 0, n);
    }
    println!("\nAll operations that cut cells by cells, n = 50.\n");
    table("operation");
    for (op, name) in ["Imprint", "Union", "Intersection", "Difference", "symmetric difference"].iter().enumerate() {
        row(name, op as u32, 50);
    }
    println!("\nNew points booked on a survey grid, Imprint: the library without a grid and with one.\n");
    println!("| n | grid, metre | pieces | added points | without, ms | with, ms | with to without |");
    println!("|---|---|---|---|---|---|---|");
    for (n, grid) in [(50, 10), (50, 3), (127, 10)] {
        grid_row(n, grid);
    }
    println!("\nA comb and bars across its teeth, Imprint: an outline of over 512 darts, which is refused.\n");
    println!("| corners | bars | outline darts | refusal | Rattle ms | stack bytes |");
    println!("|---|---|---|---|---|---|");
    for (n, folded) in [(1, false), (1, true), (16, false), (64, false), (64, true)] {
        outline_row(126, n, folded);
    }
}
