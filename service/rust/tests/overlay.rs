//! What the wrapper adds to the proved call: sizes, refusals, lists used again.
use daqwimay::{FINEST_GRID, Kind, MOST_MEETINGS, Mesh, Operation, Overlay, Overlayer, Parent, Refusal, Settings, overlay, overlay_with};

fn rectangle(m: &mut Mesh, kind: Kind, family: u32, [x, y]: [f64; 2], [u, v]: [f64; 2]) {
    let corners = [[x, y], [u, y], [u, v], [x, v]].map(|[a, b]| m.add_node(a, b));
    m.add_cell(kind, family, &corners);
}

fn one(kind: Kind, family: u32, a: [f64; 2], b: [f64; 2]) -> Mesh {
    let mut m = Mesh::default();
    rectangle(&mut m, kind, family, a, b);
    m
}

fn of_points<const N: usize>(kind: Kind, points: [[f64; 2]; N]) -> Mesh {
    let mut m = Mesh::default();
    let corners = points.map(|[x, y]| m.add_node(x, y));
    m.add_cell(kind, 0, &corners);
    m
}

fn line(a: [f64; 2], b: [f64; 2]) -> Mesh {
    of_points(Kind::Seg2, [a, b])
}

fn triangle(corners: [[f64; 2]; 3]) -> Mesh {
    of_points(Kind::Tri3, corners)
}

/// n strips side by side, with nodes in common, over a square of side n.
fn strips(n: usize, upright: bool) -> Mesh {
    let mut m = Mesh::default();
    let far = n as f64 + 0.5;
    for i in 0..=n {
        let x = i as f64 + 0.25;
        for y in [-0.5, far] {
            if upright { m.add_node(x, y) } else { m.add_node(y, x) };
        }
    }
    for i in 0..n as u32 {
        let (a, b) = (2 * i, 2 * i + 2);
        let corners = if upright { [a, b, b + 1, a + 1] } else { [a, a + 1, b + 1, b] };
        m.add_cell(Kind::Quad4, i, &corners);
    }
    m
}

fn k1() -> (Mesh, Mesh) {
    (one(Kind::Quad4, 7, [0.0, 0.0], [2.0, 2.0]), one(Kind::Pgon, 0, [1.0, -1.0], [3.0, 3.0]))
}

#[test]
fn two_pieces() {
    let (s, c) = k1();
    let o = overlay(Operation::Imprint, &s, &c).unwrap();
    let pieces: Vec<_> = o.mesh.cells().map(|p| (p.kind, p.family, p.nodes.to_vec())).collect();
    assert_eq!(pieces, [(11, 7, vec![3, 0, 8, 9]), (11, 7, vec![9, 8, 1, 2])]);
    assert_eq!((o.new_points, o.added_points, o.doubled_cells), (2, 2, 0));
    assert_eq!((o.parent_meshes, o.parent_cells), (vec![0, 0], vec![0, 0]));
    assert_eq!(o.mesh.node(8), Some([1.0, 0.0]));
    assert_eq!(o.mesh.node(10), None);
}

/// A square, and two soils side by side: their common side crosses the square, and the piece outside of both has no point of it.
fn two_soils() -> (Mesh, Mesh) {
    let mut soils = Mesh::default();
    let [a, b, c, d, e, f] = [[-1.0, -1.0], [1.0, -1.0], [1.5, -1.0], [1.5, 3.0], [1.0, 3.0], [-1.0, 3.0]].map(|[x, y]| soils.add_node(x, y));
    soils.add_cell(Kind::Quad4, 1, &[a, b, e, f]);
    soils.add_cell(Kind::Quad4, 2, &[b, c, d, e]);
    (k1().0, soils)
}

/// The numbers of the added points that pieces name, each once.
fn named(o: &Overlay, lent: usize) -> Vec<u32> {
    let mut nodes: Vec<u32> = o.mesh.nodes.iter().copied().filter(|n| *n as usize >= lent).collect();
    nodes.sort();
    nodes.dedup();
    nodes
}

#[test]
fn new_points_are_those_that_a_piece_names() {
    let (s, c) = two_soils();
    for (op, pieces, new_points) in [(Operation::Imprint, 3, 4), (Operation::Intersection, 2, 4), (Operation::Difference, 1, 2)] {
        let o = overlay(op, &s, &c).unwrap();
        assert_eq!((o.mesh.ends.len(), o.new_points, o.added_points), (pieces, new_points, 4));
        assert_eq!((named(&o, 10).len(), o.mesh.node_count()), (new_points as usize, 14));
    }
    let o = overlay(Operation::Difference, &s, &c).unwrap();
    let places: Vec<_> = named(&o, 10).into_iter().filter_map(|n| o.mesh.node(n)).collect();
    assert_eq!(places, [[1.5, 0.0], [1.5, 2.0]]);
}

/// Two meshes that lie over each other in part: some added points are in no piece of their difference.
#[test]
fn every_operation_counts_the_points_that_its_pieces_name() {
    use Operation::*;
    let (s, c) = (strips(8, true), strips(6, false));
    let lent = s.node_count() + c.node_count();
    let added = overlay(Imprint, &s, &c).unwrap().added_points;
    for op in [Imprint, Union, Intersection, Difference, SymmetricDifference] {
        let o = overlay(op, &s, &c).unwrap();
        assert_eq!((o.new_points as usize, o.added_points), (named(&o, lent).len(), added), "{op:?}");
        assert_eq!(o.mesh.node_count(), lent + added as usize, "{op:?}");
        assert!(o.new_points == added || !matches!(op, Imprint | Union), "{op:?}");
    }
    assert!(overlay(Difference, &s, &c).unwrap().new_points < added);
}

fn parents(o: &Overlay) -> Vec<Parent> {
    o.parents().collect()
}

/// Families that say nothing: all cells have the same one.
#[test]
fn every_piece_names_the_cell_that_it_was_cut_from() {
    use Parent::*;
    let mut soils = Mesh::default();
    let [a, b, c, d, e, f] = [[0.0, 0.0], [2.0, 0.0], [4.0, 0.0], [0.0, 2.0], [2.0, 2.0], [4.0, 2.0]].map(|[x, y]| soils.add_node(x, y));
    soils.add_cell(Kind::Quad4, 7, &[a, b, e, d]);
    soils.add_cell(Kind::Quad4, 7, &[b, c, f, e]);
    rectangle(&mut soils, Kind::Pgon, 7, [9.0, 9.0], [10.0, 10.0]);
    let mut model = one(Kind::Quad4, 7, [20.0, 20.0], [21.0, 21.0]);
    rectangle(&mut model, Kind::Pgon, 7, [1.0, -1.0], [3.0, 3.0]);
    let of = |op| parents(&overlay(op, &soils, &model).unwrap());
    let cut = [Subject(0), Subject(0), Subject(1), Subject(1)];
    assert_eq!(of(Operation::Imprint), [&cut[..], &[Subject(2)]].concat());
    assert_eq!(of(Operation::Intersection), [Subject(0), Subject(1)]);
    assert_eq!(of(Operation::Difference), [Subject(0), Subject(1), Subject(2)]);
    assert_eq!(of(Operation::Union), [&cut[..], &[Subject(2), Cutter(0), Cutter(1), Cutter(1)]].concat());
    assert_eq!(of(Operation::SymmetricDifference), [Subject(0), Subject(1), Subject(2), Cutter(0), Cutter(1), Cutter(1)]);
    let o = overlay(Operation::Union, &soils, &model).unwrap();
    assert_eq!(o.parent_meshes, [0, 0, 0, 0, 0, 1, 1, 1]);
    assert_eq!(o.parent_cells, [0, 0, 1, 1, 2, 0, 1, 1]);
}

/// The families of strips are their numbers, so each piece's family is its parent.
#[test]
fn parents_of_lists_that_grow() {
    let (s, c) = (strips(18, true), strips(18, false));
    for op in [Operation::Imprint, Operation::Intersection, Operation::SymmetricDifference] {
        let o = overlay(op, &s, &c).unwrap();
        assert_eq!(o.parent_cells, o.mesh.families);
        assert!(o.parent_meshes.is_sorted() && (o.parent_meshes.contains(&1) == (op == Operation::SymmetricDifference)));
    }
}

fn in_layers(mut m: Mesh, layers: &[u32]) -> Mesh {
    m.layers = layers.to_vec();
    m
}

/// Lent nodes keep theirs; a new point has that of its side's first node.
#[test]
fn every_node_has_its_layer() {
    let (s, c) = k1();
    let (s, c) = (in_layers(s, &[4, 3, 2, 1]), in_layers(c, &[9, 8, 7, u32::MAX]));
    for op in [Operation::Imprint, Operation::Union, Operation::Intersection, Operation::Difference, Operation::SymmetricDifference] {
        let o = overlay(op, &s, &c).unwrap();
        assert_eq!(o.mesh.layers, [4, 3, 2, 1, 9, 8, 7, u32::MAX, 4, 2], "{op:?}");
        assert_eq!((o.mesh.layer(7), o.mesh.layer(9), o.mesh.layer(10)), (Some(u32::MAX), Some(2), None));
    }
}

/// A common side has the direction of the first cell that has it.
#[test]
fn the_first_node_of_a_common_side() {
    let cut = line([-1.0, 1.0], [5.0, 1.0]);
    for (first, second, want) in [([0, 1, 4, 3], [1, 2, 5, 4], 5), ([1, 2, 5, 4], [0, 1, 4, 3], 6)] {
        let mut m = Mesh::default();
        for (layer, x, y) in [(0, 0.0, 0.0), (5, 2.0, 0.0), (1, 4.0, 0.0), (2, 0.0, 2.0), (6, 2.0, 2.0), (3, 4.0, 2.0)] {
            m.add_node_of(layer, x, y);
        }
        m.add_cell(Kind::Quad4, 0, &first);
        m.add_cell(Kind::Quad4, 1, &second);
        let o = overlay(Operation::Lines, &m, &cut).unwrap();
        let common = (8..11).find(|n| o.mesh.node(*n) == Some([2.0, 1.0])).unwrap();
        assert_eq!(o.mesh.layer(common), Some(want));
    }
}

/// A triangle that touches the square's third corner: in one layer they share the node, in two the outline runs to the square's and back.
#[test]
fn nodes_at_one_place_are_one_in_one_layer() {
    let (s, touching) = (k1().0, triangle([[2.0, 2.0], [4.0, 1.0], [3.0, 4.0]]));
    for (layer, corner) in [(0, 0), (1, 1), (u32::MAX, u32::MAX), (0, 1), (u32::MAX, 1)] {
        let o = overlay(Operation::Union, &in_layers(s.clone(), &[layer; 4]), &in_layers(touching.clone(), &[corner, 5, 5]));
        match o {
            Ok(o) => assert!(layer == corner && o.mesh.cells().all(|p| p.nodes.contains(&2)) && !o.mesh.nodes.contains(&4)),
            Err(r) => assert!(layer != corner && r == Refusal::FoldedCell),
        }
    }
}

/// No list of layers is layer 0 throughout, in either mesh; what is answered lists them all. Lists of any other length are refused.
#[test]
fn a_mesh_without_layers() {
    let (s, c) = two_soils();
    let want = overlay(Operation::Union, &s, &c).unwrap();
    assert_eq!((s.layers.len(), want.mesh.layers.as_slice()), (4, &[0; 14][..]));
    let none = |m: &Mesh| in_layers(m.clone(), &[]);
    assert_eq!((none(&s).layer(3), none(&s).layer(4)), (Some(0), None));
    for (a, b) in [(none(&s), c.clone()), (s.clone(), none(&c)), (none(&s), none(&c))] {
        assert_eq!(overlay(Operation::Union, &a, &b).as_ref(), Ok(&want));
    }
    for (a, b) in [(in_layers(s.clone(), &[0; 3]), none(&c)), (none(&s), in_layers(c.clone(), &[0; 7]))] {
        assert_eq!(overlay(Operation::Union, &a, &b), Err(Refusal::BadShape));
    }
    let seven = overlay(Operation::Union, &in_layers(s, &[7; 4]), &in_layers(c, &[7; 6])).unwrap();
    assert_eq!((seven.mesh.layers.as_slice(), &seven.mesh.nodes, &seven.mesh.coords), (&[7; 14][..], &want.mesh.nodes, &want.mesh.coords));
    let mut late = none(&k1().0);
    assert_eq!((late.add_node_of(3, 9.0, 9.0), late.layers.as_slice()), (4, &[0, 0, 0, 0, 3][..]));
}

/// The largest call first, so that lists used again have places behind what is asked for.
#[test]
fn lists_used_again_with_layers() {
    let mut lists = Overlayer::default();
    let (s, c) = (strips(18, true), strips(18, false));
    lists.overlay(Operation::Imprint, MOST_MEETINGS, &in_layers(s, &[5; 38]), &c).unwrap();
    let (a, b) = k1();
    let small = lists.overlay(Operation::Imprint, 9, &in_layers(a, &[]), &in_layers(b, &[1; 4])).unwrap();
    assert_eq!(small.mesh.layers, [0, 0, 0, 0, 1, 1, 1, 1, 0, 0]);
}

#[test]
fn lists_grow() {
    // 324 pieces of four corners each: more than the first guess has room for
    let (s, c) = (strips(18, true), strips(18, false));
    let mut lists = Overlayer::default();
    let first = lists.overlay(Operation::Intersection, MOST_MEETINGS, &s, &c).unwrap();
    assert_eq!(first.mesh.ends.len(), 324);
    assert_eq!(first.mesh.nodes.len(), 4 * 324);
    // the same lists serve a smaller and a larger call
    let (a, b) = k1();
    assert_eq!(lists.overlay(Operation::Union, 9, &a, &b).unwrap(), overlay(Operation::Union, &a, &b).unwrap());
    assert_eq!(lists.overlay(Operation::Intersection, MOST_MEETINGS, &s, &c).unwrap(), first);
}

#[test]
fn a_ditch_that_ends_inside_is_walked_both_ways() {
    let (s, _) = k1();
    let o = overlay(Operation::Lines, &s, &line([1.0, -1.0], [1.0, 1.0])).unwrap();
    let pieces: Vec<_> = o.mesh.cells().map(|p| p.nodes.to_vec()).collect();
    assert_eq!(pieces, [vec![3, 0, 6, 5, 6, 1, 2]]);
    assert_eq!((o.new_points, o.added_points, o.doubled_cells), (1, 1, 0));
}

/// The left sides of two soils lie on x = 1, where the cell has nodes.
#[test]
fn a_boundary_traced_twice_cuts_once() {
    let cell = of_points(Kind::Pgon, [[2.0, 2.0], [1.0, 2.0], [0.0, 2.0], [0.0, 0.0], [1.0, 0.0], [2.0, 0.0]]);
    let mut soil = one(Kind::Quad4, 1, [1.0, -1.0], [3.0, 3.0]);
    rectangle(&mut soil, Kind::Quad4, 2, [1.0, -2.0], [4.0, 4.0]);
    let o = overlay(Operation::Imprint, &cell, &soil).unwrap();
    let pieces: Vec<_> = o.mesh.cells().map(|p| p.nodes.to_vec()).collect();
    assert_eq!(pieces, [vec![5, 0, 1, 4], vec![4, 1, 2, 3]]);
    assert_eq!((o.new_points, o.added_points, o.doubled_cells), (0, 0, 0));
}

fn on(grid: u32, operation: Operation) -> Settings {
    Settings { grid: Some(grid), ..Settings::of(operation) }
}

/// x of the two points where an upright line crosses a square of side 8, as booked.
fn booked(settings: Settings, x: f64) -> [f64; 2] {
    let o = overlay_with(settings, &one(Kind::Quad4, 7, [-4.0, -4.25], [4.0, 4.0]), &line([x, -9.25], [x, 9.0])).unwrap();
    assert_eq!((o.new_points, o.mesh.node(0), o.mesh.node(4)), (2, Some([-4.0, -4.25]), Some([x, -9.25])));
    [6, 7].map(|n| o.mesh.node(n).unwrap()[0])
}

#[test]
fn new_points_go_to_the_nearest_place_of_the_grid() {
    for (k, x, want) in [(0, 0.3, 0.0), (1, 0.3, 0.5), (2, 0.3, 0.25), (10, 0.3, 307.0 / 1024.0), (0, -1.7, -2.0)] {
        assert_eq!(booked(on(k, Operation::Lines), x), [want; 2], "{k}, {x}");
    }
}

/// Halfway to the even multiple, zero as +0.
#[test]
fn ties_go_both_ways() {
    for (k, x, want) in [(0, 0.5, 0.0), (0, 1.5, 2.0), (0, 2.5, 2.0), (0, -1.5, -2.0), (0, -0.5, 0.0), (1, 0.75, 1.0), (10, 3.0 / 2048.0, 2.0 / 1024.0)] {
        assert_eq!(booked(on(k, Operation::Lines), x).map(f64::to_bits), [f64::to_bits(want); 2], "{k}, {x}");
    }
}

#[test]
fn without_a_grid_points_stay_as_computed() {
    let settings = Settings::of(Operation::Lines);
    assert_eq!((settings.limit, settings.grid, booked(settings, 0.5)), (MOST_MEETINGS, None, [0.5; 2]));
    let (s, c) = (strips(8, true), strips(6, false));
    assert_eq!(overlay_with(Settings::of(Operation::Union), &s, &c), overlay(Operation::Union, &s, &c));
}

/// In units of 2^-112 each number is whole.
#[test]
fn a_tolerance_is_above_the_bound_and_next_to_it() {
    let units = |x: f64| (x * 2f64.powi(112)) as u128;
    for m in [0, 1, 3, 5_800_000, 5_800_001, (1 << 40) - 1, 1u64 << 40] {
        let cell = of_points(Kind::Tri3, [[0.0, 0.0], [-(m as f64), 0.0], [0.0, 0.5f64.min(m as f64)]]);
        for grid in std::iter::once(None).chain((0..=FINEST_GRID).map(Some)) {
            let tolerance = Settings { grid, ..Settings::of(Operation::Imprint) }.tolerance(&cell);
            let bound = ((m as u128) << 62) + grid.map_or(0, |k| 1 << (111 - k));
            assert!(tolerance > 0.0 && (m == 0 && grid.is_none() || units(tolerance) > bound), "{m} {grid:?}");
            assert!(units(tolerance) - bound <= bound >> 50, "{m} {grid:?}");
        }
    }
    assert_eq!(Settings::of(Operation::Imprint).tolerance(&Mesh::default()), 2.0 * f64::from_bits(1));
}

#[test]
fn half_a_step_is_within_the_tolerance() {
    let square = one(Kind::Quad4, 7, [-4.0, -4.25], [4.0, 4.0]);
    for k in 0..=FINEST_GRID {
        let (step, settings) = (0.5f64.powi(k as i32), on(k, Operation::Lines));
        let off = booked(settings, 1.5 * step).map(|x| (x - 1.5 * step).abs());
        let tolerance = settings.tolerance(&square);
        assert!(off == [step / 2.0; 2] && step / 2.0 < tolerance && tolerance < 0.50000001 * step, "{k}");
    }
    let named = Mesh { coords: [square.coords.clone(), vec![1e9, 1e9]].concat(), ..square.clone() };
    assert_eq!(Settings::of(Operation::Union).tolerance(&named), Settings::of(Operation::Union).tolerance(&square));
}

#[test]
fn a_grid_that_is_too_fine() {
    let (s, c) = k1();
    for k in [FINEST_GRID + 1, u32::MAX - 1, u32::MAX] {
        assert_eq!(overlay_with(on(k, Operation::Imprint), &s, &c), Err(Refusal::FineGrid));
        assert_eq!(overlay_with(Settings { limit: 0, ..on(k, Operation::Imprint) }, &s, &c), Err(Refusal::BadOperation));
    }
    assert_eq!(overlay_with(on(FINEST_GRID, Operation::Imprint), &s, &c), overlay(Operation::Imprint, &s, &c));
    assert_eq!((Refusal::FineGrid.number(), Refusal::FineGrid.to_string().contains("1/2^10")), (13, true));
}

#[test]
fn empty_meshes() {
    let none = Mesh::default();
    let o = overlay(Operation::Union, &none, &none).unwrap();
    assert_eq!(o.mesh, none);
    assert_eq!(o.parents().next(), None);
    let (s, _) = k1();
    assert_eq!(parents(&overlay(Operation::Union, &none, &s).unwrap()), [Parent::Cutter(0)]);
}

#[test]
fn refusals() {
    let (s, c) = k1();
    let refused = |op, s: &Mesh, c: &Mesh| overlay(op, s, c).unwrap_err();
    let with = |f: &dyn Fn(&mut Mesh)| {
        let mut m = s.clone();
        f(&mut m);
        refused(Operation::Imprint, &m, &c)
    };
    assert_eq!(Overlayer::default().overlay(Operation::Imprint, 0, &s, &c), Err(Refusal::BadOperation));
    assert_eq!(Overlayer::default().overlay(Operation::Imprint, u32::MAX, &s, &c), Err(Refusal::BadOperation));
    assert_eq!(with(&|m| m.ends[0] = 3), Refusal::BadShape);
    assert_eq!(with(&|m| m.families.clear()), Refusal::BadShape);
    assert_eq!(with(&|m| m.coords.truncate(7)), Refusal::BadShape);
    assert_eq!(with(&|m| m.coords[3] = f64::NAN), Refusal::BadCoordinate);
    assert_eq!(with(&|m| m.coords[0] = -0.0), Refusal::BadCoordinate);
    assert_eq!(with(&|m| m.kinds[0] = 5), Refusal::BadKind);
    assert_eq!(with(&|m| m.nodes[2] = 4), Refusal::BadNode);
    assert_eq!(with(&|m| m.nodes[2] = 0), Refusal::RepeatedNode);
    assert_eq!(Overlayer::default().overlay(Operation::Imprint, 1, &s, &c), Err(Refusal::ManyMeetings));
    let corner = triangle([[-(2f64.powi(-27)), 0.0], [1.0, 0.0], [0.0, 1.0]]);
    assert_eq!(refused(Operation::Union, &corner, &triangle([[0.0, 0.0], [2.0, 0.0], [2.0, 2.0]])), Refusal::OpenCell);
    assert_eq!(refused(Operation::Intersection, &strips(60, true), &strips(60, false)), Refusal::CrowdedCell);
    // corners that are welded onto one node; a spike of 2e-9 at its foot and a soil's corner in it, which both of its sides meet
    assert_eq!(refused(Operation::Union, &s, &triangle([[5e-13, 0.0], [0.0, 5e-13], [-1.0, -1.0]])), Refusal::FoldedCell);
    let spike = of_points(Kind::Pgon, [[0.0, 0.0], [2.0, 0.0], [2.0, 1.0 - 1e-9], [3.0, 1.0], [2.0, 1.0 + 1e-9], [2.0, 2.0], [0.0, 2.0]]);
    let corner_in_it = of_points(Kind::Pgon, [[2.5, 3.0], [2.5, 1.0], [2.5, -1.0], [5.0, 1.0]]);
    assert_eq!(refused(Operation::Imprint, &spike, &corner_in_it), Refusal::FoldedCell);
    assert_eq!(Refusal::CrowdedCell.number(), 10);
    assert_eq!(Refusal::FoldedCell.number(), 19);
    assert!(Refusal::OpenCell.to_string().contains("doesn't lead round"));
    assert!(Refusal::FoldedCell.to_string().contains("runs along itself"));
}

#[test]
fn many_threads() {
    let (s, c) = (strips(8, true), strips(8, false));
    let want = overlay(Operation::Imprint, &s, &c).unwrap();
    std::thread::scope(|t| {
        for _ in 0..4 {
            t.spawn(|| assert_eq!(overlay(Operation::Imprint, &s, &c).unwrap(), want));
        }
    });
}
