#!/bin/sh
# oracle-02.sh OUT: builds OUT/release/oracle-law as oracle.sh does, from a copy of the published Rust that goes on as document 02 says (W1:
# where no other slot is free the walk turns back, if the reverse is unmarked; W14: an edge that the cell's table has, either way round, isn't
# added again, and none from a node to itself; W6: a third number on a form's first line is k, and new points are booked on the grid of 1/2^k;
# W7: near nodes share a number where they have one layer, found by the published `duplicates_from`, once for each layer over meshes of that
# layer's nodes alone; node lines are listed with the layer) and that also counts. To standard error it writes for each overlay `weld` with
# each of the cutter's nodes that takes a subject node's number, and that one, and `whole` with those that would if layers were ignored, then
# `point` with the coordinates of each new point before it is booked, `of` and those of P1 to P4 of its meeting, then
# `meetings N collected N`, the second the most nodes collected under one edge key, and then for each cell that it comes to `cell SLOTS` of
# W14's table, with ` doubled` where the table that the published function makes names a neighbour twice at some node, and ` repeats` where
# the outline as cut passes between the same two nodes twice or from a node to itself (the copy goes on there), and `outline` with the two nodes of each of its
# outline darts. A cell that is copied has no table in the Rust: its line starts with `copied ` and tells of what the Rust's
# `build_cell_dart_map` makes of the cell's own edges. Of operations 0 and 5 it writes at last `parents` with the number of each listed
# piece's cell: the list that the published `cut_cells_all` fills where it is asked to, which the published overlay doesn't.
set -eu
mkdir -p "$1/copy"
out=$(cd "$1" && pwd)
here=$(cd "$(dirname "$0")" && pwd)
rm -rf "$out/copy/oracle"
cp -Rp "$here/oracle" "$here/oracle.sh" "$out/copy/"
src=$out/copy/oracle/published/crates/mefikit/src
cli=$out/copy/oracle/cli/cli.rs
lib=$out/copy/oracle/core/lib.rs
python3 - "$src/element_traits/cut.rs" "$src/tools/overlay.rs" "$cli" "$lib" <<'END'
import sys


def exchange(path, old, new):
    text = open(path).read()
    assert text.count(old) == 1, (path, old)
    open(path, 'w').write(text.replace(old, new))


def put(path, added, before):
    exchange(path, before, added + before)


TABLE = '''    let slots: usize = graph.values().map(Vec::len).sum();
    let before = published_dart_map(s_int, mesh2, candidate, cell).1;
    let twice = before.values().any(|v| (1..v.len()).any(|i| v[..i].iter().any(|s| s.0 == v[i].0)));
    let mut passed: FxHashSet<[NodeId; 2]> = FxHashSet::default();
    let repeats = heap.iter().any(|&[a, b]| a == b || !passed.insert([a.min(b), a.max(b)]));
    eprintln!("cell {slots}{}{}", if twice { " doubled" } else { "" }, if repeats { " repeats" } else { "" });
    eprintln!("outline{}", heap.iter().map(|d| format!(" {} {}", d[0], d[1])).collect::<String>());
'''
TURN = '''            if !found && !next_darts[last_opposed_dart_pos].1 {
                next_pos = last_opposed_dart_pos;
                found = true;
            }
'''
COPIED = '''            eprint!("copied ");
            build_cell_dart_map(&SortedSegIntersections::default(), m2_edges, m2_candidates, self.connectivity());
'''
ASKED = '''    let mut parents = Vec::new();
    cut_cells_all(
'''
PARENTS = '''        Some(&mut parents),
    );
    let of = |(cell, (_, pieces)): (usize, &(ElementId, Vec<ElementId>))| pieces.iter().map(|p| (*p, cell)).collect::<Vec<_>>();
    let mut listed: Vec<_> = parents.iter().enumerate().flat_map(of).collect();
    listed.sort();
    eprintln!("parents{}", listed.iter().map(|(_, cell)| format!(" {cell}")).collect::<String>());
'''
COLLECTED = '''    let collected = sorted_intersections.values().map(Vec::len).max().unwrap_or(0);
    eprintln!("meetings {} collected {collected}", intersections.values().map(Vec::len).sum::<usize>());
'''
WINDOW = '                if !m1_dart_set.contains(&dart_svk) {\n'
NEW_WINDOW = '                if n0 != n1 && m1_dart_set.insert(dart_svk) {\n'
WHOLE = '''            let (n0, n1) = (eid[0], eid[1]);
            graph.entry(n0).or_default().push((n1, false));
            graph.entry(n1).or_default().push((n0, false));
'''
NEW_WHOLE = '''            let (n0, n1) = (eid[0], eid[1]);
            if n0 != n1 && m1_dart_set.insert(eid) {
                graph.entry(n0).or_default().push((n1, false));
                graph.entry(n1).or_default().push((n0, false));
            }
'''
# W6. Below 2^52 in size the product with 2^k, its whole part and the way back are exact; from there on a float is a whole number
GRID = '''
pub mod grid {
    use std::cell::Cell;
    thread_local! {
        pub static K: Cell<Option<i32>> = const { Cell::new(None) };
    }
    fn nearest(k: i32, x: f64) -> f64 {
        let step = 2f64.powi(-k);
        let booked = if x.abs() < 2f64.powi(52) { (x / step).round_ties_even() * step } else { x };
        if booked == 0.0 { 0.0 } else { booked }
    }
    pub fn is_set() -> bool {
        K.get().is_some()
    }
    fn bits(p: [f64; 2]) -> String {
        format!(" {:016x} {:016x}", p[0].to_bits(), p[1].to_bits())
    }
    pub fn booked(p: [f64; 2], ends: [[f64; 2]; 4]) -> [f64; 2] {
        eprintln!("point{} of{}", bits(p), ends.map(bits).concat());
        let Some(k) = K.get() else { return p };
        p.map(|x| nearest(k, x))
    }
}
'''
READ_M = '        let _m: u64 = self.num()?;\n'
READ_K = '''        let k = if *self.it.peek()? == "(" { None } else { Some(self.num()?) };
        mefikit::grid::K.set(k);
        mefikit::layers::none();
'''
# W7
LAYERS = '''
pub mod layers {
    use std::cell::RefCell;
    thread_local! {
        /// The layers of the subject's nodes, of the cutter's and of new points.
        static ALL: RefCell<Vec<u32>> = const { RefCell::new(Vec::new()) };
    }
    pub fn none() {
        ALL.take();
    }
    pub fn add(layer: u32) {
        ALL.with_borrow_mut(|all| all.push(layer));
    }
    pub fn of(node: usize) -> u32 {
        ALL.with_borrow(|all| all[node])
    }
}
'''
READ_LAYER, ADD_LAYER = 'let _layer: u32 = self.num()?;', 'mefikit::layers::add(self.num()?);'
NODE = '"(node {:016x} {:016x})", c[(i, 0)].to_bits(), c[(i, 1)].to_bits());'
NODE_ON_LAYER = '"(node {:016x} {:016x} {})", c[(i, 0)].to_bits(), c[(i, 1)].to_bits(), mefikit::layers::of(i));'
NEAR = 'duplicates_from(&subject.view(), &reference.clone(), eps)'
BY_LAYERS = '''/// The nodes of one layer as a mesh, and their numbers; `base` is that of the mesh's first node. Each cell has its corners there.
fn on_layer(mesh: &UMeshView, base: usize, layer: u32) -> (UMesh, Vec<usize>) {
    let nodes: Vec<usize> = (0..mesh.coords().nrows()).filter(|n| crate::layers::of(base + n) == layer).collect();
    let coords = nodes.iter().flat_map(|n| mesh.coords().row(*n).to_slice().unwrap().to_vec()).collect();
    let mut part = UMesh::new(nd::Array2::from_shape_vec((nodes.len(), 2), coords).unwrap().into_shared());
    for cell in mesh.elements() {
        let corners: Vec<usize> = cell.connectivity().iter().filter_map(|n| nodes.binary_search(n).ok()).collect();
        if !corners.is_empty() {
            part.add_element(ElementType::PGON, &corners, None);
        }
    }
    (part, nodes)
}

fn tell(what: &str, near: &FxHashMap<usize, Vec<usize>>) {
    let mut pairs: Vec<(usize, usize)> = near.iter().flat_map(|(to, from)| from.iter().map(|n| (*n, *to))).collect();
    pairs.sort();
    eprintln!("{what}{}", pairs.iter().map(|(n, to)| format!(" {n} {to}")).collect::<String>());
}

fn near_by_layers(subject: &UMeshView, reference: &UMeshView, eps: f64) -> FxHashMap<usize, Vec<usize>> {
    let base = reference.coords().nrows();
    let mut layers: Vec<u32> = (0..base).map(crate::layers::of).collect();
    layers.sort();
    layers.dedup();
    let mut near: FxHashMap<usize, Vec<usize>> = FxHashMap::default();
    for layer in layers {
        let (upper, from) = on_layer(subject, base, layer);
        let (lower, to) = on_layer(reference, 0, layer);
        for (n, ns) in duplicates_from(&upper.view(), &lower.view(), eps) {
            near.insert(to[n], ns.iter().map(|n| from[*n]).collect());
        }
    }
    tell("weld", &near);
    tell("whole", &duplicates_from(subject, reference, eps));
    near
}

'''
OPERATION = '/// Boolean-like operation to perform on two 2D meshes.\n'
POINT = '                    Intersection::New(coord) => {\n'
BOOKED = '''                        let ends = [edge.coord2(0), edge.coord2(1), edge2.coord2(0), edge2.coord2(1)];
                        let coord = crate::grid::booked(coord, ends.map(|p| p.into()));
                        crate::layers::add(crate::layers::of(edge.connectivity[0]));
'''
INNER = '        sorted_ints.extend(v.iter().map(|&n| (projection(n), n)));\n'
NEW_INNER = '''        if crate::grid::is_set() {
            sorted_ints.clear();
            v.retain(|&n| n != eid[0] && n != eid[1]);
        }
'''
NODES = '        let mut sorted_nodes: Vec<NodeId> = sorted_ints.into_iter().map(|(_, n)| n).collect();\n'
FIRST = '''        if crate::grid::is_set() {
            sorted_nodes.insert(0, eid[0]);
        }
'''
cut, overlay, cli, lib = sys.argv[1:]
published = open(cut).read()
exchange(cut, WINDOW, NEW_WINDOW)
exchange(cut, WHOLE, NEW_WHOLE)
put(cut, TABLE, '    (heap, graph)\n}')
put(cut, COPIED, '            return None;\n')
put(cut, TURN, '            if !found {\n')
# the published function once more, under another name
start, end = 'fn build_cell_dart_map(', 'fn sort_cell_dart_map('
again = published[published.index(start):published.index(end)].replace(start, 'fn published_dart_map(')
put(cut, again, end)
put(overlay, COLLECTED, '    sorted_intersections\n}')
exchange(overlay, '    cut_cells_all(\n', ASKED)
exchange(overlay, '        None,\n    );\n', PARENTS)
exchange(overlay, POINT, POINT + BOOKED)
put(overlay, NEW_INNER, INNER)
exchange(overlay, NODES, NODES + FIRST)
exchange(cli, READ_M, READ_M + READ_K)
put(lib, GRID + LAYERS, '\npub mod probe;\n')
exchange(cli, READ_LAYER, ADD_LAYER)
exchange(cli, NODE, NODE_ON_LAYER)
exchange(overlay, NEAR, 'near_by_layers(&subject.view(), &reference, eps)')
put(overlay, BY_LAYERS, OPERATION)
END
# so that nothing is compiled anew where nothing has changed
touch -r "$here/oracle-02.sh" "$src/element_traits/cut.rs" "$src/tools/overlay.rs" "$cli" "$lib"
sh "$out/copy/oracle.sh" "$out" --bin oracle-law
