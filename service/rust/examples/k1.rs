//! Cuts the square (0,0)-(2,2), family 7, by the square (1,-1)-(3,3), and prints the pieces and the cell that each was cut from.
use daqwimay::{Kind, Mesh, Operation, Parent, Refusal, overlay};

fn square(kind: Kind, family: u32, [x, y]: [f64; 2], [u, v]: [f64; 2]) -> Mesh {
    let mut m = Mesh::default();
    let corners = [[x, y], [u, y], [u, v], [x, v]].map(|[a, b]| m.add_node(a, b));
    m.add_cell(kind, family, &corners);
    m
}

fn main() -> Result<(), Refusal> {
    let subject = square(Kind::Quad4, 7, [0.0, 0.0], [2.0, 2.0]);
    let cutter = square(Kind::Pgon, 0, [1.0, -1.0], [3.0, 3.0]);
    let answer = overlay(Operation::Imprint, &subject, &cutter)?;
    for (i, (piece, parent)) in answer.mesh.cells().zip(answer.parents()).enumerate() {
        let (cell, mesh) = match parent {
            Parent::Subject(cell) => (cell, "subject"),
            Parent::Cutter(cell) => (cell, "cutter"),
        };
        print!("piece {i} of family {}, from cell {cell} of the {mesh}:", piece.family);
        for [x, y] in piece.nodes.iter().filter_map(|n| answer.mesh.node(*n)) {
            print!(" ({x}, {y})");
        }
        println!();
    }
    println!("{} pieces, {} new points of {} added", answer.mesh.ends.len(), answer.new_points, answer.added_points);

    // Two corners so close to the square's first that both become it: the triangle's outline runs along itself.
    let mut near = Mesh::default();
    let corners = [[5e-13, 0.0], [0.0, 5e-13], [-1.0, -1.0]].map(|[x, y]| near.add_node(x, y));
    near.add_cell(Kind::Tri3, 0, &corners);
    if let Err(r) = overlay(Operation::Union, &subject, &near) {
        println!("refused, {}: {r}", r.number());
    }
    Ok(())
}
