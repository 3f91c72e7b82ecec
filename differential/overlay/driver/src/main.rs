//! Reads the program's forms from standard input, one after another, overlays each by the proved library and prints what `oracle count`
//! prints: pieces regrouped by kind, `(count pieces newpoints)`, where the Rust's new points are all added ones, the fourth count; or
//! `(refused N)`. A third number on a form's first line is k of the survey grid. After a node's y stands its layer, after a piece's family the mesh and
//! the index of its parent, as the program prints them. Standard error has each form's second and third counts: the added points that a piece names, and 0.
use daqwimay::{Mesh, Operation, Overlay, Overlayer, Settings};
use std::fmt::Write as _;
use std::io::{Read, Write as _};

struct Words<'a>(std::iter::Peekable<std::str::SplitAsciiWhitespace<'a>>);

impl<'a> Words<'a> {
    fn is(&mut self, w: &str) -> Option<()> {
        (self.0.next()? == w).then_some(())
    }
    fn number<T: std::str::FromStr>(&mut self) -> Option<T> {
        self.0.next()?.parse().ok()
    }
    fn float(&mut self) -> Option<f64> {
        Some(f64::from_bits(u64::from_str_radix(self.0.next()?, 16).ok()?))
    }
    fn mesh(&mut self) -> Option<Mesh> {
        self.is("(")?;
        self.is("mesh")?;
        let mut m = Mesh::default();
        while self.0.next()? == "(" {
            match self.0.next()? {
                "node" => {
                    m.coords.push(self.float()?);
                    m.coords.push(self.float()?);
                    m.layers.push(self.number()?);
                    self.is(")")?;
                }
                "cell" => {
                    m.kinds.push(self.number()?);
                    m.families.push(self.number()?);
                    while *self.0.peek()? != ")" {
                        m.nodes.push(self.number()?);
                    }
                    self.0.next();
                    m.ends.push(m.nodes.len() as u32);
                }
                _ => return None,
            }
        }
        Some(m)
    }
    /// The numbers of the first line: a third one is k of the grid. The wrapper has no operation above 5: such a form isn't read.
    fn settings(&mut self) -> Option<Settings> {
        let (operation, limit) = (operation(self.number()?)?, self.number()?);
        let grid = if *self.0.peek()? == "(" { None } else { Some(self.number()?) };
        Some(Settings { operation, limit, grid })
    }
    fn form(&mut self) -> Option<(Settings, Mesh, Mesh)> {
        self.is("(")?;
        self.is("overlay")?;
        let f = (self.settings()?, self.mesh()?, self.mesh()?);
        self.is(")")?;
        Some(f)
    }
}

fn operation(n: u32) -> Option<Operation> {
    use Operation::*;
    [Imprint, Union, Intersection, Difference, SymmetricDifference, Lines].get(n as usize).copied()
}

fn listing(s: &mut String, o: &Overlay) {
    s.push_str("(overlay\n");
    assert_eq!(o.mesh.coords.len(), 2 * o.mesh.layers.len());
    for (c, layer) in o.mesh.coords.chunks_exact(2).zip(&o.mesh.layers) {
        let _ = writeln!(s, "(node {:016x} {:016x} {layer})", c[0].to_bits(), c[1].to_bits());
    }
    let mut pieces: Vec<_> = o.mesh.cells().zip(o.parent_meshes.iter().zip(&o.parent_cells)).collect();
    pieces.sort_by_key(|(p, _)| p.kind);
    for (p, (mesh, cell)) in &pieces {
        let _ = write!(s, "(cell {} {} {mesh} {cell}", p.kind, p.family);
        for n in p.nodes {
            let _ = write!(s, " {n}");
        }
        s.push_str(")\n");
    }
    let _ = writeln!(s, "(count {} {})\n)", pieces.len(), o.added_points);
}

fn main() {
    let mut text = String::new();
    std::io::stdin().read_to_string(&mut text).expect("text on standard input");
    let text = text.replace('(', "( ").replace(')', " )");
    let mut words = Words(text.split_ascii_whitespace().peekable());
    let mut lists = Overlayer::default();
    let (mut out, mut counts) = (String::new(), String::new());
    while words.0.peek().is_some() {
        let Some((settings, subject, cutter)) = words.form() else {
            out.push_str("(unread)\n");
            break;
        };
        match lists.overlay_with(settings, &subject, &cutter) {
            Ok(o) => {
                let _ = writeln!(counts, "{} {}", o.new_points, o.doubled_cells);
                listing(&mut out, &o);
            }
            Err(r) => {
                counts.push_str("0 0\n");
                let _ = writeln!(out, "(refused {})", r.number());
            }
        }
    }
    std::io::stdout().write_all(out.as_bytes()).unwrap();
    eprint!("{counts}");
}
