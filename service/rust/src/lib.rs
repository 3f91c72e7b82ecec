//! The proved overlay of two meshes for Rust programs: lists of the right sizes, refusals as an enum, no `unsafe` for its users.
//!
//! ```
//! use daqwimay::{Kind, Mesh, Operation, Parent, overlay};
//! let mut cell = Mesh::default();
//! for [x, y] in [[0.0, 0.0], [2.0, 0.0], [2.0, 2.0], [0.0, 2.0]] {
//!     cell.add_node(x, y);
//! }
//! cell.add_cell(Kind::Quad4, 7, &[0, 1, 2, 3]);
//! let answer = overlay(Operation::Imprint, &cell, &Mesh::default()).unwrap();
//! assert_eq!(answer.mesh.cells().next().unwrap().family, 7);
//! assert_eq!(answer.parents().next(), Some(Parent::Subject(0)));
//! ```
//!
//! With a survey grid, a new point goes to the nearest multiples of 1/2^k metre; here k is 1, and the steps are half metres:
//!
//! ```
//! # use daqwimay::{Kind, Mesh, Operation, Settings, overlay_with};
//! # let mesh = |kind, corners: &[[f64; 2]]| {
//! #     let mut m = Mesh::default();
//! #     let nodes: Vec<u32> = corners.iter().map(|[x, y]| m.add_node(*x, *y)).collect();
//! #     m.add_cell(kind, 0, &nodes);
//! #     m
//! # };
//! let cell = mesh(Kind::Quad4, &[[0.0, 0.0], [2.0, 0.0], [2.0, 2.0], [0.0, 2.0]]);
//! let ditch = mesh(Kind::Seg2, &[[1.3, -1.0], [1.3, 3.0]]);
//! let booked = overlay_with(Settings { grid: Some(1), ..Settings::of(Operation::Lines) }, &cell, &ditch).unwrap();
//! assert_eq!((booked.mesh.node(6), booked.mesh.node(7)), (Some([1.5, 0.0]), Some([1.5, 2.0])));
//! ```
//!
//! How far a new point may be off its subject edge is proved: `Settings::tolerance` says it, here a quarter of a metre and some 1e-15.
//!
//! Nodes of aquifer maps lie above one another: each has a layer, and nodes at one place are made one only where they are of the same layer.
//! `add_node` is of layer 0, so who has one layer need not think of them:
//!
//! ```
//! # use daqwimay::{Kind, Mesh, Operation, overlay};
//! let mut aquifer = Mesh::default();
//! let corners = [[0.0, 0.0], [2.0, 0.0], [2.0, 2.0]].map(|[x, y]| aquifer.add_node_of(1, x, y));
//! aquifer.add_cell(Kind::Tri3, 0, &corners);
//! let answer = overlay(Operation::Union, &aquifer, &Mesh::default()).unwrap();
//! assert_eq!((answer.mesh.layer(2), answer.mesh.layers.as_slice()), (Some(1), &[1, 1, 1][..]));
//! ```

#[rustfmt::skip]
unsafe extern "C" {
    fn daqwimay_overlay(
        operation: u32, limit: u32, grid: u32,
        scoords: *const f64, scoords_len: usize, slayers: *const u32, slayers_len: usize, snodes: *const u32, snodes_len: usize,
        sends: *const u32, sends_len: usize, skinds: *const u8, skinds_len: usize, sfamilies: *const u32, sfamilies_len: usize,
        ccoords: *const f64, ccoords_len: usize, clayers: *const u32, clayers_len: usize, cnodes: *const u32, cnodes_len: usize,
        cends: *const u32, cends_len: usize, ckinds: *const u8, ckinds_len: usize, cfamilies: *const u32, cfamilies_len: usize,
        ocoords: *mut f64, ocoords_len: usize, olayers: *mut u32, olayers_len: usize, onodes: *mut u32, onodes_len: usize,
        oends: *mut u32, oends_len: usize, okinds: *mut u8, okinds_len: usize, ofamilies: *mut u32, ofamilies_len: usize,
        parent_meshes: *mut u32, parent_meshes_len: usize, parent_cells: *mut u32, parent_cells_len: usize,
        work: *mut u32, work_len: usize, counts: *mut u32, counts_len: usize,
    ) -> u32;
}

/// The largest limit of meetings.
pub const MOST_MEETINGS: u32 = 65_536;
/// The finest survey grid, of 1/2^10 metre.
pub const FINEST_GRID: u32 = 10;
/// No grid, where the library takes a number.
const NO_GRID: u32 = u32::MAX;
/// The most slots in a cell's table: no cell has more node entries in its pieces.
const SLOTS: usize = 1024;

#[derive(Clone, Copy, Debug, PartialEq, Eq)]
pub enum Operation {
    /// Every piece of the subject.
    Imprint = 0,
    Union = 1,
    Intersection = 2,
    Difference = 3,
    SymmetricDifference = 4,
    /// The subject cut by lines: the cutter's cells are of `Kind::Seg2`.
    Lines = 5,
}

/// What is set for an overlay. `Settings::of` has what an operation alone says; write `..Settings::of(operation)` behind what else is set, and a
/// setting that comes later breaks nothing.
#[derive(Clone, Copy, Debug, PartialEq, Eq)]
pub struct Settings {
    pub operation: Operation,
    /// The most meetings of the edges, from 1 to `MOST_MEETINGS`; each takes 64 bytes of the working list, which every call clears.
    pub limit: u32,
    /// k of the survey grid, from 0 to `FINEST_GRID`: new points are booked on multiples of 1/2^k metre. `None`: they stay as computed.
    pub grid: Option<u32>,
}

impl Settings {
    /// The largest limit of meetings, and no grid.
    pub const fn of(operation: Operation) -> Settings {
        Settings { operation, limit: MOST_MEETINGS, grid: None }
    }

    /// How far each new point may be off its subject edge in x, and in y, in metres: M × 2^-50 + 2^-1074, M being the largest size among the
    /// coordinates of the subject's corners, and on a grid half a step more. Rounded up: never below what is proved (docs/TOLERANCE.md).
    pub fn tolerance(&self, subject: &Mesh) -> f64 {
        let corners = subject.nodes.iter().filter_map(|n| subject.node(*n));
        let largest = corners.flatten().fold(0.0, |m: f64, c| m.max(c.abs()));
        let half_a_step = self.grid.map_or(0.0, |k| 0.5 / 2f64.powi(k.min(FINEST_GRID) as i32));
        // two steps up: one for the sum's rounding, one for 2^-1074 and the product's
        (largest * 2f64.powi(-50) + half_a_step).next_up().next_up()
    }
}

#[derive(Clone, Copy, Debug, PartialEq, Eq)]
pub enum Kind {
    Seg2 = 1,
    Tri3 = 5,
    Quad4 = 8,
    /// A polygon of 3 to 256 corners.
    Pgon = 11,
}

/// A mesh as flat lists. Any content may be handed to `overlay`: what isn't a mesh is refused.
#[derive(Clone, Debug, Default, PartialEq)]
pub struct Mesh {
    /// x and y of each node.
    pub coords: Vec<f64>,
    /// One for each node, any number: of two meshes, nodes nearer than 1e-12 are made one only where their layers are equal. An empty list stands for
    /// layer 0 throughout, so a mesh of one layer need not have them; an answer lists all.
    pub layers: Vec<u32>,
    /// The cells' node numbers, one cell after the other.
    pub nodes: Vec<u32>,
    /// Where each cell's node numbers end.
    pub ends: Vec<u32>,
    /// 1, 5, 8 or 11 (see `Kind`), never below the one before.
    pub kinds: Vec<u8>,
    pub families: Vec<u32>,
}

/// A cell or a piece.
#[derive(Clone, Copy, Debug, PartialEq, Eq)]
pub struct Cell<'a> {
    pub kind: u8,
    pub family: u32,
    pub nodes: &'a [u32],
}

impl Mesh {
    /// A node of layer 0. Answers its number.
    pub fn add_node(&mut self, x: f64, y: f64) -> u32 {
        self.add_node_of(0, x, y)
    }

    /// A node of this layer. Answers its number.
    pub fn add_node_of(&mut self, layer: u32, x: f64, y: f64) -> u32 {
        if self.layers.is_empty() {
            self.layers.resize(self.node_count(), 0);
        }
        self.coords.extend([x, y]);
        self.layers.push(layer);
        (self.node_count() - 1) as u32
    }

    /// Cells are added by rising kind.
    pub fn add_cell(&mut self, kind: Kind, family: u32, nodes: &[u32]) {
        self.nodes.extend_from_slice(nodes);
        self.ends.push(self.nodes.len() as u32);
        self.kinds.push(kind as u8);
        self.families.push(family);
    }

    pub fn node_count(&self) -> usize {
        self.coords.len() / 2
    }

    pub fn node(&self, number: u32) -> Option<[f64; 2]> {
        let at = 2 * number as usize;
        Some([*self.coords.get(at)?, *self.coords.get(at + 1)?])
    }

    /// The layer of a node; 0 where the mesh has no list of them.
    pub fn layer(&self, number: u32) -> Option<u32> {
        self.node(number)?;
        if self.layers.is_empty() { Some(0) } else { self.layers.get(number as usize).copied() }
    }

    pub fn cells(&self) -> impl Iterator<Item = Cell<'_>> {
        let starts = std::iter::once(0).chain(self.ends.iter().copied());
        starts.zip(&self.ends).zip(&self.kinds).zip(&self.families).map(|(((from, to), kind), family)| Cell {
            kind: *kind,
            family: *family,
            nodes: self.nodes.get(from as usize..*to as usize).unwrap_or(&[]),
        })
    }
}

/// Why an overlay has no answer. The numbers are those of docs/01-scope.md.
#[derive(Clone, Copy, Debug, PartialEq, Eq)]
pub enum Refusal {
    BadOperation = 1,
    BadShape = 2,
    BadCoordinate = 3,
    BadKind = 4,
    BadNode = 5,
    RepeatedNode = 6,
    ShortWork = 7,
    ManyMeetings = 8,
    CrowdedEdge = 9,
    CrowdedCell = 10,
    OpenCell = 11,
    FullOutput = 12,
    FineGrid = 13,
    FoldedCell = 19,
}

impl Refusal {
    fn of(code: u32) -> Refusal {
        match code {
            1 => Refusal::BadOperation,
            2 => Refusal::BadShape,
            3 => Refusal::BadCoordinate,
            4 => Refusal::BadKind,
            5 => Refusal::BadNode,
            6 => Refusal::RepeatedNode,
            7 => Refusal::ShortWork,
            8 => Refusal::ManyMeetings,
            9 => Refusal::CrowdedEdge,
            10 => Refusal::CrowdedCell,
            11 => Refusal::OpenCell,
            13 => Refusal::FineGrid,
            19 => Refusal::FoldedCell,
            _ => Refusal::FullOutput,
        }
    }

    pub fn number(self) -> u32 {
        self as u32
    }
}

impl std::fmt::Display for Refusal {
    fn fmt(&self, f: &mut std::fmt::Formatter) -> std::fmt::Result {
        f.write_str(match self {
            Refusal::BadOperation => "the limit of meetings is not from 1 to 65,536",
            Refusal::BadShape => {
                "a mesh whose lists don't fit together (an odd count of coordinates, some layers but not one for each node, ends that don't rise to \
                 the count of node entries, unequal counts of ends, kinds and families), or one of over 16,384 nodes, 16,384 cells or 65,536 node entries"
            }
            Refusal::BadCoordinate => "a coordinate that is not finite, above 2^40 in size, or -0",
            Refusal::BadKind => {
                "a cell whose kind is not allowed there, is below the one before, or has another count of corners (polygons: 3 to 256)"
            }
            Refusal::BadNode => "a cell names a node that its mesh doesn't have",
            Refusal::RepeatedNode => "a cell or line names a node twice",
            Refusal::ShortWork => "the working list is too short",
            Refusal::ManyMeetings => "the edges of the meshes meet more often than the limit allows",
            Refusal::CrowdedEdge => "over 256 nodes were collected on one edge",
            Refusal::CrowdedCell => "over 1,024 slots in the table of one cell",
            Refusal::OpenCell => "the outline of a cell doesn't lead round once it is cut, as where a node lies a hair beside a corner and not on it",
            Refusal::FullOutput => "no place in an output list",
            Refusal::FineGrid => "the survey grid is finer than 1/2^10 metre",
            Refusal::FoldedCell => {
                "the outline of a cell runs along itself once it is cut: corners so close that they became one node, or a spike; merge or \
                 remove those corners"
            }
        })
    }
}

impl std::error::Error for Refusal {}

/// The cell that a piece was cut from: its index in the subject or in the cutter, as lent.
#[derive(Clone, Copy, Debug, PartialEq, Eq, PartialOrd, Ord, Hash)]
pub enum Parent {
    Subject(u32),
    Cutter(u32),
}

/// The answer.
#[derive(Clone, Debug, PartialEq)]
pub struct Overlay {
    /// The coordinates of the subject, of the cutter and of all points added where edges meet, in this order; the pieces as its cells. As many layers:
    /// an added point has that of its subject edge's first node, in the direction that the first cell with this edge has it.
    pub mesh: Mesh,
    /// For each piece the mesh of the cell that it was cut from: 0 for the subject, 1 for the cutter.
    pub parent_meshes: Vec<u32>,
    /// For each piece the index of that cell in its mesh.
    pub parent_cells: Vec<u32>,
    /// The added points that at least one piece names, each once: the stakes to order.
    pub new_points: u32,
    /// All added points, with which `mesh.coords` ends: more than `new_points` where Intersection, Difference or SymmetricDifference drop all
    /// pieces that name one, as many for the others.
    pub added_points: u32,
    /// Always 0: an edge is in a cell's table once. Kept for readers of old listings.
    pub doubled_cells: u32,
}

impl Overlay {
    /// The parent of each piece, in the order of `mesh.cells()`.
    pub fn parents(&self) -> impl Iterator<Item = Parent> {
        let both = self.parent_meshes.iter().zip(&self.parent_cells);
        both.map(|(mesh, cell)| if *mesh == 0 { Parent::Subject(*cell) } else { Parent::Cutter(*cell) })
    }
}

/// Lists that are lent to calls, to be used again. One for each thread.
#[derive(Default)]
pub struct Overlayer {
    out: Mesh,
    meshes: Vec<u32>,
    cells: Vec<u32>,
    work: Vec<u32>,
    /// Layers of a mesh that has none.
    zeros: Vec<u32>,
}

fn at_least<T: Clone + Default>(l: &mut Vec<T>, n: usize) {
    if l.len() < n {
        l.resize(n, T::default());
    }
}

impl Overlayer {
    /// Cuts the subject by the cutter with a limit of meetings and no grid: `Settings`.
    pub fn overlay(&mut self, operation: Operation, limit: u32, subject: &Mesh, cutter: &Mesh) -> Result<Overlay, Refusal> {
        self.overlay_with(Settings { limit, ..Settings::of(operation) }, subject, cutter)
    }

    /// Cuts the subject by the cutter. Lists that prove too short for the pieces grow, and the call is made again.
    pub fn overlay_with(&mut self, settings: Settings, subject: &Mesh, cutter: &Mesh) -> Result<Overlay, Refusal> {
        let nodes = subject.node_count() + cutter.node_count();
        let entries = subject.nodes.len() + cutter.nodes.len();
        let cells = subject.ends.len() + cutter.ends.len();
        let points = nodes + settings.limit.min(MOST_MEETINGS) as usize;
        let work = 16 * (points + entries) + 64;
        let most = SLOTS * cells;
        let mut room = (4 * entries + 256).min(most);
        at_least(&mut self.out.coords, 2 * points);
        at_least(&mut self.out.layers, points);
        at_least(&mut self.zeros, nodes);
        at_least(&mut self.work, work);
        loop {
            at_least(&mut self.out.nodes, room);
            at_least(&mut self.out.ends, room);
            at_least(&mut self.out.kinds, room);
            at_least(&mut self.out.families, room);
            at_least(&mut self.meshes, room);
            at_least(&mut self.cells, room);
            let mut counts = [0; 4];
            let code = self.call(settings, subject, cutter, work, &mut counts);
            if code == 0 {
                return Ok(self.answer(nodes, counts));
            }
            if code != 12 || room == most {
                return Err(Refusal::of(code));
            }
            room = (4 * room).min(most);
        }
    }

    fn answer(&self, nodes: usize, [pieces, new_points, doubled_cells, added_points]: [u32; 4]) -> Overlay {
        let n = pieces as usize;
        let ends = self.out.ends[..n].to_vec();
        let last = ends.last().map_or(0, |e| *e as usize);
        let points = nodes + added_points as usize;
        let mesh = Mesh {
            coords: self.out.coords[..2 * points].to_vec(),
            layers: self.out.layers[..points].to_vec(),
            nodes: self.out.nodes[..last].to_vec(),
            ends,
            kinds: self.out.kinds[..n].to_vec(),
            families: self.out.families[..n].to_vec(),
        };
        let (parent_meshes, parent_cells) = (self.meshes[..n].to_vec(), self.cells[..n].to_vec());
        Overlay { mesh, parent_meshes, parent_cells, new_points, added_points, doubled_cells }
    }

    #[rustfmt::skip]
    fn call<'a>(&'a mut self, settings: Settings, s: &'a Mesh, c: &'a Mesh, work: usize, counts: &mut [u32; 4]) -> u32 {
        // the number of no grid is no k: as a k it is as bad as the one below it
        let grid = settings.grid.map_or(NO_GRID, |k| k.min(NO_GRID - 1));
        let (o, meshes, cells, work) = (&mut self.out, &mut self.meshes, &mut self.cells, &mut self.work[..work]);
        let layers_of = |m: &'a Mesh| if m.layers.is_empty() { &self.zeros[..m.node_count()] } else { &m.layers[..] };
        let (sl, cl) = (layers_of(s), layers_of(c));
        // Each pair is a list of its own, lent for the call; those that are written are borrowed mutably.
        unsafe {
            daqwimay_overlay(
                settings.operation as u32, settings.limit, grid,
                s.coords.as_ptr(), s.coords.len(), sl.as_ptr(), sl.len(), s.nodes.as_ptr(), s.nodes.len(), s.ends.as_ptr(), s.ends.len(),
                s.kinds.as_ptr(), s.kinds.len(), s.families.as_ptr(), s.families.len(),
                c.coords.as_ptr(), c.coords.len(), cl.as_ptr(), cl.len(), c.nodes.as_ptr(), c.nodes.len(), c.ends.as_ptr(), c.ends.len(),
                c.kinds.as_ptr(), c.kinds.len(), c.families.as_ptr(), c.families.len(),
                o.coords.as_mut_ptr(), o.coords.len(), o.layers.as_mut_ptr(), o.layers.len(), o.nodes.as_mut_ptr(), o.nodes.len(),
                o.ends.as_mut_ptr(), o.ends.len(), o.kinds.as_mut_ptr(), o.kinds.len(), o.families.as_mut_ptr(), o.families.len(),
                meshes.as_mut_ptr(), meshes.len(), cells.as_mut_ptr(), cells.len(),
                work.as_mut_ptr(), work.len(), counts.as_mut_ptr(), counts.len(),
            )
        }
    }
}

/// Cuts the subject by the cutter, with lists of its own, the largest limit of meetings and no grid.
pub fn overlay(operation: Operation, subject: &Mesh, cutter: &Mesh) -> Result<Overlay, Refusal> {
    overlay_with(Settings::of(operation), subject, cutter)
}

/// Cuts the subject by the cutter, with lists of its own.
pub fn overlay_with(settings: Settings, subject: &Mesh, cutter: &Mesh) -> Result<Overlay, Refusal> {
    Overlayer::default().overlay_with(settings, subject, cutter)
}
