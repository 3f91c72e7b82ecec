//! What becomes of the lists lent to the call itself, whatever their lengths: those of layers and parents too.
use daqwimay as _;

#[rustfmt::skip]
unsafe extern "C" {
    fn daqwimay_overlay(
        operation: u32, limit: u32, grid: u32,
        scoords: *const f64, scoords_len: usize, slayers: *const u32, slayers_len: usize, snodes: *const u32, snodes_len: usize,
        sends: *const u32, sends_len: usize, skinds: *const u8, skinds_len: usize, sfamilies: *const u32, sfamilies_len: usize,
        ccoords: *const f64, ccoords_len: usize, clayers: *const u32, clayers_len: usize, cnodes: *const u32, cnodes_len: usize,
        cends: *const u32, cends_len: usize, ckinds: *const u8, ckinds_len: usize, cfamilies: *const u32, cfamilies_len: usize,
        ocoords: *mut f64, ocoords_len: usize, olayers: *mut u32, olayers_len: usize, onodes: *mut u32, onodes_len: usize,
        oends: *mut u32, oends_len: usize, okinds: *mut u8, okinds_len: usize, ofamilies: *mut u32, ofamilies_len: usize,
        parent_meshes: *mut u32, parent_meshes_len: usize, parent_cells: *mut u32, parent_cells_len: usize,
        work: *mut u32, work_len: usize, counts: *mut u32, counts_len: usize,
    ) -> u32;
}

const SUBJECT: [f64; 8] = [0.0, 0.0, 2.0, 0.0, 2.0, 2.0, 0.0, 2.0];
const CUTTER: [f64; 8] = [1.0, -1.0, 3.0, -1.0, 3.0, 3.0, 1.0, 3.0];
const LIMIT: u32 = 9;
const WORK: usize = 16 * (8 + 8 + LIMIT as usize) + 64;
/// The layers of the subject's nodes and of the cutter's.
const LAYERS: [[u32; 4]; 2] = [[1, 2, 3, 4], [5, 6, 7, u32::MAX]];
/// Numbers that the Union of the two squares takes of the output lists, in the order of the call: ten points, three pieces, sixteen corners.
const TAKEN: [usize; 8] = [20, 10, 16, 3, 3, 3, 3, 3];
const FILLED: u32 = 77;
const NO_GRID: u32 = u32::MAX;

/// The lists that a call writes.
#[derive(Clone, Debug, PartialEq)]
struct Lists {
    coords: Vec<f64>,
    kinds: Vec<u8>,
    /// Layers, nodes, ends, families, the parents' meshes, the parents' cells.
    numbers: [Vec<u32>; 6],
    work: Vec<u32>,
    counts: Vec<u32>,
}

fn filled(sizes: [usize; 8]) -> Lists {
    let [coords, layers, nodes, ends, kinds, families, meshes, cells] = sizes;
    Lists {
        coords: vec![FILLED as f64; coords],
        kinds: vec![FILLED as u8; kinds],
        numbers: [layers, nodes, ends, families, meshes, cells].map(|n| vec![FILLED; n]),
        work: vec![FILLED; WORK],
        counts: vec![FILLED; 4],
    }
}

/// K1's squares, the cutter of family 5.
fn call(operation: u32, subject: &[f64], l: &mut Lists) -> u32 {
    call_on(NO_GRID, operation, subject, l)
}

fn call_on(grid: u32, operation: u32, subject: &[f64], l: &mut Lists) -> u32 {
    call_in(LAYERS.each_ref().map(|l| &l[..]), grid, operation, subject, l)
}

#[rustfmt::skip]
fn call_in([sl, cl]: [&[u32]; 2], grid: u32, operation: u32, subject: &[f64], l: &mut Lists) -> u32 {
    let (corners, ends, skinds, sfamilies, ckinds, cfamilies) = ([0u32, 1, 2, 3], [4u32], [8u8], [7u32], [11u8], [5u32]);
    let [layers, nodes, oends, families, meshes, cells] = &mut l.numbers;
    unsafe {
        daqwimay_overlay(
            operation, LIMIT, grid,
            subject.as_ptr(), subject.len(), sl.as_ptr(), sl.len(), corners.as_ptr(), 4, ends.as_ptr(), 1, skinds.as_ptr(), 1, sfamilies.as_ptr(), 1,
            CUTTER.as_ptr(), 8, cl.as_ptr(), cl.len(), corners.as_ptr(), 4, ends.as_ptr(), 1, ckinds.as_ptr(), 1, cfamilies.as_ptr(), 1,
            l.coords.as_mut_ptr(), l.coords.len(), layers.as_mut_ptr(), layers.len(), nodes.as_mut_ptr(), nodes.len(),
            oends.as_mut_ptr(), oends.len(), l.kinds.as_mut_ptr(), l.kinds.len(), families.as_mut_ptr(), families.len(),
            meshes.as_mut_ptr(), meshes.len(), cells.as_mut_ptr(), cells.len(),
            l.work.as_mut_ptr(), l.work.len(), l.counts.as_mut_ptr(), l.counts.len(),
        )
    }
}

#[test]
fn lists_that_just_fit() {
    let mut l = filled(TAKEN);
    assert_eq!(call(1, &SUBJECT, &mut l), 0);
    assert_eq!((&l.counts[..], &l.kinds[..]), (&[3, 2, 0, 2][..], &[11; 3][..]));
    let [layers, nodes, ends, families, meshes, cells] = l.numbers;
    // the new points are on the square's first side, from its first node, and on its third, from its third
    assert_eq!((layers, &l.coords[16..]), (vec![1, 2, 3, 4, 5, 6, 7, u32::MAX, 1, 3], &[1.0, 0.0, 1.0, 2.0][..]));
    assert_eq!((nodes.len(), ends), (16, vec![4, 8, 16]));
    assert_eq!((families, meshes, cells), (vec![7, 7, 5], vec![0, 0, 1], vec![0, 0, 0]));
}

/// 12, whichever list is the short one, and all lists but the inputs zero.
#[test]
fn one_list_that_is_short() {
    for short in 0..8 {
        let mut sizes = TAKEN.map(|n| n + 4);
        sizes[short] = TAKEN[short] - 1;
        let mut l = filled(sizes);
        assert_eq!(call(1, &SUBJECT, &mut l), 12, "list {short}");
        assert!(l.coords.iter().all(|x| x.to_bits() == 0) && l.kinds.iter().all(|k| *k == 0), "list {short}");
        assert!(l.numbers.iter().chain([&l.work, &l.counts]).flatten().all(|n| *n == 0), "list {short}");
    }
}

#[test]
fn places_behind_the_answer_keep_their_content() {
    let mut l = filled(TAKEN.map(|n| n + 4));
    assert_eq!(call(1, &SUBJECT, &mut l), 0);
    assert_eq!((&l.coords[20..], &l.kinds[3..]), (&[FILLED as f64; 4][..], &[FILLED as u8; 4][..]));
    for (list, taken) in l.numbers.iter().zip([10, 16, 3, 3, 3, 3]) {
        assert_eq!(list[taken..], [FILLED; 4]);
    }
    assert!(l.work.iter().all(|n| *n == 0));
}

/// As many counts as there are places, and no more than four; 0 at a refusal.
#[test]
fn counts_in_a_list_of_any_length() {
    for (operation, want) in [(1, [3, 2, 0, 2]), (6, [0; 4])] {
        for n in 0..7 {
            let mut l = Lists { counts: vec![FILLED; n], ..filled(TAKEN) };
            call(operation, &SUBJECT, &mut l);
            assert_eq!(l.counts, [&want[..n.min(4)], &vec![FILLED; n.saturating_sub(4)]].concat());
        }
    }
}

/// Refusals because of the input touch no list; the counts are 0.
#[test]
fn a_refused_input_leaves_the_lists() {
    let mut bad = SUBJECT;
    bad[0] = -0.0;
    let refused = [(NO_GRID, 6, &SUBJECT[..], 1), (NO_GRID, 1, &SUBJECT[..7], 2), (NO_GRID, 1, &bad[..], 3)];
    let on_a_grid = [(11, 1, &SUBJECT[..], 13), (NO_GRID - 1, 1, &bad[..7], 13), (11, 6, &bad[..7], 1), (10, 1, &bad[..7], 2), (10, 1, &bad[..], 3)];
    for (grid, operation, subject, code) in refused.into_iter().chain(on_a_grid) {
        let mut l = filled([0, 1, 2, 3, 4, 5, 6, 7]);
        assert_eq!(call_on(grid, operation, subject, &mut l), code);
        assert_eq!(l, Lists { counts: vec![0; 4], ..filled([0, 1, 2, 3, 4, 5, 6, 7]) });
    }
}

/// One layer for each node, in either mesh; none is too few, and so it is for a coordinate that is refused too.
#[test]
fn a_list_of_layers_of_another_length() {
    let [s, c] = LAYERS;
    let mut bad = SUBJECT;
    bad[7] = f64::NAN;
    for (layers, code) in [([&s[..], &c[..]], 0), ([&s[..3], &c[..]], 2), ([&s[..], &c[..3]], 2), ([&[9; 5], &c[..]], 2), ([&s[..], &[9; 5]], 2), ([&[], &[]], 2)] {
        for (subject, code) in [(&SUBJECT, code), (&bad, if code == 0 { 3 } else { code })] {
            let mut l = filled(TAKEN);
            assert_eq!(call_in(layers, NO_GRID, 0, subject, &mut l), code);
            assert!(code == 0 || l == Lists { counts: vec![0; 4], ..filled(TAKEN) });
        }
    }
}

/// K1's new points lie on every grid.
#[test]
fn no_grid_is_the_largest_number() {
    let answer = |grid| {
        let mut l = filled(TAKEN);
        assert_eq!(call_on(grid, 1, &SUBJECT, &mut l), 0);
        l
    };
    assert!([0, 1, 9, 10].map(answer).into_iter().all(|l| l == answer(NO_GRID)));
}
