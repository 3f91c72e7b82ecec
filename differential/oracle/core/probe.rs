//! Opens private parts of the published cut.rs to checks from outside: the file is included a
//! second time, with one function added after it.
pub mod cut {
    include!("../published/crates/mefikit/src/element_traits/cut.rs");

    /// Neighbours (numbered from 1 as given) around `centre`, as `sort_cell_dart_map` leaves them.
    pub fn sorted_around(centre: [f64; 2], neighbours: &[[f64; 2]]) -> Vec<usize> {
        let mut flat = vec![centre[0], centre[1]];
        for n in neighbours {
            flat.extend_from_slice(n);
        }
        let coords = nd::Array2::from_shape_vec((neighbours.len() + 1, 2), flat).unwrap();
        let mut map: DartMap = FxHashMap::default();
        map.insert(0, (1..=neighbours.len()).map(|n| (n, false)).collect());
        sort_cell_dart_map(&mut map, coords.view());
        map[&0].iter().map(|s| s.0).collect()
    }
}
