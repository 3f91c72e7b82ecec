#[path = "../../published/crates/mefikit/src/element_traits/cut.rs"]
pub mod cut;
#[path = "../../published/crates/mefikit/src/element_traits/utils.rs"]
pub mod utils;

/// Stand-in.
pub mod element_groups;
/// Stand-in.
pub mod element_geo;
/// Stand-in.
pub mod element_topo;

pub use cut::Cutable;
pub use element_geo::ElementGeo;
pub use element_topo::ElementTopo;
pub use utils::SortedVecKey;
