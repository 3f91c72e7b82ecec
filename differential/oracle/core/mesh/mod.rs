#[path = "../../published/crates/mefikit/src/mesh/dimension.rs"]
pub mod dimension;
#[path = "../../published/crates/mefikit/src/mesh/element.rs"]
pub mod element;
#[path = "../../published/crates/mefikit/src/mesh/element_block.rs"]
pub mod element_block;
#[path = "../../published/crates/mefikit/src/mesh/element_ids.rs"]
pub mod element_ids;
#[path = "../../published/crates/mefikit/src/mesh/indirect_index.rs"]
pub mod indirect_index;
#[path = "../../published/crates/mefikit/src/mesh/umesh.rs"]
pub mod umesh;

/// Stand-in.
pub mod connectivity;
/// Stand-in.
pub mod field;

pub use dimension::Dimension;
pub use element::{Element, ElementId, ElementLike, ElementMut, ElementType, Regularity};
pub use element_ids::ElementIds;
pub use field::{FieldBase, FieldView};
pub use indirect_index::IndirectIndexOwned;
pub use umesh::{UMesh, UMeshView};
