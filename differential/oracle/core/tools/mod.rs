#[path = "../../published/crates/mefikit/src/tools/neighbours.rs"]
pub mod neighbours;
/// Its two missing submodules are looked for beside it, so their stand-ins are there.
#[path = "../../published/crates/mefikit/src/tools/overlay.rs"]
pub mod overlay;
#[path = "../../published/crates/mefikit/src/tools/snap.rs"]
pub mod snap;
/// Stand-in, document 01's.
pub mod spatial_index;

pub use neighbours::Descendable;
pub use overlay::{OverlayOperation, Overlayable, intersect_2d1d};
pub use snap::duplicates_from;
