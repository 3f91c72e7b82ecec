#[path = "../../published/crates/mefikit/src/geometry/convexity.rs"]
pub mod convexity;
#[path = "../../published/crates/mefikit/src/geometry/polygon.rs"]
pub mod polygon;
#[path = "../../published/crates/mefikit/src/geometry/segment.rs"]
pub mod segment;

pub use convexity::Convexity;
pub use polygon::Polygon;
pub use segment::{Intersection, Intersections, PointId, Segment};
