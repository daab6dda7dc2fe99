//! What the papers demand beside what the program says: request by request, at
//! guarded places, and for files at the limits; and how a difference is shown.

pub mod agreement;
pub mod compare;
pub mod difference;
pub mod expected;
pub mod guarded;
pub mod limits;
pub mod trials;
