//! The cases (`cases`) that hold the C calls of the archives (`border`) to the papers as the crate `paper` has them. Nothing
//! here is taken from the proved sources: the two meet in the C declarations alone.

pub mod border;
pub mod cases;
pub mod fence;
pub mod guard;
pub mod judge;
pub mod report;
