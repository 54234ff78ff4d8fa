//! What the comparison and the benchmark share.
pub mod arguments;
pub mod chance;
pub mod steps;
pub mod words;

pub use arguments::Arguments;
pub use chance::Chance;
pub use steps::{Kind, State, Step};
pub use words::Words;
