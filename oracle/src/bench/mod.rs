//! What the program `bench` times: the lists of nodes, and how each side runs
//! one. The side that is held against the Rust is a static library and is
//! there only with the feature `ours`.

#[cfg(feature = "ours")]
pub mod ours;
pub mod rust;
pub mod shapes;
pub mod times;
