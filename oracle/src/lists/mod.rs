//! Lists of nodes to ask both sides about: all small ones, samples, and random
//! ones of every length. The same command gives the same lists.

pub mod all;
pub mod maker;
pub mod numbers;
pub mod random;
pub mod table;
