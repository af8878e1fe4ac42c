//! The second implementation of paper 01 and the door to the first one.
pub mod model;

pub mod door;

#[cfg(feature = "self")]
pub mod answer;
