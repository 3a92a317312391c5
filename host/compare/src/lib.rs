//! The proved library held against its twin: captures that follow from a seed, and both sessions over them.

pub mod capture;
pub mod feed;
pub mod night;
pub mod pair;
pub mod random;
pub mod steps;
pub mod ways;
