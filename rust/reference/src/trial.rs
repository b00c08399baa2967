//! Inputs on which a planner can be tried: random numbers from a seed, region
//! files in order and damaged, and failing files made smaller.

pub mod damage;
pub mod draft;
pub mod files;
pub mod shrink;
pub mod splitmix;
