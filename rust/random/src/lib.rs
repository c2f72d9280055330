//! Reproducible pseudo-random numbers, and damage to inputs by them.

pub mod damage;
pub mod prng;
