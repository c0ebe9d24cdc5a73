//! A brute-force second program that the Bedbloomer library is compared with.

pub mod brute;
pub mod cases;
pub mod ffi;
pub mod halves;
pub mod layout;
pub mod rng;
