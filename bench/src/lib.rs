//! What the comparing and the measuring program share.
#![deny(unsafe_code)]

pub mod bytes;
pub mod proved;
pub mod workloads;
