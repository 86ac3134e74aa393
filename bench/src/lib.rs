//! What the two programs of the benchmark share: interleaved timing, and the sheets to time on.

pub mod sheets;
pub mod timing;
