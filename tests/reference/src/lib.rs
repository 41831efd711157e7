//! Document 01 and requests 2026-01 to 2026-07 in Rust, written from their words alone: what the proved
//! library is compared with, and the yardstick of the benchmarks.

pub mod archive;
pub mod book;
pub mod chain;
pub mod driver;
pub mod ink;
pub mod lea;
pub mod maker;
pub mod pad;
pub mod reading;
pub mod refusal;
pub mod round;
pub mod schedule;
pub mod sha256;
pub mod size;

pub use schedule::Schedule;
pub use size::Size;
