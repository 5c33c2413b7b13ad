//! The published files as people ship them: std's mathematics, no overflow checks.

#[path = "../../cpu.rs"]
mod cpu;

pub use cpu::TEXTS;
pub use cpu::flatten::reach_main;
