//! The published files without std, so that the methods of f32 which only std has are those of [`ours`]. Everything
//! else in them is as it was.

#![no_std]

// The files say `std::f32::consts` and `std::ops`, which core has.
extern crate core as std;

pub mod calls;
#[path = "../../cpu.rs"]
mod cpu;
pub mod ours;

pub use cpu::TEXTS;
pub use cpu::flatten::reach_main;

/// The same function with workgroups of one tag.
pub use cpu::tag_by_tag::reach_main as reach_tag_by_tag;

/// The file that it is in.
pub const TAG_BY_TAG: (&str, &str) =
    (concat!(env!("OUT_DIR"), "/tag_by_tag.rs"), include_str!(concat!(env!("OUT_DIR"), "/tag_by_tag.rs")));
