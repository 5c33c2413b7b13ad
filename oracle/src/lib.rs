//! The published Rust beside the proved library. See docs/ORACLE.md.

pub mod compare;
pub mod curves;
pub mod differ;
pub mod distance;
pub mod drafts;
pub mod drawing;
mod encode;
mod hex;
pub mod portrait;
pub mod replay;
mod scenes;
mod shapes;
mod sheet;
mod shrink;
pub mod spiral;
pub mod stops;
pub mod strokes;
mod tags;
mod values;
pub mod whole;
