//! The module that the published files stand in, and what they name in it.

#![allow(dead_code)]

include!(concat!(env!("OUT_DIR"), "/modules.rs"));

/// The files as they were compiled, to find the line of a panic in.
pub const TEXTS: [(&str, &str); 2] = [
    (concat!(env!("OUT_DIR"), "/util.rs"), include_str!(concat!(env!("OUT_DIR"), "/util.rs"))),
    (concat!(env!("OUT_DIR"), "/flatten.rs"), include_str!(concat!(env!("OUT_DIR"), "/flatten.rs"))),
];

/// What the wrapper of `flatten.rs` names. The wrapper is never called.
pub struct CpuBinding<'a>(&'a ());

impl<'a> CpuBinding<'a> {
    pub fn as_typed<T>(&self) -> &'a T {
        unreachable!()
    }

    pub fn as_typed_mut<T>(&self) -> &'a mut T {
        unreachable!()
    }

    pub fn as_slice<T>(&self) -> &'a [T] {
        unreachable!()
    }

    pub fn as_slice_mut<T>(&self) -> &'a mut [T] {
        unreachable!()
    }
}
