//! The original's node checks, node builder and literal picker, compiled as they are.
#![allow(dead_code)]

pub mod atoms;

#[cfg(original)]
include!(concat!(env!("OUT_DIR"), "/top.rs"));

#[cfg(original)]
pub mod matcher;

#[cfg(original)]
pub mod regex;

#[cfg(original)]
pub mod hex;
