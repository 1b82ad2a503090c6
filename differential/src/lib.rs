//! The Rust original (OxideAV/oxideav-mpeg12video at commit 57648ece95) as an
//! oracle: ten of its files, unchanged, as the modules `pmv`,
//! `forming_predictions` and so on, with shims for what they name of the rest.

// The files name the crate `oxideav_core`; its one item they use is a shim here.
extern crate self as oxideav_core;

pub mod macroblocks;
pub mod port;
pub mod refusals;
pub mod rng;
mod shims;
pub mod vectors;

// The shims stand where the files look for the originals: at the crate's root.
pub use shims::*;

include!(concat!(env!("OUT_DIR"), "/oracle.rs"));
