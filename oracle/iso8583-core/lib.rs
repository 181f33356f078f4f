//! The modules of iso8583-core 0.1.0 that are compared with, as its own lib.rs lists them; build.rs says where they lie.
include!(concat!(env!("OUT_DIR"), "/modules.rs"));
pub use bitmap_simd as bitmap;
