//! The original's modules under the names that it uses for them, and what the two drivers share.
//!
//! `slot_arena`, `frequency_buckets`, `hashmap` and `lfu` are the original's own files (see `build.rs`). The original's
//! `ds/mod.rs` and `lib.rs` name many modules that are not at hand, so the tree is written here with those four alone.

pub mod ds {
    include!(concat!(env!("OUT_DIR"), "/ds.rs"));
    pub use frequency_buckets::{FrequencyBuckets, FrequencyBucketsHandle};
}

pub mod store {
    include!(concat!(env!("OUT_DIR"), "/store.rs"));
    pub mod traits;
}

pub mod policy {
    include!(concat!(env!("OUT_DIR"), "/policy.rs"));
}

pub mod traits;

pub mod answers;
pub mod bucket_calls;
pub mod cache_calls;
pub mod cache_walk;
pub mod input;
pub mod insertion;
pub mod regrouping;
pub mod slots;
