//! The original: four modules of IronBus, unchanged. SOURCES.md says where they come from.
pub mod binding;
pub mod resolve_cache;
pub mod subject;
pub mod sublist;
