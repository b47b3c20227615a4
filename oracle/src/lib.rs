//! The original Rust and a model of document 01, side by side.
pub mod anomaly;
pub mod case;
pub mod casts;
pub mod compare;
pub mod comparison;
pub mod conditions;
pub mod damaged;
pub mod generate;
pub mod guard;
pub mod image;
pub mod machine;
pub mod model;
pub mod original;
pub mod shrink;
pub mod stored;
pub mod text;
pub mod words;
