//! A model of docs/RULES.md, to compare converters with. It was written from the scope document
//! that the rules come from, without a look at the proved code; `convoy`, `desk`, `pairs`, `shift` and
//! `y4m` say what was read for them.
//!
//! It is meant to be read: each item names the rules that it states. Two things that the rules take
//! from the Rust are copied as numbers: the ten stored sets and the kr and kb of Fcc (`matrix`).
//!
//! Sizes, strides and lengths are worked out in `u64`: a u32 stride times 16,384 rows fits. Every
//! function answers every input.
#![forbid(unsafe_code)]

pub mod bands;
pub mod convoy;
pub mod counts;
pub mod curves;
pub mod desk;
pub mod frame;
pub mod grey;
pub mod matrix;
pub mod pairs;
pub mod program;
pub mod refusals;
pub mod row;
pub mod settings;
pub mod shift;
pub mod summary;
mod whole;
mod window;
pub mod y4m;

pub use bands::{FrameState, open};
pub use counts::{luma_counts, luma_counts_by_numbers, luma_counts_program};
pub use frame::{Frame, frame};
pub use program::program;
pub use refusals::{Answer, Refusal};
pub use settings::{
    Settings, SharpYuvGammaTransfer, TableRounding, YuvChromaSubsampling, YuvRange,
    YuvSourceChannels, YuvStandardMatrix,
};
pub use window::Window;
