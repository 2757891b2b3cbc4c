//! The crate root that the seven files of the Rust lack. Only what they and the callers need.

mod built_coefficients;
mod images;
mod numerics;
pub mod sharpyuv;
mod yuv_error;
pub mod yuv_support;

pub use images::{BufferStoreMut, YuvPlanarImageMut};
pub use sharpyuv::SharpYuvGammaTransfer;
pub use yuv_error::{MismatchedSize, YuvError};
pub use yuv_support::{
    CbCrForwardTransform, YuvBytesPacking, YuvChromaSubsampling, YuvEndianness, YuvRange,
    YuvStandardMatrix,
};

/// The stored set of a matrix and a range, which the Rust keeps to itself.
pub fn built_forward_transform(
    range: YuvRange,
    matrix: YuvStandardMatrix,
) -> Option<CbCrForwardTransform<i32>> {
    built_coefficients::get_built_forward_transform(13, 8, range, matrix)
}

/// The Rust's check of a source, which it makes of its own accord with the size of the frame.
pub fn check_source(
    source: &[u8],
    stride: u32,
    width: u32,
    height: u32,
    channels: usize,
) -> Result<(), YuvError> {
    yuv_error::check_rgba_destination(source, stride, width, height, channels)
}

/// The tables that two of the copies take instead of filling their own.
#[cfg(exact_tables)]
pub(crate) fn exact_tables(transfer: SharpYuvGammaTransfer) -> &'static model::curves::Tables {
    let transfer = match transfer {
        SharpYuvGammaTransfer::Srgb => model::SharpYuvGammaTransfer::Srgb,
        SharpYuvGammaTransfer::Rec709 => model::SharpYuvGammaTransfer::Rec709,
        SharpYuvGammaTransfer::Gamma2p2 => model::SharpYuvGammaTransfer::Gamma2p2,
        SharpYuvGammaTransfer::Gamma2p8 => model::SharpYuvGammaTransfer::Gamma2p8,
    };
    let rounding = if cfg!(nearest) {
        model::TableRounding::Nearest
    } else {
        model::TableRounding::Truncated
    };
    model::curves::tables(transfer, rounding)
}
