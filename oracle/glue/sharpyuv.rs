//! The module file that the folder sharpyuv lacks.

mod sharp_gamma;
mod sharp_rgba_to_yuv;

pub use sharp_gamma::SharpYuvGammaTransfer;
pub use sharp_rgba_to_yuv::{
    bgr_to_sharp_yuv420, bgr_to_sharp_yuv422, bgra_to_sharp_yuv420, bgra_to_sharp_yuv422,
    rgb_to_sharp_yuv420, rgb_to_sharp_yuv422, rgba_to_sharp_yuv420, rgba_to_sharp_yuv422,
};
