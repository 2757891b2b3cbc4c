//! Frame calls: the eight functions of the original, the one under them, and the same with options.

use crate::error::YuvError;
use crate::ffi;
use crate::image::YuvPlanarImageMut;
use crate::mode::in_default_mode;
use crate::settings::{
    FrameDescription, FrameOptions, SharpYuvGammaTransfer, YuvChromaSubsampling, YuvRange,
    YuvSourceChannels, YuvStandardMatrix,
};

/// Converts a whole frame, or answers one refusal (2, 3, 4, 6 to 12) and writes no byte: RULES 7.8.
///
/// `source` is exactly `stride` × height bytes; `y`, `u`, `v` are exactly their stride times their rows.
pub fn rgbx_to_sharp_yuv(
    frame: &FrameDescription,
    source: &[u8],
    stride: u32,
    y: &mut [u8],
    u: &mut [u8],
    v: &mut [u8],
) -> Result<(), YuvError> {
    let numbers = frame.numbers(0, 0, stride);
    convert(&numbers[2..], &frame.matrix.custom(), source, y, u, v)
}

/// As [`rgbx_to_sharp_yuv`], with the choices of `options`; with those of [`FrameOptions::of`] it is the same call. Refusals are 2, 3, 4, 14, 6 to
/// 12.
///
/// `source` is the large source of the window: its rows are of the large width, and it is exactly `stride` × the large height bytes.
///
/// ```
/// use segvartin::*;
///
/// let frame = FrameDescription {
///     width: 2,
///     height: 2,
///     channels: YuvSourceChannels::Rgb,
///     sampling: YuvChromaSubsampling::Yuv420,
///     range: YuvRange::Full,
///     matrix: YuvStandardMatrix::Bt601,
///     transfer: SharpYuvGammaTransfer::Srgb,
///     y_stride: 2,
///     u_stride: 1,
///     v_stride: 1,
/// };
/// let mut options = FrameOptions::of(&frame);
/// options.rounding = TableRounding::Nearest;
/// let (mut y, mut u, mut v) = ([0; 4], [0; 1], [0; 1]);
/// rgbx_to_sharp_yuv_with(&frame, &options, &[10, 0, 0].repeat(4), 6, &mut y, &mut u, &mut v)?;
/// assert_eq!((y, u, v), ([3; 4], [126], [133])); // truncated: V is 132
/// # Ok::<(), YuvError>(())
/// ```
pub fn rgbx_to_sharp_yuv_with(
    frame: &FrameDescription,
    options: &FrameOptions,
    source: &[u8],
    stride: u32,
    y: &mut [u8],
    u: &mut [u8],
    v: &mut [u8],
) -> Result<(), YuvError> {
    let numbers = frame.numbers_with(options, 0, 0, stride);
    convert(&numbers[2..], &frame.matrix.custom(), source, y, u, v)
}

/// The library's frame call on these numbers.
fn convert(
    numbers: &[u32],
    custom: &[f32; 2],
    source: &[u8],
    y: &mut [u8],
    u: &mut [u8],
    v: &mut [u8],
) -> Result<(), YuvError> {
    let mut told = [0; 2];
    // SAFETY: each pointer is that of a slice beside its own length, or of a value by itself; no two overlap, as the borrows say.
    let number = in_default_mode(|| unsafe {
        ffi::segvartin_call_frame(
            numbers.as_ptr(),
            numbers.len(),
            custom,
            source.as_ptr(),
            source.len(),
            y.as_mut_ptr(),
            y.len(),
            u.as_mut_ptr(),
            u.len(),
            v.as_mut_ptr(),
            v.len(),
            &mut told,
        )
    });
    let [expected, received] = told;
    YuvError::answer(number, expected, received)
}

macro_rules! sharp_yuv {
    ($name:ident, $source:ident, $stride:ident, $channels:ident, $sampling:ident, $what:literal) => {
        #[doc = $what]
        ///
        /// Refused (2, 3, 4, 6 to 12) with no byte written where size, matrix, strides or lengths do not fit.
        pub fn $name(
            planar_image: &mut YuvPlanarImageMut<u8>,
            $source: &[u8],
            $stride: u32,
            range: YuvRange,
            matrix: YuvStandardMatrix,
            gamma_transfer: SharpYuvGammaTransfer,
        ) -> Result<(), YuvError> {
            let frame = FrameDescription {
                width: planar_image.width,
                height: planar_image.height,
                channels: YuvSourceChannels::$channels,
                sampling: YuvChromaSubsampling::$sampling,
                range,
                matrix,
                transfer: gamma_transfer,
                y_stride: planar_image.y_stride,
                u_stride: planar_image.u_stride,
                v_stride: planar_image.v_stride,
            };
            rgbx_to_sharp_yuv(
                &frame,
                $source,
                $stride,
                planar_image.y_plane.borrow_mut(),
                planar_image.u_plane.borrow_mut(),
                planar_image.v_plane.borrow_mut(),
            )
        }
    };
}

sharp_yuv!(
    rgb_to_sharp_yuv422,
    rgb,
    rgb_stride,
    Rgb,
    Yuv422,
    "Convert RGB image data to YUV 4:2:2 planar format with bi-linear interpolation and gamma correction."
);
sharp_yuv!(
    bgr_to_sharp_yuv422,
    bgr,
    bgr_stride,
    Bgr,
    Yuv422,
    "Convert BGR image data to YUV 4:2:2 planar format with bi-linear interpolation and gamma correction."
);
sharp_yuv!(
    rgba_to_sharp_yuv422,
    rgba,
    rgba_stride,
    Rgba,
    Yuv422,
    "Convert RGBA image data to YUV 4:2:2 planar format with bi-linear interpolation and gamma correction."
);
sharp_yuv!(
    bgra_to_sharp_yuv422,
    bgra,
    bgra_stride,
    Bgra,
    Yuv422,
    "Convert BGRA image data to YUV 4:2:2 planar format with bi-linear interpolation and gamma correction."
);
sharp_yuv!(
    rgb_to_sharp_yuv420,
    rgb,
    rgb_stride,
    Rgb,
    Yuv420,
    "Convert RGB image data to YUV 4:2:0 planar format with bi-linear interpolation and gamma correction."
);
sharp_yuv!(
    bgr_to_sharp_yuv420,
    bgr,
    bgr_stride,
    Bgr,
    Yuv420,
    "Convert BGR image data to YUV 4:2:0 planar format with bi-linear interpolation and gamma correction."
);
sharp_yuv!(
    rgba_to_sharp_yuv420,
    rgba,
    rgba_stride,
    Rgba,
    Yuv420,
    "Convert RGBA image data to YUV 4:2:0 planar format with bi-linear interpolation and gamma correction."
);
sharp_yuv!(
    bgra_to_sharp_yuv420,
    bgra,
    bgra_stride,
    Bgra,
    Yuv420,
    "Convert BGRA image data to YUV 4:2:0 planar format with bi-linear interpolation and gamma correction."
);
