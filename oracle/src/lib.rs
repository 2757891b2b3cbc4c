//! Calls the three copies of the Rust with the model's types.
#![forbid(unsafe_code)]

use model::{Refusal, SharpYuvGammaTransfer, TableRounding, Window};

/// A table entry of the unaltered Rust that is not the exact one. The Rust truncates, and so does
/// what it is held to.
#[derive(Clone, Copy, Debug)]
pub struct Entry {
    pub transfer: SharpYuvGammaTransfer,
    pub table: &'static str,
    pub index: usize,
    pub rust: u16,
    pub exact: u16,
}

/// All such entries on this machine, and the number of entries compared.
pub fn differing_entries() -> (Vec<Entry>, usize) {
    use SharpYuvGammaTransfer::*;
    let mut entries = Vec::new();
    let mut compared = 0;
    for transfer in [Srgb, Rec709, Gamma2p2, Gamma2p8] {
        let exact = model::curves::tables(transfer, TableRounding::Truncated);
        let rust = unaltered::tables(transfer);
        let wide = |bytes: &[u8]| -> Vec<u16> { bytes.iter().map(|b| u16::from(*b)).collect() };
        for (table, rust, exact) in [
            ("linear", rust.linear, exact.linear.clone()),
            ("gamma", wide(&rust.gamma), wide(&exact.gamma)),
        ] {
            compared += exact.len();
            for (index, (rust, exact)) in rust.into_iter().zip(exact).enumerate() {
                if rust != exact {
                    entries.push(Entry {
                        transfer,
                        table,
                        index,
                        rust,
                        exact,
                    });
                }
            }
        }
    }
    (entries, compared)
}

/// An error of the Rust: its name, and its two numbers where it has them.
#[derive(Clone, Debug, PartialEq)]
pub struct RustError {
    pub name: String,
    pub expected: u64,
    pub received: u64,
}

impl RustError {
    /// RULES 7.1: the refusal that has this error's name, where one does.
    /// The chroma planes share an error, so the caller says which of them it was.
    pub fn refusal(&self, chroma: u8) -> Option<Refusal> {
        let number = match self.name.as_str() {
            "ZeroBaseSize" => 2,
            "DestinationSizeMismatch" => 6,
            "MinimumStrideSizeMismatch" => 7,
            "LumaPlaneMinimumSizeMismatch" => 8,
            "LumaPlaneSizeMismatch" => 9,
            "ChromaPlaneMinimumSizeMismatch" => chroma,
            _ => return None,
        };
        Some(Refusal {
            number,
            expected: self.expected,
            received: self.received,
        })
    }
}

/// One copy's calls. The copies are different crates with equal text, so their types differ.
macro_rules! calls_of {
    ($module:ident, $copy:ident) => {
        pub mod $module {
            use super::RustError;
            use $copy::sharpyuv::*;
            use $copy::{BufferStoreMut, MismatchedSize, YuvError, YuvPlanarImageMut};

            fn range(range: model::YuvRange) -> $copy::YuvRange {
                match range {
                    model::YuvRange::Limited => $copy::YuvRange::Limited,
                    model::YuvRange::Full => $copy::YuvRange::Full,
                }
            }

            fn matrix(matrix: model::YuvStandardMatrix) -> $copy::YuvStandardMatrix {
                match matrix {
                    model::YuvStandardMatrix::Bt601 => $copy::YuvStandardMatrix::Bt601,
                    model::YuvStandardMatrix::Bt709 => $copy::YuvStandardMatrix::Bt709,
                    model::YuvStandardMatrix::Bt2020 => $copy::YuvStandardMatrix::Bt2020,
                    model::YuvStandardMatrix::Smpte240 => $copy::YuvStandardMatrix::Smpte240,
                    model::YuvStandardMatrix::Bt470_6 => $copy::YuvStandardMatrix::Bt470_6,
                    model::YuvStandardMatrix::Fcc => $copy::YuvStandardMatrix::Fcc,
                    model::YuvStandardMatrix::Custom(kr, kb) => {
                        $copy::YuvStandardMatrix::Custom(kr, kb)
                    }
                }
            }

            fn transfer(transfer: model::SharpYuvGammaTransfer) -> SharpYuvGammaTransfer {
                match transfer {
                    model::SharpYuvGammaTransfer::Srgb => SharpYuvGammaTransfer::Srgb,
                    model::SharpYuvGammaTransfer::Rec709 => SharpYuvGammaTransfer::Rec709,
                    model::SharpYuvGammaTransfer::Gamma2p2 => SharpYuvGammaTransfer::Gamma2p2,
                    model::SharpYuvGammaTransfer::Gamma2p8 => SharpYuvGammaTransfer::Gamma2p8,
                }
            }

            fn subsampling(sampling: model::YuvChromaSubsampling) -> $copy::YuvChromaSubsampling {
                match sampling {
                    model::YuvChromaSubsampling::Yuv420 => $copy::YuvChromaSubsampling::Yuv420,
                    model::YuvChromaSubsampling::Yuv422 => $copy::YuvChromaSubsampling::Yuv422,
                }
            }

            fn error(error: YuvError) -> RustError {
                let mut size = MismatchedSize {
                    expected: 0,
                    received: 0,
                };
                let name = match error {
                    YuvError::DestinationSizeMismatch(s) => {
                        size = s;
                        "DestinationSizeMismatch"
                    }
                    YuvError::MinimumStrideSizeMismatch(s) => {
                        size = s;
                        "MinimumStrideSizeMismatch"
                    }
                    YuvError::LumaPlaneSizeMismatch(s) => {
                        size = s;
                        "LumaPlaneSizeMismatch"
                    }
                    YuvError::LumaPlaneMinimumSizeMismatch(s) => {
                        size = s;
                        "LumaPlaneMinimumSizeMismatch"
                    }
                    YuvError::ChromaPlaneMinimumSizeMismatch(s) => {
                        size = s;
                        "ChromaPlaneMinimumSizeMismatch"
                    }
                    YuvError::ChromaPlaneSizeMismatch(s) => {
                        size = s;
                        "ChromaPlaneSizeMismatch"
                    }
                    YuvError::PackedFrameSizeMismatch(s) => {
                        size = s;
                        "PackedFrameSizeMismatch"
                    }
                    YuvError::PointerOverflow => "PointerOverflow",
                    YuvError::ZeroBaseSize => "ZeroBaseSize",
                    YuvError::ImagesSizesNotMatch => "ImagesSizesNotMatch",
                    YuvError::ImageDimensionsNotMatch => "ImageDimensionsNotMatch",
                };
                RustError {
                    name: name.to_string(),
                    expected: size.expected as u64,
                    received: size.received as u64,
                }
            }

            /// The Rust's function for this channel order and sampling, on the lent buffers. It
            /// knows no rounding, its copy has one, and no window: the source is the frame.
            pub fn frame(
                frame: &model::Frame,
                source: &[u8],
                y: &mut [u8],
                u: &mut [u8],
                v: &mut [u8],
            ) -> Result<(), RustError> {
                use model::YuvChromaSubsampling::*;
                use model::YuvSourceChannels::*;
                let call = match (frame.settings.channels, frame.settings.sampling) {
                    (Rgb, Yuv420) => rgb_to_sharp_yuv420,
                    (Rgba, Yuv420) => rgba_to_sharp_yuv420,
                    (Bgra, Yuv420) => bgra_to_sharp_yuv420,
                    (Bgr, Yuv420) => bgr_to_sharp_yuv420,
                    (Rgb, Yuv422) => rgb_to_sharp_yuv422,
                    (Rgba, Yuv422) => rgba_to_sharp_yuv422,
                    (Bgra, Yuv422) => bgra_to_sharp_yuv422,
                    (Bgr, Yuv422) => bgr_to_sharp_yuv422,
                };
                let mut image = image(frame, y, u, v);
                call(
                    &mut image,
                    source,
                    frame.source_stride,
                    range(frame.settings.range),
                    matrix(frame.settings.matrix),
                    transfer(frame.settings.transfer),
                )
                .map_err(error)
            }

            /// The Rust's check of a source of this many pixels.
            pub fn check_source(
                channels: model::YuvSourceChannels,
                source: &[u8],
                stride: u32,
                (width, height): (u32, u32),
            ) -> Result<(), RustError> {
                let channels = channels.bytes() as usize;
                $copy::check_source(source, stride, width, height, channels).map_err(error)
            }

            /// Whether the Rust's checks pass with V described as U is: if not, U is at fault.
            pub fn u_passes(frame: &model::Frame, y: &mut [u8], u: &mut [u8]) -> bool {
                let mut v = u.to_vec();
                let frame = model::Frame {
                    v_stride: frame.u_stride,
                    ..*frame
                };
                image(&frame, y, u, &mut v)
                    .check_constraints(subsampling(frame.settings.sampling))
                    .is_ok()
            }

            fn image<'a>(
                frame: &model::Frame,
                y: &'a mut [u8],
                u: &'a mut [u8],
                v: &'a mut [u8],
            ) -> YuvPlanarImageMut<'a, u8> {
                YuvPlanarImageMut {
                    y_plane: BufferStoreMut::Borrowed(y),
                    y_stride: frame.y_stride,
                    u_plane: BufferStoreMut::Borrowed(u),
                    u_stride: frame.u_stride,
                    v_plane: BufferStoreMut::Borrowed(v),
                    v_stride: frame.v_stride,
                    width: frame.w,
                    height: frame.h,
                }
            }

            /// Both tables, with the arithmetic of the two loops of rgbx_to_sharp_yuv.
            pub fn tables(of: model::SharpYuvGammaTransfer) -> model::curves::Tables {
                let transfer = transfer(of);
                let linear_scale = (1. / 255.) as f32;
                let gamma_scale = 1. / u16::MAX as f32;
                let linear = |i: usize| {
                    let linear = transfer.linearize(i as f32 * linear_scale);
                    (linear * u16::MAX as f32) as u16
                };
                let gamma = |i: usize| {
                    let gamma = transfer.gamma(i as f32 * gamma_scale);
                    (gamma * 255.) as u8
                };
                model::curves::Tables {
                    linear: (0..256).map(linear).collect(),
                    gamma: (0..65_536).map(gamma).collect(),
                }
            }

            /// The nine weights that the Rust takes, as rgbx_to_sharp_yuv chooses them. `stored`
            /// false: those of its own transform, where it has a stored set too.
            pub fn weights(
                of: model::YuvStandardMatrix,
                range_of: model::YuvRange,
                stored: bool,
            ) -> model::matrix::Weights {
                use $copy::yuv_support::{
                    ToIntegerTransform, get_forward_transform, get_yuv_range,
                };
                let built = $copy::built_forward_transform(range(range_of), matrix(of));
                let t = built.filter(|_| stored).unwrap_or_else(|| {
                    let range = get_yuv_range(8, range(range_of));
                    let bias = matrix(of).get_kr_kb();
                    get_forward_transform(255, range.range_y, range.range_uv, bias.kr, bias.kb)
                        .to_integers(13)
                });
                let triple = |r: i32, g: i32, b: i32| [r, g, b].map(i64::from);
                model::matrix::Weights {
                    y: triple(t.yr, t.yg, t.yb),
                    cb: triple(t.cb_r, t.cb_g, t.cb_b),
                    cr: triple(t.cr_r, t.cr_g, t.cr_b),
                }
            }
        }
    };
}

calls_of!(unaltered, yuvutils_unaltered);
calls_of!(truncated, yuvutils_truncated);
calls_of!(nearest, yuvutils_nearest);

/// A copy's call.
type Call = fn(&model::Frame, &[u8], &mut [u8], &mut [u8], &mut [u8]) -> Result<(), RustError>;

/// Where the frame is all of its source, the Rust's own call. Else the Rust, which has no window, is
/// asked twice, in the order of its own checks: whether it takes the large source (6 and 7, with that
/// source's size), and then for the frame, with the rectangle copied out of that source (2 and 8 to
/// 11, with the rectangle's size).
///
/// It has no answer where the rectangle reaches past the source: such a frame is not handed to it.
/// Nor has it one about the large source where the frame has no pixel: that is 2, and the Rust then
/// looks at no buffer.
fn on_rectangle(
    call: Call,
    frame: &model::Frame,
    source: &[u8],
    y: &mut [u8],
    u: &mut [u8],
    v: &mut [u8],
) -> Result<(), RustError> {
    let whole = Window::whole(frame.w, frame.h);
    if frame.window == whole {
        return call(frame, source, y, u, v);
    }
    if frame.w != 0 && frame.h != 0 {
        let size = (frame.window.source_width, frame.window.source_height);
        let (channels, stride) = (frame.settings.channels, frame.source_stride);
        truncated::check_source(channels, source, stride, size)?;
    }
    let (rectangle, source_stride) = copied_out(frame, source);
    let frame = model::Frame {
        window: whole,
        source_stride,
        ..*frame
    };
    call(&frame, &rectangle, y, u, v)
}

/// The rectangle's pixels, row by row without padding, and the bytes of such a row.
fn copied_out(frame: &model::Frame, source: &[u8]) -> (Vec<u8>, u32) {
    let c = frame.settings.channels.bytes() as usize;
    let row = frame.w as usize * c;
    let mut rectangle = Vec::new();
    for r in 0..if row == 0 { 0 } else { frame.h as usize } {
        let start = (frame.window.top as usize + r) * frame.source_stride as usize;
        let start = start + frame.window.left as usize * c;
        rectangle.extend(&source[start..start + row]);
    }
    (rectangle, row as u32)
}

/// The Rust as it is, over its own tables, on the frame's rectangle. It knows no rounding.
pub fn unaltered_frame(
    frame: &model::Frame,
    source: &[u8],
    y: &mut [u8],
    u: &mut [u8],
    v: &mut [u8],
) -> Result<(), RustError> {
    on_rectangle(unaltered::frame, frame, source, y, u, v)
}

/// The Rust over the exact tables that the frame chooses, on the frame's rectangle.
pub mod exact {
    use super::{RustError, nearest, on_rectangle, truncated};
    use model::TableRounding;

    pub fn frame(
        frame: &model::Frame,
        source: &[u8],
        y: &mut [u8],
        u: &mut [u8],
        v: &mut [u8],
    ) -> Result<(), RustError> {
        let call = match frame.settings.rounding {
            TableRounding::Truncated => truncated::frame,
            TableRounding::Nearest => nearest::frame,
        };
        on_rectangle(call, frame, source, y, u, v)
    }

    // None of these looks at a table, so one copy will do.
    pub use truncated::{u_passes, weights};
}
