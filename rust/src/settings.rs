//! The settings of a call, and the numbers by which the library knows them.

/// Order of the bytes of a pixel.
#[derive(Debug, Copy, Clone, PartialEq, Eq)]
pub enum YuvSourceChannels {
    Rgb,
    Rgba,
    Bgra,
    Bgr,
}

/// How luma and chroma share pixels.
#[derive(Debug, Copy, Clone, PartialEq, Eq)]
pub enum YuvChromaSubsampling {
    Yuv420,
    Yuv422,
}

impl YuvChromaSubsampling {
    pub(crate) fn code(self) -> u32 {
        match self {
            YuvChromaSubsampling::Yuv420 => 0,
            YuvChromaSubsampling::Yuv422 => 1,
        }
    }
}

/// Declares YUV range TV (limited) or Full.
#[derive(Debug, Copy, Clone, PartialEq, Eq)]
pub enum YuvRange {
    /// Y 16 to 235, U and V 16 to 240.
    Limited,
    /// 0 to 255.
    Full,
}

impl YuvRange {
    pub(crate) fn code(self) -> u32 {
        match self {
            YuvRange::Limited => 0,
            YuvRange::Full => 1,
        }
    }
}

/// Declares standard prebuilt YUV conversion matrices.
#[derive(Debug, Copy, Clone, PartialEq)]
pub enum YuvStandardMatrix {
    /// If you want to encode JPEG YUV use Bt.601 + Full Range.
    Bt601,
    Bt709,
    Bt2020,
    Smpte240,
    Bt470_6,
    Fcc,
    /// kr, then kb, each from 0 to 0.5; anything else is refused.
    Custom(f32, f32),
}

impl YuvStandardMatrix {
    pub(crate) fn code(self) -> u32 {
        match self {
            YuvStandardMatrix::Bt601 => 0,
            YuvStandardMatrix::Bt709 => 1,
            YuvStandardMatrix::Bt2020 => 2,
            YuvStandardMatrix::Smpte240 => 3,
            YuvStandardMatrix::Bt470_6 => 4,
            YuvStandardMatrix::Fcc => 5,
            YuvStandardMatrix::Custom(..) => 6,
        }
    }

    /// kr and kb, which the library looks at for Custom alone.
    pub(crate) fn custom(self) -> [f32; 2] {
        match self {
            YuvStandardMatrix::Custom(kr, kb) => [kr, kb],
            _ => [0.0, 0.0],
        }
    }
}

/// Declares transfer function for transfer components into a linear colorspace and its inverse.
#[derive(Debug, Copy, Clone, PartialEq, Eq)]
pub enum SharpYuvGammaTransfer {
    Srgb,
    Rec709,
    /// Pure gamma 2.2.
    Gamma2p2,
    /// Pure gamma 2.8.
    Gamma2p8,
}

impl SharpYuvGammaTransfer {
    pub(crate) fn code(self) -> u32 {
        match self {
            SharpYuvGammaTransfer::Srgb => 0,
            SharpYuvGammaTransfer::Rec709 => 1,
            SharpYuvGammaTransfer::Gamma2p2 => 2,
            SharpYuvGammaTransfer::Gamma2p8 => 3,
        }
    }
}

/// How the entries of both curve tables are rounded (RULES 3.4, 3.5).
#[derive(Debug, Copy, Clone, PartialEq, Eq)]
pub enum TableRounding {
    /// Down: sRGB's 10 becomes 9 on its way to linear light and back.
    Truncated,
    /// To the nearest, halves upward: sRGB's 10 comes back as 10.
    Nearest,
}

/// A frame's size, settings and plane strides. Strides are in bytes.
#[derive(Debug, Copy, Clone, PartialEq)]
pub struct FrameDescription {
    pub width: u32,
    pub height: u32,
    pub channels: YuvSourceChannels,
    pub sampling: YuvChromaSubsampling,
    pub range: YuvRange,
    pub matrix: YuvStandardMatrix,
    pub transfer: SharpYuvGammaTransfer,
    pub y_stride: u32,
    pub u_stride: u32,
    pub v_stride: u32,
}

/// Where the frame stands in a larger source: pixel x of its row r is pixel `left` + x of row `top` + r there, and it must end within it (14).
/// In band calls the source is the band's rows alone, each of the large width: `left` is applied in each, and `top` in none.
///
/// ```
/// use segvartin::*;
///
/// let frame = FrameDescription {
///     width: 1,
///     height: 1,
///     channels: YuvSourceChannels::Rgb,
///     sampling: YuvChromaSubsampling::Yuv420,
///     range: YuvRange::Full,
///     matrix: YuvStandardMatrix::Bt601,
///     transfer: SharpYuvGammaTransfer::Srgb,
///     y_stride: 1,
///     u_stride: 1,
///     v_stride: 1,
/// };
/// let mut options = FrameOptions::of(&frame);
/// options.window = Window::new(2, 1, 4, 3); // the third pixel of the second row of 4 × 3
/// let mut source = [0; 36];
/// source[18] = 255;
/// let (mut y, mut u, mut v) = ([0; 1], [0; 1], [0; 1]);
/// rgbx_to_sharp_yuv_with(&frame, &options, &source, 12, &mut y, &mut u, &mut v)?;
/// assert_eq!((y, u, v), ([76], [85], [255]));
/// # Ok::<(), YuvError>(())
/// ```
#[derive(Debug, Copy, Clone, PartialEq, Eq)]
#[non_exhaustive]
pub struct Window {
    pub left: u32,
    pub top: u32,
    /// Width of the large source, whose rows are lent whole.
    pub source_width: u32,
    /// Rows of the large source.
    pub source_height: u32,
}

impl Window {
    #[must_use]
    pub fn new(left: u32, top: u32, source_width: u32, source_height: u32) -> Window {
        Window {
            left,
            top,
            source_width,
            source_height,
        }
    }
}

/// What a call may choose beyond its description. [`FrameOptions::of`] makes it, and a field is then set by name; it may gain fields.
///
/// [`rgbx_to_sharp_yuv_with`](crate::rgbx_to_sharp_yuv_with) has an example.
#[derive(Debug, Copy, Clone, PartialEq, Eq)]
#[non_exhaustive]
pub struct FrameOptions {
    pub rounding: TableRounding,
    pub window: Window,
}

impl FrameOptions {
    /// The choices that a call without options makes for this frame: `Truncated`, and a window that is the whole source.
    #[must_use]
    pub fn of(frame: &FrameDescription) -> FrameOptions {
        FrameOptions {
            rounding: TableRounding::Truncated,
            window: Window::new(0, 0, frame.width, frame.height),
        }
    }
}

impl FrameDescription {
    /// The numbers of a band call, as include/segvartin.h lists them. The last 11 are those of a frame call, the last 10 those of an opening.
    pub(crate) fn numbers(&self, done: u32, rows: u32, stride: u32) -> [u32; 13] {
        let channels = match self.channels {
            YuvSourceChannels::Rgb => 0,
            YuvSourceChannels::Rgba => 1,
            YuvSourceChannels::Bgra => 2,
            YuvSourceChannels::Bgr => 3,
        };
        [
            done,
            rows,
            stride,
            self.width,
            self.height,
            channels,
            self.sampling.code(),
            self.range.code(),
            self.matrix.code(),
            self.transfer.code(),
            self.y_stride,
            self.u_stride,
            self.v_stride,
        ]
    }

    /// The numbers of a band call with options: its numbers without, then those of the options. The last 16 are those of a frame call, the last 15
    /// those of an opening.
    pub(crate) fn numbers_with(
        &self,
        options: &FrameOptions,
        done: u32,
        rows: u32,
        stride: u32,
    ) -> [u32; 18] {
        let rounding = match options.rounding {
            TableRounding::Truncated => 0,
            TableRounding::Nearest => 1,
        };
        let window = options.window;
        let mut numbers = [0; 18];
        numbers[..13].copy_from_slice(&self.numbers(done, rows, stride));
        numbers[13..].copy_from_slice(&[
            rounding,
            window.left,
            window.top,
            window.source_width,
            window.source_height,
        ]);
        numbers
    }
}
