//! The settings of a call: RULES 1.2, 1.3, 1.4, 1.5.

/// The order of the bytes of a pixel.
#[derive(Clone, Copy, Debug, PartialEq)]
pub enum YuvSourceChannels {
    Rgb,
    Rgba,
    Bgra,
    Bgr,
}

#[derive(Clone, Copy, Debug, PartialEq)]
pub enum YuvChromaSubsampling {
    Yuv420,
    Yuv422,
}

#[derive(Clone, Copy, Debug, PartialEq)]
pub enum YuvRange {
    Limited,
    Full,
}

#[derive(Clone, Copy, Debug, PartialEq)]
pub enum YuvStandardMatrix {
    Bt601,
    Bt709,
    Bt2020,
    Smpte240,
    Bt470_6,
    Fcc,
    /// kr, kb.
    Custom(f32, f32),
}

#[derive(Clone, Copy, Debug, PartialEq)]
pub enum SharpYuvGammaTransfer {
    Srgb,
    Rec709,
    Gamma2p2,
    Gamma2p8,
}

/// How the entries of both curve tables are taken from the curve.
#[derive(Clone, Copy, Debug, PartialEq)]
pub enum TableRounding {
    Truncated,
    /// Halves upward.
    Nearest,
}

/// RULES 1.2.
#[derive(Clone, Copy, Debug, PartialEq)]
pub struct Settings {
    pub channels: YuvSourceChannels,
    pub sampling: YuvChromaSubsampling,
    pub range: YuvRange,
    pub matrix: YuvStandardMatrix,
    pub transfer: SharpYuvGammaTransfer,
    pub rounding: TableRounding,
}

impl YuvSourceChannels {
    /// RULES 1.3: c.
    pub fn bytes(self) -> u64 {
        match self {
            YuvSourceChannels::Rgb | YuvSourceChannels::Bgr => 3,
            YuvSourceChannels::Rgba | YuvSourceChannels::Bgra => 4,
        }
    }

    /// RULES 1.3: where r, g and b stand among the first three bytes of a pixel.
    pub fn offsets(self) -> [usize; 3] {
        match self {
            YuvSourceChannels::Rgb | YuvSourceChannels::Rgba => [0, 1, 2],
            YuvSourceChannels::Bgr | YuvSourceChannels::Bgra => [2, 1, 0],
        }
    }
}

/// RULES 1.5: cw.
pub fn chroma_width(w: u64) -> u64 {
    w.div_ceil(2)
}

/// RULES 1.5: ch.
pub fn chroma_height(sampling: YuvChromaSubsampling, h: u64) -> u64 {
    match sampling {
        YuvChromaSubsampling::Yuv420 => h.div_ceil(2),
        YuvChromaSubsampling::Yuv422 => h,
    }
}

/// The rows of Y, and those of U and V.
pub fn plane_rows(sampling: YuvChromaSubsampling, h: u32) -> (u64, u64) {
    let h = u64::from(h);
    (h, chroma_height(sampling, h))
}

impl YuvRange {
    /// RULES 1.4: by.
    pub fn bias_y(self) -> i64 {
        match self {
            YuvRange::Limited => 16,
            YuvRange::Full => 0,
        }
    }

    /// RULES 1.4: ry.
    pub fn range_y(self) -> u8 {
        match self {
            YuvRange::Limited => 219,
            YuvRange::Full => 255,
        }
    }

    /// RULES 1.4: ruv.
    pub fn range_uv(self) -> u8 {
        match self {
            YuvRange::Limited => 224,
            YuvRange::Full => 255,
        }
    }
}

impl TableRounding {
    /// RULES 3.4, 3.5: o, what an entry is lessened by before it is compared, in halves.
    pub fn halves(self) -> u64 {
        match self {
            TableRounding::Truncated => 0,
            TableRounding::Nearest => 1,
        }
    }
}

// RULES 1.2, 9.1: the meaning of the code bytes. None: a code byte without a meaning.

pub fn channels_of(code: u8) -> Option<YuvSourceChannels> {
    match code {
        0 => Some(YuvSourceChannels::Rgb),
        1 => Some(YuvSourceChannels::Rgba),
        2 => Some(YuvSourceChannels::Bgra),
        3 => Some(YuvSourceChannels::Bgr),
        _ => None,
    }
}

pub fn sampling_of(code: u8) -> Option<YuvChromaSubsampling> {
    match code {
        0 => Some(YuvChromaSubsampling::Yuv420),
        1 => Some(YuvChromaSubsampling::Yuv422),
        _ => None,
    }
}

pub fn range_of(code: u8) -> Option<YuvRange> {
    match code {
        0 => Some(YuvRange::Limited),
        1 => Some(YuvRange::Full),
        _ => None,
    }
}

pub fn matrix_of(code: u8) -> Option<YuvStandardMatrix> {
    match code {
        0 => Some(YuvStandardMatrix::Bt601),
        1 => Some(YuvStandardMatrix::Bt709),
        2 => Some(YuvStandardMatrix::Bt2020),
        3 => Some(YuvStandardMatrix::Smpte240),
        4 => Some(YuvStandardMatrix::Bt470_6),
        5 => Some(YuvStandardMatrix::Fcc),
        _ => None,
    }
}

pub fn transfer_of(code: u8) -> Option<SharpYuvGammaTransfer> {
    match code {
        0 => Some(SharpYuvGammaTransfer::Srgb),
        1 => Some(SharpYuvGammaTransfer::Rec709),
        2 => Some(SharpYuvGammaTransfer::Gamma2p2),
        3 => Some(SharpYuvGammaTransfer::Gamma2p8),
        _ => None,
    }
}

pub fn rounding_of(code: u8) -> Option<TableRounding> {
    match code {
        0 => Some(TableRounding::Truncated),
        1 => Some(TableRounding::Nearest),
        _ => None,
    }
}

/// The code of a setting, where it has one: a Custom matrix has none here.
pub fn code_of<T: PartialEq>(setting: T, of: fn(u8) -> Option<T>) -> Option<u32> {
    (0..=u8::MAX)
        .find(|code| of(*code).as_ref() == Some(&setting))
        .map(u32::from)
}
