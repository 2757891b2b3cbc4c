//! Grey stays grey: RULES 6.5. It says what the planes of grey pixels must be, and knows nothing of
//! weights and tables.

use crate::bands::{FrameState, finished_chroma_rows};
use crate::settings::{Settings, YuvRange, chroma_width};

/// Every finished chroma byte of grey pixels.
pub const CHROMA: u8 = 128;

/// The luma of a grey: in full range itself, in limited range 16 for black and 235 for white. None:
/// the rule leaves it to RULES 5.1.
pub fn luma(range: YuvRange, grey: u8) -> Option<u8> {
    match (range, grey) {
        (YuvRange::Full, grey) => Some(grey),
        (YuvRange::Limited, 0) => Some(16),
        (YuvRange::Limited, 255) => Some(235),
        (YuvRange::Limited, _) => None,
    }
}

/// The grey of each pixel of a row, w × c bytes. None: one of them has not r = g = b.
pub fn greys(settings: &Settings, row: &[u8]) -> Option<Vec<u8>> {
    let pixels = row.chunks_exact(settings.channels.bytes() as usize);
    let greys = pixels.map(|pixel| {
        let [r, g, b] = settings.channels.offsets().map(|offset| pixel[offset]);
        (r == g && g == b).then_some(g)
    });
    greys.collect()
}

/// A plane byte that is not the one that the rule names.
#[derive(Clone, Copy, Debug, PartialEq)]
pub struct Tint {
    pub plane: char,
    pub row: usize,
    pub column: usize,
    pub is: u8,
    pub should: u8,
}

/// The first byte, of the rows finished after these rows of greys, that breaks the rule: the rows of
/// an accepted frame call are all of its frame's, those of a list of band calls its tally's. Only w
/// and cw bytes of a plane's row are looked at.
pub fn tint(state: &FrameState, rows: &[Vec<u8>], planes: [&[u8]; 3]) -> Option<Tint> {
    let [y, u, v] = planes;
    let at = |plane: char, bytes: &[u8], stride: u32, row: usize, column: usize, should: u8| {
        let is = bytes[row * stride as usize + column];
        (is != should).then_some(Tint {
            plane,
            row,
            column,
            is,
            should,
        })
    };
    for (row, greys) in rows.iter().enumerate() {
        for (column, grey) in greys.iter().enumerate() {
            let should = luma(state.settings.range, *grey);
            let wrong = should.and_then(|byte| at('Y', y, state.y_stride, row, column, byte));
            if wrong.is_some() {
                return wrong;
            }
        }
    }
    let sampling = state.settings.sampling;
    let chroma_rows = finished_chroma_rows(sampling, state.h, rows.len() as u32) as usize;
    let columns = chroma_width(u64::from(state.w)) as usize;
    for (row, column) in (0..chroma_rows).flat_map(|row| (0..columns).map(move |j| (row, j))) {
        let wrong = at('U', u, state.u_stride, row, column, CHROMA)
            .or_else(|| at('V', v, state.v_stride, row, column, CHROMA));
        if wrong.is_some() {
            return wrong;
        }
    }
    None
}
