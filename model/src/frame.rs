//! The frame call: RULES 7.8.

use crate::refusals::{Answer, Lent, memory, size_matrix_and_window};
use crate::row::{Row, Rules};
use crate::settings::{Settings, YuvChromaSubsampling, plane_rows};
use crate::window::Window;

/// RULES 2.1. The lent bytes stand beside it.
#[derive(Clone, Copy, Debug, PartialEq)]
pub struct Frame {
    pub w: u32,
    pub h: u32,
    pub window: Window,
    pub settings: Settings,
    pub source_stride: u32,
    pub y_stride: u32,
    pub u_stride: u32,
    pub v_stride: u32,
}

/// Converts a frame, or refuses it and writes nothing.
pub fn frame(frame: &Frame, source: &[u8], y: &mut [u8], u: &mut [u8], v: &mut [u8]) -> Answer {
    let (settings, window) = (&frame.settings, &frame.window);
    size_matrix_and_window(frame.w, frame.h, settings, window)?;
    let (rows, chroma_rows) = plane_rows(settings.sampling, frame.h);
    let source_rows = u64::from(window.source_height);
    memory(
        u64::from(frame.w),
        u64::from(window.source_width) * settings.channels.bytes(),
        Lent::new(source, frame.source_stride, source_rows),
        Lent::new(y, frame.y_stride, rows),
        Lent::new(u, frame.u_stride, chroma_rows),
        Lent::new(v, frame.v_stride, chroma_rows),
    )?;

    let rules = Rules::new(settings);
    let (w, h) = (frame.w as usize, frame.h as usize);
    let (left, top, stride) = (window.left, window.top as usize, frame.source_stride);
    let row = |r| source_row(settings, source, stride, left, w, top + r);
    let luma = Plane::new(frame.y_stride, w);
    let u_plane = Plane::new(frame.u_stride, w.div_ceil(2));
    let v_plane = Plane::new(frame.v_stride, w.div_ceil(2));
    for r in 0..h {
        rules.luma(row(r), luma.row(y, r));
    }
    for k in 0..chroma_rows as usize {
        let (u, v) = (u_plane.row(u, k), v_plane.row(v, k));
        match settings.sampling {
            // RULES 6.1: below an odd height's last row is that row itself.
            YuvChromaSubsampling::Yuv420 => {
                rules.chroma_420(w, row(2 * k), row((2 * k + 1).min(h - 1)), u, v);
            }
            YuvChromaSubsampling::Yuv422 => rules.chroma_422(w, row(k), u, v),
        }
    }
    Ok(())
}

/// The w pixels from column `left` on of row r of a source that was found long enough.
pub(crate) fn source_row<'a>(
    settings: &Settings,
    source: &'a [u8],
    stride: u32,
    left: u32,
    w: usize,
    r: usize,
) -> Row<'a> {
    let c = settings.channels.bytes() as usize;
    let start = r * stride as usize + left as usize * c;
    Row::new(&source[start..start + w * c], c, settings.channels)
}

/// RULES 2.4: only the first w or cw bytes of a row are written.
pub(crate) struct Plane {
    stride: usize,
    width: usize,
}

impl Plane {
    pub(crate) fn new(stride: u32, width: usize) -> Plane {
        Plane {
            stride: stride as usize,
            width,
        }
    }

    pub(crate) fn row<'a>(&self, bytes: &'a mut [u8], r: usize) -> &'a mut [u8] {
        let start = r * self.stride;
        &mut bytes[start..start + self.width]
    }

    /// The same bytes, to be read.
    pub(crate) fn row_of<'a>(&self, bytes: &'a [u8], r: usize) -> &'a [u8] {
        let start = r * self.stride;
        &bytes[start..start + self.width]
    }
}
