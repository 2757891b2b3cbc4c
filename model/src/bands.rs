//! A frame in several calls: RULES 8.1 and on.

use crate::frame::{Plane, source_row};
use crate::refusals::{
    Answer, Lent, Refusal, carried_row, memory, refuse_if, size_matrix_and_window,
};
use crate::row::{Row, Rules};
use crate::settings::{Settings, YuvChromaSubsampling, chroma_height, plane_rows};
use crate::window::Window;

/// RULES 8.6: the chroma rows finished after n rows of a frame.
pub fn finished_chroma_rows(sampling: YuvChromaSubsampling, h: u32, n: u32) -> u64 {
    match sampling {
        YuvChromaSubsampling::Yuv420 if n < h => u64::from(n / 2),
        sampling => chroma_height(sampling, u64::from(n)),
    }
}

/// What the opening fixes, and the rows done. Plain numbers, so a caller can make one up.
#[derive(Clone, Copy, Debug, PartialEq)]
pub struct FrameState {
    pub w: u32,
    pub h: u32,
    pub window: Window,
    pub settings: Settings,
    pub y_stride: u32,
    pub u_stride: u32,
    pub v_stride: u32,
    pub done: u32,
}

/// RULES 8.1. It says nothing of the strides; the first band call does.
pub fn open(
    w: u32,
    h: u32,
    window: Window,
    settings: Settings,
    y_stride: u32,
    u_stride: u32,
    v_stride: u32,
) -> Result<FrameState, Refusal> {
    size_matrix_and_window(w, h, &settings, &window)?;
    Ok(FrameState {
        w,
        h,
        window,
        settings,
        y_stride,
        u_stride,
        v_stride,
        done: 0,
    })
}

impl FrameState {
    /// The next `rows` rows of the frame: RULES 8.2, 8.5.
    #[allow(clippy::too_many_arguments)]
    pub fn band(
        self,
        rows: u32,
        source: &[u8],
        source_stride: u32,
        y: &mut [u8],
        u: &mut [u8],
        v: &mut [u8],
        carried: &mut [u8],
    ) -> (FrameState, Answer) {
        if let Err(refusal) = self.check(rows, source, source_stride, y, u, v, carried) {
            return (self, Err(refusal));
        }
        self.convert(rows, source, source_stride, y, u, v, carried);
        let done = self.done + rows;
        (FrameState { done, ..self }, Ok(()))
    }

    /// RULES 8.2: source rows are the band's, of the source's whole width; plane rows the frame's.
    #[allow(clippy::too_many_arguments)]
    fn check(
        &self,
        rows: u32,
        source: &[u8],
        source_stride: u32,
        y: &[u8],
        u: &[u8],
        v: &[u8],
        carried: &[u8],
    ) -> Answer {
        size_matrix_and_window(self.w, self.h, &self.settings, &self.window)?;
        // RULES 8.3: with rows done at or past h none remain.
        let remain = self.h.saturating_sub(self.done);
        refuse_if(rows == 0 || rows > remain, 5)?;
        let (plane, chroma) = plane_rows(self.settings.sampling, self.h);
        memory(
            u64::from(self.w),
            u64::from(self.window.source_width) * self.settings.channels.bytes(),
            Lent::new(source, source_stride, u64::from(rows)),
            Lent::new(y, self.y_stride, plane),
            Lent::new(u, self.u_stride, chroma),
            Lent::new(v, self.v_stride, chroma),
        )?;
        carried_row(u64::from(self.w), carried)
    }

    #[allow(clippy::too_many_arguments)]
    fn convert(
        &self,
        rows: u32,
        source: &[u8],
        source_stride: u32,
        y: &mut [u8],
        u: &mut [u8],
        v: &mut [u8],
        carried: &mut [u8],
    ) {
        let settings = &self.settings;
        let rules = Rules::new(settings);
        let (w, last) = (self.w as usize, self.h as usize - 1);
        let left = self.window.left;
        let (first, end) = (self.done as usize, (self.done + rows) as usize);
        let luma = Plane::new(self.y_stride, w);
        let u_plane = Plane::new(self.u_stride, w.div_ceil(2));
        let v_plane = Plane::new(self.v_stride, w.div_ceil(2));
        for r in first..end {
            // The band's first row is the rectangle's next: top does not count here.
            let row = |r| source_row(settings, source, source_stride, left, w, r - first);
            rules.luma(row(r), luma.row(y, r));
            match settings.sampling {
                YuvChromaSubsampling::Yuv422 => {
                    rules.chroma_422(w, row(r), u_plane.row(u, r), v_plane.row(v, r));
                }
                YuvChromaSubsampling::Yuv420 => {
                    let above = if r > first {
                        row(r - 1)
                    } else {
                        Row::new(carried, 3, settings.channels)
                    };
                    // An odd row finishes the chroma row of the row above it; the frame's last
                    // row, if even, has itself below.
                    let this = match r % 2 {
                        1 => above,
                        _ if r == last => row(r),
                        _ => continue,
                    };
                    let (u, v) = (u_plane.row(u, r / 2), v_plane.row(v, r / 2));
                    rules.chroma_420(w, this, row(r), u, v);
                }
            }
        }
        // RULES 8.8: a band whose last row is even and not the frame's last leaves it there.
        let ends = end - 1;
        if settings.sampling == YuvChromaSubsampling::Yuv420 && ends % 2 == 0 && ends != last {
            let c = settings.channels.bytes() as usize;
            let start = (ends - first) * source_stride as usize + left as usize * c;
            for p in 0..w {
                let pixel = &source[start + p * c..start + p * c + 3];
                carried[3 * p..3 * p + 3].copy_from_slice(pixel);
            }
        }
    }
}
