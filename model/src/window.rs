//! The window: which rectangle of its source a frame is (RULES 2.1, 2.2).

/// The frame is a rectangle of w × h pixels inside this source. All are pixels.
#[derive(Clone, Copy, Debug, PartialEq)]
pub struct Window {
    pub left: u32,
    pub top: u32,
    pub source_width: u32,
    pub source_height: u32,
}

impl Window {
    /// The frame is all of its source.
    pub fn whole(w: u32, h: u32) -> Window {
        Window {
            left: 0,
            top: 0,
            source_width: w,
            source_height: h,
        }
    }

    /// Whether a rectangle of w × h reaches past the source. In u64 no sum wraps.
    pub(crate) fn is_outside(&self, w: u32, h: u32) -> bool {
        let past =
            |first: u32, size: u32, all: u32| u64::from(first) + u64::from(size) > u64::from(all);
        past(self.left, w, self.source_width) || past(self.top, h, self.source_height)
    }
}
