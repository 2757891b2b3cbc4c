//! The refusals: RULES 7.1 and on.
//!
//! The first condition that holds is answered: the conditions stand below in the order in which
//! they are asked, and `?` ends at the first that holds. It is the order of their numbers, but for
//! 14, which comes between 4 and 5, 15, which comes first, 17 and 19, which come behind it, 21, 22 and 23 of the
//! front desk, 18, which comes behind those and before all of a convoy's frames, and 20, which comes between 13 and 16.
//! So a condition may count on those before it: rows are not 0 once 2, 5, 14 and 15 were passed.

use crate::settings::{Settings, YuvStandardMatrix, chroma_width};
use crate::window::Window;

#[derive(Clone, Copy, Debug, PartialEq)]
pub struct Refusal {
    pub number: u8,
    pub expected: u64,
    pub received: u64,
}

/// Finished work or one refusal.
pub type Answer = Result<(), Refusal>;

/// RULES 7.1: both 0 where none is named.
pub(crate) fn refuse_if(holds: bool, number: u8) -> Answer {
    refuse_with(holds, number, 0, 0)
}

fn refuse_with(holds: bool, number: u8, expected: u64, received: u64) -> Answer {
    if holds {
        Err(Refusal {
            number,
            expected,
            received,
        })
    } else {
        Ok(())
    }
}

const LARGEST_SIDE: u32 = 16_384;

/// 2, 3, 4 and 14, which frame calls, openings and band calls share. 3 is about the source's sides
/// too; 2 is not: in a source with a side of 0 no rectangle has a place, which is 14.
pub(crate) fn size_matrix_and_window(
    w: u32,
    h: u32,
    settings: &Settings,
    window: &Window,
) -> Answer {
    refuse_if(w == 0 || h == 0, 2)?;
    let sides = [w, h, window.source_width, window.source_height];
    refuse_if(sides.iter().any(|side| *side > LARGEST_SIDE), 3)?;
    matrix_accepted(settings.matrix)?;
    refuse_if(window.is_outside(w, h), 14)
}

/// RULES 7.4: 4. No comparison holds of NaN, and -0 compares as 0.
pub(crate) fn matrix_accepted(matrix: YuvStandardMatrix) -> Answer {
    let from_0_to_half = |k: f32| (0.0..=0.5).contains(&k);
    let accepted = match matrix {
        YuvStandardMatrix::Custom(kr, kb) => from_0_to_half(kr) && from_0_to_half(kb),
        _ => true,
    };
    refuse_if(!accepted, 4)
}

/// A lent buffer: its length, its stride and the rows it must hold.
#[derive(Clone, Copy)]
pub(crate) struct Lent {
    pub length: u64,
    pub stride: u64,
    pub rows: u64,
}

impl Lent {
    pub(crate) fn new(bytes: &[u8], stride: u32, rows: u64) -> Lent {
        Lent {
            length: bytes.len() as u64,
            stride: u64::from(stride),
            rows,
        }
    }

    /// stride × (rows − 1) + the bytes of a row.
    fn minimum(&self, row: u64) -> u64 {
        self.stride * self.rows.saturating_sub(1) + row
    }
}

/// 6 to 12. A source row has `source_row` bytes, which are those of its whole width; the source's
/// rows are all that it has or the band's, those of the planes the frame's.
pub(crate) fn memory(w: u64, source_row: u64, source: Lent, y: Lent, u: Lent, v: Lent) -> Answer {
    let source_minimum = source.minimum(source_row);
    refuse_with(
        source.length < source_minimum,
        6,
        source_minimum,
        source.length,
    )?;
    refuse_with(source.stride < source_row, 7, source_row, source.stride)?;
    rows_fit(w, y, u, v)?;
    whole_rows(&[source, y, u, v])
}

/// 8 to 12 where there is no source, as of planes that are made a record of (RULES 11.6).
pub(crate) fn planes(w: u64, y: Lent, u: Lent, v: Lent) -> Answer {
    rows_fit(w, y, u, v)?;
    whole_rows(&[y, u, v])
}

/// 8 to 11.
fn rows_fit(w: u64, y: Lent, u: Lent, v: Lent) -> Answer {
    let cw = chroma_width(w);
    refuse_with(y.stride < w, 8, w * y.rows, y.stride * y.rows)?;
    refuse_with(y.length < y.minimum(w), 9, y.minimum(w), y.length)?;
    for (plane, number) in [(u, 10), (v, 11)] {
        let minimum = plane.minimum(cw);
        refuse_with(
            plane.stride < cw,
            number,
            cw * plane.rows,
            plane.stride * plane.rows,
        )?;
        refuse_with(plane.length < minimum, number, minimum, plane.length)?;
    }
    Ok(())
}

/// 12.
fn whole_rows(lent: &[Lent]) -> Answer {
    for lent in lent {
        let exact = lent.stride * lent.rows;
        refuse_with(lent.length != exact, 12, exact, lent.length)?;
    }
    Ok(())
}

/// 13, in band calls.
pub(crate) fn carried_row(w: u64, carried: &[u8]) -> Answer {
    let length = carried.len() as u64;
    refuse_with(length < 3 * w, 13, 3 * w, length)
}
