//! Two shift files paired: RULES 13.1 and on. Written after a reading of the definitions in `specs`; it shares
//! no code with what is proved. The samplings came with the form with settings (`shift`).

use crate::refusals::{Answer, refuse_if};
use crate::settings::YuvChromaSubsampling;
use crate::shift::{self, Entry, Part};
use std::collections::BTreeSet;

/// RULES 13.4: which of two files is none.
#[derive(Clone, Copy, Debug, PartialEq)]
pub enum Side {
    Ours,
    Theirs,
}

/// RULES 13.2, 13.3: what counts as the size of a record.
#[derive(Clone, Copy, Debug, PartialEq)]
pub struct Size {
    pub w: u16,
    pub h: u16,
    pub sampling: YuvChromaSubsampling,
}

impl Size {
    fn of(record: &Entry) -> Size {
        Size {
            w: record.w,
            h: record.h,
            sampling: record.sampling(),
        }
    }

    /// RULES 1.2.
    fn code(&self) -> u64 {
        match self.sampling {
            YuvChromaSubsampling::Yuv420 => 0,
            YuvChromaSubsampling::Yuv422 => 1,
        }
    }
}

/// RULES 13.3: how the records of a pair differ.
#[derive(Clone, Copy, Debug, PartialEq)]
pub enum Difference {
    /// Of ours, and of theirs.
    Sizes(Size, Size),
    /// Plane (0 Y, 1 U, 2 V), row, column.
    Place(u64, u64, u64),
}

/// RULES 13.3: the first pair that differs, by the places of its records.
#[derive(Clone, Copy, Debug, PartialEq)]
pub struct First {
    pub crossing: u32,
    pub ours: u64,
    pub theirs: u64,
    pub difference: Difference,
}

/// RULES 13.2, 13.3.
#[derive(Clone, Copy, Debug, PartialEq)]
pub struct Report {
    pub equal: u64,
    pub differing: u64,
    pub only_ours: u64,
    pub only_theirs: u64,
    pub first: Option<First>,
}

impl Report {
    /// RULES 10.7.
    pub fn numbers(&self) -> [u64; 18] {
        let mut numbers = [0; 18];
        numbers[..4].copy_from_slice(&[
            self.equal,
            self.differing,
            self.only_ours,
            self.only_theirs,
        ]);
        if let Some(first) = &self.first {
            numbers[5..8].copy_from_slice(&[u64::from(first.crossing), first.ours, first.theirs]);
            match first.difference {
                Difference::Sizes(ours, theirs) => {
                    numbers[4] = 1;
                    let sides = [ours.w, ours.h, theirs.w, theirs.h];
                    numbers[8..12].copy_from_slice(&sides.map(u64::from));
                    numbers[15..17].copy_from_slice(&[ours.code(), theirs.code()]);
                }
                Difference::Place(plane, row, column) => {
                    numbers[4] = 2;
                    numbers[12..15].copy_from_slice(&[plane, row, column]);
                }
            }
        }
        numbers
    }
}

/// A file and its records.
struct File<'a> {
    bytes: &'a [u8],
    records: Vec<Entry>,
}

impl File<'_> {
    /// The places of a crossing's records, in the order of the file.
    fn places(&self, crossing: u32) -> Vec<usize> {
        let of_crossing = |place: &usize| self.records[*place].crossing == crossing;
        (0..self.records.len()).filter(of_crossing).collect()
    }

    fn byte(&self, plane: Part, at: u64) -> u8 {
        self.bytes[(plane.offset + at) as usize]
    }
}

/// RULES 13.1: the places of each pair's records, in the order of the pairs. Every crossing is looked for in
/// all records, as the rule says it.
fn pairs(ours: &File, theirs: &File) -> Vec<(usize, usize)> {
    let crossings: BTreeSet<u32> = ours.records.iter().map(|record| record.crossing).collect();
    let mut pairs = Vec::new();
    for crossing in crossings {
        pairs.extend(
            ours.places(crossing)
                .into_iter()
                .zip(theirs.places(crossing)),
        );
    }
    pairs
}

/// RULES 13.2, 13.3: none where the records are equal.
fn difference(ours: (&File, &Entry), theirs: (&File, &Entry)) -> Option<Difference> {
    let ((our_file, a), (their_file, b)) = (ours, theirs);
    if Size::of(a) != Size::of(b) {
        return Some(Difference::Sizes(Size::of(a), Size::of(b)));
    }
    let w = u64::from(a.w);
    let planes = [
        (a.y, b.y, w),
        (a.u, b.u, w.div_ceil(2)),
        (a.v, b.v, w.div_ceil(2)),
    ];
    for (plane, (in_ours, in_theirs, width)) in (0..).zip(planes) {
        for row in 0..in_ours.length / width {
            for column in 0..width {
                let at = row * width + column;
                if our_file.byte(in_ours, at) != their_file.byte(in_theirs, at) {
                    return Some(Difference::Place(plane, row, column));
                }
            }
        }
    }
    None
}

/// RULES 13.4: the answer, the file that is none, and the report.
pub fn pair_files(ours: &[u8], theirs: &[u8]) -> (Answer, Option<Side>, Option<Report>) {
    let file = |bytes| shift::entries(bytes).map(|(_, records)| File { bytes, records });
    let broken = || refuse_if(true, 15);
    match (file(ours), file(theirs)) {
        (None, _) => (broken(), Some(Side::Ours), None),
        (_, None) => (broken(), Some(Side::Theirs), None),
        (Some(ours), Some(theirs)) => (Ok(()), None, Some(report(&ours, &theirs))),
    }
}

/// RULES 13.2, 13.3.
fn report(ours: &File, theirs: &File) -> Report {
    let pairs = pairs(ours, theirs);
    let without_pair = |file: &File| (file.records.len() - pairs.len()) as u64;
    let (mut equal, mut differ) = (0, Vec::new());
    for &(i, j) in &pairs {
        let (a, b) = (&ours.records[i], &theirs.records[j]);
        match difference((ours, a), (theirs, b)) {
            None => equal += 1,
            Some(difference) => differ.push(First {
                crossing: a.crossing,
                ours: i as u64,
                theirs: j as u64,
                difference,
            }),
        }
    }
    Report {
        equal,
        differing: differ.len() as u64,
        only_ours: without_pair(ours),
        only_theirs: without_pair(theirs),
        first: differ.first().copied(),
    }
}
