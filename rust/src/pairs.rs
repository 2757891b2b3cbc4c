//! Two shift files of one day held against each other: RULES 13.1 and on.

use crate::error::YuvError;
use crate::ffi;
use crate::recorded::RecordSettings;
use crate::settings::YuvChromaSubsampling;
use std::error::Error;
use std::fmt::{Display, Formatter};

/// One of two files.
#[derive(Debug, Copy, Clone, Eq, PartialEq)]
pub enum PairSide {
    Ours,
    Theirs,
}

/// A plane of a record.
#[derive(Debug, Copy, Clone, Eq, PartialEq)]
pub enum YuvPlane {
    Y,
    U,
    V,
}

/// How the records of a pair differ: RULES 13.3. There may be more ways one day: a `match` needs a last arm `_`.
#[derive(Debug, Copy, Clone, Eq, PartialEq)]
#[non_exhaustive]
pub enum PairDifference {
    /// Width and height of the record in ours, and of that in theirs; and their samplings, which may be all that differs.
    #[non_exhaustive]
    Sizes {
        ours: (u32, u32),
        theirs: (u32, u32),
        our_sampling: YuvChromaSubsampling,
        their_sampling: YuvChromaSubsampling,
    },
    /// The first byte that differs, in Y, U, V by rows; row and column count from 0, in those of the plane.
    #[non_exhaustive]
    Place {
        plane: YuvPlane,
        row: usize,
        column: usize,
    },
}

/// The first pair that differs, by crossing and then by offset: RULES 13.3. It may gain fields.
#[derive(Debug, Copy, Clone, Eq, PartialEq)]
#[non_exhaustive]
pub struct DifferingPair {
    pub crossing: u32,
    /// The number of its record in ours, from 0, as [`ShiftFile::record`](crate::ShiftFile::record) takes it.
    pub our_record: usize,
    /// The same in theirs.
    pub their_record: usize,
    pub difference: PairDifference,
}

/// The report of two files: RULES 13.2, 13.3. `equal + differing + only_ours` is the number of records of ours, `equal + differing + only_theirs`
/// that of theirs. It may gain fields.
#[derive(Debug, Copy, Clone, Eq, PartialEq)]
#[non_exhaustive]
pub struct PairReport {
    /// Pairs of the same size and sampling with the same bytes in all planes.
    pub equal: usize,
    /// The other pairs.
    pub differing: usize,
    /// Records of ours without a pair.
    pub only_ours: usize,
    /// Records of theirs without a pair.
    pub only_theirs: usize,
    /// `None` where no pair differs.
    pub first: Option<DifferingPair>,
}

/// 15 of two files, with the one that is no shift file: ours, where both are none.
#[derive(Debug, Copy, Clone, Eq, PartialEq)]
pub struct PairError {
    pub side: PairSide,
    pub error: YuvError,
}

impl Display for PairError {
    fn fmt(&self, f: &mut Formatter<'_>) -> std::fmt::Result {
        let side = match self.side {
            PairSide::Ours => "ours",
            PairSide::Theirs => "theirs",
        };
        write!(f, "{side}: {}", self.error)
    }
}

impl Error for PairError {
    fn source(&self) -> Option<&(dyn Error + 'static)> {
        Some(&self.error)
    }
}

/// For `?` where the side does not matter.
impl From<PairError> for YuvError {
    fn from(error: PairError) -> YuvError {
        error.error
    }
}

/// Pairs two shift files, each of either form, the k-th record of a crossing in ours with the k-th in theirs, by offset, and tells how many pairs are
/// equal, and how the first differs that is not: RULES 13.4. Unequal samplings count as unequal sizes; ranges, matrices and transfers are not looked
/// at. Refuses (15) exactly the bytes that are no shift file, and says which of the two they are. The same bytes may be both.
///
/// ```
/// use segvartin::*;
///
/// let file_of = |records: &[[u8; 11]]| {
///     let records = records.concat();
///     let mut file = vec![0; shift_file_size(&records)?];
///     write_shift_file(&records, &mut file)?;
///     Ok::<_, YuvError>(file)
/// };
/// // Crossings 7 and 9, 1 × 1 each; in theirs the other way round, V of crossing 9 one more, and a record of crossing 8.
/// let ours = file_of(&[[7, 0, 0, 0, 1, 0, 1, 0, 16, 128, 128], [9, 0, 0, 0, 1, 0, 1, 0, 235, 128, 128]])?;
/// let theirs = file_of(&[
///     [9, 0, 0, 0, 1, 0, 1, 0, 235, 128, 129],
///     [8, 0, 0, 0, 1, 0, 1, 0, 80, 128, 128],
///     [7, 0, 0, 0, 1, 0, 1, 0, 16, 128, 128],
/// ])?;
///
/// let report = pair_shift_files(&ours, &theirs)?;
/// assert_eq!((report.equal, report.differing, report.only_ours, report.only_theirs), (1, 1, 0, 1));
/// let first = report.first.expect("a pair differs");
/// assert_eq!((first.crossing, first.our_record, first.their_record), (9, 1, 0));
/// assert!(matches!(first.difference, PairDifference::Place { plane: YuvPlane::V, row: 0, column: 0, .. }));
///
/// assert_eq!(pair_shift_files(&ours, &theirs[1..]).map_err(|error| error.side), Err(PairSide::Theirs));
/// # Ok::<(), YuvError>(())
/// ```
pub fn pair_shift_files(ours: &[u8], theirs: &[u8]) -> Result<PairReport, PairError> {
    let mut numbers = [0; 18];
    let mut told = [0; 1];
    // SAFETY: each pointer is that of a slice beside its own length, or of a value by itself; what is written overlaps nothing, as the borrows say.
    let number = unsafe {
        ffi::segvartin_call_shift_pairs(
            ours.as_ptr(),
            ours.len(),
            theirs.as_ptr(),
            theirs.len(),
            &mut numbers,
            &mut told,
        )
    };
    let side = match told {
        [2] => PairSide::Theirs,
        _ => PairSide::Ours,
    };
    YuvError::answer(number, 0, 0).map_err(|error| PairError { side, error })?;
    Ok(report_of(&numbers))
}

/// The report of which the library told these numbers.
fn report_of(numbers: &[u64; 18]) -> PairReport {
    let [equal, differing, only_ours, only_theirs, kind, pair @ ..] =
        numbers.map(|number| number as usize);
    let [crossing, our_record, their_record, rest @ ..] = pair;
    let [
        our_width,
        our_height,
        their_width,
        their_height,
        plane,
        row,
        column,
        our_sampling,
        their_sampling,
        _,
    ] = rest;
    let size = |width: usize, height: usize| (width as u32, height as u32);
    let sampling = |code: usize| RecordSettings::of_codes([code as u64, 255, 255, 255]).sampling;
    let difference = match kind {
        1 => Some(PairDifference::Sizes {
            ours: size(our_width, our_height),
            theirs: size(their_width, their_height),
            our_sampling: sampling(our_sampling),
            their_sampling: sampling(their_sampling),
        }),
        2 => Some(PairDifference::Place {
            plane: match plane {
                0 => YuvPlane::Y,
                1 => YuvPlane::U,
                _ => YuvPlane::V,
            },
            row,
            column,
        }),
        _ => None,
    };
    PairReport {
        equal,
        differing,
        only_ours,
        only_theirs,
        first: difference.map(|difference| DifferingPair {
            crossing: crossing as u32,
            our_record,
            their_record,
            difference,
        }),
    }
}
