//! How many colours share a luma.

use crate::error::YuvError;
use crate::ffi;
use crate::mode::in_default_mode;
use crate::settings::{YuvRange, YuvStandardMatrix};

/// How many of the 16,777,216 colours have each luma: the count of luma y stands at y, and all 256 add to that number (RULES 5.3). Refuses a matrix
/// (4).
///
/// It goes through all colours, which takes about ten milliseconds.
///
/// ```
/// use segvartin::*;
///
/// let counts = luma_counts(YuvRange::Full, YuvStandardMatrix::Bt601)?;
/// assert_eq!((counts[0], counts[255]), (7, 7));
/// assert_eq!(counts.iter().sum::<u32>(), 16_777_216);
///
/// let refused = luma_counts(YuvRange::Full, YuvStandardMatrix::Custom(0.6, 0.1));
/// assert_eq!(refused, Err(YuvError::MatrixNotAccepted));
/// # Ok::<(), YuvError>(())
/// ```
pub fn luma_counts(range: YuvRange, matrix: YuvStandardMatrix) -> Result<[u32; 256], YuvError> {
    let numbers = [range.code(), matrix.code()];
    let custom = matrix.custom();
    let mut counts = [0; 256];
    let mut told = [0; 2];
    // SAFETY: each pointer is that of an array beside its own length, or of a value by itself; no two overlap, as the borrows say.
    let number = in_default_mode(|| unsafe {
        ffi::segvartin_call_luma_counts(
            numbers.as_ptr(),
            numbers.len(),
            &custom,
            &mut counts,
            &mut told,
        )
    });
    let [expected, received] = told;
    YuvError::answer(number, expected, received)?;
    Ok(counts)
}
