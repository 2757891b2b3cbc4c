//! Summaries of shift files, by which the record of a crossing is found: RULES 12.1 and on.

use crate::error::YuvError;
use crate::ffi;
use crate::shift::{ShiftFile, ShiftRecord};

/// The bytes of an entry of a summary, one entry for each record: crossing number (4), offset of the record in the file (8), mean of its Y rounded
/// down (1), each low byte first; by ascending crossing number, and by ascending offset where that is equal.
pub const SUMMARY_ENTRY: usize = 13;

/// Summaries, of files of either form. A summary is the first [`summary_size`](ShiftFile::summary_size) bytes of what is lent; the bytes behind them
/// are not looked at. Each call but that goes through the Y planes of all records, for their means.
///
/// ```
/// use segvartin::*;
///
/// // Crossings 70,000 and 1,400, 1 × 1 each, in one file.
/// let records = [[112, 17, 1, 0, 1, 0, 1, 0, 80, 128, 128], [120, 5, 0, 0, 1, 0, 1, 0, 16, 128, 128]].concat();
/// let mut bytes = vec![0; shift_file_size(&records)?];
/// write_shift_file(&records, &mut bytes)?;
/// let file = ShiftFile::open(&bytes)?;
///
/// let mut summary = vec![0; file.summary_size() + SUMMARY_ENTRY]; // and room for one record more
/// assert_eq!(file.build_summary(&mut summary)?, 26);
/// assert_eq!(summary[..13], [120, 5, 0, 0, 39, 0, 0, 0, 0, 0, 0, 0, 16]);
/// let found = file.find_record(&summary, 70_000)?.expect("a record of this crossing");
/// assert_eq!(found.y, [80]);
/// assert_eq!(file.find_record(&summary, 7)?, None);
///
/// // A record more, of crossing 7: first the summary, then the file.
/// let record = [7, 0, 0, 0, 1, 0, 1, 0, 235, 128, 128];
/// file.update_summary(&record, &mut summary)?;
/// let records = [&records[..], &record].concat();
/// let mut bytes = vec![0; shift_file_size(&records)?];
/// write_shift_file(&records, &mut bytes)?;
/// let file = ShiftFile::open(&bytes)?;
/// assert!(file.check_summary(&summary));
/// summary[12] -= 1;
/// assert_eq!(file.find_record(&summary, 7), Err(YuvError::SummaryMismatch));
/// # Ok::<(), YuvError>(())
/// ```
impl<'a> ShiftFile<'a> {
    /// How many bytes its summary has: [`SUMMARY_ENTRY`] for each record.
    #[must_use]
    pub fn summary_size(&self) -> usize {
        SUMMARY_ENTRY * self.len()
    }

    /// Writes the summary of the file, of which there is one, at the start of `summary`, and tells its size; what lies past it is left as it is: RULES
    /// 12.4. Refuses a `summary` that is too short (17), and then writes no byte.
    pub fn build_summary(&self, summary: &mut [u8]) -> Result<usize, YuvError> {
        let file = self.as_bytes();
        // SAFETY: each pointer is that of a slice beside its own length; no two overlap, as the borrows say.
        let number = unsafe {
            ffi::segvartin_call_summary_build(
                file.as_ptr(),
                file.len(),
                summary.as_mut_ptr(),
                summary.len(),
            )
        };
        YuvError::answer(number, 0, 0)?;
        Ok(self.summary_size())
    }

    /// Whether `summary` starts with the summary of the file: RULES 12.5. One that is too short is none.
    #[must_use]
    pub fn check_summary(&self, summary: &[u8]) -> bool {
        let file = self.as_bytes();
        let mut told = [0; 1];
        // SAFETY: each pointer is that of a slice beside its own length, or of a value by itself; no two overlap, as the borrows say.
        let number = unsafe {
            ffi::segvartin_call_summary_check(
                file.as_ptr(),
                file.len(),
                summary.as_ptr(),
                summary.len(),
                &mut told,
            )
        };
        number == 0 && told == [1]
    }

    /// The record of a crossing, the first in the file where there are several, or `None`: RULES 12.6. Refuses what is not the summary of the file (17).
    /// The record borrows the bytes of the file, and neither the summary nor this value.
    pub fn find_record(
        &self,
        summary: &[u8],
        crossing: u32,
    ) -> Result<Option<ShiftRecord<'a>>, YuvError> {
        let file = self.as_bytes();
        let mut told = [0; 2];
        // SAFETY: each pointer is that of a slice beside its own length, or of a value by itself; no two overlap, as the borrows say.
        let number = unsafe {
            ffi::segvartin_call_summary_find(
                file.as_ptr(),
                file.len(),
                summary.as_ptr(),
                summary.len(),
                crossing,
                &mut told,
            )
        };
        YuvError::answer(number, 0, 0)?;
        let [found, k] = told;
        Ok(if found == 1 { self.record(k) } else { None })
    }

    /// Makes of the file's summary that of the file with `record` at its end, byte for byte what is built from that, and tells its size,
    /// [`SUMMARY_ENTRY`] more than that of the file; what lies past it is left as it is: RULES 12.7. The file with the record is
    /// [`write_shift_file`](crate::write_shift_file)'s, or with settings [`write_settings_file`](crate::write_settings_file)'s, of
    /// [`records_as_bytes`](ShiftFile::records_as_bytes) and the record. Refuses what is not one record of the file's form, and every record where the
    /// file has 4,096 (15); a `summary` that is too short for one entry more, or not the file's (17); and then writes no byte.
    pub fn update_summary(&self, record: &[u8], summary: &mut [u8]) -> Result<usize, YuvError> {
        let file = self.as_bytes();
        // SAFETY: each pointer is that of a slice beside its own length; what is written overlaps nothing, as the borrows say.
        let number = unsafe {
            ffi::segvartin_call_summary_update(
                file.as_ptr(),
                file.len(),
                record.as_ptr(),
                record.len(),
                summary.as_mut_ptr(),
                summary.len(),
            )
        };
        YuvError::answer(number, 0, 0)?;
        Ok(self.summary_size() + SUMMARY_ENTRY)
    }
}
