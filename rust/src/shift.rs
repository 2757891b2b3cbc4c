//! Shift files: the planes of many frames in one file, without settings and with settings, RULES 11.1 and on.

use crate::error::YuvError;
use crate::ffi;
use crate::image::YuvPlanarImageMut;
use crate::recorded::{RecordSettings, ShiftForm};
use std::fmt::{Debug, Formatter};
use std::iter::FusedIterator;

/// The numbers that the library tells of a record.
const NUMBERS: usize = 15;

/// So many records are asked for at a time: each call checks the whole file.
const AT_ONCE: usize = 64;

/// A shift file that was found to be one, read where it stands: its records are parts of the bytes that it was opened over, and no byte of a plane
/// is copied or looked at.
///
/// ```
/// use segvartin::*;
///
/// // One frame converted, put in a file as crossing 1,400, and read back.
/// let mut image = YuvPlanarImageMut::<u8>::alloc(2, 2, YuvChromaSubsampling::Yuv420);
/// let (range, matrix, transfer) = (YuvRange::Full, YuvStandardMatrix::Bt601, SharpYuvGammaTransfer::Srgb);
/// rgb_to_sharp_yuv420(&mut image, &[255, 0, 0].repeat(4), 6, range, matrix, transfer)?;
///
/// let mut record = vec![0; shift_record_size(&image)?];
/// shift_record(1400, &image, &mut record)?;
/// let mut bytes = vec![0; shift_file_size(&record)?];
/// write_shift_file(&record, &mut bytes)?;
///
/// let file = ShiftFile::open(&bytes)?;
/// assert_eq!(file.len(), 1);
/// for record in file.records() {
///     assert_eq!((record.crossing, record.width, record.height), (1400, 2, 2));
///     assert_eq!((record.y, record.u, record.v), (&[76; 4][..], &[85][..], &[255][..]));
/// }
///
/// bytes.push(0);
/// assert_eq!(ShiftFile::open(&bytes), Err(YuvError::MalformedShiftFile)); // a byte past its end
/// # Ok::<(), YuvError>(())
/// ```
///
/// A file whose records say how their planes were made, in 4:2:2 too:
///
/// ```
/// use segvartin::*;
///
/// let frame = FrameDescription {
///     width: 2,
///     height: 2,
///     channels: YuvSourceChannels::Rgb,
///     sampling: YuvChromaSubsampling::Yuv422,
///     range: YuvRange::Full,
///     matrix: YuvStandardMatrix::Bt601,
///     transfer: SharpYuvGammaTransfer::Srgb,
///     y_stride: 2,
///     u_stride: 1,
///     v_stride: 1,
/// };
/// let mut image = YuvPlanarImageMut::<u8>::alloc(2, 2, frame.sampling);
/// rgb_to_sharp_yuv422(&mut image, &[255, 0, 0].repeat(4), 6, frame.range, frame.matrix, frame.transfer)?;
///
/// let settings = RecordSettings::of(&frame);
/// let mut record = vec![0; settings_record_size(&settings, &image)?];
/// settings_record(1400, &settings, &image, &mut record)?;
/// let mut bytes = vec![0; settings_file_size(&record)?];
/// write_settings_file(&record, &mut bytes)?;
///
/// let file = ShiftFile::open_any(&bytes)?;
/// assert_eq!(file.form(), ShiftForm::WithSettings);
/// let found = file.record(0).expect("a record");
/// assert_eq!((found.settings, found.u), (settings, &[85, 85][..]));
/// assert_eq!(ShiftFile::open(&bytes), Err(YuvError::MalformedShiftFile)); // not of the form without settings
/// # Ok::<(), YuvError>(())
/// ```
#[derive(Copy, Clone, Eq, PartialEq)]
pub struct ShiftFile<'a> {
    bytes: &'a [u8],
    count: usize,
    form: ShiftForm,
}

impl<'a> ShiftFile<'a> {
    /// A file without settings, whose records are 4:2:0. Refuses (15) exactly the bytes that are no such file, so every file with settings too: RULES
    /// 11.3. Its time is that of the pairs and of the first bytes of each record.
    pub fn open(bytes: &'a [u8]) -> Result<ShiftFile<'a>, YuvError> {
        let (number, count) = count_without_settings(bytes);
        YuvError::answer(number, 0, 0)?;
        Ok(ShiftFile {
            bytes,
            count,
            form: ShiftForm::WithoutSettings,
        })
    }

    /// A file of either form. Refuses (15) exactly the bytes that are a file of neither: RULES 11.3. Its time is that of [`open`](ShiftFile::open).
    pub fn open_any(bytes: &'a [u8]) -> Result<ShiftFile<'a>, YuvError> {
        let (number, [count, _, form]) = ask(bytes, 0, &mut []);
        YuvError::answer(number, 0, 0)?;
        Ok(ShiftFile {
            bytes,
            count,
            form: match form {
                1 => ShiftForm::WithSettings,
                _ => ShiftForm::WithoutSettings,
            },
        })
    }

    /// Whether its records have settings.
    #[must_use]
    pub fn form(&self) -> ShiftForm {
        self.form
    }

    /// How many records it has, at most 4,096.
    #[must_use]
    pub fn len(&self) -> usize {
        self.count
    }

    #[must_use]
    pub fn is_empty(&self) -> bool {
        self.count == 0
    }

    /// Record k, counted from 0. To go through many, [`records`](ShiftFile::records) is faster.
    #[must_use]
    pub fn record(&self, k: usize) -> Option<ShiftRecord<'a>> {
        let mut numbers = [[0; NUMBERS]];
        let (_, [_, read, _]) = ask(self.bytes, k, &mut numbers);
        (read == 1).then(|| self.part_of(&numbers[0]))
    }

    /// All records, in the order of the file.
    #[must_use]
    pub fn records(&self) -> ShiftRecords<'a> {
        ShiftRecords {
            file: *self,
            next: 0,
            from: 0,
            read: 0,
            numbers: [[0; NUMBERS]; AT_ONCE],
        }
    }

    /// The file's bytes, those that it was opened over.
    #[must_use]
    pub fn as_bytes(&self) -> &'a [u8] {
        self.bytes
    }

    /// All records one behind the other, as [`write_shift_file`] takes them, or with settings [`write_settings_file`]: of these it makes the same file.
    #[must_use]
    pub fn records_as_bytes(&self) -> &'a [u8] {
        let mut numbers = [[0; NUMBERS]];
        match ask(self.bytes, 0, &mut numbers) {
            (_, [_, 1, _]) => {
                let [_, _, _, offset, ..] = numbers[0];
                &self.bytes[offset as usize..]
            }
            _ => &[],
        }
    }

    /// The record of which the library told these numbers. The parts lie in the file, as the reader tells them.
    fn part_of(&self, numbers: &[u64; NUMBERS]) -> ShiftRecord<'a> {
        let [crossing, width, height, others @ ..] = *numbers;
        let [offset, length, y, y_length, u, u_length, v, v_length, ..] =
            others.map(|n| n as usize);
        let [.., sampling, range, matrix, transfer] = others;
        let part = |offset, length| &self.bytes[offset..][..length];
        ShiftRecord {
            crossing: crossing as u32,
            width: width as u32,
            height: height as u32,
            bytes: part(offset, length),
            y: part(y, y_length),
            u: part(u, u_length),
            v: part(v, v_length),
            settings: RecordSettings::of_codes([sampling, range, matrix, transfer]),
        }
    }
}

/// The bytes may be many: only their number is shown.
impl Debug for ShiftFile<'_> {
    fn fmt(&self, f: &mut Formatter<'_>) -> std::fmt::Result {
        (f.debug_struct("ShiftFile"))
            .field("records", &self.count)
            .field("size", &self.bytes.len())
            .finish_non_exhaustive()
    }
}

impl<'a> IntoIterator for &ShiftFile<'a> {
    type Item = ShiftRecord<'a>;
    type IntoIter = ShiftRecords<'a>;

    fn into_iter(self) -> ShiftRecords<'a> {
        self.records()
    }
}

/// A record of a shift file, without padding: `y` has `height` rows of `width` bytes, `u` and `v` have rows of half as many bytes, rounded up; in
/// 4:2:0, which is the sampling of every record without settings, also half as many rows, rounded up. It may gain fields.
#[derive(Copy, Clone, Eq, PartialEq)]
#[non_exhaustive]
pub struct ShiftRecord<'a> {
    pub crossing: u32,
    pub width: u32,
    pub height: u32,
    /// The whole record, as [`write_shift_file`] takes it, or with settings [`write_settings_file`].
    pub bytes: &'a [u8],
    pub y: &'a [u8],
    pub u: &'a [u8],
    pub v: &'a [u8],
    /// How its planes were made. Of a record without settings the sampling is 4:2:0, and nothing else is recorded.
    pub settings: RecordSettings,
}

impl Debug for ShiftRecord<'_> {
    fn fmt(&self, f: &mut Formatter<'_>) -> std::fmt::Result {
        (f.debug_struct("ShiftRecord"))
            .field("crossing", &self.crossing)
            .field("width", &self.width)
            .field("height", &self.height)
            .field("size", &self.bytes.len())
            .finish_non_exhaustive()
    }
}

/// The records of a [`ShiftFile`], in its order.
#[derive(Debug, Clone)]
pub struct ShiftRecords<'a> {
    file: ShiftFile<'a>,
    next: usize,
    /// The numbers of so many records, from that one on.
    from: usize,
    read: usize,
    numbers: [[u64; NUMBERS]; AT_ONCE],
}

impl<'a> Iterator for ShiftRecords<'a> {
    type Item = ShiftRecord<'a>;

    fn next(&mut self) -> Option<ShiftRecord<'a>> {
        self.nth(0)
    }

    /// What is passed over is not asked for.
    fn nth(&mut self, n: usize) -> Option<ShiftRecord<'a>> {
        let k = self.next.saturating_add(n).min(self.file.count);
        self.next = k;
        if k == self.file.count {
            return None;
        }
        if k - self.from >= self.read {
            let (_, [_, read, _]) = ask(self.file.bytes, k, &mut self.numbers);
            (self.from, self.read) = (k, read);
        }
        self.next += 1;
        Some(self.file.part_of(&self.numbers[k - self.from]))
    }

    fn size_hint(&self) -> (usize, Option<usize>) {
        let left = self.file.count - self.next;
        (left, Some(left))
    }
}

impl ExactSizeIterator for ShiftRecords<'_> {}

impl FusedIterator for ShiftRecords<'_> {}

/// The library's reading of a file of either form from record `first` on: number; then how many records it has, of how many it told, and its form.
fn ask(file: &[u8], first: usize, numbers: &mut [[u64; NUMBERS]]) -> (u32, [usize; 3]) {
    let numbers = numbers.as_flattened_mut();
    let mut told = [0; 3];
    // SAFETY: each pointer is that of a slice beside its own length, or of a value by itself; no two overlap, as the borrows say.
    let number = unsafe {
        ffi::segvartin_call_shift_records_any(
            file.as_ptr(),
            file.len(),
            first,
            numbers.as_mut_ptr(),
            numbers.len(),
            &mut told,
        )
    };
    (number, told)
}

/// The library's reading of a file without settings: number, and how many records it has.
fn count_without_settings(file: &[u8]) -> (u32, usize) {
    let numbers: &mut [u64] = &mut [];
    let mut told = [0; 2];
    // SAFETY: as above.
    let number = unsafe {
        ffi::segvartin_call_shift_records(
            file.as_ptr(),
            file.len(),
            0,
            numbers.as_mut_ptr(),
            numbers.len(),
            &mut told,
        )
    };
    let [count, _] = told;
    (number, count)
}

/// Writes the shift file without settings of these records, up to 4,096 that stand one behind the other, at the start of `file`, and tells its size;
/// what lies past it is left as it is: RULES 11.5. Refuses what are no such records (15) and a `file` that is too short (16), and then writes no
/// byte.
///
/// ```
/// use segvartin::*;
///
/// let record = [120, 5, 0, 0, 1, 0, 1, 0, 16, 128, 128]; // crossing 1,400, 1 × 1, black
/// let mut file = [9; 52];
/// assert_eq!(write_shift_file(&record.repeat(2), &mut file)?, 4 + 2 * 12 + 2 * 11);
/// assert_eq!(file[48..], [128, 128, 9, 9]);
/// assert_eq!(write_shift_file(&record, &mut file[..26]), Err(YuvError::OutputTooShort)); // 27 bytes
/// assert_eq!(write_shift_file(&record[1..], &mut file), Err(YuvError::MalformedShiftFile));
/// # Ok::<(), YuvError>(())
/// ```
pub fn write_shift_file(records: &[u8], file: &mut [u8]) -> Result<usize, YuvError> {
    let (answer, size) = put_file(ShiftForm::WithoutSettings, records, file);
    answer?;
    Ok(size)
}

/// How many bytes [`write_shift_file`] writes for these records. Refuses what are none (15).
pub fn shift_file_size(records: &[u8]) -> Result<usize, YuvError> {
    let (answer, size) = put_file(ShiftForm::WithoutSettings, records, &mut []);
    size_of(answer, size)
}

/// Writes the shift file with settings of these records, each of which has settings, as [`write_shift_file`] does: RULES 11.5. Refuses what are no
/// such records (15) and a `file` that is too short (16), and then writes no byte.
///
/// ```
/// use segvartin::*;
///
/// let record = [120, 5, 0, 0, 1, 0, 1, 0, 1, 255, 6, 255, 16, 128, 128]; // crossing 1,400, 1 × 1 in 4:2:2, a Custom matrix, black
/// let mut file = [9; 36];
/// assert_eq!(write_settings_file(&record, &mut file)?, 8 + 12 + 15);
/// assert_eq!(file[..8], [255, 255, 255, 255, 1, 0, 0, 0]);
/// assert_eq!(write_settings_file(&record, &mut file[..34]), Err(YuvError::OutputTooShort));
/// assert_eq!(write_settings_file(&[120, 5, 0, 0, 1, 0, 1, 0, 16, 128, 128], &mut file), Err(YuvError::MalformedShiftFile)); // without settings
/// # Ok::<(), YuvError>(())
/// ```
pub fn write_settings_file(records: &[u8], file: &mut [u8]) -> Result<usize, YuvError> {
    let (answer, size) = put_file(ShiftForm::WithSettings, records, file);
    answer?;
    Ok(size)
}

/// How many bytes [`write_settings_file`] writes for these records. Refuses what are none (15).
pub fn settings_file_size(records: &[u8]) -> Result<usize, YuvError> {
    let (answer, size) = put_file(ShiftForm::WithSettings, records, &mut []);
    size_of(answer, size)
}

/// A library's call that makes a file of other bytes, and tells its size.
type Make = unsafe extern "C" fn(*const u8, usize, *mut u8, usize, &mut [usize; 1]) -> u32;

fn put_file(form: ShiftForm, records: &[u8], file: &mut [u8]) -> (Result<(), YuvError>, usize) {
    let write: Make = match form {
        ShiftForm::WithoutSettings => ffi::segvartin_call_shift_write,
        ShiftForm::WithSettings => ffi::segvartin_call_shift_write_settings,
    };
    made_of(write, records, file)
}

fn made_of(make: Make, from: &[u8], to: &mut [u8]) -> (Result<(), YuvError>, usize) {
    let mut told = [0; 1];
    // SAFETY: each pointer is that of a slice beside its own length, or of a value by itself; no two overlap, as the borrows say.
    let number = unsafe {
        make(
            from.as_ptr(),
            from.len(),
            to.as_mut_ptr(),
            to.len(),
            &mut told,
        )
    };
    let [size] = told;
    (YuvError::answer(number, 0, 0), size)
}

/// Moves a file without settings forward: writes the file with settings of the same records, each in 4:2:0 and with nothing else recorded, at the
/// start of `output`, and tells its size; what lies past it is left as it is: RULES 11.8. Refuses bytes that are no file without settings (15) and an
/// `output` that is too short (16), and then writes no byte.
///
/// ```
/// use segvartin::*;
///
/// let old = [1, 0, 0, 0, 16, 0, 0, 0, 0, 0, 0, 0, 11, 0, 0, 0, 120, 5, 0, 0, 1, 0, 1, 0, 16, 128, 128];
/// let mut new = vec![0; moved_forward_size(&old)?];
/// assert_eq!(move_forward(&old, &mut new)?, 35);
/// assert_eq!(ShiftFile::open_any(&new)?.form(), ShiftForm::WithSettings);
/// let mut back = vec![0; moved_back_size(&new)?];
/// move_back(&new, &mut back)?;
/// assert_eq!(back, old);
/// new[29] = 1; // the range of its record: recorded as Full
/// assert_eq!(move_back(&new, &mut back), Err(YuvError::SettingsRecorded));
/// # Ok::<(), YuvError>(())
/// ```
pub fn move_forward(file: &[u8], output: &mut [u8]) -> Result<usize, YuvError> {
    let (answer, size) = made_of(ffi::segvartin_call_shift_forward, file, output);
    answer?;
    Ok(size)
}

/// How many bytes [`move_forward`] writes for this file. Refuses what is none (15).
pub fn moved_forward_size(file: &[u8]) -> Result<usize, YuvError> {
    let (answer, size) = made_of(ffi::segvartin_call_shift_forward, file, &mut []);
    size_of(answer, size)
}

/// Moves a file with settings back: writes the file without settings of the same records at the start of `output`, and tells its size; what lies past
/// it is left as it is: RULES 11.8. Of a file that was moved forward, these are the bytes from before. Refuses bytes that are no file with settings
/// (15); a file with a record in 4:2:2 or with a range, matrix or transfer that is recorded (20); and an `output` that is too short (16); and then
/// writes no byte.
pub fn move_back(file: &[u8], output: &mut [u8]) -> Result<usize, YuvError> {
    let (answer, size) = made_of(ffi::segvartin_call_shift_back, file, output);
    answer?;
    Ok(size)
}

/// How many bytes [`move_back`] writes for this file. Refuses what is none (15), and what it does not move (20).
pub fn moved_back_size(file: &[u8]) -> Result<usize, YuvError> {
    let (answer, size) = made_of(ffi::segvartin_call_shift_back, file, &mut []);
    size_of(answer, size)
}

/// Makes a record without settings of the planes of an image of 4:2:0, as a frame call or the bands of a frame left them, at the start of `record`,
/// and tells its size; what lies past it is left as it is: RULES 11.6. Of each row its width is taken and its padding not. Refuses a size (15),
/// strides and lengths (8 to 12) and a `record` that is too short (16), and then writes no byte.
pub fn shift_record(
    crossing: u32,
    image: &YuvPlanarImageMut<u8>,
    record: &mut [u8],
) -> Result<usize, YuvError> {
    let (answer, size) = put_record(crossing, None, image, record);
    answer?;
    Ok(size)
}

/// How many bytes [`shift_record`] writes for this image. Refuses a size (15), strides and lengths (8 to 12).
pub fn shift_record_size(image: &YuvPlanarImageMut<u8>) -> Result<usize, YuvError> {
    let (answer, size) = put_record(0, None, image, &mut []);
    size_of(answer, size)
}

/// Makes a record with settings of the planes of an image in the sampling of `settings`, as [`shift_record`] does: RULES 11.6. kr and kb of a Custom
/// matrix, and the rounding of the tables, are not recorded. Refuses as that does.
pub fn settings_record(
    crossing: u32,
    settings: &RecordSettings,
    image: &YuvPlanarImageMut<u8>,
    record: &mut [u8],
) -> Result<usize, YuvError> {
    let (answer, size) = put_record(crossing, Some(settings), image, record);
    answer?;
    Ok(size)
}

/// How many bytes [`settings_record`] writes for this image. Refuses a size (15), strides and lengths (8 to 12).
pub fn settings_record_size(
    settings: &RecordSettings,
    image: &YuvPlanarImageMut<u8>,
) -> Result<usize, YuvError> {
    let (answer, size) = put_record(0, Some(settings), image, &mut []);
    size_of(answer, size)
}

/// A library's call that makes a record, and tells expected, received and its size.
type MakeRecord<const N: usize> = unsafe extern "C" fn(
    &[u32; N],
    *const u8,
    usize,
    *const u8,
    usize,
    *const u8,
    usize,
    *mut u8,
    usize,
    &mut [usize; 3],
) -> u32;

fn put_record(
    crossing: u32,
    settings: Option<&RecordSettings>,
    image: &YuvPlanarImageMut<u8>,
    record: &mut [u8],
) -> (Result<(), YuvError>, usize) {
    let (width, height) = (image.width, image.height);
    let (y, u, v) = (image.y_stride, image.u_stride, image.v_stride);
    match settings.map(RecordSettings::codes) {
        None => {
            let numbers = [crossing, width, height, y, u, v];
            record_of(ffi::segvartin_call_shift_record, &numbers, image, record)
        }
        Some([sampling, range, matrix, transfer]) => {
            let numbers = [
                crossing, width, height, y, u, v, sampling, range, matrix, transfer,
            ];
            let make = ffi::segvartin_call_shift_record_settings;
            record_of(make, &numbers, image, record)
        }
    }
}

fn record_of<const N: usize>(
    make: MakeRecord<N>,
    numbers: &[u32; N],
    image: &YuvPlanarImageMut<u8>,
    record: &mut [u8],
) -> (Result<(), YuvError>, usize) {
    let [y, u, v] = [&image.y_plane, &image.u_plane, &image.v_plane].map(|plane| plane.borrow());
    let mut told = [0; 3];
    // SAFETY: each pointer is that of a slice beside its own length, or of a value by itself; what is written overlaps nothing, as the borrows say.
    let number = unsafe {
        make(
            numbers,
            y.as_ptr(),
            y.len(),
            u.as_ptr(),
            u.len(),
            v.as_ptr(),
            v.len(),
            record.as_mut_ptr(),
            record.len(),
            &mut told,
        )
    };
    let [expected, received, size] = told;
    (YuvError::answer(number, expected, received), size)
}

/// The size that was told of what does not fit into no bytes.
pub(crate) fn size_of(answer: Result<(), YuvError>, size: usize) -> Result<usize, YuvError> {
    match answer {
        Ok(()) | Err(YuvError::OutputTooShort) => Ok(size),
        Err(refusal) => Err(refusal),
    }
}
