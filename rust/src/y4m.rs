//! Y4M files, YUV4MPEG2: a line of text, and pictures of one size and sampling, RULES 14.1 and on.

use crate::error::YuvError;
use crate::ffi;
use crate::image::YuvPlanarImageMut;
use crate::settings::YuvChromaSubsampling;
use crate::shift::size_of;
use std::fmt::{Debug, Formatter};
use std::iter::FusedIterator;
use std::vec;

/// The numbers that the library tells of a picture.
const NUMBERS: usize = 6;

/// A Y4M file that was found to be one, read where it stands: its pictures are parts of the bytes that it was opened over, and no byte of a plane is
/// copied or looked at.
///
/// ```
/// use segvartin::*;
///
/// // As an encoder may leave it: the tags in another order, some that are passed over, and one behind FRAME.
/// let mut bytes = b"YUV4MPEG2 H2 W3 A1:1 C422 XYSCSS=422\nFRAME\n".to_vec();
/// bytes.extend([10, 11, 12, 13, 14, 15, 20, 21, 22, 23, 30, 31, 32, 33]);
/// bytes.extend(b"FRAME Xsecond\n");
/// bytes.extend([16; 6 + 4 + 4]);
///
/// let file = Y4mFile::open(&bytes)?;
/// assert_eq!((file.width(), file.height(), file.sampling()), (3, 2, YuvChromaSubsampling::Yuv422));
/// assert_eq!(file.len(), 2);
/// let first = file.picture(0).expect("a picture");
/// assert_eq!(first.y, [10, 11, 12, 13, 14, 15]); // two rows of three
/// assert_eq!((first.u, first.v), (&[20, 21, 22, 23][..], &[30, 31, 32, 33][..]));
/// for picture in &file {
///     assert_eq!(picture.y.len() + picture.u.len() + picture.v.len(), 14);
/// }
///
/// bytes.pop();
/// assert_eq!(Y4mFile::open(&bytes), Err(YuvError::MalformedY4m)); // its last plane is a byte short
/// # Ok::<(), YuvError>(())
/// ```
#[derive(Copy, Clone, Eq, PartialEq)]
pub struct Y4mFile<'a> {
    bytes: &'a [u8],
    width: u32,
    height: u32,
    sampling: YuvChromaSubsampling,
    count: usize,
}

impl<'a> Y4mFile<'a> {
    /// Refuses (19) exactly the bytes that are no Y4M file: RULES 14.4. Its time is that of the lines.
    pub fn open(bytes: &'a [u8]) -> Result<Y4mFile<'a>, YuvError> {
        let (number, [width, height, sampling, count, _]) = ask(bytes, 0, &mut []);
        YuvError::answer(number, 0, 0)?;
        Ok(Y4mFile {
            bytes,
            width: width as u32,
            height: height as u32,
            sampling: if sampling == YuvChromaSubsampling::Yuv422.code() as usize {
                YuvChromaSubsampling::Yuv422
            } else {
                YuvChromaSubsampling::Yuv420
            },
            count,
        })
    }

    /// Of each picture, 1 to 16,384.
    #[must_use]
    pub fn width(&self) -> u32 {
        self.width
    }

    /// Of each picture, 1 to 16,384.
    #[must_use]
    pub fn height(&self) -> u32 {
        self.height
    }

    /// Of each picture: U and V have their rows by it.
    #[must_use]
    pub fn sampling(&self) -> YuvChromaSubsampling {
        self.sampling
    }

    /// How many pictures it has; it may have none.
    #[must_use]
    pub fn len(&self) -> usize {
        self.count
    }

    #[must_use]
    pub fn is_empty(&self) -> bool {
        self.count == 0
    }

    /// Picture k, counted from 0. To go through many, [`pictures`](Y4mFile::pictures) is faster: each call goes through the whole file.
    #[must_use]
    pub fn picture(&self, k: usize) -> Option<Y4mPicture<'a>> {
        let mut numbers = [[0; NUMBERS]];
        let (_, [.., read]) = ask(self.bytes, k, &mut numbers);
        (read == 1).then(|| part_of(self.bytes, numbers[0]))
    }

    /// All pictures, in the order of the file. Their places are asked for at once, and stand in a [`Vec`], 48 bytes for each.
    #[must_use]
    pub fn pictures(&self) -> Y4mPictures<'a> {
        let mut numbers = vec![[0; NUMBERS]; self.count];
        let (_, [.., read]) = ask(self.bytes, 0, &mut numbers);
        numbers.truncate(read);
        Y4mPictures {
            bytes: self.bytes,
            numbers: numbers.into_iter(),
        }
    }

    /// The file's bytes, those that it was opened over.
    #[must_use]
    pub fn as_bytes(&self) -> &'a [u8] {
        self.bytes
    }
}

/// The bytes may be many: only their number is shown.
impl Debug for Y4mFile<'_> {
    fn fmt(&self, f: &mut Formatter<'_>) -> std::fmt::Result {
        (f.debug_struct("Y4mFile"))
            .field("width", &self.width)
            .field("height", &self.height)
            .field("sampling", &self.sampling)
            .field("pictures", &self.count)
            .field("size", &self.bytes.len())
            .finish()
    }
}

impl<'a> IntoIterator for &Y4mFile<'a> {
    type Item = Y4mPicture<'a>;
    type IntoIter = Y4mPictures<'a>;

    fn into_iter(self) -> Y4mPictures<'a> {
        self.pictures()
    }
}

/// A picture of a Y4M file, without padding: `y` has a row of the width for each of the height, `u` and `v` have rows of half as many bytes, rounded up;
/// in 4:2:0 also half as many rows, rounded up. It may gain fields.
#[derive(Copy, Clone, Eq, PartialEq)]
#[non_exhaustive]
pub struct Y4mPicture<'a> {
    pub y: &'a [u8],
    pub u: &'a [u8],
    pub v: &'a [u8],
}

impl Debug for Y4mPicture<'_> {
    fn fmt(&self, f: &mut Formatter<'_>) -> std::fmt::Result {
        (f.debug_struct("Y4mPicture"))
            .field("size", &(self.y.len() + self.u.len() + self.v.len()))
            .finish_non_exhaustive()
    }
}

/// The pictures of a [`Y4mFile`], in its order.
#[derive(Debug, Clone)]
pub struct Y4mPictures<'a> {
    bytes: &'a [u8],
    numbers: vec::IntoIter<[u64; NUMBERS]>,
}

impl<'a> Iterator for Y4mPictures<'a> {
    type Item = Y4mPicture<'a>;

    fn next(&mut self) -> Option<Y4mPicture<'a>> {
        self.nth(0)
    }

    fn nth(&mut self, n: usize) -> Option<Y4mPicture<'a>> {
        let numbers = self.numbers.nth(n)?;
        Some(part_of(self.bytes, numbers))
    }

    fn size_hint(&self) -> (usize, Option<usize>) {
        self.numbers.size_hint()
    }
}

impl DoubleEndedIterator for Y4mPictures<'_> {
    fn next_back(&mut self) -> Option<Self::Item> {
        let numbers = self.numbers.next_back()?;
        Some(part_of(self.bytes, numbers))
    }
}

impl ExactSizeIterator for Y4mPictures<'_> {}

impl FusedIterator for Y4mPictures<'_> {}

/// The picture of which the library told these numbers. The planes lie in the file, as the reader tells them.
fn part_of(bytes: &[u8], numbers: [u64; NUMBERS]) -> Y4mPicture<'_> {
    let [y, y_length, u, u_length, v, v_length] = numbers.map(|n| n as usize);
    let part = |offset, length| &bytes[offset..][..length];
    Y4mPicture {
        y: part(y, y_length),
        u: part(u, u_length),
        v: part(v, v_length),
    }
}

/// The library's reading of a file from picture `first` on: number; then width, height, the sampling's code, how many pictures it has, and of how many
/// it told.
fn ask(file: &[u8], first: usize, numbers: &mut [[u64; NUMBERS]]) -> (u32, [usize; 5]) {
    let numbers = numbers.as_flattened_mut();
    let mut told = [0; 5];
    // SAFETY: each pointer is that of a slice beside its own length, or of a value by itself; no two overlap, as the borrows say.
    let number = unsafe {
        ffi::segvartin_call_y4m_pictures(
            file.as_ptr(),
            file.len(),
            first,
            numbers.as_mut_ptr(),
            numbers.len(),
            &mut told,
        )
    };
    (number, told)
}

/// Writes the Y4M file of these pictures, Y, U and V of each without padding and all back to back, at the start of `file`, and tells its size; what lies
/// past it is left as it is: RULES 14.6. Of no bytes it is a file without pictures, its line alone. Refuses a size, and bytes that are not whole pictures
/// (19), and a `file` that is too short (16), and then writes no byte.
///
/// ```
/// use segvartin::*;
///
/// let pictures = [16, 128, 128, 235, 128, 128]; // a black pixel, then a white one
/// let mut file = vec![0; y4m_size(1, 1, YuvChromaSubsampling::Yuv420, &pictures)?];
/// write_y4m(1, 1, YuvChromaSubsampling::Yuv420, &pictures, &mut file)?;
/// assert_eq!(file, b"YUV4MPEG2 W1 H1 F25:1 Ip C420jpeg\nFRAME\n\x10\x80\x80FRAME\n\xeb\x80\x80");
/// assert_eq!(Y4mFile::open(&file)?.picture(1).map(|picture| picture.y), Some(&[235][..]));
/// assert_eq!(write_y4m(1, 1, YuvChromaSubsampling::Yuv420, &pictures, &mut file[1..]), Err(YuvError::OutputTooShort));
/// assert_eq!(y4m_size(1, 1, YuvChromaSubsampling::Yuv420, &pictures[1..]), Err(YuvError::MalformedY4m)); // not whole pictures
/// assert_eq!(y4m_size(0, 1, YuvChromaSubsampling::Yuv420, &[]), Err(YuvError::MalformedY4m));
/// # Ok::<(), YuvError>(())
/// ```
pub fn write_y4m(
    width: u32,
    height: u32,
    sampling: YuvChromaSubsampling,
    pictures: &[u8],
    file: &mut [u8],
) -> Result<usize, YuvError> {
    let (answer, size) = put_file([width, height, sampling.code()], pictures, file);
    answer?;
    Ok(size)
}

/// How many bytes [`write_y4m`] writes for these pictures. Refuses a size, and bytes that are not whole pictures (19).
pub fn y4m_size(
    width: u32,
    height: u32,
    sampling: YuvChromaSubsampling,
    pictures: &[u8],
) -> Result<usize, YuvError> {
    let (answer, size) = put_file([width, height, sampling.code()], pictures, &mut []);
    size_of(answer, size)
}

fn put_file(numbers: [u32; 3], pictures: &[u8], file: &mut [u8]) -> (Result<(), YuvError>, usize) {
    let mut told = [0; 1];
    // SAFETY: each pointer is that of a slice beside its own length, or of a value by itself; no two overlap, as the borrows say.
    let number = unsafe {
        ffi::segvartin_call_y4m_write(
            &numbers,
            pictures.as_ptr(),
            pictures.len(),
            file.as_mut_ptr(),
            file.len(),
            &mut told,
        )
    };
    let [size] = told;
    (YuvError::answer(number, 0, 0), size)
}

/// Makes one picture of a Y4M file of the planes of an image in this sampling, as a frame call or the bands of a frame left them, at the start of
/// `picture`, and tells its size; what lies past it is left as it is: RULES 14.7. Of each row its width is taken and its padding not. Refuses a size,
/// strides and lengths (19) and a `picture` that is too short (16), and then writes no byte.
///
/// Put behind a file of [`write_y4m`] of the same size and sampling it makes the file with this picture at its end. So a file of any length is made with
/// the memory of one picture, here of two frames:
///
/// ```
/// use segvartin::*;
///
/// let (sampling, range, matrix, transfer) =
///     (YuvChromaSubsampling::Yuv420, YuvRange::Limited, YuvStandardMatrix::Bt601, SharpYuvGammaTransfer::Srgb);
/// let mut image = YuvPlanarImageMut::<u8>::alloc(2, 2, sampling);
/// let mut file = vec![0; y4m_size(2, 2, sampling, &[])?];
/// write_y4m(2, 2, sampling, &[], &mut file)?;
/// let mut picture = vec![0; y4m_picture_size(sampling, &image)?];
/// for colour in [[0, 0, 0], [255, 255, 255]] {
///     rgb_to_sharp_yuv420(&mut image, &colour.repeat(4), 6, range, matrix, transfer)?;
///     y4m_picture(sampling, &image, &mut picture)?;
///     file.extend(&picture);
/// }
/// let luma: Vec<_> = Y4mFile::open(&file)?.pictures().map(|picture| picture.y).collect();
/// assert_eq!(luma, [[16; 4], [235; 4]]);
/// # Ok::<(), YuvError>(())
/// ```
pub fn y4m_picture(
    sampling: YuvChromaSubsampling,
    image: &YuvPlanarImageMut<u8>,
    picture: &mut [u8],
) -> Result<usize, YuvError> {
    let (answer, size) = put_picture(sampling, image, picture);
    answer?;
    Ok(size)
}

/// How many bytes [`y4m_picture`] writes for this image. Refuses a size, strides and lengths (19).
pub fn y4m_picture_size(
    sampling: YuvChromaSubsampling,
    image: &YuvPlanarImageMut<u8>,
) -> Result<usize, YuvError> {
    let (answer, size) = put_picture(sampling, image, &mut []);
    size_of(answer, size)
}

fn put_picture(
    sampling: YuvChromaSubsampling,
    image: &YuvPlanarImageMut<u8>,
    picture: &mut [u8],
) -> (Result<(), YuvError>, usize) {
    let numbers = [
        image.width,
        image.height,
        sampling.code(),
        image.y_stride,
        image.u_stride,
        image.v_stride,
    ];
    let [y, u, v] = [&image.y_plane, &image.u_plane, &image.v_plane].map(|plane| plane.borrow());
    let mut told = [0; 1];
    // SAFETY: each pointer is that of a slice beside its own length, or of a value by itself; what is written overlaps nothing, as the borrows say.
    let number = unsafe {
        ffi::segvartin_call_y4m_picture(
            &numbers,
            y.as_ptr(),
            y.len(),
            u.as_ptr(),
            u.len(),
            v.as_ptr(),
            v.len(),
            picture.as_mut_ptr(),
            picture.len(),
            &mut told,
        )
    };
    let [size] = told;
    (YuvError::answer(number, 0, 0), size)
}
