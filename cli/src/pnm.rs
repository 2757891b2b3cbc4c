//! The headers of PNM and PAM pictures, and the rows of every picture that is read, as the library takes them.

use crate::report::Failure;
use segvartin::YuvSourceChannels;
use std::io::{self, BufRead, Read};

// What to do about a picture that is none
const EIGHT_BITS: &str = "a picture of 8 bits a sample, as pamdepth 255 makes it";
const WHOLE: &str = "a whole PNM or PAM picture, as netpbm writes it";

/// How the pixels of a picture stand in its bytes.
#[derive(Clone, Copy, PartialEq, Eq, Debug)]
pub enum Pixels {
    /// As the library takes them.
    Channels(YuvSourceChannels),
    Grey,
    /// Eight to a byte, the first highest, 1 is black; a row is whole bytes.
    Bits,
    TextRgb,
    TextGrey,
    TextBits,
}

/// What is known of a picture before its pixels.
#[derive(Clone, Copy, PartialEq, Eq, Debug)]
pub struct Header {
    pub width: u32,
    pub height: u32,
    pub pixels: Pixels,
    /// Bytes from row to row, as the library is given them.
    pub stride: u32,
}

impl Header {
    pub fn new(width: u32, height: u32, pixels: Pixels) -> Header {
        let header = Header {
            width,
            height,
            pixels,
            stride: 0,
        };
        Header {
            stride: header.pixel_row(),
            ..header
        }
    }

    /// The bytes of a row's pixels, as the library is given them.
    pub fn pixel_row(&self) -> u32 {
        let pixel = match self.pixels {
            Pixels::Channels(YuvSourceChannels::Rgba | YuvSourceChannels::Bgra) => 4,
            _ => 3,
        };
        self.width.saturating_mul(pixel)
    }

    pub fn is_text(&self) -> bool {
        matches!(
            self.pixels,
            Pixels::TextRgb | Pixels::TextGrey | Pixels::TextBits
        )
    }

    /// How many bytes a row has in the input, where it is not text.
    pub fn row(&self) -> usize {
        match self.pixels {
            Pixels::Grey => self.width as usize,
            Pixels::Bits => self.width.div_ceil(8) as usize,
            _ => self.stride as usize,
        }
    }

    /// How many bytes the library is given of so many of the input, where it is not text.
    pub fn given(&self, read: usize) -> usize {
        let (rows, rest) = (read / self.row(), read % self.row());
        let rest = match self.pixels {
            Pixels::Grey => 3 * rest,
            Pixels::Bits => 3 * (8 * rest).min(self.width as usize),
            _ => rest,
        };
        rows * self.stride as usize + rest
    }

    /// Reads the next rows, as many as `rows` has room for; tells how many bytes of them there were.
    pub fn read_rows(&self, input: &mut dyn BufRead, rows: &mut [u8]) -> Result<usize, Failure> {
        if let Pixels::Channels(_) = self.pixels {
            return Ok(fill(input, rows)?);
        }
        let spread = if self.pixels == Pixels::TextRgb { 1 } else { 3 };
        let mut samples = vec![0; self.stride as usize / spread];
        let mut read = 0;
        for row in rows.chunks_exact_mut(self.stride as usize) {
            let count = self.read_samples(input, &mut samples)?;
            for (pixel, sample) in row.chunks_exact_mut(spread).zip(&samples[..count]) {
                pixel.fill(*sample);
            }
            read += count * spread;
            if count < samples.len() {
                break;
            }
        }
        Ok(read)
    }

    /// The samples of a row that is not as the library takes it; tells how many there were.
    fn read_samples(&self, input: &mut dyn BufRead, samples: &mut [u8]) -> Result<usize, Failure> {
        match self.pixels {
            Pixels::Channels(_) | Pixels::Grey => Ok(fill(input, samples)?),
            Pixels::Bits => {
                let mut bits = vec![0; self.row()];
                let count = samples.len().min(8 * fill(input, &mut bits)?);
                for (k, sample) in samples[..count].iter_mut().enumerate() {
                    let black = bits[k / 8] >> (7 - k % 8) & 1 == 1;
                    *sample = if black { 0 } else { 255 };
                }
                Ok(count)
            }
            Pixels::TextRgb | Pixels::TextGrey => take_while(samples, || text_sample(input)),
            Pixels::TextBits => take_while(samples, || text_bit(input)),
        }
    }
}

/// Samples up to the first that there is not; tells how many there were.
fn take_while(
    samples: &mut [u8],
    mut next: impl FnMut() -> Result<Option<u8>, Failure>,
) -> Result<usize, Failure> {
    for (k, sample) in samples.iter_mut().enumerate() {
        match next()? {
            Some(byte) => *sample = byte,
            None => return Ok(k),
        }
    }
    Ok(samples.len())
}

fn text_sample(input: &mut dyn BufRead) -> Result<Option<u8>, Failure> {
    let too_large =
        |number: u32| Failure::new("a sample", "0 to 255", &number.to_string(), EIGHT_BITS);
    let number = number(input)?;
    number
        .map(|number| u8::try_from(number).map_err(|_| too_large(number)))
        .transpose()
}

fn text_bit(input: &mut dyn BufRead) -> Result<Option<u8>, Failure> {
    match unblank_byte(input)? {
        None => Ok(None),
        Some(b'0') => Ok(Some(255)),
        Some(b'1') => Ok(Some(0)),
        Some(other) => Err(Failure::new("a bit", "0 or 1", &said(other), WHOLE)),
    }
}

/// As many bytes as there are room for, or as come.
fn fill(input: &mut dyn BufRead, mut room: &mut [u8]) -> io::Result<usize> {
    let wanted = room.len();
    while !room.is_empty() {
        match input.read(room) {
            Ok(0) => break,
            Ok(count) => room = &mut room[count..],
            Err(error) if error.kind() == io::ErrorKind::Interrupted => (),
            Err(error) => return Err(error),
        }
    }
    Ok(wanted - room.len())
}

/// What comes next, without taking it; none at the end.
pub fn peek(input: &mut dyn BufRead) -> io::Result<&[u8]> {
    // Twice, since a borrow that is handed back cannot be tried again.
    while let Err(error) = input.fill_buf() {
        if error.kind() != io::ErrorKind::Interrupted {
            return Err(error);
        }
    }
    input.fill_buf()
}

fn byte(input: &mut dyn BufRead) -> io::Result<Option<u8>> {
    let byte = peek(input)?.first().copied();
    input.consume(usize::from(byte.is_some()));
    Ok(byte)
}

/// The next byte; of a comment, the end of its line.
fn text_byte(input: &mut dyn BufRead) -> io::Result<Option<u8>> {
    let mut next = byte(input)?;
    if next == Some(b'#') {
        while !matches!(next, None | Some(b'\n' | b'\r')) {
            next = byte(input)?;
        }
    }
    Ok(next)
}

/// The next byte that is not blank.
pub fn unblank_byte(input: &mut dyn BufRead) -> io::Result<Option<u8>> {
    loop {
        match text_byte(input)? {
            Some(byte) if is_blank(byte) => (),
            next => return Ok(next),
        }
    }
}

fn is_blank(byte: u8) -> bool {
    byte.is_ascii_whitespace() || byte == 0x0b
}

/// A byte of a text, to be shown.
pub fn said(byte: u8) -> String {
    format!("`{}`", byte.escape_ascii())
}

/// A decimal, with the blank behind it. One that is too large is the largest, which the library refuses.
fn number(input: &mut dyn BufRead) -> Result<Option<u32>, Failure> {
    let mut next = unblank_byte(input)?;
    if next.is_none() {
        return Ok(None);
    }
    let mut number = 0u32;
    let mut digits = 0;
    while let Some(digit @ b'0'..=b'9') = next {
        number = number
            .saturating_mul(10)
            .saturating_add(u32::from(digit - b'0'));
        digits += 1;
        next = text_byte(input)?;
    }
    match next {
        Some(byte) if digits == 0 || !is_blank(byte) => {
            let (what, expected) = ("the text of the picture", "a decimal number");
            Err(Failure::new(what, expected, &said(byte), WHOLE))
        }
        _ => Ok(Some(number)),
    }
}

/// The header of a PNM or PAM picture, up to its pixels.
pub fn header(input: &mut dyn BufRead) -> Result<Header, Failure> {
    let pixels = match [byte(input)?, byte(input)?] {
        [Some(b'P'), Some(b'1')] => Pixels::TextBits,
        [Some(b'P'), Some(b'2')] => Pixels::TextGrey,
        [Some(b'P'), Some(b'3')] => Pixels::TextRgb,
        [Some(b'P'), Some(b'4')] => Pixels::Bits,
        [Some(b'P'), Some(b'5')] => Pixels::Grey,
        [Some(b'P'), Some(b'6')] => Pixels::Channels(YuvSourceChannels::Rgb),
        [Some(b'P'), Some(b'7')] => return pam_header(input),
        first => {
            let received: Vec<_> = first.into_iter().flatten().map(said).collect();
            let received = if received.is_empty() {
                "nothing".to_owned()
            } else {
                received.join(" ")
            };
            let hint = "--from raw --size WxH for raw pixels; digest and shift append also take --from y4m and --from shift";
            return Err(Failure::new(
                "the start of a picture",
                "P1 to P7",
                &received,
                hint,
            ));
        }
    };
    let mut next = || number(input)?.ok_or_else(|| ends_early("width, height and MAXVAL"));
    let (width, height) = (next()?, next()?);
    if !matches!(pixels, Pixels::TextBits | Pixels::Bits) {
        check_maximum(next()?)?;
    }
    Ok(Header::new(width, height, pixels))
}

fn ends_early(expected: &str) -> Failure {
    Failure::new("the header of the picture", expected, "its end", WHOLE)
}

fn check_maximum(maximum: u32) -> Result<(), Failure> {
    match maximum {
        255 => Ok(()),
        _ => Err(Failure::of_sizes(
            "MAXVAL of the picture",
            255,
            maximum as usize,
            EIGHT_BITS,
        )),
    }
}

/// Lines of a word and its value, in any order, up to ENDHDR.
fn pam_header(input: &mut dyn BufRead) -> Result<Header, Failure> {
    const LONGEST_LINE: u64 = 4096;
    let mut values = [None; 4];
    let mut kind = String::new();
    loop {
        let mut line = vec![];
        Read::take(&mut *input, LONGEST_LINE).read_until(b'\n', &mut line)?;
        if line.last() != Some(&b'\n') {
            return Err(ends_early("ENDHDR"));
        }
        let line = String::from_utf8_lossy(&line);
        let line = line.trim();
        let wrong = || Failure::new("the header of the picture", "a line of PAM", line, WHOLE);
        let (word, value) = line.split_once(char::is_whitespace).unwrap_or((line, ""));
        let value = value.trim();
        match word {
            "ENDHDR" if value.is_empty() => break,
            // Those of several lines are one, as PAM has it.
            "TUPLTYPE" => kind = format!("{kind} {value}").trim().to_owned(),
            word if word.is_empty() || word.starts_with('#') => (),
            word => {
                let names = ["WIDTH", "HEIGHT", "DEPTH", "MAXVAL"];
                let place = names.iter().position(|name| *name == word);
                let place = &mut values[place.ok_or_else(wrong)?];
                let mut digits = value.as_bytes();
                let number = number(&mut digits)?.filter(|_| digits.is_empty());
                let second = place.replace(number.ok_or_else(wrong)?);
                if second.is_some() {
                    return Err(wrong());
                }
            }
        }
    }
    let [Some(width), Some(height), Some(depth), Some(maximum)] = values else {
        return Err(ends_early("WIDTH, HEIGHT, DEPTH and MAXVAL"));
    };
    check_maximum(maximum)?;
    let pixels = match (depth, &*kind) {
        (1, "GRAYSCALE" | "") => Pixels::Grey,
        (3, "RGB" | "") => Pixels::Channels(YuvSourceChannels::Rgb),
        (4, "RGB_ALPHA" | "") => Pixels::Channels(YuvSourceChannels::Rgba),
        _ => {
            let received = format!("{depth} {kind}");
            let expected = "1 GRAYSCALE, 3 RGB or 4 RGB_ALPHA";
            let what = "DEPTH and TUPLTYPE of the picture";
            return Err(Failure::new(what, expected, received.trim(), WHOLE));
        }
    };
    Ok(Header::new(width, height, pixels))
}

#[cfg(test)]
mod tests {
    use super::*;

    /// The header, and how many bytes are left behind it.
    fn read(mut bytes: &[u8]) -> Result<(Header, usize), String> {
        let header = header(&mut bytes).map_err(|failure| failure.text("convert", false))?;
        Ok((header, bytes.len()))
    }

    fn rows(mut bytes: &[u8]) -> Vec<u8> {
        let header = header(&mut bytes).expect("a header");
        let mut rows = vec![7; header.stride as usize * header.height as usize];
        let count = header.read_rows(&mut bytes, &mut rows).expect("rows");
        rows.truncate(count);
        rows
    }

    #[test]
    fn headers_end_where_the_pixels_start() {
        let rgb = Pixels::Channels(YuvSourceChannels::Rgb);
        assert_eq!(
            read(b"P6\n3 2\n255\n\nabc"),
            Ok((Header::new(3, 2, rgb), 4))
        );
        assert_eq!(
            read(b"P6 # a\n# b 9\n3\t2# c\r255#d\n#abc"),
            Ok((Header::new(3, 2, rgb), 4))
        );
        assert_eq!(
            read(b"P5 3 2 255 abc"),
            Ok((Header::new(3, 2, Pixels::Grey), 3))
        );
        assert_eq!(
            read(b"P4 9 2\nabcd"),
            Ok((Header::new(9, 2, Pixels::Bits), 4))
        );
        assert_eq!(
            read(b"P6 99999999999 0 255 ").map(|(header, _)| (header.width, header.height)),
            Ok((u32::MAX, 0))
        );
        let pam =
            b"P7\n# a\nWIDTH 3\nHEIGHT 2\nMAXVAL 255\nDEPTH 4\nTUPLTYPE RGB_ALPHA\nENDHDR\nabcd";
        let rgba = Pixels::Channels(YuvSourceChannels::Rgba);
        assert_eq!(read(pam), Ok((Header::new(3, 2, rgba), 4)));
        assert_eq!(Header::new(3, 2, rgba).stride, 12);
    }

    #[test]
    fn what_is_no_header_is_said() {
        let said = |bytes: &[u8]| read(bytes).unwrap_err();
        assert!(
            said(b"P6 3 2 65535 ")
                .contains("MAXVAL of the picture: expected 255, received 65535\n")
        );
        assert!(said(b"P8 3 2 255 ").contains("expected P1 to P7, received `P` `8`\n"));
        assert!(said(b"").contains("expected P1 to P7, received nothing\n"));
        assert!(said(b"P6 3").contains("received its end\n"));
        assert!(said(b"P6 3x 2 255 ").contains("expected a decimal number, received `x`\n"));
        assert!(said(b"P6 -3 2 255 ").contains("expected a decimal number, received `-`\n"));
        assert!(
            said(b"P7\nWIDTH 1\nENDHDR\n").contains("expected WIDTH, HEIGHT, DEPTH and MAXVAL")
        );
        assert!(
            said(b"P7\nWIDTH 1\nHEIGHT 1\nDEPTH 2\nMAXVAL 255\nENDHDR\n").contains("received 2\n")
        );
    }

    #[test]
    fn rows_are_as_the_library_takes_them() {
        assert_eq!(rows(b"P5 2 1 255 \x01\xff"), [1, 1, 1, 255, 255, 255]);
        assert_eq!(
            rows(b"P4 2 2 \x40\x80"),
            [255, 255, 255, 0, 0, 0, 0, 0, 0, 255, 255, 255]
        );
        assert_eq!(rows(b"P1 2 1 # bits\n01"), [255, 255, 255, 0, 0, 0]);
        assert_eq!(rows(b"P2 2 1 255 7 # seven\n8"), [7, 7, 7, 8, 8, 8]);
        assert_eq!(rows(b"P3 1 2 255 1 2 3\n4 5 6\n"), [1, 2, 3, 4, 5, 6]);
        assert_eq!(rows(b"P3 1 2 255 1 2 3 4"), [1, 2, 3, 4]); // it ends early
        assert_eq!(rows(b"P6 1 1 255 abcd"), *b"abc");
    }
}
