//! The pictures of an input, lent from a map or read in bands of rows, and their conversion by the library.

use crate::files::Input;
use crate::maps::MapMut;
use crate::pnm::{self, Header, Pixels};
use crate::progress;
use crate::report::Failure;
use crate::settings::Settings;
use segvartin::{
    FrameDescription, FrameOptions, FrameStateWith, Window, YuvError, YuvPlanarImageMut,
    YuvSourceChannels, rgbx_to_sharp_yuv_with,
};
use std::io::{self, BufRead, Read};

/// A band of rows that are read has at most so many bytes, or one row.
const MOST_BAND: usize = 4 << 20;

/// What the library is told of a picture.
#[derive(Clone, Copy)]
pub struct Frame {
    pub description: FrameDescription,
    options: FrameOptions,
    stride: u32,
}

impl Frame {
    fn new(settings: &Settings, header: &Header) -> Frame {
        let whole = ([header.width, header.height], [0, 0]);
        let ([width, height], [left, top]) = settings.window.unwrap_or(whole);
        let chroma = width.div_ceil(2);
        let description = FrameDescription {
            width,
            height,
            channels: match header.pixels {
                Pixels::Channels(channels) => channels,
                _ => YuvSourceChannels::Rgb,
            },
            sampling: settings.sampling,
            range: settings.range,
            matrix: settings.matrix,
            transfer: settings.transfer,
            y_stride: width,
            u_stride: chroma,
            v_stride: chroma,
        };
        let mut options = FrameOptions::of(&description);
        options.rounding = settings.rounding;
        options.window = Window::new(left, top, header.width, header.height);
        Frame {
            description,
            options,
            stride: header.stride,
        }
    }

    /// Planes of zeros, as long as the library wants them; no page of them is touched.
    pub fn blank(&self) -> YuvPlanarImageMut<'static, u8> {
        let FrameDescription {
            width,
            height,
            sampling,
            ..
        } = self.description;
        YuvPlanarImageMut::alloc(width, height, sampling)
    }

    /// No band done, or a refusal that needs no pixels: 2, 3, 4, 14.
    fn open(&self) -> Result<FrameStateWith, YuvError> {
        FrameStateWith::open(self.description, self.options)
    }

    fn convert(&self, source: &[u8], [y, u, v]: [&mut [u8]; 3]) -> Result<(), YuvError> {
        rgbx_to_sharp_yuv_with(
            &self.description,
            &self.options,
            source,
            self.stride,
            y,
            u,
            v,
        )
    }

    /// What the library says to a source of so many bytes, which are not the picture's.
    fn refuse(&self, length: usize) -> Result<(), Failure> {
        let mut image = self.blank();
        let planes = [&mut image.y_plane, &mut image.u_plane, &mut image.v_plane];
        Ok(self.convert(&zeros(length)?, planes.map(|plane| plane.borrow_mut()))?)
    }
}

/// One picture of an input, to be converted before the next is asked for.
pub struct Picture<'a> {
    pub frame: Frame,
    header: Header,
    body: Body<'a>,
}

enum Body<'a> {
    /// Exactly its rows, where they stand in the map, or of a text all that follows.
    Map(&'a [u8]),
    Stream(&'a mut dyn BufRead),
}

impl Picture<'_> {
    /// How many bytes of a map it is, about; those that are read are counted then.
    pub fn mapped_bytes(&self) -> usize {
        match self.body {
            Body::Map(rows) => rows.len(),
            Body::Stream(_) => 0,
        }
    }

    pub fn convert(self, planes: [&mut [u8]; 3]) -> Result<(), Failure> {
        match (self.header.pixels, self.body) {
            (Pixels::Channels(_), Body::Map(rows)) => Ok(self.frame.convert(rows, planes)?),
            (_, Body::Map(mut rows)) => convert_bands(&self.header, &self.frame, &mut rows, planes),
            (_, Body::Stream(stream)) => convert_bands(&self.header, &self.frame, stream, planes),
        }
    }
}

/// Rows as long as a flag says: an error where there is no memory for them, and no abort.
fn zeros(length: usize) -> Result<MapMut, Failure> {
    MapMut::zeros(length).map_err(|error| {
        let (what, expected) = ("memory for rows", format!("{length} bytes"));
        Failure::system(
            what,
            &expected,
            &error,
            "a smaller --stride, or a file, which is mapped",
        )
    })
}

/// Reads a picture in bands of rows, those of the window being converted.
fn convert_bands(
    header: &Header,
    frame: &Frame,
    input: &mut dyn BufRead,
    [y, u, v]: [&mut [u8]; 3],
) -> Result<(), Failure> {
    let stride = header.stride as usize;
    let height = header.height as usize;
    let at_once = (MOST_BAND / stride).clamp(1, height);
    let mut rows = zeros(at_once * stride)?;
    let mut carried = vec![0; 3 * frame.description.width as usize];
    let top = frame.options.window.top as usize;
    let bottom = top + frame.description.height as usize;
    let mut state = frame.open()?;
    for first in (0..height).step_by(at_once) {
        let last = height.min(first + at_once);
        let rows = &mut rows[..(last - first) * stride];
        let read = header.read_rows(input, rows)?;
        if read < rows.len() {
            return frame.refuse(first * stride + read);
        }
        let (from, to) = (top.max(first), bottom.min(last));
        if from < to {
            let band = &rows[(from - first) * stride..(to - first) * stride];
            let count = (to - from) as u32;
            let (next, answer) = state.band(count, band, frame.stride, y, u, v, &mut carried);
            answer?;
            state = next;
        }
    }
    if header.is_text() {
        check_end(input)?;
    }
    Ok(())
}

/// A text has one picture.
fn check_end(input: &mut dyn BufRead) -> Result<(), Failure> {
    match pnm::unblank_byte(input)? {
        None => Ok(()),
        Some(byte) => {
            let (received, hint) = (pnm::said(byte), "a file of one picture, since it is text");
            Err(Failure::new(
                "behind the picture",
                "its end",
                &received,
                hint,
            ))
        }
    }
}

/// The pictures of an input, one after another.
pub struct Pictures<'a> {
    settings: &'a Settings,
    is_raw: bool,
    source: Source<'a>,
    is_first: bool,
}

enum Source<'a> {
    Map(&'a [u8]),
    Stream(&'a mut dyn BufRead),
}

impl<'a> Pictures<'a> {
    /// The pictures of a map are gone through first: where one is not whole, none is converted.
    pub fn of(
        input: &'a mut Input,
        is_raw: bool,
        settings: &'a Settings,
    ) -> Result<Pictures<'a>, Failure> {
        settings.check_raw_flags(is_raw)?;
        let new = |source| Pictures {
            settings,
            is_raw,
            source,
            is_first: true,
        };
        match input {
            Input::Stream(stream) => Ok(new(Source::Stream(stream))),
            Input::Map(map) => {
                let mut all = new(Source::Map(map));
                while all.next()?.is_some() {}
                Ok(new(Source::Map(map)))
            }
        }
    }

    fn input(&mut self) -> &mut dyn BufRead {
        match &mut self.source {
            Source::Map(bytes) => bytes,
            Source::Stream(stream) => *stream,
        }
    }

    /// Whether nothing stands behind what was read.
    pub fn is_at_end(&mut self) -> Result<bool, Failure> {
        Ok(pnm::peek(self.input())?.is_empty())
    }

    /// The next one; none behind the last.
    pub fn next(&mut self) -> Result<Option<Picture<'_>>, Failure> {
        if !std::mem::replace(&mut self.is_first, false) && self.is_at_end()? {
            return Ok(None);
        }
        let settings = self.settings;
        let is_raw = self.is_raw;
        let input = self.input();
        let header = if is_raw {
            raw_header(settings)?
        } else {
            pnm::header(input)?
        };
        let frame = Frame::new(settings, &header);
        frame.open()?;
        if header.stride < header.pixel_row() {
            // Such rows are no pictures: the library is told of all that comes.
            let most = frame_size(&header) + header.pixel_row() as usize;
            let length = io::copy(&mut Read::take(input, most as u64), &mut io::sink())?;
            frame.refuse(length as usize)?;
        }
        let body = match &mut self.source {
            Source::Map(bytes) => Body::Map(take_rows(bytes, &header, &frame)?),
            Source::Stream(stream) => {
                progress::expect(frame_size(&header));
                Body::Stream(*stream)
            }
        };
        Ok(Some(Picture {
            frame,
            header,
            body,
        }))
    }

    /// An input of one picture has no other.
    pub fn check_end(&mut self) -> Result<(), Failure> {
        match self.next()? {
            None => Ok(()),
            Some(_) => Err(Failure::new("pictures", "1", "more", "one picture")),
        }
    }
}

fn raw_header(settings: &Settings) -> Result<Header, Failure> {
    let missing = || Failure::new("raw pixels", "--size WxH", "none", "--size 1920x1080");
    let [width, height] = settings.size.ok_or_else(missing)?;
    let header = Header::new(width, height, Pixels::Channels(settings.channels));
    Ok(Header {
        stride: settings.stride.unwrap_or(header.stride),
        ..header
    })
}

/// The bytes of a picture as the library is given them.
fn frame_size(header: &Header) -> usize {
    header.stride as usize * header.height as usize
}

/// Takes the rows of a picture off the bytes of a map.
fn take_rows<'a>(
    bytes: &mut &'a [u8],
    header: &Header,
    frame: &Frame,
) -> Result<&'a [u8], Failure> {
    if header.is_text() {
        return Ok(std::mem::take(bytes));
    }
    match bytes.split_at_checked(header.row() * header.height as usize) {
        Some((rows, rest)) => {
            *bytes = rest;
            Ok(rows)
        }
        None => {
            frame.refuse(header.given(bytes.len()))?;
            Ok(&[])
        }
    }
}
