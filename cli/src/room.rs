//! Bytes that the library lays out, and the places in them where a picture's planes are converted to.

use crate::picture::Frame;
use crate::report::Failure;
use segvartin::{FrameDescription, Y4mFile, YuvError, write_y4m, y4m_size};
use std::ops::Range;

/// Where Y, U and V stand in bytes.
pub type Places = [Range<usize>; 3];

/// Where these parts of bytes stand in them.
pub fn places_in(bytes: &[u8], parts: [&[u8]; 3]) -> Places {
    parts.map(|part| {
        let start = part.as_ptr() as usize - bytes.as_ptr() as usize;
        start..start + part.len()
    })
}

/// The planes at these places, to be written.
pub fn planes_at(bytes: &mut [u8], places: Places) -> [&mut [u8]; 3] {
    bytes
        .get_disjoint_mut(places)
        .expect("the planes of a picture stand one behind the other")
}

/// The bytes of one picture as they are written, with the places of its planes in them.
pub struct Room {
    pub bytes: Vec<u8>,
    places: Places,
    pub size: (u32, u32),
    /// The bytes that only the first picture of a file has before it.
    pub line: usize,
}

impl Room {
    /// Y, U, V.
    fn of_planes(frame: &Frame) -> Room {
        let image = frame.blank();
        let [y, u, v] =
            [&image.y_plane, &image.u_plane, &image.v_plane].map(|plane| plane.borrow().len());
        let places = [0..y, y..y + u, y + u..y + u + v];
        Room {
            bytes: vec![0; y + u + v],
            places,
            size: (image.width, image.height),
            line: 0,
        }
    }

    /// A Y4M file.
    fn of_y4m(frame: &Frame) -> Result<Room, YuvError> {
        let FrameDescription {
            width,
            height,
            sampling,
            ..
        } = frame.description;
        let zeros = Room::of_planes(frame).bytes;
        let mut bytes = vec![0; y4m_size(width, height, sampling, &zeros)?];
        write_y4m(width, height, sampling, &zeros, &mut bytes)?;
        let picture = Y4mFile::open(&bytes)?
            .picture(0)
            .ok_or(YuvError::MalformedY4m)?;
        let places = places_in(&bytes, [picture.y, picture.u, picture.v]);
        let line = y4m_size(width, height, sampling, &[])?;
        Ok(Room {
            bytes,
            places,
            size: (width, height),
            line,
        })
    }

    pub fn planes(&mut self) -> [&mut [u8]; 3] {
        planes_at(&mut self.bytes, self.places.clone())
    }
}

/// The room of one picture after another.
pub struct Rooms {
    is_y4m: bool,
    last: Option<Room>,
}

impl Rooms {
    pub fn new(is_y4m: bool) -> Rooms {
        Rooms { is_y4m, last: None }
    }

    /// That of the picture before, where it has the same size.
    pub fn next(&mut self, frame: &Frame) -> Result<&mut Room, Failure> {
        let size = (frame.description.width, frame.description.height);
        let room = match self.last.take() {
            Some(room) if room.size == size => room,
            Some(room) if self.is_y4m => {
                let [expected, received] =
                    [room.size, size].map(|(width, height)| format!("{width}x{height}"));
                let what = "pictures of one Y4M file have one size";
                let hint = "--window, or a file for each size";
                return Err(Failure::new(what, &expected, &received, hint));
            }
            _ if self.is_y4m => Room::of_y4m(frame)?,
            _ => Room::of_planes(frame),
        };
        Ok(self.last.insert(room))
    }
}
