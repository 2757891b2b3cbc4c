//! `segvartin digest`: the SHA-256 of the planes of pictures, Y4M files and shift files.

use crate::arguments::Arguments;
use crate::files::{self, Input};
use crate::json::Json;
use crate::names::sampling_name;
use crate::picture::Pictures;
use crate::progress::{self, Progress};
use crate::report::Failure;
use crate::room::Rooms;
use crate::settings::{Kind, Settings};
use crate::sha256::digest_of;
use segvartin::{FrameDescription, ShiftFile, Y4mFile, YuvChromaSubsampling};
use std::ffi::OsStr;
use std::io::{self, Write};
use std::os::unix::ffi::OsStrExt;

/// A picture's planes, and what is said of it.
struct Planes<'a> {
    /// Its number in the input, from 0.
    number: usize,
    /// Whether the number stands behind the name.
    is_numbered: bool,
    crossing: Option<u32>,
    size: (u32, u32),
    sampling: YuvChromaSubsampling,
    planes: [&'a [u8]; 3],
}

pub fn run(arguments: &Arguments) -> Result<u8, Failure> {
    let settings = Settings::of(arguments)?;
    settings.check_conversion_flags(&arguments.operands)?;
    let progress = Progress::counted(arguments, files::total_size(&arguments.operands));
    let mut digests = Digests {
        crossing: arguments.number("crossing")?,
        with_planes: arguments.has("planes"),
        json: arguments.json().then(Vec::new),
        count: 0,
    };
    for name in &arguments.operands {
        digests
            .take(name, &settings)
            .map_err(|failure| failure.of(name))?;
    }
    drop(progress);
    if let Some(list) = digests.json {
        files::print(Json::List(list).line())?;
    }
    match digests.crossing {
        Some(crossing) if digests.count == 0 => {
            // Not among the digests, which other programs read.
            let _ = writeln!(
                io::stderr(),
                "segvartin digest: no record of crossing {crossing}"
            );
            Ok(1)
        }
        _ => Ok(0),
    }
}

struct Digests {
    /// Of shift files only the records of this one.
    crossing: Option<u32>,
    with_planes: bool,
    /// What is printed at the end, in place of lines.
    json: Option<Vec<Json>>,
    count: usize,
}

impl Digests {
    fn take(&mut self, name: &OsStr, settings: &Settings) -> Result<(), Failure> {
        let (mut input, kind) = settings.open(name)?;
        match kind {
            Kind::Shift => self.take_shift(name, &input.whole()?),
            _ if self.crossing.is_some() => {
                let (expected, received) = ("a shift file", "another input");
                Err(Failure::new(
                    "--crossing",
                    expected,
                    received,
                    "--from shift",
                ))
            }
            Kind::Y4m => self.take_y4m(name, &input.whole()?),
            _ => self.take_pictures(name, &mut input, kind == Kind::Raw, settings),
        }
    }

    fn take_shift(&mut self, name: &OsStr, bytes: &[u8]) -> Result<(), Failure> {
        for (number, record) in ShiftFile::open_any(bytes)?.records().enumerate() {
            if self
                .crossing
                .is_none_or(|crossing| crossing == record.crossing)
            {
                let planes = Planes {
                    number,
                    is_numbered: true,
                    crossing: Some(record.crossing),
                    size: (record.width, record.height),
                    sampling: record.settings.sampling,
                    planes: [record.y, record.u, record.v],
                };
                self.put(name, &planes)?;
            }
            progress::add(record.bytes.len());
        }
        Ok(())
    }

    fn take_y4m(&mut self, name: &OsStr, bytes: &[u8]) -> Result<(), Failure> {
        let file = Y4mFile::open(bytes)?;
        for (number, picture) in file.pictures().enumerate() {
            let planes = Planes {
                number,
                is_numbered: true,
                crossing: None,
                size: (file.width(), file.height()),
                sampling: file.sampling(),
                planes: [picture.y, picture.u, picture.v],
            };
            self.put(name, &planes)?;
            progress::add(bytes.len() / file.len());
        }
        Ok(())
    }

    fn take_pictures(
        &mut self,
        name: &OsStr,
        input: &mut Input,
        is_raw: bool,
        settings: &Settings,
    ) -> Result<(), Failure> {
        let mut pictures = Pictures::of(input, is_raw, settings)?;
        let mut rooms = Rooms::new(false);
        let mut number = 0;
        while let Some(picture) = pictures.next()? {
            let bytes = picture.mapped_bytes();
            let frame = picture.frame;
            let FrameDescription {
                width,
                height,
                sampling,
                ..
            } = frame.description;
            let room = rooms.next(&frame)?;
            picture.convert(room.planes())?;
            // One picture alone has no number.
            let is_numbered = number > 0 || !pictures.is_at_end()?;
            let planes = room.planes().map(|plane| &*plane);
            self.put(
                name,
                &Planes {
                    number,
                    is_numbered,
                    crossing: None,
                    size: (width, height),
                    sampling,
                    planes,
                },
            )?;
            progress::add(bytes);
            number += 1;
        }
        Ok(())
    }

    fn put(&mut self, name: &OsStr, picture: &Planes<'_>) -> Result<(), Failure> {
        let whole = digest_of(&picture.planes);
        let planes: Vec<_> = ["Y", "U", "V"]
            .into_iter()
            .zip(picture.planes)
            .filter(|_| self.with_planes)
            .collect();
        let planes: Vec<_> = planes
            .into_iter()
            .map(|(plane, bytes)| (plane, digest_of(&[bytes])))
            .collect();
        self.count += 1;
        match &mut self.json {
            Some(list) => {
                list.push(entry(name, picture, &whole, &planes));
                Ok(())
            }
            None => {
                let mut label = name.as_bytes().to_vec();
                if picture.is_numbered {
                    label.extend(format!("#{}", picture.number).bytes());
                }
                let mut lines = line(&whole, &label);
                for (plane, hex) in planes {
                    lines.extend(line(&hex, &[&label[..], b" ", plane.as_bytes()].concat()));
                }
                files::print(lines)
            }
        }
    }
}

fn entry(name: &OsStr, picture: &Planes<'_>, whole: &str, planes: &[(&str, String)]) -> Json {
    let mut fields = vec![
        ("input", Json::name(name)),
        ("picture", Json::number(picture.number)),
        (
            "crossing",
            picture.crossing.map_or(Json::Null, Json::number),
        ),
        ("sha256", Json::from(whole)),
    ];
    fields.extend(
        ["y", "u", "v"]
            .into_iter()
            .zip(planes)
            .map(|(name, (_, hex))| (name, Json::from(&**hex))),
    );
    fields.extend([
        ("width", Json::number(picture.size.0)),
        ("height", Json::number(picture.size.1)),
        ("sampling", Json::from(sampling_name(picture.sampling))),
    ]);
    Json::Object(fields)
}

/// As sha256sum: a name with a backslash or a line's end is escaped, and a backslash before the line says so.
fn line(hex: &str, label: &[u8]) -> Vec<u8> {
    let mut name = vec![];
    for byte in label {
        match byte {
            b'\\' => name.extend(b"\\\\"),
            b'\n' => name.extend(b"\\n"),
            b'\r' => name.extend(b"\\r"),
            _ => name.push(*byte),
        }
    }
    let mark = if name == label { "" } else { "\\" };
    [mark.as_bytes(), hex.as_bytes(), b"  ", &name, b"\n"].concat()
}

#[cfg(test)]
mod tests {
    use super::line;

    #[test]
    fn names_are_escaped_as_sha256sum_does() {
        assert_eq!(line("ab", b"a b\xff"), b"ab  a b\xff\n");
        assert_eq!(line("ab", b"a\\\n"), b"\\ab  a\\\\\\n\n");
    }
}
