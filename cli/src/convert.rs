//! `segvartin convert`: pictures to YUV, Y4M and shift files.

use crate::append;
use crate::arguments::Arguments;
use crate::files::{self, Output};
use crate::json::Json;
use crate::names;
use crate::picture::{Picture, Pictures};
use crate::progress::{self, Progress};
use crate::report::Failure;
use crate::room::Rooms;
use crate::settings::Settings;
use segvartin::{ShiftFile, YuvError};
use std::ffi::OsStr;

/// What was written.
#[derive(Default)]
struct Made {
    pictures: usize,
    width: u32,
    height: u32,
    bytes: usize,
}

pub fn run(arguments: &Arguments) -> Result<u8, Failure> {
    let settings = Settings::of(arguments)?;
    let name = arguments.needed("output")?;
    let to = arguments.choice_or_ending("to", name)?;
    check_flags(arguments, to)?;
    let output = Output::create(name, arguments.has("force"))?;
    let progress = Progress::counted(arguments, files::total_size(&arguments.operands));
    let is_printed = arguments.json() && !output.is_standard_output();
    let made = match to {
        "shift" => to_shift(arguments, &settings, output)?,
        _ => to_frames(arguments, &settings, to == "y4m", output)?,
    };
    drop(progress);
    if is_printed {
        let json = Json::Object(vec![
            ("pictures", Json::number(made.pictures)),
            ("width", Json::number(made.width)),
            ("height", Json::number(made.height)),
            (
                "sampling",
                Json::from(names::sampling_name(settings.sampling)),
            ),
            ("bytes", Json::number(made.bytes)),
            ("output", Json::name(name)),
        ]);
        files::report(name, json.line())?;
    }
    Ok(0)
}

/// A shift file alone has crossings and forms.
fn check_flags(arguments: &Arguments, to: &str) -> Result<(), Failure> {
    for flag in ["crossing", "plain"] {
        if to != "shift" && arguments.has(flag) {
            let what = format!("--{flag}");
            return Err(Failure::new(
                &what,
                "--to shift",
                "another output",
                "--to shift",
            ));
        }
    }
    Ok(())
}

fn to_frames(
    arguments: &Arguments,
    settings: &Settings,
    is_y4m: bool,
    output: Output,
) -> Result<Made, Failure> {
    let mut frames = Frames {
        output,
        rooms: Rooms::new(is_y4m),
        made: Made::default(),
    };
    for name in &arguments.operands {
        frames
            .take_input(name, settings)
            .map_err(|failure| failure.of(name))?;
    }
    frames.output.finish()?;
    Ok(frames.made)
}

/// One frame behind the other, all through the same room.
struct Frames {
    output: Output,
    rooms: Rooms,
    made: Made,
}

impl Frames {
    fn take_input(&mut self, name: &OsStr, settings: &Settings) -> Result<(), Failure> {
        let mut input = files::open(name)?;
        let mut pictures = Pictures::of(&mut input, settings.is_raw(name), settings)?;
        while let Some(picture) = pictures.next()? {
            let bytes = picture.mapped_bytes();
            self.take(picture)?;
            progress::add(bytes);
        }
        Ok(())
    }

    fn take(&mut self, picture: Picture<'_>) -> Result<(), Failure> {
        let room = self.rooms.next(&picture.frame)?;
        picture.convert(room.planes())?;
        let written = if self.made.pictures == 0 {
            &room.bytes[..]
        } else {
            &room.bytes[room.line..]
        };
        self.output.write(written)?;
        if self.made.pictures == 0 {
            (self.made.width, self.made.height) = room.size;
        }
        self.made.pictures += 1;
        self.made.bytes += written.len();
        Ok(())
    }
}

/// A file of one record.
fn to_shift(arguments: &Arguments, settings: &Settings, output: Output) -> Result<Made, Failure> {
    let crossing = append::needed_crossing(arguments)?;
    let form = append::new_form(arguments);
    let [name] = &arguments.operands[..] else {
        let (what, count) = (
            "inputs of a shift file of one record",
            arguments.operands.len(),
        );
        let hint = "segvartin shift append FILE INPUT for each of the others";
        return Err(Failure::of_sizes(what, 1, count, hint));
    };
    let old = append::Old::none(form)?;
    let mut input = files::open(name)?;
    let map = append::add_picture(
        &old,
        &mut input,
        settings.is_raw(name),
        settings,
        crossing,
        &output,
    )
    .map_err(|failure| failure.of(name))?;
    let made = {
        let record = ShiftFile::open_any(&map)?
            .record(0)
            .ok_or(YuvError::MalformedShiftFile)?;
        Made {
            pictures: 1,
            width: record.width,
            height: record.height,
            bytes: map.len(),
        }
    };
    output.finish_map(map)?;
    Ok(made)
}
