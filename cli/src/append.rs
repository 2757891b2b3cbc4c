//! `segvartin shift append`: records at the end of a shift file. The old file is not copied in memory, and a picture is converted where its planes
//! stand in the new file.

use crate::arguments::Arguments;
use crate::files::{self, Input, Output, with_ending};
use crate::json::Json;
use crate::maps::{Joined, Map, MapMut};
use crate::picture::Pictures;
use crate::progress::Progress;
use crate::report::{Failure, shown};
use crate::room::{places_in, planes_at};
use crate::settings::{Kind, Settings};
use crate::shift::exact_summary;
use segvartin::{
    RecordSettings, SUMMARY_ENTRY, ShiftFile, ShiftForm, Y4mFile, YuvChromaSubsampling, YuvError,
    YuvPlanarImageMut, settings_file_size, settings_record, settings_record_size, shift_file_size,
    shift_record, shift_record_size, write_settings_file, write_shift_file,
};
use std::ffi::OsStr;
use std::fs;

/// A shift file that records are put behind: one on the disk, or that of no records.
pub struct Old {
    map: Option<Map>,
    empty: Vec<u8>,
}

impl Old {
    pub fn none(form: ShiftForm) -> Result<Old, YuvError> {
        let mut empty = vec![0; file_size(form, &[])?];
        write_file(form, &[], &mut empty)?;
        Ok(Old { map: None, empty })
    }

    fn open(name: &OsStr, form: ShiftForm) -> Result<Old, Failure> {
        if name == "-" {
            return Err(Failure::new(
                "the file that grows",
                "a name",
                "-",
                "the name of a file",
            ));
        }
        match fs::metadata(name) {
            Err(error) if error.kind() == std::io::ErrorKind::NotFound => Ok(Old::none(form)?),
            _ => {
                let map = Some(files::open_whole(name)?);
                // The new file could take its place all the same, which is not this user's to do.
                files::check_writable(name)?;
                Ok(Old { map, empty: vec![] })
            }
        }
    }

    fn bytes(&self) -> &[u8] {
        self.map.as_deref().unwrap_or(&self.empty)
    }

    fn file(&self) -> Result<ShiftFile<'_>, YuvError> {
        ShiftFile::open_any(self.bytes())
    }
}

fn file_size(form: ShiftForm, records: &[u8]) -> Result<usize, YuvError> {
    match form {
        ShiftForm::WithSettings => settings_file_size(records),
        ShiftForm::WithoutSettings => shift_file_size(records),
    }
}

fn write_file(form: ShiftForm, records: &[u8], file: &mut [u8]) -> Result<usize, YuvError> {
    match form {
        ShiftForm::WithSettings => write_settings_file(records, file),
        ShiftForm::WithoutSettings => write_shift_file(records, file),
    }
}

/// Writes the file with so many bytes more, which `put` makes records.
fn grow(
    old: &Old,
    room: usize,
    put: impl FnOnce(&mut Joined) -> Result<(), YuvError>,
    output: &Output,
) -> Result<MapMut, Failure> {
    let file = old.file()?;
    let mut joined = Joined::new(old.map.as_ref(), room)?;
    put(&mut joined)?;
    // The records stand at the end of the file.
    let first = joined.len() - room - file.records_as_bytes().len();
    let records = &joined[first..];
    // Records that are right are refused together where they are too many.
    let size = file_size(file.form(), records).map_err(|refusal| {
        let hint = format!(
            "another FILE, since this one has {} records and 4096 are the most",
            file.len()
        );
        Failure::from(refusal).of(output.name()).hint(hint)
    })?;
    let mut map = output.map(size)?;
    write_file(file.form(), records, &mut map)?;
    Ok(map)
}

/// A record whose planes are still zeros.
struct Blank {
    crossing: u32,
    settings: RecordSettings,
    image: YuvPlanarImageMut<'static, u8>,
}

impl Blank {
    fn size(&self, form: ShiftForm) -> Result<usize, YuvError> {
        match form {
            ShiftForm::WithSettings => settings_record_size(&self.settings, &self.image),
            ShiftForm::WithoutSettings => shift_record_size(&self.image),
        }
    }

    fn put(&self, form: ShiftForm, record: &mut [u8]) -> Result<(), YuvError> {
        match form {
            ShiftForm::WithSettings => {
                settings_record(self.crossing, &self.settings, &self.image, record)?
            }
            ShiftForm::WithoutSettings => shift_record(self.crossing, &self.image, record)?,
        };
        Ok(())
    }
}

/// Writes the file with a record more, whose planes `fill` writes where they stand.
fn add_record(
    old: &Old,
    blank: &Blank,
    fill: impl FnOnce([&mut [u8]; 3]) -> Result<(), Failure>,
    output: &Output,
) -> Result<MapMut, Failure> {
    let (form, count) = (old.file()?.form(), old.file()?.len());
    if form == ShiftForm::WithoutSettings && blank.settings.sampling != YuvChromaSubsampling::Yuv420
    {
        let hint = "--sampling 420, or a file with settings";
        return Err(Failure::new(
            "a shift file without settings",
            "--sampling 420",
            "422",
            hint,
        ));
    }
    let put = |joined: &mut Joined| {
        blank.put(form, joined.room())?;
        joined.give_back_zeros();
        Ok(())
    };
    let mut map = grow(old, blank.size(form)?, put, output)?;
    let record = ShiftFile::open_any(&map)?
        .record(count)
        .ok_or(YuvError::MalformedShiftFile)?;
    let places = places_in(&map, [record.y, record.u, record.v]);
    fill(planes_at(&mut map, places))?;
    Ok(map)
}

/// Of an input that is one picture.
pub fn add_picture(
    old: &Old,
    input: &mut Input,
    is_raw: bool,
    settings: &Settings,
    crossing: u32,
    output: &Output,
) -> Result<MapMut, Failure> {
    let mut pictures = Pictures::of(input, is_raw, settings)?;
    let Some(picture) = pictures.next()? else {
        return Err(Failure::of_sizes("pictures", 1, 0, "one picture"));
    };
    let frame = picture.frame;
    let settings = RecordSettings::of(&frame.description);
    let blank = Blank {
        crossing,
        settings,
        image: frame.blank(),
    };
    let map = add_record(old, &blank, |planes| picture.convert(planes), output)?;
    pictures.check_end()?;
    Ok(map)
}

/// Of a Y4M file that is one picture; nothing is recorded but its sampling.
fn add_y4m(old: &Old, bytes: &[u8], crossing: u32, output: &Output) -> Result<MapMut, Failure> {
    let file = Y4mFile::open(bytes)?;
    let (Some(picture), 1) = (file.picture(0), file.len()) else {
        let hint = "a Y4M file of one picture";
        return Err(Failure::of_sizes(
            "pictures of the Y4M file",
            1,
            file.len(),
            hint,
        ));
    };
    let image = YuvPlanarImageMut::alloc(file.width(), file.height(), file.sampling());
    let blank = Blank {
        crossing,
        settings: RecordSettings::new(file.sampling()),
        image,
    };
    let copy = |planes: [&mut [u8]; 3]| {
        for (plane, bytes) in planes.into_iter().zip([picture.y, picture.u, picture.v]) {
            plane.copy_from_slice(bytes);
        }
        Ok(())
    };
    add_record(old, &blank, copy, output)
}

/// All records of another file of the same form.
fn add_records(old: &Old, bytes: &[u8], output: &Output) -> Result<MapMut, Failure> {
    let file = ShiftFile::open_any(bytes)?;
    let form = old.file()?.form();
    if file.form() != form {
        let hint = "segvartin shift move, which writes it in the other form";
        let [expected, received] = [form, file.form()].map(form_name);
        return Err(Failure::new(
            "the form of the shift file",
            expected,
            received,
            hint,
        ));
    }
    let records = file.records_as_bytes();
    let put = |joined: &mut Joined| {
        joined.room().copy_from_slice(records);
        Ok(())
    };
    grow(old, records.len(), put, output)
}

pub fn form_name(form: ShiftForm) -> &'static str {
    match form {
        ShiftForm::WithSettings => "with settings",
        ShiftForm::WithoutSettings => "without settings",
    }
}

/// The form of a file that is made.
pub fn new_form(arguments: &Arguments) -> ShiftForm {
    if arguments.has("plain") {
        ShiftForm::WithoutSettings
    } else {
        ShiftForm::WithSettings
    }
}

pub fn needed_crossing(arguments: &Arguments) -> Result<u32, Failure> {
    arguments.needed("crossing")?;
    Ok(arguments.number("crossing")?.unwrap_or_default())
}

/// The summary of the file that has grown, of the one before; 17 where it was not that.
fn grown_summary(
    old: &ShiftFile<'_>,
    new: &ShiftFile<'_>,
    summary: &[u8],
) -> Result<Vec<u8>, YuvError> {
    let mut grown = exact_summary(old, summary)?.to_vec();
    grown.resize(new.summary_size(), 0);
    match new.records().nth(old.len()) {
        Some(record) if new.summary_size() == old.summary_size() + SUMMARY_ENTRY => {
            old.update_summary(record.bytes, &mut grown)?;
        }
        // Of several records, that of the new file is the same bytes as updates one by one would give (theorem `shift_summaries`).
        _ if old.check_summary(summary) => {
            new.build_summary(&mut grown)?;
        }
        _ => return Err(YuvError::SummaryMismatch),
    }
    Ok(grown)
}

pub fn append(arguments: &Arguments) -> Result<u8, Failure> {
    let settings = Settings::of(arguments)?;
    let (name, input) = (&arguments.operands[0], &arguments.operands[1]);
    settings.check_conversion_flags(&arguments.operands[1..])?;
    // From before the old file is read until the new one stands there, or one of two would lose its record. Who reads a slow pipe lets others wait.
    let _alone = files::alone_in_folder(name)?;
    let old = Old::open(name, new_form(arguments))?;
    let file = old
        .file()
        .map_err(|refusal| Failure::from(refusal).of(name))?;
    if arguments.has("plain") && file.form() == ShiftForm::WithSettings {
        let (expected, received) = ("a file without settings", "one with settings");
        return Err(Failure::new("--plain", expected, received, "no --plain").of(name));
    }
    let mut output = Output::create(name, true)?;
    let progress = Progress::touched(
        arguments,
        2 * old.bytes().len() + files::total_size(&arguments.operands[1..]),
    );
    let map =
        add_input(arguments, &settings, &old, &output).map_err(|failure| failure.of(input))?;
    let new = ShiftFile::open_any(&map)?;
    let summary = update_summary(name, &file, &new)?;
    let json = Json::Object(vec![
        ("file", Json::name(name)),
        ("records", Json::number(new.len())),
        ("bytes", Json::number(map.len())),
    ]);
    output.sync_map(map)?;
    if let Some(summary) = &summary {
        summary.sync()?;
    }
    output.take_place()?;
    if let Some(summary) = summary {
        let done = format!("{} has its records, but not this summary", shown(name));
        let hint = format!("segvartin shift summary {}", shown(name));
        let placed = summary.take_place();
        placed.map_err(|failure| failure.after(&done).hint(hint))?;
    }
    drop(progress);
    if arguments.json() {
        files::report(name, json.line())?;
    }
    Ok(0)
}

fn add_input(
    arguments: &Arguments,
    settings: &Settings,
    old: &Old,
    output: &Output,
) -> Result<MapMut, Failure> {
    let name = &arguments.operands[1];
    let (mut input, kind) = settings.open(name)?;
    match kind {
        Kind::Shift if arguments.has("crossing") => {
            let expected = "none, since the records have theirs";
            Err(Failure::new("--crossing", expected, "one", "no --crossing"))
        }
        Kind::Shift => add_records(old, &input.whole()?, output),
        Kind::Y4m => add_y4m(old, &input.whole()?, needed_crossing(arguments)?, output),
        _ => {
            let crossing = needed_crossing(arguments)?;
            add_picture(
                old,
                &mut input,
                kind == Kind::Raw,
                settings,
                crossing,
                output,
            )
        }
    }
}

/// The new summary beside the file, written and not yet in its place, where there is an old one.
fn update_summary(
    name: &OsStr,
    old: &ShiftFile<'_>,
    new: &ShiftFile<'_>,
) -> Result<Option<Output>, Failure> {
    let name = &with_ending(name, ".summary");
    if !fs::exists(name)? {
        return Ok(None);
    }
    let summary = files::open_whole(name)?;
    let grown =
        grown_summary(old, new, &summary).map_err(|refusal| Failure::from(refusal).of(name))?;
    let mut output = Output::create(name, true)?;
    output.write(&grown)?;
    Ok(Some(output))
}
