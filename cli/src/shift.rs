//! `segvartin shift list`, `summary` and `move`.

use crate::append::form_name;
use crate::arguments::Arguments;
use crate::files::{self, Output, with_ending};
use crate::json::Json;
use crate::maps::{self, Map, MapMut};
use crate::names::{recorded_names, sampling_name};
use crate::progress::Progress;
use crate::report::{Failure, shown};
use segvartin::{
    ShiftFile, ShiftForm, ShiftRecord, YuvError, move_back, move_forward, moved_back_size,
    moved_forward_size,
};
use std::ffi::OsStr;

pub fn opened<'a>(name: &OsStr, map: &'a Map) -> Result<ShiftFile<'a>, Failure> {
    ShiftFile::open_any(map).map_err(|refusal| Failure::from(refusal).of(name))
}

// ---- records as lines and as JSON

const HEADING: [&str; 9] = [
    "record", "crossing", "size", "sampling", "range", "matrix", "transfer", "offset", "bytes",
];

/// Columns whose entries are numbers end at the same place, those of words start there.
const IS_NUMBER: [bool; 9] = [true, true, false, false, false, false, false, true, true];

/// A line for each record of a file, behind that of the heading.
pub fn lines(file: &ShiftFile<'_>) -> Vec<String> {
    let cells = |(number, record): (usize, ShiftRecord<'_>)| {
        let [range, matrix, transfer] =
            recorded_names(&record.settings).map(|name| name.unwrap_or("-").to_owned());
        [
            number.to_string(),
            record.crossing.to_string(),
            format!("{}x{}", record.width, record.height),
            sampling_name(record.settings.sampling).to_owned(),
            range,
            matrix,
            transfer,
            offset(file, &record).to_string(),
            record.bytes.len().to_string(),
        ]
    };
    let mut rows = vec![HEADING.map(str::to_owned)];
    rows.extend(file.records().enumerate().map(cells));
    let widths: Vec<_> = (0..HEADING.len())
        .map(|column| rows.iter().map(|row| row[column].len()).max().unwrap_or(0))
        .collect();
    let line = |row: &[String; 9]| {
        let cell = |k: usize| {
            if IS_NUMBER[k] {
                format!("{:>1$}", row[k], widths[k])
            } else {
                format!("{:<1$}", row[k], widths[k])
            }
        };
        (0..row.len()).map(cell).collect::<Vec<_>>().join("  ")
    };
    rows.iter().map(line).collect()
}

fn offset(file: &ShiftFile<'_>, record: &ShiftRecord<'_>) -> usize {
    record.bytes.as_ptr() as usize - file.as_bytes().as_ptr() as usize
}

/// Of these records of a file, with their numbers.
pub fn as_json(name: &OsStr, file: &ShiftFile<'_>, records: &[(usize, ShiftRecord<'_>)]) -> Json {
    let entry = |(number, record): &(usize, ShiftRecord<'_>)| {
        let [range, matrix, transfer] = recorded_names(&record.settings).map(Json::from);
        Json::Object(vec![
            ("record", Json::number(*number)),
            ("crossing", Json::number(record.crossing)),
            ("width", Json::number(record.width)),
            ("height", Json::number(record.height)),
            (
                "sampling",
                Json::from(sampling_name(record.settings.sampling)),
            ),
            ("range", range),
            ("matrix", matrix),
            ("transfer", transfer),
            ("offset", Json::number(offset(file, record))),
            ("bytes", Json::number(record.bytes.len())),
        ])
    };
    Json::Object(vec![
        ("file", Json::name(name)),
        ("form", Json::from(form_name(file.form()))),
        ("records", Json::List(records.iter().map(entry).collect())),
    ])
}

pub fn list(arguments: &Arguments) -> Result<u8, Failure> {
    let name = &arguments.operands[0];
    let map = files::open_whole(name)?;
    let file = opened(name, &map)?;
    if arguments.json() {
        let all: Vec<_> = file.records().enumerate().collect();
        files::print(as_json(name, &file, &all).line())?;
    } else {
        let records = if file.len() == 1 { "record" } else { "records" };
        let last = format!("{} {records}, {}", file.len(), form_name(file.form()));
        files::print(lines(&file).join("\n") + "\n" + &last + "\n")?;
    }
    Ok(0)
}

// ---- summary

/// What is in a summary's file. The library takes bytes with room behind them, which such a file does not have.
pub fn exact_summary<'a>(file: &ShiftFile<'_>, summary: &'a [u8]) -> Result<&'a [u8], YuvError> {
    if summary.len() == file.summary_size() {
        Ok(summary)
    } else {
        Err(YuvError::SummaryMismatch)
    }
}

pub fn summary(arguments: &Arguments) -> Result<u8, Failure> {
    let name = &arguments.operands[0];
    let beside = with_ending(name, ".summary");
    let summary = match arguments.value("output") {
        Some(output) => output,
        None if name == "-" => arguments.needed("output")?,
        None => &beside,
    };
    let map = files::open_whole(name)?;
    let file = opened(name, &map)?;
    let progress = Progress::touched(arguments, map.len());
    if arguments.has("check") {
        let summary_map = files::open_whole(summary)?;
        let is_right = exact_summary(&file, &summary_map)
            .is_ok_and(|summary| maps::read_ahead(&[&map], || file.check_summary(summary)));
        drop(progress);
        return told_check(arguments, name, summary, is_right);
    }
    // The one beside the file is its own, and out of date.
    let is_named = arguments.has("output");
    let output = Output::create(summary, !is_named || arguments.has("force"))?;
    let is_printed = arguments.json() && !output.is_standard_output();
    let mut bytes = output.map(file.summary_size())?;
    maps::read_ahead(&[&map], || file.build_summary(&mut bytes))?;
    output.finish_map(bytes)?;
    drop(progress);
    if is_printed {
        let json = Json::Object(vec![
            ("file", Json::name(name)),
            ("summary", Json::name(summary)),
            ("records", Json::number(file.len())),
            ("bytes", Json::number(file.summary_size())),
        ]);
        files::report(summary, json.line())?;
    }
    Ok(0)
}

fn told_check(
    arguments: &Arguments,
    name: &OsStr,
    summary: &OsStr,
    is_right: bool,
) -> Result<u8, Failure> {
    if arguments.json() {
        let json = Json::Object(vec![
            ("file", Json::name(name)),
            ("summary", Json::name(summary)),
            ("is_summary", Json::Bool(is_right)),
        ]);
        files::print(json.line())?;
    } else if !is_right {
        files::print(format!(
            "{} is not the summary of {}\n",
            shown(summary),
            shown(name)
        ))?;
    }
    Ok(u8::from(!is_right))
}

// ---- move

pub fn move_file(arguments: &Arguments) -> Result<u8, Failure> {
    let name = &arguments.operands[0];
    let output_name = arguments.needed("output")?;
    let to = match arguments.needed("to")?.to_str() {
        Some("settings") => ShiftForm::WithSettings,
        _ => ShiftForm::WithoutSettings,
    };
    let map = files::open_whole(name)?;
    let file = opened(name, &map)?;
    let output = Output::create(output_name, arguments.has("force"))?;
    let is_printed = arguments.json() && !output.is_standard_output();
    let progress = Progress::touched(arguments, 2 * map.len());
    let moved = moved(&map, to, &output).map_err(|failure| {
        let failure = failure.of(name);
        if file.form() == to {
            failure.hint(format!(
                "nothing: the file is one {} already",
                form_name(to)
            ))
        } else {
            failure
        }
    })?;
    let bytes = moved.len();
    output.finish_map(moved)?;
    drop(progress);
    if is_printed {
        let json = Json::Object(vec![
            ("file", Json::name(name)),
            ("form", Json::from(form_name(to))),
            ("records", Json::number(file.len())),
            ("bytes", Json::number(bytes)),
        ]);
        files::report(output_name, json.line())?;
    }
    Ok(0)
}

/// The file in that form, in the output's map.
fn moved(file: &[u8], to: ShiftForm, output: &Output) -> Result<MapMut, Failure> {
    type Size = fn(&[u8]) -> Result<usize, YuvError>;
    type Move = fn(&[u8], &mut [u8]) -> Result<usize, YuvError>;
    let (size, write): (Size, Move) = match to {
        ShiftForm::WithSettings => (moved_forward_size, move_forward),
        ShiftForm::WithoutSettings => (moved_back_size, move_back),
    };
    let mut map = output.map(size(file)?)?;
    write(file, &mut map)?;
    Ok(map)
}
