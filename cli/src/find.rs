//! `segvartin shift find`: the records of a crossing.

use crate::arguments::{self, Arguments};
use crate::files::{self, Output, with_ending};
use crate::maps;
use crate::names::sampling_name;
use crate::progress::Progress;
use crate::report::{Failure, shown};
use crate::shift::{as_json, exact_summary, lines, opened};
use segvartin::{ShiftFile, ShiftRecord, YuvError, write_y4m, y4m_size};
use std::ffi::OsStr;
use std::fs;

pub fn run(arguments: &Arguments) -> Result<u8, Failure> {
    let name = &arguments.operands[0];
    let crossing = arguments::number("CROSSING", &arguments.operands[1])?;
    let output = arguments.value("output");
    let to = output
        .map(|output| arguments.choice_or_ending("to", output))
        .transpose()?;
    let map = files::open_whole(name)?;
    let file = opened(name, &map)?;
    let progress = Progress::touched(arguments, map.len());
    let first = maps::read_ahead(&[&map], || first_of(arguments, &file, crossing))?;
    drop(progress);
    let is_found = |record: &ShiftRecord<'_>| match first {
        Some(first) if !arguments.has("all") => record.bytes.as_ptr() == first.bytes.as_ptr(),
        _ => record.crossing == crossing,
    };
    let found: Vec<_> = file
        .records()
        .enumerate()
        .filter(|(_, record)| is_found(record))
        .collect();
    if let (Some(output), false) = (output, found.is_empty()) {
        write(
            &found,
            to == Some("y4m"),
            Output::create(output, arguments.has("force"))?,
        )?;
    }
    // Where planes go to standard output nothing else does.
    if output != Some(OsStr::new("-")) || found.is_empty() {
        let text = text(arguments, &file, crossing, &found);
        match output {
            Some(output) if !found.is_empty() => files::report(output, text)?,
            _ => files::print(text)?,
        }
    }
    Ok(u8::from(found.is_empty()))
}

/// By the summary that is said, the one beside the file, or one that is built.
fn first_of<'a>(
    arguments: &Arguments,
    file: &ShiftFile<'a>,
    crossing: u32,
) -> Result<Option<ShiftRecord<'a>>, Failure> {
    let name = &arguments.operands[0];
    let beside =
        Some(with_ending(name, ".summary")).filter(|name| fs::exists(name).unwrap_or(false));
    let Some(summary) = arguments.value("summary").map(OsStr::to_owned).or(beside) else {
        let mut built = vec![0; file.summary_size()];
        file.build_summary(&mut built)?;
        return Ok(file.find_record(&built, crossing)?);
    };
    let map = files::open_whole(&summary)?;
    let found = exact_summary(file, &map).and_then(|map| file.find_record(map, crossing));
    found.map_err(|refusal| {
        let beside = with_ending(name, ".summary");
        let named = if summary == beside {
            String::new()
        } else {
            format!(" -f -o {}", shown(&summary))
        };
        let hint = format!("segvartin shift summary {}{named}", shown(name));
        Failure::from(refusal).of(&summary).hint(hint)
    })
}

/// What is printed.
fn text(
    arguments: &Arguments,
    file: &ShiftFile<'_>,
    crossing: u32,
    found: &[(usize, ShiftRecord<'_>)],
) -> String {
    if arguments.json() {
        return as_json(&arguments.operands[0], file, found).line();
    }
    if found.is_empty() {
        return format!("no record of crossing {crossing}\n");
    }
    let lines = lines(file);
    let of_record = |(number, _): &(usize, _)| lines[number + 1].clone() + "\n";
    found.iter().map(of_record).collect()
}

/// Y, U, V of a record, which are all that is behind its settings.
fn planes_of<'a>(record: &ShiftRecord<'a>) -> &'a [u8] {
    let planes = record.y.len() + record.u.len() + record.v.len();
    &record.bytes[record.bytes.len() - planes..]
}

/// Planes one behind the other, or as the pictures of a Y4M file.
fn write(
    records: &[(usize, ShiftRecord<'_>)],
    is_y4m: bool,
    mut output: Output,
) -> Result<(), Failure> {
    let size = |record: &ShiftRecord<'_>| {
        let sampling = sampling_name(record.settings.sampling);
        format!("{}x{} in {sampling}", record.width, record.height)
    };
    let first = size(&records[0].1);
    for (k, (_, record)) in records.iter().enumerate() {
        if !is_y4m {
            output.write(planes_of(record))?;
        } else if size(record) == first {
            let [line, frame] = y4m_lines(record)?;
            output.write(if k == 0 { &line } else { &[] })?;
            output.write(&frame)?;
            output.write(planes_of(record))?;
        } else {
            let (what, hint) = (
                "pictures of one Y4M file have one size",
                "--to yuv, or no --all",
            );
            return Err(Failure::new(what, &first, &size(record), hint));
        }
    }
    output.finish()
}

/// What stands before the pictures of a Y4M file, and before the planes of each, so that these are written where they are in the map.
fn y4m_lines(record: &ShiftRecord<'_>) -> Result<[Vec<u8>; 2], YuvError> {
    let of = |width, height, planes: &[u8]| {
        let sampling = record.settings.sampling;
        let mut file = vec![0; y4m_size(width, height, sampling, planes)?];
        write_y4m(width, height, sampling, planes, &mut file)?;
        Ok::<_, YuvError>(file)
    };
    // The line before a picture is the same for all: that of a pixel.
    let pixel = [0; 3];
    let frame = of(1, 1, &pixel)?.split_off(of(1, 1, &[])?.len());
    let frame = frame[..frame.len() - pixel.len()].to_vec();
    Ok([of(record.width, record.height, &[])?, frame])
}
