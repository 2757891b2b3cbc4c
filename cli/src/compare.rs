//! `segvartin compare`: two shift files held against each other, as a dispatcher reads it at noon.

use crate::arguments::Arguments;
use crate::files;
use crate::json::Json;
use crate::maps;
use crate::names::sampling_name;
use crate::progress::Progress;
use crate::report::Failure;
use segvartin::{
    DifferingPair, PairDifference, PairReport, PairSide, YuvChromaSubsampling, YuvPlane,
    pair_shift_files,
};

pub fn run(arguments: &Arguments) -> Result<u8, Failure> {
    let [ours, theirs] = [0, 1].map(|k| files::open_whole(&arguments.operands[k]));
    let (ours, theirs) = (ours?, theirs?);
    let progress = Progress::touched(arguments, ours.len() + theirs.len());
    let report = maps::read_ahead(&[&ours, &theirs], || pair_shift_files(&ours, &theirs));
    drop(progress);
    let report = report.map_err(|refused| {
        let side = usize::from(refused.side == PairSide::Theirs);
        Failure::from(refused.error).of(&arguments.operands[side])
    })?;
    if arguments.json() {
        files::print(as_json(&report).line())?;
    } else {
        files::print(lines(&report))?;
    }
    let alone = if arguments.has("pairs-only") {
        0
    } else {
        report.only_ours + report.only_theirs
    };
    Ok(u8::from(report.differing + alone > 0))
}

fn lines(report: &PairReport) -> String {
    format!(
        "the same in both: {}\ndifferent:        {}\nonly in ours:     {}\nonly in theirs:   {}\nfirst difference: {}\n",
        report.equal,
        report.differing,
        report.only_ours,
        report.only_theirs,
        report.first.as_ref().map_or("none".to_owned(), first_line)
    )
}

fn first_line(first: &DifferingPair) -> String {
    let what = match first.difference {
        PairDifference::Sizes {
            ours,
            theirs,
            our_sampling,
            their_sampling,
            ..
        } => {
            let is_said = our_sampling != their_sampling;
            let size = |(width, height), sampling| {
                let of = if is_said { ratio(sampling) } else { "" };
                format!("{width} x {height}{of}")
            };
            format!(
                "{} in ours, {} in theirs",
                size(ours, our_sampling),
                size(theirs, their_sampling)
            )
        }
        PairDifference::Place {
            plane, row, column, ..
        } => {
            format!("plane {}, row {row}, column {column}", plane_name(plane))
        }
        _ => "in a way that this program does not know".to_owned(),
    };
    let DifferingPair {
        crossing,
        our_record,
        their_record,
        ..
    } = first;
    format!(
        "crossing {crossing} (record {our_record} of ours, record {their_record} of theirs): {what}"
    )
}

fn ratio(sampling: YuvChromaSubsampling) -> &'static str {
    match sampling {
        YuvChromaSubsampling::Yuv420 => " of 4:2:0",
        YuvChromaSubsampling::Yuv422 => " of 4:2:2",
    }
}

fn plane_name(plane: YuvPlane) -> &'static str {
    match plane {
        YuvPlane::Y => "Y",
        YuvPlane::U => "U",
        YuvPlane::V => "V",
    }
}

fn as_json(report: &PairReport) -> Json {
    Json::Object(vec![
        ("equal", Json::number(report.equal)),
        ("differing", Json::number(report.differing)),
        ("only_ours", Json::number(report.only_ours)),
        ("only_theirs", Json::number(report.only_theirs)),
        (
            "first",
            report.first.as_ref().map_or(Json::Null, first_json),
        ),
    ])
}

fn first_json(first: &DifferingPair) -> Json {
    let mut fields = vec![
        ("crossing", Json::number(first.crossing)),
        ("our_record", Json::number(first.our_record)),
        ("their_record", Json::number(first.their_record)),
    ];
    match first.difference {
        PairDifference::Sizes {
            ours,
            theirs,
            our_sampling,
            their_sampling,
            ..
        } => fields.extend([
            ("kind", Json::from("sizes")),
            ("our_width", Json::number(ours.0)),
            ("our_height", Json::number(ours.1)),
            ("our_sampling", Json::from(sampling_name(our_sampling))),
            ("their_width", Json::number(theirs.0)),
            ("their_height", Json::number(theirs.1)),
            ("their_sampling", Json::from(sampling_name(their_sampling))),
        ]),
        PairDifference::Place {
            plane, row, column, ..
        } => fields.extend([
            ("kind", Json::from("bytes")),
            ("plane", Json::from(plane_name(plane))),
            ("row", Json::number(row)),
            ("column", Json::number(column)),
        ]),
        _ => fields.push(("kind", Json::Null)),
    }
    Json::Object(fields)
}
