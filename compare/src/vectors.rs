//! The stored list of frame calls, which the crate replay_frames replays with no Rust at hand: what
//! is answered, what the list must have, and its files.

use crate::calls::{Call, calls};
use crate::check::{Converters, checked, frame_of};
use crate::conditions::{FRAME_SLIPS, of_frame_with};
use crate::grey::{greys_of, planes, without_tint};
use crate::mistakes::{GREY_MISTAKES, MISTAKES, Mistake, TABLE_MISTAKES, WINDOW_MISTAKES, convert};
use crate::request::{FrameRequest, Lent, answer_text, frame_combination, frame_text, place_text};
use crate::stored::{Stored, digest};
use model::{Answer, Frame, TableRounding};
use std::collections::{BTreeMap, BTreeSet};
use std::fmt::Write;
use std::path::Path;

/// The longest buffer that the replaying program can lend.
const LONGEST_BUFFER: usize = 65_536;

/// A call with the answer and the buffers after it. They are the Rust's where it has that answer,
/// else the model's; `by` says whose.
struct Vector {
    call: Call,
    answer: Answer,
    after: FrameRequest,
    by: &'static str,
}

/// Model and Rust are compared on every call, and grey frames held to stay grey; Err: what differs, or
/// is missing.
fn vectors(converters: &Converters) -> Result<Vec<Vector>, String> {
    let mut vectors = Vec::new();
    for call in calls() {
        let number = checked(&call.request, converters)
            .map_err(|wrong| format!("{}: {wrong}\n{}", call.why, frame_text(&call.request)))?;
        let answering = converters
            .iter()
            .rev()
            .find(|converter| converter.has(number));
        let converter = answering.expect("the model has every answer");
        let (answer, after) = frame_of(&**converter, &call.request);
        let by = converter.name();
        if let Some(rows) = (number == 0).then(|| greys_of(&call.request)).flatten() {
            let opening = call.request.opening();
            without_tint(by, &opening, &rows, planes(&after.lent))?;
        }
        vectors.push(Vector {
            call,
            answer,
            after,
            by,
        });
    }
    complete(&vectors)?;
    Ok(vectors)
}

fn number(vector: &Vector) -> u8 {
    vector.answer.map_or_else(|refusal| refusal.number, |()| 0)
}

/// What the list must have.
fn complete(vectors: &[Vector]) -> Result<(), String> {
    let accepted: Vec<&Frame> = vectors
        .iter()
        .filter(|vector| number(vector) == 0)
        .map(|vector| &vector.call.request.frame)
        .collect();
    let combinations = |of: &dyn Fn(&Frame) -> String| {
        accepted
            .iter()
            .map(|frame| of(frame))
            .collect::<BTreeSet<_>>()
            .len()
    };
    let sides = |of: &dyn Fn(&Frame) -> u32| {
        (1..=40).all(|side| accepted.iter().any(|frame| of(frame) == side))
    };
    let numbers: BTreeSet<u8> = vectors.iter().map(number).collect();
    let short = vectors.iter().all(|vector| {
        vector
            .call
            .request
            .lent
            .iter()
            .all(|bytes| bytes.len() <= LONGEST_BUFFER)
    });
    // The settings stand first in the text, then whether the sides are odd.
    let settings = |frame: &Frame| {
        let text = frame_combination(frame);
        text[..text.len() - 4].to_string()
    };
    let truncated: BTreeSet<String> = (accepted.iter())
        .filter(|frame| frame.settings.rounding == TableRounding::Truncated)
        .map(|frame| settings(frame))
        .collect();
    let roundings = |frame: &Frame| {
        let s = &frame.settings;
        let way = (s.channels, s.sampling, s.transfer, s.rounding);
        format!("{way:?}")
    };
    let parities = |frame: &Frame| {
        let (channels, sampling) = (frame.settings.channels, frame.settings.sampling);
        format!("{channels:?} {sampling:?} {} {}", frame.w % 2, frame.h % 2)
    };
    let ways = |of: &dyn Fn(&FrameRequest) -> bool| {
        let requests = (vectors.iter())
            .filter(|vector| number(vector) == 0)
            .map(|vector| &vector.call.request);
        let settings = requests
            .filter(|request| !request.is_whole() && of(request))
            .map(|request| &request.frame.settings);
        let ways: BTreeSet<String> = settings
            .map(|s| format!("{:?} {:?}", s.channels, s.sampling))
            .collect();
        ways.len()
    };
    for (has, what) in [
        (
            truncated.len() == 448,
            "every combination of the settings with truncated tables",
        ),
        (
            combinations(&roundings) == 64,
            "each rounding with every order, sampling and transfer",
        ),
        (
            combinations(&parities) == 32,
            "odd and even sides with every order and sampling",
        ),
        (sides(&|frame| frame.w), "every width from 1 to 40"),
        (sides(&|frame| frame.h), "every height from 1 to 40"),
        (
            numbers
                .into_iter()
                .eq([0, 2, 3, 4, 6, 7, 8, 9, 10, 11, 12, 14]),
            "every answer",
        ),
        (
            ways(&|_| true) == 8,
            "a rectangle inside its source with every order and sampling",
        ),
        (
            ways(&|request| greys_of(request).is_some()) == 8,
            "a grey rectangle inside its source with every order and sampling",
        ),
        (short, "buffers that the replaying program can lend"),
        (vectors.len() >= 300, "300 calls"),
    ] {
        if !has {
            return Err(format!("the list lacks {what}"));
        }
    }
    Ok(())
}

// The mistakes.

/// A line for each mistake: its name, the call made for it, and how many calls catch it.
fn mistake_lines(vectors: &[Vector]) -> Result<Vec<String>, String> {
    let caught = |mistake: Mistake| -> Vec<usize> {
        (vectors.iter().zip(1..))
            .filter(|(vector, _)| number(vector) == 0)
            .filter(|(vector, _)| {
                digests(&convert(mistake, &vector.call.request)) != digests(&vector.after.lent)
            })
            .map(|(_, place)| place)
            .collect()
    };
    if let Some(place) = caught(Mistake::None).first() {
        return Err(format!(
            "vector {place}: converted otherwise with no mistake"
        ));
    }
    let mut lines = Vec::new();
    let mut line = |name: &str, places: Vec<usize>| {
        let made = (vectors.iter().zip(1..)).find(|(vector, _)| vector.call.why == name);
        let place = made.map_or(0, |(_, place)| place);
        if !places.contains(&place) {
            return Err(format!("no vector was made for: {name}"));
        }
        lines.push(format!("| {name} | {place} | {} |", places.len()));
        Ok(())
    };
    let mistakes = MISTAKES.into_iter().chain(TABLE_MISTAKES);
    for (mistake, name) in mistakes.chain(WINDOW_MISTAKES).chain(GREY_MISTAKES) {
        line(name, caught(mistake))?;
    }
    for (slip, name) in FRAME_SLIPS {
        let places = (vectors.iter().zip(1..))
            .filter(|(vector, _)| of_frame_with(slip, &vector.call.request) != vector.answer)
            .map(|(_, place)| place)
            .collect();
        line(name, places)?;
    }
    Ok(lines)
}

// The files.

fn stored(vectors: &[Vector]) -> Vec<u8> {
    let mut stored = Stored::default();
    stored.lengths([vectors.len()]);
    for vector in vectors {
        let request = &vector.call.request;
        let f = &request.frame;
        let [source_stride, strides @ ..] = request.strides();
        stored.lengths(request.lent.each_ref().map(Vec::len));
        stored.frame((f.w, f.h), &f.window, &f.settings, strides);
        stored.numbers(&[source_stride]);
        for buffer in &request.lent {
            stored.block(buffer);
        }
    }
    stored.0
}

fn digests([_, y, u, v]: &Lent) -> String {
    [digest("y", y), digest("u", u), digest("v", v)].concat()
}

/// A line for each call: what it answers, and the digests of the planes that it leaves.
fn expected(vectors: &[Vector]) -> String {
    let mut text = String::new();
    for (vector, place) in vectors.iter().zip(1..) {
        let (answer, digests) = (answer_text(&vector.answer), digests(&vector.after.lent));
        let _ = writeln!(text, "{place} {answer}{digests}");
    }
    text
}

/// A line for each call, without the bytes.
fn index(vectors: &[Vector], bytes: usize) -> String {
    let mut answers: BTreeMap<u8, usize> = BTreeMap::new();
    for vector in vectors {
        *answers.entry(number(vector)).or_default() += 1;
    }
    let accepted = answers.remove(&0).unwrap_or(0);
    let refused: Vec<String> = (answers.iter())
        .map(|(number, count)| format!("{number}: {count}"))
        .collect();
    let mut groups: Vec<(&str, usize)> = Vec::new();
    for vector in vectors {
        match groups.last_mut() {
            Some((group, count)) if *group == vector.call.group => *count += 1,
            _ => groups.push((vector.call.group, 1)),
        }
    }
    let groups: Vec<String> = (groups.iter())
        .map(|(group, count)| format!("{group} {count}"))
        .collect();
    let mut text = format!(
        "# The frame calls of crates/replay_frames/stdin, made by vectors/make; README.md says how.\n\
         # {} calls in {bytes} bytes: {accepted} accepted, refused {}.\n\
         # {}.\n\
         # number | what it is for | size and settings | strides | lengths | number, expected, received, whose\n\
         # Strides and lengths are those of source, Y, U, V.\n",
        vectors.len(),
        refused.join(", "),
        groups.join(", "),
    );
    for (vector, place) in vectors.iter().zip(1..) {
        let request = &vector.call.request;
        let Frame {
            w,
            h,
            window,
            settings,
            ..
        } = &request.frame;
        let size = place_text(*w, *h, window);
        let words = |numbers: [usize; 4]| numbers.map(|n| n.to_string()).join(" ");
        let what = [vector.call.group, &vector.call.why].join(": ");
        let _ = writeln!(
            text,
            "{place} | {} | {size} {:?} {:?} {:?} {:?} {:?} {:?} | {} | {} | {} {}",
            what.trim_end_matches(": "),
            settings.channels,
            settings.sampling,
            settings.range,
            settings.matrix,
            settings.transfer,
            settings.rounding,
            words(request.strides().map(|stride| stride as usize)),
            words(request.lent.each_ref().map(Vec::len)),
            answer_text(&vector.answer),
            vector.by,
        );
    }
    text
}

/// The files of the repository that are made here, with their bytes.
fn files(vectors: &[Vector]) -> [(&'static str, Vec<u8>); 3] {
    let stored = stored(vectors);
    let index = index(vectors, stored.len());
    [
        ("vectors/frames.txt", index.into_bytes()),
        (
            "crates/replay_frames/stdout",
            expected(vectors).into_bytes(),
        ),
        ("crates/replay_frames/stdin", stored),
    ]
}

pub fn write(root: &Path, converters: &Converters) -> Result<String, String> {
    let vectors = vectors(converters)?;
    for (file, bytes) in files(&vectors) {
        std::fs::write(root.join(file), bytes).map_err(|error| format!("{file}: {error}"))?;
    }
    Ok(format!("{} vectors written", vectors.len()))
}

/// The list's line in the README.
fn readme_line(vectors: &[Vector]) -> String {
    let refused = vectors.iter().filter(|vector| vector.answer.is_err());
    let (all, refused) = (vectors.len(), refused.count());
    format!(
        "| `crates/replay_frames/stdin` | {all} frame calls: {} accepted, {refused} refused | \
         `replay_frames` | `frames.txt` |",
        all - refused,
    )
}

/// Whether the files are those that `write` writes, and the README counts them so and has the
/// tables of the mistakes.
pub fn check(root: &Path, converters: &Converters) -> Result<String, String> {
    let vectors = vectors(converters)?;
    let read =
        |file: &str| std::fs::read(root.join(file)).map_err(|error| format!("{file}: {error}"));
    for (file, bytes) in files(&vectors) {
        if read(file)? != bytes {
            return Err(format!("{file} is not what is made"));
        }
    }
    let readme = "vectors/README.md";
    let text = String::from_utf8_lossy(&read(readme)?).into_owned();
    let mut lines = mistake_lines(&vectors)?;
    lines.push(readme_line(&vectors));
    for line in lines {
        if !text.lines().any(|other| other == line) {
            return Err(format!("{readme} lacks the line: {line}"));
        }
    }
    Ok(format!("{} vectors, as they are made", vectors.len()))
}

/// Which call was made for each mistake, and how many catch it.
pub fn report(converters: &Converters) -> Result<String, String> {
    Ok(mistake_lines(&vectors(converters)?)?.join("\n"))
}
