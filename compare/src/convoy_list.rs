//! The stored list of convoys, which the crate replay_convoys replays with no Rust at hand: its convoys, what is
//! answered, and its files. The expectations are those of single frame calls in order: the oracle's where the Rust has
//! that answer, else the model's; the model's one call is held to them first (`convoy.rs`).
//!
//! The list is the number of convoys, and these, one behind the other. Numbers have four bytes, low byte first, and
//! buffers are stored as in the other lists (`stored.rs`). A convoy: the lengths of source, Y, U, V; the count of
//! frames, its low 32 bits and its high ones; how many numbers, binary32 numbers and numbers of parts are lent; the
//! numbers; the bits of the binary32 numbers; the numbers of parts, of each the low 32 bits and the high ones; the
//! bytes of source, Y, U, V before the call.
//!
//! What is printed of a convoy is a line: its place in the list from 1 on; number, expected and received; the frames
//! finished, and the digests of Y, U and V.
//!
//!     1 0 0 0 done=3 y=28fe8ee6 u=c4a3d6d4 v=f2a09c22

use crate::check::{Converters, checked, equal_bytes};
use crate::convoy::{Called, Convoy, number};
use crate::convoy_mistakes::{MISTAKES, Mistake, called};
use crate::random::{self, Random};
use crate::request::{FrameRequest, Lent, answer_text};
use crate::stored::{Stored, digest, repeated};
use crate::worked::{bt601, painted};
use model::YuvRange;
use model::convoy::{CUSTOMS, NUMBERS, PARTS};
use std::collections::{BTreeMap, BTreeSet};
use std::fmt::Write;
use std::path::Path;

const SEED: u64 = 1;

/// The longest buffer that the replaying program can lend, and the frames whose numbers it has room for.
const LONGEST_BUFFER: usize = 65_536;
const MOST_FRAMES: usize = 65;

/// Bytes of the whole list.
const LONGEST_LIST: usize = 700_000;

struct Listed {
    group: &'static str,
    why: String,
    convoy: Convoy,
}

fn listed(why: impl Into<String>, convoy: Convoy) -> Listed {
    Listed {
        group: "",
        why: why.into(),
        convoy,
    }
}

/// All convoys, none twice.
fn convoys() -> Vec<Listed> {
    use crate::check::Case;
    let groups = [
        ("worked line", worked_lines()),
        ("count", counts_of_frames()),
        ("refused", refused_frames()),
        ("two refused", two_refused()),
        ("outside", outside()),
        ("overlap", overlaps()),
        ("no bytes", no_bytes()),
        ("18 and another", broken_and_refused()),
        ("shared source", shared_sources()),
        ("missing", missing_numbers()),
        ("code", codes()),
        ("settings", settings_of_their_own()),
        ("64 frames", full()),
        ("any", any()),
    ];
    let mut seen = BTreeSet::new();
    let mut all = Vec::new();
    for (group, list) in groups {
        for one in list {
            if seen.insert(one.convoy.text()) {
                all.push(Listed { group, ..one });
            }
        }
    }
    all
}

/// An accepted frame whose source is not longer than this.
fn short_frame(random: &mut Random, side: u32, longest: usize) -> FrameRequest {
    let mut made = std::iter::repeat_with(|| random::small_frame(random, side));
    let short = made.find(|request| request.lent[0].len() <= longest);
    let mut request = short.expect("a short one");
    for plane in &mut request.lent[1..] {
        // A pattern, which is stored once.
        *plane = repeated(&[0xa5], plane.len());
    }
    request
}

fn short_frames(random: &mut Random, count: usize) -> Vec<FrameRequest> {
    let (side, longest) = if count > 9 { (2, 24) } else { (5, 96) };
    (0..count)
        .map(|_| short_frame(random, side, longest))
        .collect()
}

/// In the order of the list, this many bytes before each and behind the last.
fn in_line(random: &mut Random, frames: &[FrameRequest], gap: usize) -> Convoy {
    let order = |_: &mut Random, _| (0..frames.len()).collect();
    Convoy::of(random, frames, order, |_| gap)
}

fn some(random: &mut Random, count: usize, gap: usize) -> Convoy {
    let frames = short_frames(random, count);
    in_line(random, &frames, gap)
}

fn worked_lines() -> Vec<Listed> {
    let random = &mut Random::new(SEED, 700, 0);
    let limited = bt601(YuvRange::Limited);
    let black = painted(4, 5, limited, |_, _| [0; 3]);
    let white = painted(3, 3, limited, |_, _| [255; 3]);
    let red = painted(1, 1, bt601(YuvRange::Full), |_, _| [255, 0, 0]);
    let three = [black.clone(), white.clone(), red.clone()];
    let six = [&three[..], &three].concat();
    vec![
        listed("black, white, red", in_line(random, &three, 0)),
        listed(
            "six frames with bytes between them",
            in_line(random, &six, 3),
        ),
        listed("red alone", in_line(random, &[red], 1)),
    ]
}

fn counts_of_frames() -> Vec<Listed> {
    let random = &mut Random::new(SEED, 701, 0);
    let mut all = Vec::new();
    for count in [0, 1, 2, 6, 63, 64, 65] {
        all.push(listed(format!("{count} frames"), some(random, count, 1)));
    }
    let base = some(random, 2, 1);
    for count in [
        0,
        1,
        3,
        65,
        66,
        127,
        128,
        255,
        256,
        257,
        1 << 31,
        1 << 32,
        (1 << 32) + 1,
        (1 << 32) + 2,
        1 << 63,
        u64::MAX,
    ] {
        let convoy = Convoy {
            count,
            ..base.clone()
        };
        all.push(listed(
            format!("the numbers of two frames for {count}"),
            convoy,
        ));
    }
    let none = Convoy {
        count: 0,
        numbers: Vec::new(),
        customs: Vec::new(),
        parts: Vec::new(),
        lent: Default::default(),
    };
    all.push(listed("no frame, no bytes", none.clone()));
    all.push(listed("one frame, no numbers", Convoy { count: 1, ..none }));
    all
}

/// A frame that is refused with this number, and a text.
fn refused_with(random: &mut Random, wanted: u8) -> FrameRequest {
    loop {
        let mut request = short_frame(random, 5, 96);
        random::frame_fault(random, &mut request);
        let short = request.lent.iter().all(|buffer| buffer.len() <= 200);
        let answer = crate::conditions::of_frame(&request);
        if short && number(&answer) == wanted {
            return request;
        }
    }
}

const REFUSALS: [u8; 11] = [2, 3, 4, 6, 7, 8, 9, 10, 11, 12, 14];

/// Each refusal at the first, a middle and the last frame of a convoy.
fn refused_frames() -> Vec<Listed> {
    let random = &mut Random::new(SEED, 702, 0);
    let mut all = Vec::new();
    for wanted in REFUSALS {
        for at in [0, 2, 3] {
            let mut frames = short_frames(random, 4);
            frames[at] = refused_with(random, wanted);
            let convoy = in_line(random, &frames, 1);
            all.push(listed(format!("{wanted} at {at}"), convoy));
        }
    }
    all
}

fn two_refused() -> Vec<Listed> {
    let random = &mut Random::new(SEED, 703, 0);
    let mut all = Vec::new();
    for (first, second) in [(2, 14), (14, 2), (12, 6), (6, 12), (4, 3), (9, 9), (10, 8)] {
        let mut frames = short_frames(random, 5);
        frames[1] = refused_with(random, first);
        frames[3] = refused_with(random, second);
        let why = format!("{first} at 1, {second} at 3");
        all.push(listed(why, in_line(random, &frames, 0)));
    }
    all
}

/// Parts around the ends of each buffer, and sums around 2^32 and 2^64. They are those of the last of three frames:
/// of a part inside, the frame is what its bytes come to.
fn outside() -> Vec<Listed> {
    const BUFFERS: [&str; 4] = ["source", "Y", "U", "V"];
    let random = &mut Random::new(SEED, 704, 0);
    let base = some(random, 3, 2);
    let mut all = Vec::new();
    for (buffer, name) in BUFFERS.iter().enumerate() {
        let end = base.lent[buffer].len() as u64;
        let [offset, length] = [
            base.parts[PARTS * 2 + 2 * buffer],
            base.parts[PARTS * 2 + 2 * buffer + 1],
        ];
        let wide = 1 << 32;
        let parts = [
            [end - length, length],
            [end - length + 1, length],
            [offset, end - offset],
            [offset, end - offset + 1],
            [end, 0],
            [end + 1, 0],
            [end, 1],
            [u64::MAX, 0],
            [u64::MAX, 1],
            [u64::MAX, 2],
            [u64::MAX - 1, 2],
            [2, u64::MAX],
            [offset, 0u64.wrapping_sub(offset)],
            [offset, u64::MAX],
            [0u64.wrapping_sub(length), 2 * length],
            [u64::MAX - 9, offset + 10 + length],
            [1 << 63, 1 << 63],
            [wide + offset, length],
            [offset, wide + length],
            [wide - 1, 1],
            [wide - length, length],
            [wide, 0],
        ];
        for [from, bytes] in parts {
            let mut convoy = base.clone();
            convoy.part(2, buffer).copy_from_slice(&[from, bytes]);
            all.push(listed(
                format!("{name} of frame 2 is {bytes} bytes from {from}"),
                convoy,
            ));
        }
        for k in [0, 1] {
            let mut convoy = base.clone();
            convoy.part(k, buffer)[0] = end;
            all.push(listed(format!("{name} of frame {k} from the end"), convoy));
        }
    }
    // Parts that end exactly with their buffers.
    let exact = some(random, 2, 0);
    all.push(listed("parts that fill their buffers", exact.clone()));
    for (buffer, name) in BUFFERS.iter().enumerate() {
        let mut convoy = exact.clone();
        convoy.lent[buffer].pop();
        all.push(listed(
            format!("{name} is a byte short of its parts"),
            convoy,
        ));
    }
    all
}

/// Each plane, each two of four frames, and each way in which their parts can lie.
fn overlaps() -> Vec<Listed> {
    let random = &mut Random::new(SEED, 705, 0);
    let mut all = Vec::new();
    for plane in 1..4 {
        for (j, k) in [(0, 1), (1, 0), (0, 3), (3, 0), (1, 3), (2, 3), (3, 1)] {
            let base = some(random, 4, 3);
            let mut other = base.clone();
            let [start, bytes] = *other.part(j, plane) else {
                unreachable!("two numbers")
            };
            let length = other.part(k, plane)[1];
            let ways = [
                ("at the same place", Some(start)),
                ("from its last byte on", Some(start + bytes - 1)),
                ("to its first byte", (start + 1).checked_sub(length)),
                ("from behind it on", Some(start + bytes)),
                ("to before it", start.checked_sub(length)),
            ];
            for (why, offset) in ways {
                let Some(offset) = offset else { continue };
                // One of the ways for each two, two where parts touch.
                if !random.one_in(2) {
                    continue;
                }
                let mut convoy = base.clone();
                convoy.part(k, plane)[0] = offset;
                let end = (offset + length) as usize;
                let buffer = &mut convoy.lent[plane];
                buffer.resize(buffer.len().max(end), 0x5a);
                all.push(listed(
                    format!("plane {plane}: frame {k} {why} of frame {j}"),
                    convoy,
                ));
            }
        }
        let base = some(random, 3, 2);
        for k in 0..3 {
            let mut convoy = base.clone();
            let length = convoy.lent[plane].len() as u64;
            convoy.part(k, plane).copy_from_slice(&[0, length]);
            all.push(listed(
                format!("plane {plane}: frame {k} has all of it"),
                convoy,
            ));
        }
    }
    // Unlike planes at the same places, and parts that touch in any order.
    for _ in 0..6 {
        let frames = short_frames(random, 4);
        let orders = [[3, 1, 0, 2], [2, 3, 1, 0], [1, 0, 3, 2], [0, 2, 1, 3]];
        let order = |_: &mut Random, buffer: usize| orders[buffer].to_vec();
        let convoy = Convoy::of(random, &frames, order, |_| 0);
        all.push(listed(
            "parts that touch, in another order for each plane",
            convoy,
        ));
    }
    all
}

/// Parts of no bytes where nothing is asked of them but to be inside: the frame is refused at its turn.
fn no_bytes() -> Vec<Listed> {
    let random = &mut Random::new(SEED, 706, 0);
    let mut all = Vec::new();
    for buffer in 0..4 {
        let frames = short_frames(random, 3);
        let base = in_line(random, &frames, 1);
        let end = base.lent[buffer].len() as u64;
        let (start, last) = {
            let (start, behind) = base.ends(0, buffer);
            (start as u64, behind as u64 - 1)
        };
        for (why, at) in [
            ("at 0", 0),
            ("where another starts", start),
            ("at another's last byte", last),
            ("behind another", last + 1),
            ("at the end", end),
            ("past the end", end + 1),
        ] {
            for k in [1, 2] {
                let mut convoy = base.clone();
                convoy.part(k, buffer).copy_from_slice(&[at, 0]);
                all.push(listed(
                    format!("buffer {buffer}, frame {k}: none {why}"),
                    convoy,
                ));
            }
        }
        let mut convoy = base.clone();
        for k in [1, 2] {
            convoy.part(k, buffer).copy_from_slice(&[last, 0]);
        }
        all.push(listed(
            format!("buffer {buffer}: none twice, among another's bytes"),
            convoy,
        ));
    }
    let mut convoy = some(random, 3, 1);
    convoy.parts.fill(0);
    all.push(listed("no part has bytes", convoy));
    all
}

/// A convoy of which a frame would be refused, and that is answered with 18.
fn broken_and_refused() -> Vec<Listed> {
    let random = &mut Random::new(SEED, 707, 0);
    let mut all = Vec::new();
    for wanted in REFUSALS {
        let mut frames = short_frames(random, 3);
        frames[0] = refused_with(random, wanted);
        let mut convoy = in_line(random, &frames, 1);
        let to = convoy.part(1, 1)[0];
        convoy.part(2, 1)[0] = to;
        let end = (to + convoy.part(2, 1)[1]) as usize;
        let y = &mut convoy.lent[1];
        y.resize(y.len().max(end), 0x5a);
        all.push(listed(
            format!("{wanted} at 0, Y of 1 and 2 overlap"),
            convoy,
        ));
    }
    for at in [0, 2] {
        let mut convoy = some(random, 3, 1);
        convoy.numbers[NUMBERS * at + 3] = 4;
        let end = convoy.lent[3].len() as u64;
        convoy.part(1, 3)[0] = end;
        all.push(listed(format!("1 at {at}, V of 1 outside"), convoy.clone()));
        convoy.count = 65;
        all.push(listed(
            format!("1 at {at}, V of 1 outside, 65 frames"),
            convoy,
        ));
    }
    all
}

fn shared_sources() -> Vec<Listed> {
    let random = &mut Random::new(SEED, 708, 0);
    let mut all = Vec::new();
    for _ in 0..8 {
        let one = short_frame(random, 5, 96);
        let mut frames = vec![one; 3];
        for request in &mut frames[1..] {
            let settings = short_frame(random, 5, 96).frame.settings;
            let (channels, sampling) = {
                let s = &request.frame.settings;
                (s.channels, s.sampling)
            };
            request.frame.settings = model::Settings {
                channels,
                sampling,
                ..settings
            };
        }
        let mut convoy = in_line(random, &frames, 2);
        let start = convoy.part(0, 0)[0];
        convoy.part(1, 0)[0] = start;
        convoy.part(2, 0)[0] = start + 1;
        all.push(listed(
            "one source for two, and one from its next byte on",
            convoy,
        ));
    }
    all
}

/// Lists that are cut, and longer ones.
fn missing_numbers() -> Vec<Listed> {
    let random = &mut Random::new(SEED, 709, 0);
    let mut frames = short_frames(random, 2);
    for request in &mut frames {
        request.frame.settings.matrix = model::YuvStandardMatrix::Custom(0.25, 0.125);
    }
    let base = in_line(random, &frames, 1);
    let mut all = Vec::new();
    for length in 0..=2 * NUMBERS + 2 {
        let mut convoy = base.clone();
        convoy.numbers.resize(length, 3);
        all.push(listed(format!("{length} numbers for two frames"), convoy));
    }
    for length in 0..=2 * CUSTOMS + 1 {
        let mut convoy = base.clone();
        convoy.customs.resize(length, f32::NAN);
        all.push(listed(
            format!("{length} of kr and kb for two frames"),
            convoy,
        ));
    }
    for length in 0..=2 * PARTS + 2 {
        let mut convoy = base.clone();
        convoy.parts.resize(length, u64::MAX);
        all.push(listed(
            format!("{length} numbers of parts for two frames"),
            convoy,
        ));
    }
    all
}

/// Codes without a meaning at each place where one stands.
fn codes() -> Vec<Listed> {
    let random = &mut Random::new(SEED, 710, 0);
    let mut all = Vec::new();
    for (place, codes) in [(3, 4), (4, 2), (5, 2), (6, 7), (7, 4), (11, 2)] {
        let base = some(random, 3, 1);
        for (at, code) in [(0, codes), (1, 255), (1, 256), (2, codes), (2, u32::MAX)] {
            let mut convoy = base.clone();
            convoy.numbers[NUMBERS * at + place] = code;
            all.push(listed(
                format!("number {place} of frame {at} is {code}"),
                convoy,
            ));
        }
    }
    all
}

/// Frames of unlike orders, samplings, ranges, matrices, transfers, roundings, windows and strides, all finished.
fn settings_of_their_own() -> Vec<Listed> {
    let random = &mut Random::new(SEED, 711, 0);
    let one = |_| {
        let count = random.from(2, 9) as usize;
        let gap = random.below(3) as usize;
        listed("frames of settings of their own", some(random, count, gap))
    };
    (0..40).map(one).collect()
}

/// As many frames as there may be, and one more.
fn full() -> Vec<Listed> {
    let random = &mut Random::new(SEED, 712, 0);
    let base = some(random, 64, 0);
    let mut all = vec![listed("finished", base.clone())];
    for at in [0, 1, 31, 62, 63] {
        let mut convoy = base.clone();
        convoy.numbers[NUMBERS * at + 1] = 0;
        all.push(listed(format!("2 at {at}"), convoy));
    }
    for (j, k, plane) in [(0, 63, 1), (63, 0, 2), (62, 63, 3), (0, 1, 1)] {
        let mut convoy = base.clone();
        let to = convoy.part(j, plane)[0];
        convoy.part(k, plane)[0] = to;
        let end = (to + convoy.part(k, plane)[1]) as usize;
        let bytes = &mut convoy.lent[plane];
        bytes.resize(bytes.len().max(end), 0x5a);
        all.push(listed(
            format!("plane {plane} of {j} and {k} overlap"),
            convoy,
        ));
    }
    for buffer in 0..4 {
        let mut convoy = base.clone();
        convoy.lent[buffer].pop();
        all.push(listed(format!("buffer {buffer} is a byte short"), convoy));
    }
    let mut convoy = some(random, 65, 0);
    convoy.numbers[1] = 0;
    all.push(listed("65 frames, 2 at 0", convoy));
    all
}

/// Random ones that are short.
fn any() -> Vec<Listed> {
    let made = (0..).map(|case| Convoy::random(&mut Random::new(SEED, 713, case)));
    let short = |convoy: &Convoy| {
        let bytes = |lent: &Lent| lent.iter().map(Vec::len).sum::<usize>();
        convoy.numbers.len() <= NUMBERS * 9 && bytes(&convoy.lent) <= 900
    };
    made.filter(short)
        .take(80)
        .map(|convoy| listed("any", convoy))
        .collect()
}

/// A convoy, and what it must come to; `by` says whose frames they are.
struct Vector {
    listed: Listed,
    called: Called,
    by: &'static str,
}

impl Vector {
    fn number(&self) -> u8 {
        number(&self.called.0)
    }
}

/// What is printed of a call, behind its place.
fn line((answer, done, [_, y, u, v]): &Called) -> String {
    let digests = [digest("y", y), digest("u", u), digest("v", v)].concat();
    format!("{} done={done}{digests}", answer_text(answer))
}

fn vectors(converters: &Converters) -> Result<Vec<Vector>, String> {
    use crate::check::Case;
    let mut vectors = Vec::new();
    for listed in convoys() {
        let wrong = |wrong| format!("convoy, {}: {wrong}\n{}", listed.why, listed.convoy.text());
        let number = checked(&listed.convoy, converters).map_err(wrong)?;
        let answering = converters.iter().rev().find(|one| one.has(number));
        let converter = answering.expect("the model has every answer");
        let called = listed.convoy.by_single_calls(&**converter).map_err(wrong)?;
        vectors.push(Vector {
            listed,
            called,
            by: converter.name(),
        });
    }
    complete(&vectors)?;
    Ok(vectors)
}

/// What the list must have.
fn complete(vectors: &[Vector]) -> Result<(), String> {
    let fits = |vector: &Vector| {
        let c = &vector.listed.convoy;
        let lists = [
            (c.numbers.len(), NUMBERS),
            (c.customs.len(), CUSTOMS),
            (c.parts.len(), PARTS),
        ];
        c.lent.iter().all(|buffer| buffer.len() <= LONGEST_BUFFER)
            && lists
                .iter()
                .all(|(length, each)| *length <= each * MOST_FRAMES)
    };
    let numbers: BTreeSet<u8> = vectors.iter().map(Vector::number).collect();
    let places = |of: &dyn Fn(u64, u64) -> bool| {
        let mut refused = vectors.iter().filter(|v| !matches!(v.number(), 0 | 18));
        refused.any(|v| of(v.called.1, v.listed.convoy.count))
    };
    let answers = [0, 1, 2, 3, 4, 6, 7, 8, 9, 10, 11, 12, 14, 18];
    let full = |v: &&Vector| v.listed.convoy.count == 64;
    for (has, what) in [
        (
            vectors.iter().all(fits),
            "convoys that the program can lend",
        ),
        (numbers.into_iter().eq(answers), "every answer"),
        (places(&|done, _| done == 0), "a refusal at 0"),
        (
            places(&|done, n| 0 < done && done + 1 < n),
            "a refusal in the middle",
        ),
        (places(&|done, _| done == 63), "a refusal at 63"),
        (
            vectors.iter().filter(full).any(|v| v.number() == 0),
            "64 frames finished",
        ),
        (
            stored(vectors).len() <= LONGEST_LIST,
            "700,000 bytes at most",
        ),
    ] {
        if !has {
            return Err(format!("the list of convoys lacks {what}"));
        }
    }
    Ok(())
}

// The files.

fn stored(vectors: &[Vector]) -> Vec<u8> {
    let mut stored = Stored::default();
    stored.lengths([vectors.len()]);
    let halves = |number: u64| [number as u32, (number >> 32) as u32];
    for vector in vectors {
        let c = &vector.listed.convoy;
        stored.lengths(c.lent.each_ref().map(Vec::len));
        stored.numbers(&halves(c.count));
        stored.lengths([c.numbers.len(), c.customs.len(), c.parts.len()]);
        stored.numbers(&c.numbers);
        let bits: Vec<u32> = c.customs.iter().map(|k| k.to_bits()).collect();
        stored.numbers(&bits);
        let parts: Vec<u32> = c.parts.iter().flat_map(|number| halves(*number)).collect();
        stored.numbers(&parts);
        for buffer in &c.lent {
            stored.block(buffer);
        }
    }
    stored.0
}

fn expected(vectors: &[Vector]) -> String {
    let mut text = String::new();
    for (vector, place) in vectors.iter().zip(1..) {
        let _ = writeln!(text, "{place} {}", line(&vector.called));
    }
    text
}

/// How many there are, finished and refused with each number.
fn counts(vectors: &[Vector]) -> String {
    let mut answers: BTreeMap<u8, usize> = BTreeMap::new();
    for vector in vectors {
        *answers.entry(vector.number()).or_default() += 1;
    }
    let finished = answers.remove(&0).unwrap_or(0);
    let refused: Vec<String> = (answers.iter())
        .map(|(number, count)| format!("{number}: {count}"))
        .collect();
    let (all, refused) = (vectors.len(), refused.join(", "));
    format!("{all} convoys: {finished} finished, refused {refused}")
}

/// A line for each convoy, without the bytes.
fn index(vectors: &[Vector], bytes: usize) -> String {
    let mut groups: Vec<(&str, usize)> = Vec::new();
    for vector in vectors {
        match groups.last_mut() {
            Some((group, count)) if *group == vector.listed.group => *count += 1,
            _ => groups.push((vector.listed.group, 1)),
        }
    }
    let groups: Vec<String> = (groups.iter())
        .map(|(group, count)| format!("{group} {count}"))
        .collect();
    let mut text = format!(
        "# The convoys of crates/replay_convoys/stdin, made by vectors/make; README.md says how.\n\
         # {} in {bytes} bytes.\n\
         # {}.\n\
         # number | what it is for | frames; numbers, of kr and kb, of parts | lengths of source, Y, U, V | \
         number, expected, received, frames finished, whose\n",
        counts(vectors),
        groups.join(", "),
    );
    for (vector, place) in vectors.iter().zip(1..) {
        let Listed { group, why, convoy } = &vector.listed;
        let [source, y, u, v] = convoy.lent.each_ref().map(Vec::len);
        let lists = [
            convoy.numbers.len(),
            convoy.customs.len(),
            convoy.parts.len(),
        ];
        let lists = lists.map(|length| length.to_string()).join(" ");
        let (answer, done, _) = &vector.called;
        let what = if group == why {
            why.clone()
        } else {
            format!("{group}: {why}")
        };
        let _ = writeln!(
            text,
            "{place} | {what} | {}; {lists} | {source} {y} {u} {v} | {} {done} {}",
            convoy.count,
            answer_text(answer),
            vector.by,
        );
    }
    text
}

fn files(vectors: &[Vector]) -> [(&'static str, Vec<u8>); 3] {
    let stored = stored(vectors);
    let index = index(vectors, stored.len());
    let expected = expected(vectors).into_bytes();
    [
        ("vectors/convoys.txt", index.into_bytes()),
        ("crates/replay_convoys/stdout", expected),
        ("crates/replay_convoys/stdin", stored),
    ]
}

pub fn write(root: &Path, converters: &Converters) -> Result<String, String> {
    let vectors = vectors(converters)?;
    for (file, bytes) in files(&vectors) {
        std::fs::write(root.join(file), bytes).map_err(|error| format!("{file}: {error}"))?;
    }
    Ok(format!("{} convoys written", vectors.len()))
}

/// The list's line in the README.
fn readme_line(vectors: &[Vector]) -> String {
    let counts = counts(vectors);
    format!("| `crates/replay_convoys/stdin` | {counts} | `replay_convoys` | `convoys.txt` |")
}

/// Whether the files are those that `write` writes, and the README counts them so and has the table of the mistakes.
pub fn check(root: &Path, converters: &Converters) -> Result<String, String> {
    let vectors = vectors(converters)?;
    let read =
        |file: &str| std::fs::read(root.join(file)).map_err(|error| format!("{file}: {error}"));
    for (file, bytes) in files(&vectors) {
        equal_bytes("what is made", file, &read(file)?, &bytes)?;
    }
    let readme = "vectors/README.md";
    let text = String::from_utf8_lossy(&read(readme)?).into_owned();
    let mut lines = mistake_lines(&vectors)?;
    lines.push(readme_line(&vectors));
    for line in lines {
        if !text.lines().any(|other| other == line) {
            return Err(format!("{readme} lacks the line: {line}"));
        }
    }
    Ok(format!("{} convoys, as made", vectors.len()))
}

/// Which convoy catches each mistake first, and how many do; and the list's line.
pub fn report(converters: &Converters) -> Result<String, String> {
    let vectors = vectors(converters)?;
    let mut lines = mistake_lines(&vectors)?;
    lines.push(readme_line(&vectors));
    Ok(lines.join("\n"))
}

/// The first convoy that catches each mistake, and how many do.
fn mistake_lines(vectors: &[Vector]) -> Result<Vec<String>, String> {
    let catching = |mistake: Mistake| {
        let differs = |(vector, _): &(&Vector, usize)| {
            line(&called(mistake, &vector.listed.convoy)) != line(&vector.called)
        };
        let catching: Vec<usize> = (vectors.iter().zip(1..))
            .filter(differs)
            .map(|(_, place)| place)
            .collect();
        catching
    };
    if let [place, ..] = catching(Mistake::NoMistake)[..] {
        let line = line(&called(
            Mistake::NoMistake,
            &vectors[place - 1].listed.convoy,
        ));
        return Err(format!("convoy {place}, without a mistake: {line}"));
    }
    MISTAKES
        .into_iter()
        .map(|(mistake, what)| match &catching(mistake)[..] {
            [first, others @ ..] => Ok(format!("| {what} | {first} | {} |", others.len() + 1)),
            [] => Err(format!("no convoy catches: {what}")),
        })
        .collect()
}
