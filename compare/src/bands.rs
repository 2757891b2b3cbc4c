//! The stored list of band sequences, which the crate replay_bands replays with no Rust at hand:
//! what is answered, what the list must have, and its files.

use crate::check::{Converters, band_of, checked, frame_of};
use crate::conditions::{self, BAND_SLIPS, Slip};
use crate::converter::Converter;
use crate::grey::{greys_before, greys_of, without_tint};
use crate::request::{BandRequest, answer_text, band_text, place_text, state_text};
use crate::sequences::{Held, MOST_CALLS, Sequence, sequences};
use crate::stored::{Stored, digest};
use model::{Answer, FrameState, TableRounding, Window};
use std::collections::{BTreeMap, BTreeSet};
use std::fmt::Write;
use std::path::Path;

/// The longest source that the replaying program can lend.
const LONGEST_SOURCE: usize = 4_096;

/// The model's answer to a call, and all that is held after it.
struct After {
    answer: Answer,
    state: FrameState,
    held: Held,
}

struct Answered {
    sequence: Sequence,
    opened: Answer,
    after: Vec<After>,
}

fn number(answer: &Answer) -> u8 {
    answer.map_or_else(|refusal| refusal.number, |()| 0)
}

/// Puts what a call left back into the buffers that it was lent the first bytes of.
fn hold(held: &mut Held, left: BandRequest) {
    let [_, y, u, v] = left.lent;
    for (whole, part) in held.iter_mut().zip([y, u, v, left.carried]) {
        whole[..part.len()].copy_from_slice(&part);
    }
}

/// Every call is compared as `compare` compares one: the model's answer is that of the list of
/// conditions; refused, it leaves all as it was; accepted, it finishes the rows as the oracle's
/// whole frame has them and writes nothing else but the carried row.
fn answered(sequence: Sequence, converters: &Converters) -> Result<Answered, String> {
    let model = &*converters[0];
    let s = &sequence.opening;
    let opened = model.open(s).expect("the model has bands");
    if opened.map(|_| ()) != conditions::of_opening(s)
        || opened.is_ok_and(|state| state_text(&state) != state_text(s))
    {
        return Err(format!("the opening differs: {}", state_text(s)));
    }
    let mut held = sequence.held.clone();
    let mut after = Vec::new();
    for call in &sequence.calls {
        let request = call.request(&held);
        checked(&request, converters).map_err(|wrong| {
            format!(
                "{}, {}: {wrong}\n{}",
                sequence.group,
                call.why,
                band_text(&request)
            )
        })?;
        let (state, answer, left) = band_of(model, &request).expect("the model has bands");
        hold(&mut held, left);
        after.push(After {
            answer,
            state,
            held: held.clone(),
        });
    }
    let answered = Answered {
        sequence,
        opened: opened.map(|_| ()),
        after,
    };
    answered.check_whole(converters)?;
    answered.check_grey()?;
    Ok(answered)
}

impl Answered {
    /// The rows done by calls that were each handed the state that the accepted call before it gave
    /// back, the first the opening's; None: one was handed another.
    fn done(&self) -> Option<u32> {
        let mut state = self.opened.is_ok().then_some(self.sequence.opening)?;
        for (call, after) in self.sequence.calls.iter().zip(&self.after) {
            if after.answer.is_ok() {
                if state_text(&call.state) != state_text(&state) {
                    return None;
                }
                state = after.state;
            }
        }
        Some(state.done)
    }

    /// In a sequence that brings a whole frame, the rows finished after each accepted call are grey
    /// while the frame's are.
    fn check_grey(&self) -> Result<(), String> {
        let Some(whole) = &self.sequence.whole else {
            return Ok(());
        };
        for after in self.after.iter().filter(|after| after.answer.is_ok()) {
            if let Some(rows) = greys_before(whole, after.state.done) {
                let [y, u, v, _] = &after.held;
                without_tint(self.sequence.group, &after.state, &rows, [y, u, v])?;
            }
        }
        Ok(())
    }

    /// A sequence that brings a whole frame leaves the planes of the oracle's frame call.
    fn check_whole(&self, converters: &Converters) -> Result<(), String> {
        let Some(whole) = &self.sequence.whole else {
            return Ok(());
        };
        let (answer, frame) = frame_of(&*converters[1], whole);
        let last = self.after.last().map_or(&self.sequence.held, |a| &a.held);
        let equal = (0..3).all(|i| {
            let length = frame.lent[i + 1].len();
            last[i][..length] == frame.lent[i + 1]
                && last[i][length..] == self.sequence.held[i][length..]
        });
        if answer.is_err() || !equal || self.done() != Some(whole.frame.h) {
            return Err(format!(
                "{}: not the oracle's whole frame",
                self.sequence.group
            ));
        }
        Ok(())
    }
}

fn list(converters: &Converters) -> Result<Vec<Answered>, String> {
    let list = sequences().into_iter();
    let list = list.map(|sequence| answered(sequence, converters));
    let list = list.collect::<Result<Vec<_>, _>>()?;
    complete(&list)?;
    Ok(list)
}

// The choice of tables and the window, lost between calls or taken wrongly.

/// By the opening and the number of calls accepted before: the call that a converter with this
/// mistake makes of one.
type Lost = fn(&FrameState, usize, &mut BandRequest);

/// This one is made for the carried row alone: the planes are those of the right call.
const OF_CARRIED: &str = "left not applied in what is stored in the carried row";

const LOST: [(&str, Lost); 7] = [
    (
        "the choice of nearest tables lost by the opening",
        |_, _, call| call.state.settings.rounding = TableRounding::Truncated,
    ),
    (
        "the choice of nearest tables lost by the first band",
        |_, accepted, call| {
            if accepted > 0 {
                call.state.settings.rounding = TableRounding::Truncated;
            }
        },
    ),
    (
        "the opening's choice taken where the state has the other",
        |opening, _, call| call.state.settings.rounding = opening.settings.rounding,
    ),
    ("top applied in bands", |_, _, call| {
        // From its top on, as far as the band has rows.
        let stride = call.source_stride as usize;
        let rows = call.lent[0].len().checked_div(stride).unwrap_or(0);
        let last = rows.saturating_sub(1);
        let row = |r: usize| r.saturating_add(call.state.window.top as usize).min(last);
        let source = (0..rows).flat_map(|r| call.lent[0][row(r) * stride..][..stride].to_vec());
        let mut source: Vec<u8> = source.collect();
        source.resize(call.lent[0].len(), 0);
        call.lent[0] = source;
    }),
    ("left not applied in bands", |_, _, call| {
        call.state.window.left = 0;
    }),
    (OF_CARRIED, |_, _, call| call.state.window.left = 0),
    (
        "the opening's window taken where the state has another",
        |opening, _, call| call.state.window = opening.window,
    ),
];

/// The fewest sequences that must tell each of them, and each mistake in a condition.
const TELLING: [usize; 2] = [4, 1];

impl Answered {
    /// Whether a converter with this mistake answers otherwise or leaves other bytes after some call.
    fn tells(&self, model: &dyn Converter, name: &str, lost: Lost) -> bool {
        let mut held = self.sequence.held.clone();
        let mut accepted = 0;
        for (call, after) in self.sequence.calls.iter().zip(&self.after) {
            let right = call.request(&held);
            let mut request = right.clone();
            lost(&self.sequence.opening, accepted, &mut request);
            let (_, answer, mut left) = band_of(model, &request).expect("the model has bands");
            if name == OF_CARRIED {
                let (_, _, after) = band_of(model, &right).expect("the model has bands");
                left.lent = after.lent;
            }
            hold(&mut held, left);
            if answer != after.answer || held != after.held {
                return true;
            }
            accepted += usize::from(after.answer.is_ok());
        }
        false
    }

    /// Whether a converter with this mistake in a condition answers otherwise at some call.
    fn tells_slip(&self, slip: Slip) -> bool {
        let held = &self.sequence.held;
        let mut calls = self.sequence.calls.iter().zip(&self.after);
        conditions::of_opening_with(slip, &self.sequence.opening) != self.opened
            || calls.any(|(call, after)| {
                conditions::of_band_with(slip, &call.request(held)) != after.answer
            })
    }
}

/// A line for each mistake: the first sequence that tells it, and how many do.
fn lost_lines(list: &[Answered], converters: &Converters) -> Result<Vec<String>, String> {
    let mut lines = Vec::new();
    let mut line = |name: &str, fewest: usize, tells: &dyn Fn(&Answered) -> bool| {
        let places: Vec<usize> = (list.iter().zip(1..))
            .filter(|(answered, _)| tells(answered))
            .map(|(_, place)| place)
            .collect();
        if places.len() < fewest {
            return Err(format!("{} sequences tell: {name}", places.len()));
        }
        lines.push(format!("| {name} | {} | {} |", places[0], places.len()));
        Ok(())
    };
    for (name, lost) in LOST {
        line(name, TELLING[0], &|answered| {
            answered.tells(&*converters[0], name, lost)
        })?;
    }
    for (slip, name) in BAND_SLIPS {
        line(name, TELLING[1], &|answered| answered.tells_slip(slip))?;
    }
    Ok(lines)
}

/// What the list must have.
fn complete(list: &[Answered]) -> Result<(), String> {
    let whole: Vec<&Answered> = (list.iter())
        .filter(|answered| answered.sequence.whole.is_some())
        .collect();
    let kinds = |of: &dyn Fn(&FrameState) -> String| {
        let states = whole.iter().map(|answered| &answered.sequence.opening);
        states.map(of).collect::<BTreeSet<_>>().len()
    };
    let sides = |of: &dyn Fn(&FrameState) -> u32| {
        (1..=12).all(|side| (whole.iter()).any(|answered| of(&answered.sequence.opening) == side))
    };
    let numbers: BTreeSet<u8> = (list.iter())
        .flat_map(|answered| &answered.after)
        .map(|after| number(&after.answer))
        .collect();
    let opened: BTreeSet<u8> = list.iter().map(|a| number(&a.opened)).collect();
    let odd = list.iter().any(|answered| {
        let first = (answered.sequence.calls.iter()).zip(&answered.after).next();
        first.is_some_and(|(call, after)| call.state.done % 2 == 1 && after.answer.is_ok())
    });
    let strides = whole.iter().any(|answered| {
        let calls = answered.sequence.calls.iter().zip(&answered.after);
        let accepted = calls.filter(|(_, after)| after.answer.is_ok());
        let strides: BTreeSet<u32> = accepted.map(|(call, _)| call.source_stride).collect();
        strides.len() > 1
    });
    let matrix = |s: &FrameState| {
        let name = format!("{:?}", s.settings.matrix);
        name.split('(').next().unwrap_or("").to_string()
    };
    let orders = |s: &FrameState| format!("{:?} {:?}", s.settings.channels, s.settings.sampling);
    let roundings = |s: &FrameState| {
        let settings = &s.settings;
        let way = (settings.sampling, settings.transfer, settings.rounding);
        format!("{way:?}")
    };
    let windows: BTreeSet<String> = (whole.iter())
        .map(|answered| &answered.sequence.opening)
        .filter(|s| s.window != Window::whole(s.w, s.h))
        .map(orders)
        .collect();
    let greys: BTreeSet<String> = (whole.iter())
        .filter_map(|answered| answered.sequence.whole.as_ref())
        .filter(|request| !request.is_whole() && greys_of(request).is_some())
        .map(|request| orders(&request.opening()))
        .collect();
    let counts = |a: &Answered| (1..=MOST_CALLS).contains(&a.sequence.calls.len());
    let short = |a: &Answered| {
        let mut calls = a.sequence.calls.iter();
        calls.all(|call| call.source.len() <= LONGEST_SOURCE)
    };
    for (has, what) in [
        (list.len() >= 120, "120 sequences"),
        (whole.len() >= 100, "100 sequences that bring a whole frame"),
        (list.iter().all(counts), "1 to 8 calls in each sequence"),
        (list.iter().all(short), "sources that the program can lend"),
        (kinds(&orders) == 8, "every order with every sampling"),
        (
            kinds(&|s| format!("{:?}", s.settings.range)) == 2,
            "both ranges",
        ),
        (kinds(&matrix) == 7, "every matrix"),
        (
            kinds(&|s| format!("{:?}", s.settings.transfer)) == 4,
            "every transfer",
        ),
        (
            kinds(&roundings) == 16,
            "each rounding with every sampling and transfer",
        ),
        (sides(&|s| s.w), "every width from 1 to 12"),
        (sides(&|s| s.h), "every height from 1 to 12"),
        (
            opened.into_iter().eq([0, 2, 3, 4, 14]),
            "every opening answer",
        ),
        (
            numbers.into_iter().eq((0..=14).filter(|n| *n != 1)),
            "every band answer",
        ),
        (
            windows.len() == 8,
            "a rectangle inside its source with every order and sampling",
        ),
        (
            greys.len() == 8,
            "a grey rectangle inside its source with every order and sampling",
        ),
        (odd, "odd rows done at first"),
        (strides, "a source stride that changes"),
    ] {
        if !has {
            return Err(format!("the list of bands lacks {what}"));
        }
    }
    Ok(())
}

// The files.

fn put_frame(stored: &mut Stored, state: &FrameState) {
    let strides = [state.y_stride, state.u_stride, state.v_stride];
    let size = (state.w, state.h);
    stored.frame(size, &state.window, &state.settings, strides);
}

fn stored(list: &[Answered]) -> Vec<u8> {
    let mut stored = Stored::default();
    stored.lengths([list.len()]);
    for Answered { sequence, .. } in list {
        put_frame(&mut stored, &sequence.opening);
        for buffer in &sequence.held {
            stored.block(buffer);
        }
        stored.lengths([sequence.calls.len()]);
        for call in &sequence.calls {
            stored.lengths([call.source.len()]);
            put_frame(&mut stored, &call.state);
            stored.numbers(&[call.state.done, call.rows, call.source_stride]);
            stored.lengths(call.lengths);
            stored.block(&call.source);
        }
    }
    stored.0
}

/// A line for each opening and each call: what it answers, the rows done, and the digests of all
/// that is held after it.
fn expected(list: &[Answered]) -> String {
    let mut text = String::new();
    for (answered, place) in list.iter().zip(1..) {
        let opened = answer_text(&answered.opened);
        let _ = writeln!(
            text,
            "{place} {opened} done={}",
            answered.sequence.opening.done
        );
        for (after, count) in answered.after.iter().zip(1..) {
            let [y, u, v, carried] = &after.held;
            let digests = [
                digest("y", y),
                digest("u", u),
                digest("v", v),
                digest("carried", carried),
            ];
            let (answer, done) = (answer_text(&after.answer), after.state.done);
            let _ = writeln!(
                text,
                "{place}.{count} {answer} done={done}{}",
                digests.concat()
            );
        }
    }
    text
}

/// Openings and band calls.
fn calls(list: &[Answered]) -> usize {
    list.iter().map(|answered| 1 + answered.after.len()).sum()
}

/// A line for each opening and each call, without the bytes.
fn index(list: &[Answered], bytes: usize) -> String {
    let mut answers: BTreeMap<u8, usize> = BTreeMap::new();
    let mut groups: Vec<(&str, usize)> = Vec::new();
    for answered in list {
        for after in &answered.after {
            *answers.entry(number(&after.answer)).or_default() += 1;
        }
        match groups.last_mut() {
            Some((group, count)) if *group == answered.sequence.group => *count += 1,
            _ => groups.push((answered.sequence.group, 1)),
        }
    }
    let accepted = answers.remove(&0).unwrap_or(0);
    let refused: Vec<String> = (answers.iter())
        .map(|(number, count)| format!("{number}: {count}"))
        .collect();
    let groups: Vec<String> = (groups.iter())
        .map(|(group, count)| format!("{group} {count}"))
        .collect();
    let mut text = format!(
        "# The band sequences of crates/replay_bands/stdin, made by vectors/make; README.md says how.\n\
         # {} sequences of {} band calls in {bytes} bytes: {accepted} accepted, refused {}.\n\
         # {}.\n\
         # number | group | size and settings | strides of Y, U, V | the opening's number, expected, received\n\
         # number.call | what it is for | rows done, rows | source stride | lengths of source, Y, U, V, carried row | number, expected, received | rows done after\n",
        list.len(),
        calls(list) - list.len(),
        refused.join(", "),
        groups.join(", "),
    );
    let words = |numbers: &[usize]| {
        let words: Vec<String> = numbers.iter().map(usize::to_string).collect();
        words.join(" ")
    };
    for (answered, place) in list.iter().zip(1..) {
        let sequence = &answered.sequence;
        let s = &sequence.opening;
        let settings = &s.settings;
        let size = place_text(s.w, s.h, &s.window);
        let _ = writeln!(
            text,
            "{place} | {} | {size} {:?} {:?} {:?} {:?} {:?} {:?} | {} {} {} | {}",
            sequence.group,
            settings.channels,
            settings.sampling,
            settings.range,
            settings.matrix,
            settings.transfer,
            settings.rounding,
            s.y_stride,
            s.u_stride,
            s.v_stride,
            answer_text(&answered.opened),
        );
        for ((call, after), count) in sequence.calls.iter().zip(&answered.after).zip(1..) {
            let _ = writeln!(
                text,
                "{place}.{count} | {} | {} {} | {} | {} {} | {} | {}",
                call.why,
                call.state.done,
                call.rows,
                call.source_stride,
                call.source.len(),
                words(&call.lengths),
                answer_text(&after.answer),
                after.state.done,
            );
        }
    }
    text
}

/// The files of the repository that are made here, with their bytes.
fn files(list: &[Answered]) -> [(&'static str, Vec<u8>); 3] {
    let stored = stored(list);
    let index = index(list, stored.len());
    [
        ("vectors/bands.txt", index.into_bytes()),
        ("crates/replay_bands/stdout", expected(list).into_bytes()),
        ("crates/replay_bands/stdin", stored),
    ]
}

pub fn write(root: &Path, converters: &Converters) -> Result<String, String> {
    let list = list(converters)?;
    for (file, bytes) in files(&list) {
        std::fs::write(root.join(file), bytes).map_err(|error| format!("{file}: {error}"))?;
    }
    Ok(format!("{} band sequences written", list.len()))
}

/// The list's line in the README.
fn readme_line(list: &[Answered]) -> String {
    let refused = list.iter().filter(|answered| answered.opened.is_err());
    let after = list.iter().flat_map(|answered| &answered.after);
    let (accepted, all) = after.fold((0, 0), |(accepted, all), after| {
        (accepted + usize::from(after.answer.is_ok()), all + 1)
    });
    format!(
        "| `crates/replay_bands/stdin` | {0} band sequences: {0} openings, {1} of them refused, and \
         {all} band calls, {accepted} accepted, {2} refused | `replay_bands` | `bands.txt` |",
        list.len(),
        refused.count(),
        all - accepted,
    )
}

/// Whether the files are those that `write` writes, and the README counts them so.
pub fn check(root: &Path, converters: &Converters) -> Result<String, String> {
    let list = list(converters)?;
    let read =
        |file: &str| std::fs::read(root.join(file)).map_err(|error| format!("{file}: {error}"));
    for (file, bytes) in files(&list) {
        if read(file)? != bytes {
            return Err(format!("{file} is not what is made"));
        }
    }
    let readme = "vectors/README.md";
    let text = String::from_utf8_lossy(&read(readme)?).into_owned();
    let mut lines = lost_lines(&list, converters)?;
    lines.push(readme_line(&list));
    for line in lines {
        if !text.lines().any(|other| other == line) {
            return Err(format!("{readme} lacks the line: {line}"));
        }
    }
    Ok(format!("{} band sequences, as they are made", list.len()))
}

/// Which sequence is the first to tell each mistake, and how many do.
pub fn report(converters: &Converters) -> Result<String, String> {
    Ok(lost_lines(&list(converters)?, converters)?.join("\n"))
}
