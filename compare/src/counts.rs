//! How many colours share a luma, RULES 5.3 and 10.4: the model, the library, and the luma planes that
//! the unaltered Rust and the library make of all colours.

use crate::check::Converters;
use crate::conditions;
use crate::converter::Converter;
use crate::program::Program;
use crate::random::{self, Random};
use crate::request::{answer_text, shapes};
use model::counts::COLOURS;
use model::settings::{channels_of, matrix_of, range_of, sampling_of, transfer_of};
use model::{Answer, Frame, Settings, TableRounding, Window, YuvRange, YuvStandardMatrix};
use std::collections::BTreeMap;

/// Codes of range and matrix, all that the program has. That of the worked line stands first, then one
/// whose weights are worked out.
const TABLES: [[u8; 2]; 12] = [
    [1, 0],
    [0, 5],
    [0, 0],
    [1, 1],
    [0, 1],
    [1, 2],
    [0, 2],
    [1, 3],
    [0, 3],
    [1, 4],
    [0, 4],
    [1, 5],
];

const CUSTOM: u32 = 6;

/// One in so many Custom pairs is counted in the Rust's luma plane too.
const BY_RUST: u64 = 16;

/// So many refused calls for each Custom pair.
const REFUSED: u64 = 100;

type Counts = [u32; 256];

/// The counts that are lent, with other numbers around them.
#[repr(C)]
struct Lent {
    before: [u32; 8],
    counts: Counts,
    after: [u32; 8],
}

fn words<const N: usize>(random: &mut Random) -> [u32; N] {
    [(); N].map(|()| random.next() as u32)
}

/// A call's answer and the counts that it leaves. Err: it wrote where it must not. None: the
/// converter has no such call.
fn called(
    converter: &dyn Converter,
    random: &mut Random,
    numbers: &[u32],
    custom: &[f32; 2],
) -> Result<Option<(Answer, Counts)>, String> {
    let mut lent = Lent {
        before: words(random),
        counts: words(random),
        after: words(random),
    };
    let (around, counts) = ((lent.before, lent.after), lent.counts);
    let Some(answer) = converter.luma_counts(numbers, custom, &mut lent.counts) else {
        return Ok(None);
    };
    let name = converter.name();
    if (lent.before, lent.after) != around {
        return Err(format!("{name} writes beside the counts"));
    }
    if answer.is_err() && lent.counts != counts {
        return Err(format!("{name} is refused and writes counts"));
    }
    Ok(Some((answer, lent.counts)))
}

/// Every converter's call, its answer held to the list of conditions; and the counts, all equal.
fn counted(
    converters: &Converters,
    random: &mut Random,
    numbers: &[u32],
    custom: &[f32; 2],
) -> Result<(Answer, Option<Counts>), String> {
    let should = conditions::of_counts(numbers, custom);
    let mut first: Option<Counts> = None;
    for converter in converters {
        let Some((answer, counts)) = called(&**converter, random, numbers, custom)? else {
            continue;
        };
        let name = converter.name();
        if answer != should {
            let (is, should) = (answer_text(&answer), answer_text(&should));
            return Err(format!("{name} answers {is}, should answer {should}"));
        }
        if answer.is_ok() {
            equal_counts(name, &counts, first.get_or_insert(counts))?;
        }
    }
    Ok((should, first))
}

fn equal_counts(name: &str, is: &Counts, should: &Counts) -> Result<(), String> {
    match (0..256).find(|luma| is[*luma] != should[*luma]) {
        None => Ok(()),
        Some(luma) => Err(format!(
            "{name}: luma {luma} has {} colours, should have {}",
            is[luma], should[luma]
        )),
    }
}

/// All colours as a source of three bytes a pixel, each once.
struct AllColours(Vec<u8>);

/// Pixels a side: 4,096 × 4,096 is 16,777,216.
const SIDE: u32 = 4_096;

impl AllColours {
    fn new() -> AllColours {
        let bytes = (0..COLOURS).flat_map(|colour| {
            let [_, r, g, b] = colour.to_be_bytes();
            [r, g, b]
        });
        AllColours(bytes.collect())
    }

    /// How many bytes of each value the luma plane has that the unaltered Rust makes; the library's is
    /// the same. `case` chooses what luma does not depend on.
    fn counts(
        &self,
        converters: &Converters,
        range: YuvRange,
        matrix: YuvStandardMatrix,
        case: usize,
    ) -> Result<Counts, String> {
        let code = |count: usize| (case % count) as u8;
        let has = "a code with a meaning";
        let settings = Settings {
            channels: channels_of(3 * code(2)).expect(has),
            sampling: sampling_of(code(2)).expect(has),
            range,
            matrix,
            transfer: transfer_of(code(4)).expect(has),
            rounding: TableRounding::Truncated,
        };
        let shapes = shapes(SIDE, SIDE, (SIDE, SIDE), &settings);
        let [source_stride, y_stride, u_stride, v_stride] = shapes.map(|shape| shape.row as u32);
        let frame = Frame {
            w: SIDE,
            h: SIDE,
            window: Window::whole(SIDE, SIDE),
            settings,
            source_stride,
            y_stride,
            u_stride,
            v_stride,
        };
        let mut planes = [1, 2, 3].map(|i| vec![0; (shapes[i].row * shapes[i].rows) as usize]);
        let [y, u, v] = &mut planes;
        oracle::unaltered::frame(&frame, &self.0, y, u, v)
            .map_err(|error| format!("the unaltered Rust: {error:?}"))?;
        let luma = planes[0].clone();
        // The last is the library, where it is linked.
        let last = converters.last().expect("a converter");
        let [y, u, v] = &mut planes;
        y.fill(0);
        let answer = last.frame(&frame, &self.0, y, u, v);
        if answer.is_err() || *y != luma {
            return Err(format!(
                "{}: another luma plane of all colours",
                last.name()
            ));
        }
        let mut counts = [0; 256];
        for byte in luma {
            counts[usize::from(byte)] += 1;
        }
        Ok(counts)
    }
}

/// Numbers that are refused, with 1 three of four times. Where 1 holds, 4 often does too.
fn refused(random: &mut Random) -> (Vec<u32>, [f32; 2]) {
    let mut numbers = vec![random.from(0, 1), random.from(0, 6)];
    let custom = match random.below(4) {
        0 => random::any_accepted_pair(random),
        _ => random::refused_pair(random),
    };
    match random.below(4) {
        0 => {
            let count = random.pick(&[0, 1, 3, 4, 10, 16]);
            numbers.resize(count, random.from(0, 6));
        }
        1 => numbers[0] = random.pick(&[2, 3, 6, 255, 256, 257, 65_536, 1 << 31, u32::MAX]),
        2 => numbers[1] = random.pick(&[7, 8, 255, 256, 261, 262, 65_542, 1 << 31, u32::MAX]),
        _ => {
            numbers[1] = CUSTOM;
            let (kr, kb) = random::refused_pair(random);
            return (numbers, [kr, kb]);
        }
    }
    (numbers, [custom.0, custom.1])
}

/// So many of the named matrices and ranges, so many Custom pairs, and then refused calls.
pub fn check(
    tables: u64,
    pairs: u64,
    seed: u64,
    converters: &Converters,
) -> Result<String, String> {
    let colours = AllColours::new();
    let total = |counts: &Counts| counts.iter().sum::<u32>();
    let one = |numbers: [u32; 2], custom: [f32; 2], by_rust: Option<usize>| {
        let mut random = Random::new(seed, 8, u64::from(numbers[1]));
        let what = format!("luma counts, {numbers:?} {custom:?}");
        let wrong = |text: String| format!("{what}: {text}");
        let (answer, counts) =
            counted(converters, &mut random, &numbers, &custom).map_err(wrong)?;
        let Some(counts) = counts else {
            return Err(wrong(format!("answered {}", answer_text(&answer))));
        };
        if total(&counts) != COLOURS {
            return Err(wrong(format!("{} colours in all", total(&counts))));
        }
        let range = range_of(numbers[0] as u8).expect("a range");
        let custom = YuvStandardMatrix::Custom(custom[0], custom[1]);
        let matrix = matrix_of(numbers[1] as u8).unwrap_or(custom);
        if let Some(case) = by_rust {
            let rust = colours
                .counts(converters, range, matrix, case)
                .map_err(wrong)?;
            equal_counts(converters[0].name(), &counts, &rust).map_err(wrong)?;
        }
        Ok(counts)
    };
    let any_custom = |random: &mut Random| {
        let (kr, kb) = match random.below(2) {
            0 => random::refused_pair(random),
            _ => random::any_accepted_pair(random),
        };
        [kr, kb]
    };
    for (case, codes) in TABLES.into_iter().take(tables as usize).enumerate() {
        // kr and kb are not looked at here.
        let custom = any_custom(&mut Random::new(seed, 9, case as u64));
        let counts = one(codes.map(u32::from), custom, Some(case))?;
        // The worked line: Bt601 Full.
        if codes == [1, 0] && [counts[0], counts[255]] != [7, 7] {
            return Err(format!("Bt601 Full: {} and {}", counts[0], counts[255]));
        }
    }
    for case in 0..pairs {
        let mut random = Random::new(seed, 10, case);
        let (kr, kb) = random::any_accepted_pair(&mut random);
        let by_rust = (case % BY_RUST == 0).then_some((case / BY_RUST) as usize);
        one([random.from(0, 1), CUSTOM], [kr, kb], by_rust)?;
    }
    let mut answers: BTreeMap<u8, u64> = BTreeMap::new();
    for case in 0..REFUSED * pairs {
        let mut random = Random::new(seed, 11, case);
        let (numbers, custom) = refused(&mut random);
        let (answer, _) = counted(converters, &mut random, &numbers, &custom)
            .map_err(|wrong| format!("luma counts, {numbers:?} {custom:?}: {wrong}"))?;
        let number = answer.map_or_else(|refusal| refusal.number, |()| 0);
        *answers.entry(number).or_default() += 1;
    }
    let refused: Vec<String> = (answers.iter())
        .map(|(number, count)| format!("{number}: {count}"))
        .collect();
    let by_rust = pairs.div_ceil(BY_RUST);
    Ok(format!(
        "luma counts: {} of 12 named and {pairs} Custom equal, {} of them in the Rust's luma of \
         {COLOURS} colours too, refused {}",
        tables.min(12),
        tables.min(12) + by_rust,
        refused.join(", ")
    ))
}

/// The inputs of the built program that counts: all that it takes, none, one byte, and others of up to
/// four.
pub fn check_program(inputs: u64, seed: u64, program: &Program) -> Result<String, String> {
    let mut list: Vec<Vec<u8>> = TABLES.map(Vec::from).into();
    list.extend([
        vec![],
        vec![0],
        vec![1],
        vec![0, 6],
        vec![2, 0],
        vec![1, 0, 0],
    ]);
    for case in 0..inputs {
        let mut random = Random::new(seed, 12, case);
        let length = random.below(5) as usize;
        let bytes = random.bytes(length);
        let most = random.pick(&[2, 8, 255]);
        // Few of these are accepted, which take long.
        list.push(bytes.into_iter().map(|byte| byte % most).collect());
    }
    for input in &list {
        let (is, should) = (program.output(input), model::luma_counts_program(input));
        if is != should {
            let text = String::from_utf8_lossy(&is).into_owned();
            return Err(format!(
                "inputs of the program that counts: {input:?} prints {text}"
            ));
        }
    }
    Ok(format!("{} inputs of the program that counts", list.len()))
}
