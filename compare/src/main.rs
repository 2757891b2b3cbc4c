//! Compares the model of the rules, the oracle, which is the Rust over the exact tables, the linked
//! library and the built program on random requests. Exit status 1 where anything differs.

mod bands;
mod calls;
mod check;
mod conditions;
mod converter;
mod convoy;
mod convoy_list;
mod convoy_mistakes;
mod counts;
mod desk;
mod desk_list;
mod desk_met;
mod desk_mistakes;
mod desk_random;
mod grey;
#[cfg(library)]
mod library;
mod mistakes;
mod pairings;
mod pairs;
mod program;
mod random;
mod request;
mod sequences;
mod shift;
mod shifts;
mod smaller;
mod stored;
mod summaries;
mod summary;
mod vectors;
mod worked;
mod y4m;
mod y4m_list;
mod y4m_mistakes;

use check::{CATCHING, Case, Converters, band_of, checked, frame_of, smallest};
use grey::{GreyFrame, GreyInput, GreyRun};
use model::{YuvRange, YuvStandardMatrix};
use pairs::Pairing;
use random::Random;
use request::{Lent, band_vector, frame_vector, program_vector};
use shift::{Making, Moving, Reading, Shift, ShiftForm, Writing};
use std::collections::{BTreeMap, BTreeSet};
use std::path::Path;
use std::process::exit;
use std::sync::atomic::Ordering;
use std::time::Instant;
use summary::Summing;
use y4m::{Film, Picture};

const USAGE: &str = "compare [--quick] [OPTION NUMBER]..
compare --vectors ROOT | --check ROOT | --mistakes | --flat

  --quick        a tenth of each number below, of the tables 2, for a first look
  --frames N     random frame calls (200000)
  --calls N      random band calls on any state (60000)
  --runs N       frames cut into bands, with refused calls between them (40000)
  --programs N   inputs of the program (20000), a fifth of them run by target/bin/frame where it is there;
                 a tenth as many grey ones
  --pairs N      Custom pairs whose nine weights are compared (1000000)
  --greys N      frame calls whose rectangle is grey, small (100000)
  --grey-runs N  frames cut into bands whose first rows are grey (20000)
  --tables N     named matrices and ranges, of 12, whose counts of colours are compared (12)
  --counts N     Custom pairs whose counts of colours are compared (200), and 100 times as many refused calls
  --shifts N     shift files that are read, good and broken (100000); a half as many lists of records that are
                 written, a fifth as many records made from planes, a hundredth as many lists of frames that are
                 converted, made records, written and read back; as many of each with settings, the files read
                 being of either form, and as many files moved forward, and moved back
  --summaries N  summaries of shift files that are built, as many that are checked, looked up and updated (100000
                 each), good and damaged ones, of good files and broken ones; a thousandth as many of files that
                 have 4,094 to 4,096 records, updated; as many calls in all on files of either form
  --paired N     shift files that are paired with one like them (100000), as many frames with bits flipped, half
                 as many files good and broken, a thousandth as many of 4,096 records; and every bit of small frames;
                 as many of each with files of either form
  --y4m N        Y4M files that are read, good and broken (200000); half as many written, half as many pictures
                 written from planes, a hundredth as many lists of frames that are converted, written and read
                 back; and every byte of small files changed, left out and added
  --convoys N    convoys (50000) of up to 64 frames and some more, of sides up to 17, good and broken, against single
                 frame calls in order
  --desks N      histories of a front desk (10000): openings, offers and steps of up to 32 cameras, of sides up to 9,
                 good and broken, one in six on a desk that no call made, against single band calls and frame calls
  --side N       sizes to N by N (64); some are 1,920 by 1,080, some up to 16,384 long and thin;
                 four of five lie in a source that is larger by up to 18 each way, or all it may be
  --seed N       seed of all of these (1)
  --list N       print N requests of each kind with their answers, compared, and do nothing else

A mismatch is printed as the smallest request found that shows it, in the form of --list.

  --vectors ROOT   write the stored lists of frame calls, band sequences, calls on shift files and on
                   summaries, pairings, calls on Y4M files, convoys, and desk histories into the repository ROOT
  --check ROOT     say whether the lists in ROOT are what --vectors writes
  --mistakes       for each mistake near at hand the call made for it, and how many calls catch it;
                   for each way to lose tables or window between calls, and for each mistake in a
                   condition of bands, the first sequence that catches it, and how many do; the same
                   of mistakes in a reader or a writer of shift files, in a call on summaries, in a
                   pairing, in a reader or a writer of Y4M files, in a call on a convoy, and in the front desk
  --flat           for each transfer and rounding, how many of the 256 values of a flat channel
                   come back through both tables, and how far off the others are at most";

/// One in so many inputs is run by the built program too: a process takes a millisecond.
const RUN: u64 = 5;

/// One grey input is compared for so many others.
const GREY: u64 = 10;

/// Bytes of a request that --list still prints.
const LONGEST_LISTED: usize = 10_000;

struct Options {
    frames: u64,
    calls: u64,
    runs: u64,
    programs: u64,
    pairs: u64,
    greys: u64,
    grey_runs: u64,
    tables: u64,
    counts: u64,
    shifts: u64,
    summaries: u64,
    paired: u64,
    y4m: u64,
    convoys: u64,
    desks: u64,
    side: u64,
    seed: u64,
    list: u64,
}

fn options() -> Option<Options> {
    let mut options = Options {
        frames: 200_000,
        calls: 60_000,
        runs: 40_000,
        programs: 20_000,
        pairs: 1_000_000,
        greys: 100_000,
        grey_runs: 20_000,
        tables: 12,
        counts: 200,
        shifts: 100_000,
        summaries: 100_000,
        paired: 100_000,
        y4m: 200_000,
        convoys: 50_000,
        desks: 10_000,
        side: 64,
        seed: 1,
        list: 0,
    };
    let mut words = std::env::args().skip(1);
    while let Some(word) = words.next() {
        let option = match word.as_str() {
            "--quick" => {
                options.frames /= 10;
                options.calls /= 10;
                options.runs /= 10;
                options.programs /= 10;
                options.pairs /= 10;
                options.greys /= 10;
                options.grey_runs /= 10;
                options.tables = 2;
                options.counts /= 10;
                options.shifts /= 10;
                options.summaries /= 10;
                options.paired /= 10;
                options.y4m /= 10;
                options.convoys /= 10;
                options.desks /= 10;
                continue;
            }
            "--frames" => &mut options.frames,
            "--calls" => &mut options.calls,
            "--runs" => &mut options.runs,
            "--programs" => &mut options.programs,
            "--pairs" => &mut options.pairs,
            "--greys" => &mut options.greys,
            "--grey-runs" => &mut options.grey_runs,
            "--tables" => &mut options.tables,
            "--counts" => &mut options.counts,
            "--shifts" => &mut options.shifts,
            "--summaries" => &mut options.summaries,
            "--paired" => &mut options.paired,
            "--y4m" => &mut options.y4m,
            "--convoys" => &mut options.convoys,
            "--desks" => &mut options.desks,
            "--side" => &mut options.side,
            "--seed" => &mut options.seed,
            "--list" => &mut options.list,
            _ => return None,
        };
        *option = words.next()?.parse().ok()?;
    }
    (1..=16_384).contains(&options.side).then_some(options)
}

fn main() {
    // A panic in a comparison is reported with the request that brings it about.
    std::panic::set_hook(Box::new(|panic| {
        if !CATCHING.load(Ordering::Relaxed) {
            eprintln!("{panic}");
        }
    }));
    let converters = converter::converters();
    // Lists are made of the model and the oracle, also where the library is linked.
    if let Some(result) = told(&converters[..2]) {
        println!("{}", result.as_ref().unwrap_or_else(|wrong| wrong));
        exit(i32::from(result.is_err()));
    }
    let Some(options) = options() else {
        eprintln!("{USAGE}");
        exit(2);
    };
    if options.list > 0 {
        list(&options, &converters);
        return;
    }
    let start = Instant::now();
    let names: Vec<&str> = converters
        .iter()
        .map(|converter| converter.name())
        .collect();
    println!("comparing {} with seed {}", names.join(", "), options.seed);
    match worked::check(&converters) {
        Ok(held) => println!("worked lines: {held} facts hold"),
        Err(wrong) => {
            println!("{}", wrong.join("\n"));
            exit(1);
        }
    }
    pairs(&options);
    let side = options.side as u32;
    let seed = options.seed;
    compare("frame calls", options.frames, &converters, |case| {
        random::frame(&mut Random::new(seed, 1, case), side)
    });
    compare("band calls", options.calls, &converters, |case| {
        random::band(&mut Random::new(seed, 2, case), side)
    });
    compare("frames in bands", options.runs, &converters, |case| {
        random::run(&mut Random::new(seed, 3, case), side)
    });
    compare("grey frame calls", options.greys, &converters, |case| {
        GreyFrame::random(&mut Random::new(seed, 6, case))
    });
    compare(
        "grey frames in bands",
        options.grey_runs,
        &converters,
        |case| GreyRun::random(&mut Random::new(seed, 7, case)),
    );
    timed(|| grey::changed(seed, &converters));
    timed(|| counts::check(options.tables, options.counts, seed, &converters));
    if let Some(built) = program::Program::built(COUNTING) {
        timed(|| counts::check_program(options.counts, seed, &built));
    } else {
        println!("target/bin/{COUNTING} is not here: it was run on no input");
    }
    shifts(&options, &converters);
    summaries(&options, &converters);
    paired(&options, &converters);
    y4m(&options, &converters);
    timed(|| convoy::check(options.convoys, seed, &converters));
    timed(|| desk::check(options.desks, seed, &converters));
    let input = |case| random::input(&mut Random::new(seed, 4, case), side);
    let grey_input = |case| GreyInput::random(&mut Random::new(seed, 13, case));
    compare("program inputs", options.programs, &converters, input);
    let greys = options.programs / GREY;
    compare("grey program inputs", greys, &converters, grey_input);
    if let Some(built) = program::Program::built("frame") {
        let mut converters = converters;
        converters.push(Box::new(built));
        let inputs = options.programs / RUN;
        compare("inputs run by target/bin/frame", inputs, &converters, input);
        let (kind, greys) = ("grey inputs run by it", greys / RUN);
        compare(kind, greys, &converters, grey_input);
    } else {
        println!("target/bin/frame is not here: it was run on no input");
    }
    println!("all equal, {:.1} s", start.elapsed().as_secs_f64());
}

/// Shift files: read, written, made from planes, and all of it after frame calls.
fn shifts(options: &Options, converters: &Converters) {
    let (seed, side, files) = (options.seed, options.side as u32, options.shifts);
    compare("shift files read", files, converters, |case| {
        Reading::random(&mut Random::new(seed, 14, case))
    });
    compare("shift files written", files / 2, converters, |case| {
        Writing::random(&mut Random::new(seed, 15, case))
    });
    compare("records from planes", files / 5, converters, |case| {
        Making::random(&mut Random::new(seed, 16, case), side)
    });
    let kind = "lists of frames in shift files";
    compare(kind, files / 100, converters, |case| {
        Shift::random(&mut Random::new(seed, 17, case), side)
    });
    compare("files of either form read", files, converters, |case| {
        Reading::either(&mut Random::new(seed, 40, case))
    });
    compare(
        "files with settings written",
        files / 2,
        converters,
        |case| Writing::with_settings(&mut Random::new(seed, 41, case)),
    );
    let kind = "records with settings from planes";
    compare(kind, files / 5, converters, |case| {
        Making::with_settings(&mut Random::new(seed, 42, case), side)
    });
    let kind = "lists of frames in files with settings";
    compare(kind, files / 100, converters, |case| {
        Shift::with_settings(&mut Random::new(seed, 43, case), side)
    });
    compare("files moved forward", files, converters, |case| {
        Moving::forward(&mut Random::new(seed, 44, case))
    });
    compare("files moved back", files, converters, |case| {
        Moving::back(&mut Random::new(seed, 45, case))
    });
}

/// Summaries of shift files: built, checked, looked up and updated.
fn summaries(options: &Options, converters: &Converters) {
    let (seed, files) = (options.seed, options.summaries);
    type Make = fn(&mut Random) -> Summing;
    for (kind, stream, files, make) in [
        ("summaries built", 18, files, Summing::build as Make),
        ("summaries checked", 19, files, Summing::check),
        ("records found by crossing", 21, files, Summing::find),
        ("summaries updated", 22, files, Summing::update),
        ("summaries of full files", 23, files / 1_000, summary::full),
        ("calls on files of either form", 46, files, Summing::either),
        (
            "summaries of full files with settings",
            47,
            files / 1_000,
            summary::full_with_settings,
        ),
    ] {
        compare(kind, files, converters, |case| {
            make(&mut Random::new(seed, stream, case))
        });
    }
}

/// Two shift files paired.
fn paired(options: &Options, converters: &Converters) {
    let (seed, files) = (options.seed, options.paired);
    type Make = fn(&mut Random) -> Pairing;
    for (kind, stream, files, make) in [
        ("shift files paired", 24, files, Pairing::changed as Make),
        ("frames with bits flipped", 26, files, Pairing::flipped),
        ("any two files", 27, files / 2, Pairing::any),
        ("full files paired", 28, files / 1_000, Pairing::full),
        ("files of either form paired", 48, files, Pairing::mixed),
        (
            "frames with settings and bits flipped",
            49,
            files,
            Pairing::flipped_with_settings,
        ),
        (
            "any two files of either form",
            50,
            files / 2,
            Pairing::any_mixed,
        ),
        (
            "full files of either form paired",
            51,
            files / 1_000,
            Pairing::full_mixed,
        ),
    ] {
        compare(kind, files, converters, |case| {
            make(&mut Random::new(seed, stream, case))
        });
    }
    for form in [ShiftForm::WithoutSettings, ShiftForm::WithSettings] {
        timed(|| pairs::every_bit(form, converters));
    }
}

/// Y4M files: read, written at once and picture by picture, and all of it after frame calls.
fn y4m(options: &Options, converters: &Converters) {
    let (seed, side, files) = (options.seed, options.side as u32, options.y4m);
    compare("Y4M files read", files, converters, |case| {
        y4m::Reading::random(&mut Random::new(seed, 60, case))
    });
    compare("Y4M files written", files / 2, converters, |case| {
        y4m::Writing::random(&mut Random::new(seed, 61, case))
    });
    compare("pictures from planes", files / 2, converters, |case| {
        Picture::random(&mut Random::new(seed, 62, case), side)
    });
    let kind = "lists of frames in Y4M files";
    compare(kind, files / 100, converters, |case| {
        Film::random(&mut Random::new(seed, 63, case), side)
    });
    if files > 0 {
        timed(|| y4m::every_byte(converters));
    }
}

/// The program that counts colours.
const COUNTING: &str = "luma_counts";

/// Prints what is said and how long it took; what is wrong ends the run.
fn timed(check: impl Fn() -> Result<String, String>) {
    let start = Instant::now();
    match check() {
        Ok(said) => println!("{said}, {:.1} s", start.elapsed().as_secs_f64()),
        Err(wrong) => {
            println!("{wrong}");
            exit(1);
        }
    }
}

type OnList = fn(&Path, &Converters) -> Result<String, String>;

/// The lists of frame calls, of band sequences, of calls on shift files, of calls on summaries, of
/// pairings, of calls on Y4M files, of convoys and of desk histories: what is said of all, an error where one is wrong.
fn each(root: &Path, converters: &Converters, lists: [OnList; 8]) -> Result<String, String> {
    let said = lists.map(|list| list(root, converters));
    let wrong = said.iter().any(Result::is_err);
    let all = said.map(|said| said.unwrap_or_else(|wrong| wrong));
    if wrong {
        Err(all.join("\n"))
    } else {
        Ok(all.join("\n"))
    }
}

/// What an option that compares no random request asks for, where one is given.
fn told(converters: &Converters) -> Option<Result<String, String>> {
    let words: Vec<String> = std::env::args().skip(1).collect();
    let words: Vec<&str> = words.iter().map(String::as_str).collect();
    match words[..] {
        ["--vectors", root] => Some(each(
            Path::new(root),
            converters,
            [
                vectors::write,
                bands::write,
                shifts::write,
                summaries::write,
                pairings::write,
                y4m_list::write,
                convoy_list::write,
                desk_list::write,
            ],
        )),
        ["--check", root] => Some(each(
            Path::new(root),
            converters,
            [
                vectors::check,
                bands::check,
                shifts::check,
                summaries::check,
                pairings::check,
                y4m_list::check,
                convoy_list::check,
                desk_list::check,
            ],
        )),
        ["--mistakes"] => Some(vectors::report(converters).and_then(|frames| {
            let sequences = bands::report(converters)?;
            let shifts = shifts::report(converters)?;
            let summaries = summaries::report(converters)?;
            let pairings = pairings::report(converters)?;
            let y4m = y4m_list::report(converters)?;
            let convoys = convoy_list::report(converters)?;
            let desks = desk_list::report(converters)?;
            let files = [shifts, summaries, pairings, y4m].join("\n\n");
            Ok([frames, sequences, files, convoys, desks].join("\n\n"))
        })),
        ["--flat"] => Some(Ok(worked::flat_colours())),
        _ => None,
    }
}

fn compare<C: Case>(kind: &str, cases: u64, converters: &Converters, make: impl Fn(u64) -> C) {
    let start = Instant::now();
    let mut answers: BTreeMap<u8, u64> = BTreeMap::new();
    let mut combinations = BTreeSet::new();
    let mut told: BTreeMap<&str, u64> = BTreeMap::new();
    let mut wrong: BTreeMap<&str, u64> = BTreeMap::new();
    let (mut large, mut long, mut inside) = (0, 0, 0);
    for case in 0..cases {
        let request = make(case);
        match checked(&request, converters) {
            Ok(number) => {
                *answers.entry(number).or_default() += 1;
                combinations.extend(request.combination().filter(|_| number == 0));
                if let Some(said) = request.told() {
                    *told.entry(said).or_default() += 1;
                }
                if let Some(said) = request.wrong() {
                    *wrong.entry(said).or_default() += 1;
                }
                let (w, h) = request.size().filter(|_| number == 0).unwrap_or((0, 0));
                large += u64::from((w, h) == (1_920, 1_080));
                long += u64::from(w.max(h) == 16_384);
                inside += u64::from(number == 0 && request.is_inside());
            }
            Err(wrong) => {
                println!("{kind}: case {case}: {wrong}");
                let (request, wrong) = smallest(&request, converters, wrong);
                println!("smallest found: {wrong}\n{}", request.text());
                exit(1);
            }
        }
    }
    let accepted = answers.remove(&0).unwrap_or(0);
    let mut text = format!("{kind}: {cases} equal, {accepted} accepted");
    if !combinations.is_empty() {
        let combinations = combinations.len();
        text += &format!(
            " ({combinations} of 3584 combinations, {large} of 1920 by 1080, {long} with a side of 16384)"
        );
    }
    if !told.is_empty() {
        text += &format!(" ({})", counted(&told));
    }
    if inside > 0 {
        text += &format!(", {inside} of them inside a larger source");
    }
    if !answers.is_empty() {
        text += &format!(", refused {}", counted(&answers));
    }
    if !wrong.is_empty() {
        text += &format!(" ({})", counted(&wrong));
    }
    println!("{text}, {:.1} s", start.elapsed().as_secs_f64());
}

/// `4:2:0: 7, 4:2:2: 9`.
fn counted<T: std::fmt::Display>(counts: &BTreeMap<T, u64>) -> String {
    let each = |(said, count): (&T, &u64)| format!("{said}: {count}");
    counts.iter().map(each).collect::<Vec<_>>().join(", ")
}

/// The nine weights of Custom pairs in the model and in the Rust, both ranges.
fn pairs(options: &Options) {
    for case in 0..options.pairs {
        let mut random = Random::new(options.seed, 5, case);
        let (kr, kb) = random::accepted_pair(&mut random);
        for range in [YuvRange::Limited, YuvRange::Full] {
            let matrix = YuvStandardMatrix::Custom(kr, kb);
            let is = model::matrix::weights(matrix, range);
            let rust = oracle::exact::weights(matrix, range, true);
            if is != rust {
                println!("{matrix:?} {range:?}: model {is:?}, oracle {rust:?}");
                exit(1);
            }
        }
    }
    println!("Custom pairs: {} with equal weights", options.pairs);
}

/// Requests and their answers, each compared before it is printed. Long ones are left out.
fn list(options: &Options, converters: &Converters) {
    let side = options.side as u32;
    let random = |kind, case| Random::new(options.seed, kind, case);
    let count = options.list as usize;
    let short = |lent: &Lent| lent.iter().map(Vec::len).sum::<usize>() <= LONGEST_LISTED;

    let frames = (0..).map(|case| random::frame(&mut random(1, case), side));
    for request in frames.filter(|request| short(&request.lent)).take(count) {
        sound(&request, converters);
        let (answer, after) = frame_of(&*converters[0], &request);
        println!("{}", frame_vector(&request, &answer, &after));
    }
    let bands = (0..).map(|case| random::band(&mut random(2, case), side));
    for request in bands.filter(|request| short(&request.lent)).take(count) {
        sound(&request, converters);
        if let Some((state, answer, after)) = band_of(&*converters[0], &request) {
            println!("{}", band_vector(&request, &answer, state.done, &after));
        }
    }
    let inputs = (0..).map(|case| random::input(&mut random(4, case), side));
    for input in inputs
        .filter(|input| input.0.len() <= LONGEST_LISTED)
        .take(count)
    {
        sound(&input, converters);
        if let Some(output) = converters[0].program(&input.0) {
            println!("{}", program_vector(&input.0, &output));
        }
    }
}

fn sound<C: Case>(request: &C, converters: &Converters) {
    if let Err(wrong) = checked(request, converters) {
        println!("{wrong}\n{}", request.text());
        exit(1);
    }
}
