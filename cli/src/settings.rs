//! What the flags say of inputs and of conversion.

use crate::arguments::{Arguments, has_ending};
use crate::files::{self, Input};
use crate::flags::CONVERSION;
use crate::names;
use crate::report::Failure;
use segvartin::{
    SharpYuvGammaTransfer, TableRounding, YuvChromaSubsampling, YuvRange, YuvSourceChannels,
    YuvStandardMatrix,
};
use std::ffi::{OsStr, OsString};

/// Width and height, then left and top.
type Rectangle = ([u32; 2], [u32; 2]);

pub struct Settings {
    pub sampling: YuvChromaSubsampling,
    pub range: YuvRange,
    pub matrix: YuvStandardMatrix,
    pub transfer: SharpYuvGammaTransfer,
    pub rounding: TableRounding,
    pub window: Option<Rectangle>,
    from: Option<String>,
    pub size: Option<[u32; 2]>,
    pub channels: YuvSourceChannels,
    pub stride: Option<u32>,
    /// A flag that only raw pixels take, and one that only pictures do.
    raw_flag: Option<&'static str>,
    conversion_flag: Option<&'static str>,
}

/// What an input is.
#[derive(Clone, Copy, PartialEq, Eq, Debug)]
pub enum Kind {
    Pnm,
    Raw,
    Y4m,
    Shift,
}

impl Settings {
    pub fn of(arguments: &Arguments) -> Result<Settings, Failure> {
        let choice = |name| arguments.choice(name).unwrap_or_default();
        let numbers = |name, form, example| numbers(arguments, name, form, example);
        Ok(Settings {
            sampling: names::sampling(choice("sampling")),
            range: names::range(choice("range")),
            matrix: names::matrix(choice("matrix"), custom(arguments)?),
            transfer: names::transfer(choice("transfer")),
            rounding: names::rounding(choice("tables")),
            window: numbers("window", &['x', '+', '+'], "640x480+1200+300")?
                .map(|n| ([n[0], n[1]], [n[2], n[3]])),
            from: arguments.choice("from").map(str::to_owned),
            size: numbers("size", &['x'], "1920x1080")?.map(|n| [n[0], n[1]]),
            channels: names::channels(choice("pix-fmt")),
            stride: arguments.number("stride")?,
            raw_flag: ["size", "pix-fmt", "stride"]
                .into_iter()
                .find(|flag| arguments.has(flag)),
            conversion_flag: CONVERSION
                .iter()
                .map(|flag| flag.name)
                .find(|flag| arguments.has(flag)),
        })
    }

    /// A picture file says its size itself.
    pub fn check_raw_flags(&self, is_raw: bool) -> Result<(), Failure> {
        match self.raw_flag {
            Some(flag) if !is_raw => {
                let (expected, received) = ("raw pixels", "a picture file");
                let hint = format!("no --{flag}, or --from raw");
                Err(Failure::new(&format!("--{flag}"), expected, received, hint))
            }
            _ => Ok(()),
        }
    }

    /// Planes in a Y4M or shift file are not converted: where no input is a picture, no flag says how.
    pub fn check_conversion_flags(&self, names: &[OsString]) -> Result<(), Failure> {
        let is_picture = |name: &OsString| {
            // What cannot be mapped, a pipe, can be nothing else.
            let kind = files::open_whole(name).map_or(Kind::Pnm, |map| self.kind(name, &map));
            matches!(kind, Kind::Pnm | Kind::Raw)
        };
        match self.conversion_flag {
            Some(flag) if !names.iter().any(is_picture) => {
                let (expected, received) = ("a picture to convert", "planes in a file");
                let hint = format!("no --{flag}, or --from pnm or raw");
                Err(Failure::new(&format!("--{flag}"), expected, received, hint))
            }
            _ => Ok(()),
        }
    }

    /// An input, and what it is. A pipe that cannot be one is not waited for.
    pub fn open(&self, name: &OsStr) -> Result<(Input, Kind), Failure> {
        let kind = self.kind(name, &[]);
        if kind == Kind::Y4m || kind == Kind::Shift {
            return Ok((Input::Map(files::open_whole(name)?), kind));
        }
        let mut input = files::open(name)?;
        let kind = self.kind(name, input.first_bytes()?);
        Ok((input, kind))
    }

    /// By `--from`, by the end of the name, or by the first bytes.
    fn kind(&self, name: &OsStr, first: &[u8]) -> Kind {
        let from = |word, ending| {
            self.from
                .as_deref()
                .map_or_else(|| has_ending(name, ending), |from| from == word)
        };
        if self.is_raw(name) {
            Kind::Raw
        } else if from("y4m", ".y4m") || (self.from.is_none() && first.starts_with(b"YUV4MPEG2")) {
            Kind::Y4m
        } else if from("shift", ".shift") {
            Kind::Shift
        } else {
            Kind::Pnm
        }
    }

    /// Raw pixels cannot be told by their bytes.
    pub fn is_raw(&self, name: &OsStr) -> bool {
        match self.from.as_deref() {
            Some(from) => from == "raw",
            None => has_ending(name, ".rgb") || has_ending(name, ".raw"),
        }
    }
}

/// kr and kb, which a custom matrix needs and another has not.
fn custom(arguments: &Arguments) -> Result<(f32, f32), Failure> {
    let is_custom = arguments.choice("matrix") == Some("custom");
    let one = |name: &str| match (is_custom, arguments.value(name)) {
        (false, None) => Ok(0.0),
        (false, Some(_)) => {
            let (expected, received) = ("--matrix custom", "another matrix");
            let hint = "--matrix custom --kr X --kb Y";
            Err(Failure::new(&format!("--{name}"), expected, received, hint))
        }
        (true, _) => {
            let word = arguments.needed(name)?.to_string_lossy();
            let hint = format!("--{name} 0.25");
            let wrong = |_| Failure::new(&format!("--{name}"), "a number", &word, hint);
            word.parse().map_err(wrong)
        }
    };
    Ok((one("kr")?, one("kb")?))
}

/// The numbers of a flag, with these between them. One that is too large is the largest, which the library refuses.
fn numbers(
    arguments: &Arguments,
    name: &str,
    between: &[char],
    example: &str,
) -> Result<Option<Vec<u32>>, Failure> {
    let Some(word) = arguments.value(name) else {
        return Ok(None);
    };
    let word = word.to_string_lossy();
    let mut rest = &*word;
    let mut numbers = vec![];
    for separator in between {
        let (number, others) = rest.split_once(*separator).unwrap_or(("", ""));
        numbers.push(number);
        rest = others;
    }
    numbers.push(rest);
    let numbers: Option<Vec<u32>> = numbers.into_iter().map(saturated).collect();
    let wrong = || {
        let hint = format!("--{name} {example}");
        Failure::new(
            &format!("--{name}"),
            &format!("it as {example}"),
            &word,
            hint,
        )
    };
    numbers.ok_or_else(wrong).map(Some)
}

fn saturated(digits: &str) -> Option<u32> {
    let is_number = !digits.is_empty() && digits.bytes().all(|byte| byte.is_ascii_digit());
    is_number.then(|| digits.parse().unwrap_or(u32::MAX))
}
