//! How many colours share a luma: RULES 5.3, the call by numbers that tells it, RULES 10.4, and the
//! program that prints it.

use crate::matrix::weights;
use crate::refusals::{Refusal, matrix_accepted};
use crate::row::luma;
use crate::settings::{YuvRange, YuvStandardMatrix, matrix_of, range_of};

/// 256 × 256 × 256.
pub const COLOURS: u32 = 16_777_216;

/// The code of a Custom matrix, which the program's codes do not have.
const CUSTOM: u32 = 6;

/// For each luma byte, how many of all colours r, g, b have it by RULES 5.1. Refused is 4 alone.
pub fn luma_counts(range: YuvRange, matrix: YuvStandardMatrix) -> Result<[u32; 256], Refusal> {
    matrix_accepted(matrix)?;
    let weights = weights(matrix, range);
    let mut counts = [0; 256];
    for r in 0..=255 {
        for g in 0..=255 {
            for b in 0..=255 {
                counts[usize::from(luma(&weights, range, [r, g, b]))] += 1;
            }
        }
    }
    Ok(counts)
}

/// RULES 10.4: exactly two numbers, the codes of range and matrix, 6 for Custom; else 1. kr and kb
/// are looked at where the matrix is Custom only.
pub fn luma_counts_by_numbers(numbers: &[u32], custom: &[f32; 2]) -> Result<[u32; 256], Refusal> {
    let (range, matrix) = read(numbers, custom).ok_or(MALFORMED)?;
    luma_counts(range, matrix)
}

fn read(numbers: &[u32], custom: &[f32; 2]) -> Option<(YuvRange, YuvStandardMatrix)> {
    let [range, matrix] = numbers.try_into().ok()?;
    let code = |number: u32| u8::try_from(number).ok();
    let matrix = match matrix {
        CUSTOM => YuvStandardMatrix::Custom(custom[0], custom[1]),
        named => matrix_of(code(named)?)?,
    };
    Some((range_of(code(range)?)?, matrix))
}

/// The program reads exactly two code bytes, range and matrix, 0 to 5, else it prints `refused 1`;
/// then 256 lines, luma and count in decimal with one space, ascending.
pub fn luma_counts_program(input: &[u8]) -> Vec<u8> {
    let counted = || {
        let [range, matrix] = input.try_into().ok()?;
        luma_counts(range_of(range)?, matrix_of(matrix)?).ok()
    };
    let Some(counts) = counted() else {
        return b"refused 1\n".to_vec();
    };
    let lines = (counts.iter().enumerate()).map(|(luma, count)| format!("{luma} {count}\n"));
    lines.collect::<String>().into_bytes()
}

const MALFORMED: Refusal = Refusal {
    number: 1,
    expected: 0,
    received: 0,
};
