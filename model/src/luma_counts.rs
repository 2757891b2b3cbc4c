//! The program that prints how many colours have each luma, as the model has it.

use std::io::{Read, Write};

fn main() -> std::io::Result<()> {
    let mut input = Vec::new();
    std::io::stdin().read_to_end(&mut input)?;
    std::io::stdout().write_all(&model::luma_counts_program(&input))
}
