//! Prints each curve table entry of the unaltered Rust, on this machine, that is not the exact
//! truncated one.

use std::process::Command;

fn main() {
    println!("Processor: {}", processor());
    println!("C library: {}", libc());
    println!("Compiler: {}", env!("ORACLE_RUSTC"));
    println!();
    println!("| transfer | table | index | unaltered Rust | exact |");
    println!("|---|---|---|---|---|");
    let (entries, compared) = oracle::differing_entries();
    for entry in &entries {
        println!(
            "| {:?} | {} | {} | {} | {} |",
            entry.transfer, entry.table, entry.index, entry.rust, entry.exact
        );
    }
    println!();
    println!("{} of {compared} entries differ.", entries.len());
}

fn processor() -> String {
    let text = std::fs::read_to_string("/proc/cpuinfo").unwrap_or_default();
    let name = text.lines().find_map(|line| {
        let (key, value) = line.split_once(':')?;
        (key.trim() == "model name").then(|| value.trim().to_string())
    });
    format!(
        "{}, {}",
        std::env::consts::ARCH,
        name.unwrap_or("unknown".into())
    )
}

fn libc() -> String {
    match Command::new("getconf").arg("GNU_LIBC_VERSION").output() {
        Ok(output) => String::from_utf8_lossy(&output.stdout).trim().to_string(),
        Err(_) => "unknown".to_string(),
    }
}
