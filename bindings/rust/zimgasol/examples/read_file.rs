//! Reads a saved guest: a file of QEMU's `migrate file:`, or one that `zimgasol save` made.
//!
//! ```text
//! cargo run --example read_file FILE [OUTPUT]
//! ```
//!
//! It finds the blocks in the file's first bytes, loads the file into blocks of zeros, and prints
//! what it has. It writes the blocks to OUTPUT, one after another. Status 1: the stream has a fault,
//! or lacks pages.

use std::env;
use std::error::Error;
use std::fs::File;
use std::io::{Read, Write};
use std::process::ExitCode;
use zimgasol::{Frame, Load, LoadSettings, PageSize, Source, Table, Verdict};

/// How much memory a guest may have. The file says how much it wants.
const LIMIT: u64 = 64 << 30;

/// Finds the table in the first bytes of a file. Returns it with these bytes.
fn find_table(file: &mut File) -> Result<(Table, Vec<u8>), Box<dyn Error>> {
    let mut first = Vec::new();
    loop {
        let read = file.take(65_536).read_to_end(&mut first)?;
        if let Some(table) = Table::of_stream(Frame::Machine, PageSize::Small, &first)? {
            return Ok((table, first));
        }
        if read == 0 {
            return Err("the file ends before its table".into());
        }
    }
}

fn main() -> Result<ExitCode, Box<dyn Error>> {
    let words: Vec<_> = env::args().skip(1).collect();
    let [name, output @ ..] = words.as_slice() else {
        return Err("read_file FILE [OUTPUT]".into());
    };
    let mut file = File::open(name)?;
    let (table, first) = find_table(&mut file)?;
    let total: u64 = table.blocks().map(|(_, pages)| pages * 4096).sum();
    if total > LIMIT {
        return Err(format!("the guest wants {total} bytes").into());
    }
    // (zeros take no memory of the system until they are written)
    let mut blocks: Vec<_> =
        table.blocks().map(|(_, pages)| vec![0u8; pages as usize * 4096]).collect();
    let settings = LoadSettings { frame: Frame::Machine, zero_blocks: true, ..Default::default() };
    let slices = blocks.iter_mut().map(Vec::as_mut_slice).collect();
    let mut load = Load::single(&table, slices, &settings)?;
    load.feed(Source::Main, &first)?;
    load.read_from(&mut file)?;
    let (verdict, standing) = (load.verdict(), load.standing());
    drop(load);
    if let Verdict::Fault(fault) = verdict {
        eprintln!("{name}: {fault}");
        return Ok(ExitCode::FAILURE);
    }
    for (id, pages) in table.blocks() {
        println!("{id}: {pages} pages");
    }
    println!("sections {}, pages missing {}", standing.rounds, standing.missing);
    if let [output, ..] = output {
        let mut output = File::create(output)?;
        blocks.iter().try_for_each(|block| output.write_all(block))?;
    }
    Ok(if standing.missing == 0 { ExitCode::SUCCESS } else { ExitCode::FAILURE })
}
