//! Receives a guest over TCP, on a main stream and channels, as QEMU sends it with `multifd`.
//!
//! ```text
//! cargo run --example receive ADDRESS CHANNELS ID=PAGES ..
//! ```
//!
//! It listens on ADDRESS, and takes 1 + CHANNELS connections in any order. A main stream begins with
//! `QEVM`. The blocks are those of the guest, each with its pages of 4096 bytes. Where all rounds
//! are in, it answers on the main connection as QEMU does with a return path. It prints how the load
//! stands. Status 1: the streams have a fault, or lack pages.

use std::env;
use std::error::Error;
use std::io::Write;
use std::net::{TcpListener, TcpStream};
use std::process::ExitCode;
use zimgasol::{Frame, Load, LoadSettings, PageSize, Table, receive};

/// QEMU's answer on the return path: the guest is whole.
const ANSWER: [u8; 8] = [0, 1, 0, 4, 0, 0, 0, 0];

/// Takes the connections: the main one, and those of the channels.
fn connections(
    listener: &TcpListener,
    channels: usize,
) -> Result<(TcpStream, Vec<TcpStream>), Box<dyn Error>> {
    let (mut main, mut others) = (None, Vec::new());
    for _ in 0..=channels {
        let (connection, _) = listener.accept()?;
        let mut first = [0; 4];
        while connection.peek(&mut first)? < 4 {}
        if &first == b"QEVM" {
            main = Some(connection);
        } else {
            others.push(connection);
        }
    }
    Ok((main.filter(|_| others.len() == channels).ok_or("there isn't one main stream")?, others))
}

fn block(word: &str) -> Result<(&str, u64), Box<dyn Error>> {
    let (id, pages) = word.rsplit_once('=').ok_or("a block is ID=PAGES")?;
    Ok((id, pages.parse()?))
}

fn main() -> Result<ExitCode, Box<dyn Error>> {
    let words: Vec<_> = env::args().skip(1).collect();
    let [address, channels, blocks @ ..] = words.as_slice() else {
        return Err("receive ADDRESS CHANNELS ID=PAGES ..".into());
    };
    let blocks = blocks.iter().map(|it| block(it)).collect::<Result<Vec<_>, _>>()?;
    let table = Table::new(PageSize::Small, &blocks)?;
    let mut memory: Vec<_> =
        blocks.iter().map(|(_, pages)| vec![0u8; *pages as usize * 4096]).collect();
    let listener = TcpListener::bind(address)?;
    println!("listening on {}", listener.local_addr()?);
    let (main, others) = connections(&listener, channels.parse()?)?;
    let settings = LoadSettings { frame: Frame::Machine, zero_blocks: true, ..Default::default() };
    let slices = memory.iter_mut().map(Vec::as_mut_slice).collect();
    let mut load = Load::channels(&table, slices, &[0; 16], others.len(), &settings)?;
    let mut back = main.try_clone()?;
    let received = receive::channels(&mut load, main, others, move |_| {
        // (a sender without a return path reads none, and may be gone)
        let _sent = back.write_all(&ANSWER);
    });
    match received {
        Ok(received) => {
            let standing = received.standing;
            println!("received: rounds {}, pages missing {}", standing.rounds, standing.missing);
            Ok(if standing.missing == 0 { ExitCode::SUCCESS } else { ExitCode::FAILURE })
        }
        Err(error) => {
            eprintln!("not received: {error}");
            Ok(ExitCode::FAILURE)
        }
    }
}
