//! Sends and loads the memory of guests in two layouts of QEMU's live migration: the RAM section of
//! the migration stream, and multifd, where pages travel on several channels beside a main stream.
//!
//! What a call does is proved of the library for C behind this crate, for any bytes. That holds
//! where its caller keeps to the rules of its header, which this crate does by types: a handle is
//! owned, used by one thread at a time and freed once, a load has the only reference to its blocks,
//! and the workers of a round can't outlive it.
//!
//! | Module | What it has |
//! |---|---|
//! | [`table`](Table) | the page size of a guest, and its RAM blocks |
//! | [`load`](Load) | loads of one stream, or of a main stream and its channels |
//! | [`receive`] | threads that receive a guest, a connection each |
//! | [`send`](Sender) | sends of one stream, or on several channels |
//! | [`mapped`] | files with mapped-ram, in which each page has an offset of its own |
//!
//! Two of its pages are sent as one stream, and loaded:
//!
//! ```
//! use zimgasol::{Load, LoadSettings, PageSize, Place, SendSettings, Sender, Source, Table, Verdict};
//!
//! # fn main() -> Result<(), Box<dyn std::error::Error>> {
//! let table = Table::new(PageSize::Small, &[("pc.ram", 2)])?;
//! let mut stream = Vec::new();
//! let mut sender = Sender::new(&table, &SendSettings::single())?;
//! let mut round = sender.begin_round()?;
//! round.put_page(Place { block: 0, page: 1 }, &[7; 4096])?;
//! round.end()?;
//! sender.finish()?;
//! sender.drain_to(Source::Main, &mut stream)?;
//!
//! let mut ram = vec![0; 2 * 4096];
//! let settings = LoadSettings { zero_blocks: true, ..LoadSettings::default() };
//! let mut load = Load::single(&table, vec![&mut ram], &settings)?;
//! load.feed(Source::Main, &stream)?;
//! load.end(Source::Main)?;
//! assert_eq!(load.verdict(), Verdict::Done);
//! assert_eq!(load.standing().missing, 1);
//! drop(load);
//! assert_eq!(ram[4096..], [7; 4096]);
//! # Ok(())
//! # }
//! ```
#![warn(missing_docs)]

mod error;
mod load;
pub mod mapped;
pub mod receive;
mod send;
mod table;

pub use error::Error;
pub use load::{Fed, Frame, Load, LoadSettings, Next, RoundEnd, SourceBytes, Standing, Verdict};
pub use send::{Batch, ChannelRound, Place, Round, SendSettings, Sender, Worker};
pub use table::{PageSize, Table};
pub use zimgasol_sys as sys;

/// A source of a load, or of a send: the only stream or the main one, or a channel from 0 on.
#[derive(Clone, Copy, Debug, PartialEq, Eq, Hash)]
pub enum Source {
    /// The only stream, or the main one.
    Main,
    /// A channel. Its number is that of the caller's connection: its hello may have another id.
    Channel(usize),
}

impl Source {
    fn number(self) -> usize {
        match self {
            Source::Main => sys::ZIMGASOL_MAIN,
            Source::Channel(j) => j.saturating_add(1),
        }
    }
}

/// Returns the library's version, as `10000 * major + 100 * minor + patch`.
pub fn version() -> u32 {
    // SAFETY: it takes nothing.
    unsafe { sys::zimgasol_version() }
}
