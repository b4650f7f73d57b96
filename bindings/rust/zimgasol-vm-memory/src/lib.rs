//! Guest memory of rust-vmm's `vm-memory`: loads straight into its regions, and pages that are sent
//! out of them while the guest runs.
//!
//! Each region is a RAM block, in the memory's order, under an id that the caller gives it. Sender
//! and receiver have to name the same blocks.
//!
//! ```
//! use vm_memory::{Bytes, GuestAddress, GuestMemoryMmap};
//! use zimgasol::{LoadSettings, PageSize, Place, SendSettings, Sender, Source, Verdict};
//! use zimgasol_vm_memory::{copy_page, load_into, table_of};
//!
//! # fn main() -> Result<(), Box<dyn std::error::Error>> {
//! let regions = [(GuestAddress(0), 8192), (GuestAddress(1 << 32), 4096)];
//! let (from, to) = (GuestMemoryMmap::<()>::from_ranges(&regions)?, GuestMemoryMmap::<()>::from_ranges(&regions)?);
//! from.write_slice(b"a page", GuestAddress(4096))?;
//!
//! let table = table_of(&from, &["low", "high"], PageSize::Small)?;
//! let (mut sender, mut stream) = (Sender::new(&table, &SendSettings::single())?, Vec::new());
//! let (mut round, mut page) = (sender.begin_round()?, [0; 4096]);
//! let place = Place { block: 0, page: 1 };
//! copy_page(&from, place, &mut page)?;
//! round.put_page(place, &page)?;
//! round.end()?;
//! sender.finish()?;
//! sender.drain_to(Source::Main, &mut stream)?;
//!
//! let settings = LoadSettings { zero_blocks: true, ..LoadSettings::default() };
//! // SAFETY: no guest runs on this memory yet.
//! let mut load = unsafe { load_into(&to, &table, &[], 0, &settings)? };
//! load.feed(Source::Main, &stream)?;
//! load.end(Source::Main)?;
//! assert_eq!(load.verdict(), Verdict::Done);
//! drop(load);
//! let mut read = [0; 6];
//! to.read_slice(&mut read, GuestAddress(4096))?;
//! assert_eq!(&read, b"a page");
//! # Ok(())
//! # }
//! ```
#![warn(missing_docs)]

use std::{fmt, io};
use vm_memory::{Bytes, GuestMemory, GuestMemoryRegion, MemoryRegionAddress};
use zimgasol::{Error, Load, LoadSettings, PageSize, Place, Table};

/// Why a memory isn't one that can be sent or loaded.
#[derive(Debug)]
pub enum Unfit {
    /// There are more or fewer ids than regions.
    Ids,
    /// A region's length isn't a multiple of the page size.
    Length,
    /// A region isn't mapped here, or there is no such region or page.
    Memory(Box<dyn std::error::Error + Send + Sync>),
    /// The library refused it.
    Library(Error),
}

impl fmt::Display for Unfit {
    fn fmt(&self, out: &mut fmt::Formatter<'_>) -> fmt::Result {
        match self {
            Unfit::Ids => out.write_str("there are more or fewer ids than regions"),
            Unfit::Length => out.write_str("a region's length isn't a multiple of the page size"),
            Unfit::Memory(error) => write!(out, "guest memory: {error}"),
            Unfit::Library(error) => error.fmt(out),
        }
    }
}

impl std::error::Error for Unfit {}

impl From<Error> for Unfit {
    fn from(error: Error) -> Unfit {
        Unfit::Library(error)
    }
}

fn missing() -> Unfit {
    Unfit::Memory(io::Error::from(io::ErrorKind::NotFound).into())
}

/// Makes the table of a guest memory, in which each region is a block of this id.
///
/// # Errors
///
/// `Unfit::Ids`, `Unfit::Length`, or what [`Table::new`] refuses.
pub fn table_of<M: GuestMemory>(
    memory: &M,
    ids: &[&str],
    page_size: PageSize,
) -> Result<Table, Unfit> {
    if ids.len() != memory.num_regions() {
        return Err(Unfit::Ids);
    }
    let page_len = page_size.bytes() as u64;
    let mut blocks = Vec::with_capacity(ids.len());
    for (id, region) in ids.iter().zip(memory.iter()) {
        if region.len() % page_len != 0 {
            return Err(Unfit::Length);
        }
        blocks.push((*id, region.len() / page_len));
    }
    Ok(Table::new(page_size, &blocks)?)
}

/// Makes a load into the regions of a guest memory: of one stream if there are no channels, where
/// the UUID isn't looked at.
///
/// # Safety
///
/// As long as the load lives nobody else reads or writes the memory: no guest and no device runs on
/// it, and no two regions map the same bytes.
///
/// # Errors
///
/// `Unfit::Memory` of a region that isn't mapped here, or what [`Load::into_raw`] refuses.
pub unsafe fn load_into<'m, M: GuestMemory>(
    memory: &'m M,
    table: &Table,
    uuid: &[u8],
    channels: usize,
    settings: &LoadSettings,
) -> Result<Load<'m>, Unfit> {
    let mut blocks = Vec::with_capacity(memory.num_regions());
    for region in memory.iter() {
        let at = region
            .get_host_address(MemoryRegionAddress(0))
            .map_err(|error| Unfit::Memory(Box::new(error)))?;
        blocks.push((at, region.len() as usize));
    }
    // SAFETY: a region is mapped as long as its memory lives, and the caller lends it.
    Ok(unsafe { Load::into_raw(table, blocks, uuid, channels, settings) }?)
}

/// Copies a page out of a guest memory, also while the guest writes to it: the copy may be torn, and
/// the page is sent again in a later round, if its mark was cleared before.
///
/// # Errors
///
/// `Unfit::Memory` if there is no such region, or it hasn't the page.
pub fn copy_page<M: GuestMemory>(memory: &M, place: Place, out: &mut [u8]) -> Result<(), Unfit> {
    let region = memory.iter().nth(place.block).ok_or_else(missing)?;
    let at = place.page.checked_mul(out.len() as u64).ok_or_else(missing)?;
    region.read_slice(out, MemoryRegionAddress(at)).map_err(|error| Unfit::Memory(Box::new(error)))
}
