//! The page size of a guest, and its RAM blocks in their order.

use crate::error::done;
use crate::{Error, Frame, sys};
use std::fmt;
use std::sync::{Mutex, PoisonError};

/// The size of a guest's pages.
#[derive(Clone, Copy, Debug, PartialEq, Eq)]
pub enum PageSize {
    /// 4096 bytes.
    Small,
    /// 8192 bytes.
    Large,
}

impl PageSize {
    /// Returns the size in bytes.
    pub fn bytes(self) -> usize {
        match self {
            PageSize::Small => 4096,
            PageSize::Large => 8192,
        }
    }
}

/// The page size of a guest, and its RAM blocks in their order. Sends and loads that are made of it
/// keep their own copy.
pub struct Table {
    // (a call that only reads a table writes to its handle, too, so one at a time works on it)
    handle: Mutex<Handle>,
    page_size: PageSize,
}

struct Handle(sys::zimgasol_table);

// SAFETY: a handle may pass to another thread, by what also passes the value.
unsafe impl Send for Handle {}

const EMPTY: sys::zimgasol_table = sys::zimgasol_table { at: std::ptr::null_mut(), full: 0 };

fn block_of(id: &str, pages: u64) -> Result<sys::zimgasol_block, Error> {
    let mut block = sys::zimgasol_block { id: [0; 256], pages };
    // (the byte 0 ends an id, so one that has it or is longer isn't the one that was meant)
    if id.len() > 255 || id.bytes().any(|byte| byte == 0) {
        return Err(Error::of_call(sys::ZIMGASOL_ID));
    }
    block.id[..id.len()].copy_from_slice(id.as_bytes());
    Ok(block)
}

impl Table {
    /// Makes the table of these blocks: the id of each, and how many pages it has.
    ///
    /// # Errors
    ///
    /// The numbers 1 to 6, of what is wrong with the blocks, and that of a refused allocation.
    pub fn new(page_size: PageSize, blocks: &[(&str, u64)]) -> Result<Table, Error> {
        let list =
            blocks.iter().map(|(id, pages)| block_of(id, *pages)).collect::<Result<Vec<_>, _>>()?;
        let (mut handle, mut entry) = (EMPTY, 0);
        // SAFETY: the handle is empty, and the list has so many blocks.
        done(unsafe {
            sys::zimgasol_table_new(
                &mut handle,
                page_size.bytes() as u64,
                list.as_ptr(),
                list.len(),
                &mut entry,
            )
        })?;
        Ok(Table { handle: Mutex::new(Handle(handle)), page_size })
    }

    /// Makes the table of the stream that begins with `bytes`, the only one or a main stream.
    /// Returns None if more of its bytes are needed.
    ///
    /// # Errors
    ///
    /// The fault that stands before the table, with its byte, or a refused allocation.
    pub fn of_stream(
        frame: Frame,
        page_size: PageSize,
        bytes: &[u8],
    ) -> Result<Option<Table>, Error> {
        let (mut handle, mut at) = (EMPTY, 0);
        // SAFETY: the handle is empty, and the bytes are lent for the call.
        let status = unsafe {
            sys::zimgasol_table_of_stream(
                &mut handle,
                page_size.bytes() as u64,
                frame.number(),
                bytes.as_ptr(),
                bytes.len(),
                &mut at,
            )
        };
        match status {
            sys::ZIMGASOL_DONE => Ok(Some(Table { handle: Mutex::new(Handle(handle)), page_size })),
            sys::ZIMGASOL_RUNNING => Ok(None),
            11..=49 => {
                let fault = sys::zimgasol_fault { number: status, ..crate::error::NO_FAULT };
                Err(Error::of_streams(fault, Some(at)))
            }
            _ => Err(Error::of_call(status)),
        }
    }

    /// Makes the table that a call writes to an empty handle.
    pub(crate) fn made(
        page_size: PageSize,
        call: impl FnOnce(&mut sys::zimgasol_table) -> sys::zimgasol_status,
    ) -> Result<Table, Error> {
        let mut handle = EMPTY;
        done(call(&mut handle))?;
        Ok(Table { handle: Mutex::new(Handle(handle)), page_size })
    }

    /// Makes a call with the handle, while no other one has it.
    pub(crate) fn with<R>(&self, call: impl FnOnce(&mut sys::zimgasol_table) -> R) -> R {
        call(&mut self.handle.lock().unwrap_or_else(PoisonError::into_inner).0)
    }

    /// Returns the size of the guest's pages.
    pub fn page_size(&self) -> PageSize {
        self.page_size
    }

    /// Returns how many blocks there are.
    pub fn len(&self) -> usize {
        // SAFETY: no other call works on the handle.
        self.with(|handle| unsafe { sys::zimgasol_table_blocks(handle) })
    }

    /// Returns whether there is no block: a table has one at least.
    pub fn is_empty(&self) -> bool {
        self.len() == 0
    }

    /// Returns the id of a block and its number of pages, if there is such a block.
    pub fn block(&self, i: usize) -> Option<(String, u64)> {
        let mut block = sys::zimgasol_block { id: [0; 256], pages: 0 };
        // SAFETY: no other call works on the handle.
        let status =
            self.with(|handle| unsafe { sys::zimgasol_table_block(handle, i, &mut block) });
        done(status).ok()?;
        let len = block.id.iter().position(|byte| *byte == 0).unwrap_or(block.id.len());
        Some((String::from_utf8_lossy(&block.id[..len]).into_owned(), block.pages))
    }

    /// Returns the blocks in their order: the id of each, and its number of pages.
    pub fn blocks(&self) -> impl Iterator<Item = (String, u64)> + '_ {
        (0..self.len()).filter_map(|i| self.block(i))
    }

    /// Returns the length of a block in bytes, if there is such a block.
    pub fn bytes_of(&self, i: usize) -> Option<usize> {
        let (_, pages) = self.block(i)?;
        Some(pages as usize * self.page_size.bytes())
    }
}

impl fmt::Debug for Table {
    fn fmt(&self, out: &mut fmt::Formatter<'_>) -> fmt::Result {
        out.debug_struct("Table")
            .field("page_size", &self.page_size)
            .field("blocks", &self.blocks().collect::<Vec<_>>())
            .finish()
    }
}

impl Drop for Table {
    fn drop(&mut self) {
        // SAFETY: it is freed once, and no call works on it.
        self.with(|handle| unsafe { sys::zimgasol_table_free(handle) })
    }
}
