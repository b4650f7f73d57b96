//! Files with QEMU's mapped-ram, in which each page of a guest has an offset of its own: libvirt's
//! format `sparse` is one behind its header.
//!
//! The library reads and writes what isn't a page: the front, the head of each block with its
//! bitmap, and what follows the pages. Pages go straight between the file and memory, by any
//! threads. [`load`] and [`save`] do that for a [`File`]; [`MappedLoad`] and [`MappedSend`] are for
//! other ways to read and write.

use crate::error::{NO_FAULT, done};
use crate::load::invalid;
use crate::{Error, PageSize, Place, Table, sys};
use std::fs::File;
use std::io::{self, ErrorKind};
use std::os::unix::fs::FileExt;
use std::sync::{Mutex, PoisonError};
use std::thread;

/// The most bytes that are looked at for the front of a file.
const FRONT: usize = 65_536;

/// How many pages a thread takes at once.
const PIECE: usize = 1024;

/// The order of the bytes in the words of a bitmap, that of the host that wrote the file. The file
/// doesn't say which it is.
#[derive(Clone, Copy, Debug, Default, PartialEq, Eq)]
pub enum ByteOrder {
    /// As x86 and Arm have it.
    #[default]
    Little,
    /// As s390x has it.
    Big,
}

/// Pages of a block whose contents follow each other in a file.
#[derive(Clone, Copy, Debug, PartialEq, Eq)]
pub struct Run {
    /// The first page.
    pub page: u64,
    /// How many there are.
    pub pages: u64,
    /// The offset in the file of the first one's content.
    pub offset: u64,
}

/// What a load of a file wants next.
#[derive(Clone, Copy, Debug, PartialEq, Eq)]
pub enum Taken {
    /// The bytes at [`MappedLoad::place`].
    More,
    /// Nothing: RAM came to its end before that place.
    All,
}

struct LoadHandle(sys::zimgasol_mapped_load);

// SAFETY: a handle may pass to another thread, by what also passes the value.
unsafe impl Send for LoadHandle {}

/// The load of a file: its heads, and where the contents of pages lie.
pub struct MappedLoad {
    // (a call that only looks up writes to its handle, too, so one at a time works on it)
    handle: Mutex<LoadHandle>,
    page_size: PageSize,
    place: u64,
}

impl MappedLoad {
    /// Begins the load of a file whose stream begins with these bytes, at the byte `base` of the
    /// file: 0 in a file of QEMU's. Returns None if the bytes don't begin with the front of such a
    /// file, some hundred bytes, or end inside it.
    ///
    /// # Errors
    ///
    /// `ZIMGASOL_TOO_LONG` if its size list would begin at 2^63 or later, or a refused allocation.
    pub fn new(
        page_size: PageSize,
        order: ByteOrder,
        base: u64,
        bytes: &[u8],
    ) -> Result<Option<MappedLoad>, Error> {
        let mut handle = sys::zimgasol_mapped_load { at: std::ptr::null_mut(), full: 0 };
        let (page, big, mut place) = (page_size.bytes() as u64, order == ByteOrder::Big, 0);
        // SAFETY: the handle is empty, and the bytes are lent for the call.
        let status = unsafe {
            sys::zimgasol_mapped_load_new(
                &mut handle,
                page,
                big,
                base,
                bytes.as_ptr(),
                bytes.len(),
                &mut place,
            )
        };
        match status {
            sys::ZIMGASOL_RUNNING => Ok(None),
            _ => {
                done(status)?;
                Ok(Some(MappedLoad { handle: Mutex::new(LoadHandle(handle)), page_size, place }))
            }
        }
    }

    fn with<R>(&self, call: impl FnOnce(&mut sys::zimgasol_mapped_load) -> R) -> R {
        call(&mut self.handle.lock().unwrap_or_else(PoisonError::into_inner).0)
    }

    /// Returns the offset in the file of what is to be taken next. Once RAM came to its end the
    /// devices' state begins there; after a fault what is at fault does.
    pub fn place(&self) -> u64 {
        self.place
    }

    /// Takes bytes of the file that begin at [`place`](MappedLoad::place): the head of the next
    /// block, or after the last one what follows the pages. More bytes may follow; they aren't
    /// taken.
    ///
    /// # Errors
    ///
    /// `ZIMGASOL_STREAM_TRUNCATED` if the bytes end inside a head, or there are none: pass more of
    /// the file from that place on. Any other fault of the file is final.
    pub fn take(&mut self, bytes: &[u8]) -> Result<Taken, Error> {
        let mut place = self.place;
        // SAFETY: no other call works on the handle, and the bytes are lent for the call.
        let status = self.with(|handle| unsafe {
            sys::zimgasol_mapped_load_take(handle, bytes.as_ptr(), bytes.len(), &mut place)
        });
        self.place = place;
        match status {
            sys::ZIMGASOL_DONE => Ok(Taken::All),
            sys::ZIMGASOL_RUNNING => Ok(Taken::More),
            sys::ZIMGASOL_NO_MEMORY => Err(Error::of_call(status)),
            _ => {
                let fault = sys::zimgasol_fault { number: status, ..NO_FAULT };
                Err(Error::of_streams(fault, Some(place)))
            }
        }
    }

    /// Takes all heads and what follows the pages, by a call that reads bytes at an offset: as many
    /// as there is room for, unless the file ends.
    ///
    /// # Errors
    ///
    /// That of a read; else the file's fault, as an [`Error`] in it.
    pub fn take_all(
        &mut self,
        mut read_at: impl FnMut(&mut [u8], u64) -> io::Result<usize>,
    ) -> io::Result<()> {
        let mut bytes = vec![0; FRONT];
        loop {
            let len = read_at(&mut bytes, self.place)?;
            match self.take(&bytes[..len]) {
                Ok(Taken::All) => return Ok(()),
                Ok(Taken::More) => {}
                // (a head that isn't complete comes again, in a larger buffer)
                Err(fault)
                    if fault.number() == sys::ZIMGASOL_STREAM_TRUNCATED && len == bytes.len() =>
                {
                    bytes.resize(2 * len, 0);
                }
                Err(fault) => return Err(invalid(fault)),
            }
        }
    }

    /// Makes the table of the file's blocks, once the heads of all of them were taken. All blocks
    /// together may have up to 2^40 bytes: test how much the guest may get.
    ///
    /// # Errors
    ///
    /// `ZIMGASOL_OUT_OF_TURN` before that, or a refused allocation.
    pub fn table(&self) -> Result<Table, Error> {
        Table::made(self.page_size, |table| {
            // SAFETY: no other call works on the handle, and the table is empty.
            self.with(|handle| unsafe { sys::zimgasol_mapped_load_table(handle, table) })
        })
    }

    /// Returns the first pages of a block from page `from` on whose contents the file has, as many
    /// as follow each other; None if it has no more. The pages before them, from `from` on, are
    /// zeros.
    pub fn run(&self, block: usize, from: u64) -> Option<Run> {
        let mut run = sys::zimgasol_run { page: 0, pages: 0, offset: 0 };
        // SAFETY: no other call works on the handle.
        let status = self
            .with(|handle| unsafe { sys::zimgasol_mapped_load_run(handle, block, from, &mut run) });
        done(status).ok()?;
        (run.pages > 0).then_some(Run { page: run.page, pages: run.pages, offset: run.offset })
    }

    /// Returns all runs of a block, in their order.
    pub fn runs(&self, block: usize) -> impl Iterator<Item = Run> + '_ {
        let mut from = 0;
        std::iter::from_fn(move || {
            let run = self.run(block, from)?;
            from = run.page + run.pages;
            Some(run)
        })
    }
}

impl Drop for MappedLoad {
    fn drop(&mut self) {
        // SAFETY: it is freed once, and no call works on it.
        self.with(|handle| unsafe { sys::zimgasol_mapped_load_free(handle) })
    }
}

/// Reads as many bytes at an offset as there is room for, fewer only at the end of the file.
fn read_at(file: &File, bytes: &mut [u8], offset: u64) -> io::Result<usize> {
    let mut len = 0;
    while len < bytes.len() {
        match file.read_at(&mut bytes[len..], offset + len as u64) {
            Ok(0) => break,
            Ok(more) => len += more,
            Err(error) if error.kind() == ErrorKind::Interrupted => {}
            Err(error) => return Err(error),
        }
    }
    Ok(len)
}

/// Reads the heads of a file, and what follows its pages: its stream begins at the byte `base`.
/// Returns None if it is no file with mapped-ram.
///
/// # Errors
///
/// That of a read; else the file's fault, as an [`Error`] in it.
pub fn open(
    file: &File,
    base: u64,
    page_size: PageSize,
    order: ByteOrder,
) -> io::Result<Option<MappedLoad>> {
    let mut front = vec![0; FRONT];
    let len = read_at(file, &mut front, base)?;
    let begun = MappedLoad::new(page_size, order, base, &front[..len]).map_err(invalid)?;
    let Some(mut load) = begun else {
        return Ok(None);
    };
    load.take_all(|bytes, offset| read_at(file, bytes, offset))?;
    Ok(Some(load))
}

// Reads some pages of a block from a file into their memory: those from `first` on.
fn read_pages(
    load: &MappedLoad,
    file: &File,
    block: usize,
    first: u64,
    memory: &mut [u8],
) -> io::Result<()> {
    let page = load.page_size.bytes();
    let end = first + (memory.len() / page) as u64;
    let mut from = first;
    while from < end {
        let run = load.run(block, from).filter(|run| run.page < end);
        let (begin, behind) = match run {
            Some(run) => (run.page, (run.page + run.pages).min(end)),
            None => (end, end),
        };
        let at = |number: u64| (number - first) as usize * page;
        memory[at(from)..at(begin)].fill(0);
        if let Some(run) = run {
            file.read_exact_at(&mut memory[at(begin)..at(behind)], run.offset)?;
        }
        from = behind;
    }
    Ok(())
}

/// Reads the pages of a file into blocks, by so many threads: a slice for each block of the table,
/// in its order, of the block's length. Pages without a content are zeros then.
///
/// # Errors
///
/// That of a read; `ErrorKind::UnexpectedEof` if the file was cut after its heads were read.
///
/// # Panics
///
/// If the slices aren't those of the table, or there is no thread.
pub fn load(
    load: &MappedLoad,
    file: &File,
    blocks: &mut [&mut [u8]],
    threads: usize,
) -> io::Result<()> {
    let table = load.table().map_err(invalid)?;
    let lengths: Vec<_> = (0..table.len()).filter_map(|i| table.bytes_of(i)).collect();
    assert!(blocks.iter().map(|it| it.len()).eq(lengths), "the slices aren't those of the table");
    let piece = PIECE * load.page_size.bytes();
    let mut pieces: Vec<_> = blocks
        .iter_mut()
        .enumerate()
        .flat_map(|(block, memory)| {
            memory
                .chunks_mut(piece)
                .enumerate()
                .map(move |(i, part)| (block, (i * PIECE) as u64, part))
        })
        .collect();
    pieces.reverse();
    in_threads(threads, &Mutex::new(pieces), |(block, first, memory)| {
        read_pages(load, file, block, first, memory)
    })
}

// Has threads take what is left, the last one first, until nothing is or one fails.
fn in_threads<T: Send>(
    threads: usize,
    left: &Mutex<Vec<T>>,
    work: impl Fn(T) -> io::Result<()> + Sync,
) -> io::Result<()> {
    assert!(threads > 0, "there is no thread");
    let take = || left.lock().unwrap_or_else(PoisonError::into_inner).pop();
    let work_on = || {
        while let Some(piece) = take() {
            if let Err(error) = work(piece) {
                left.lock().unwrap_or_else(PoisonError::into_inner).clear();
                return Err(error);
            }
        }
        Ok(())
    };
    thread::scope(|scope| {
        let others: Vec<_> = (1..threads).map(|_| scope.spawn(work_on)).collect();
        let own = work_on();
        others.into_iter().fold(own, |so_far, it| {
            so_far.and(it.join().unwrap_or_else(|panic| std::panic::resume_unwind(panic)))
        })
    })
}

struct SendHandle(sys::zimgasol_mapped_send);

// SAFETY: a handle may pass to another thread, by what also passes the value.
unsafe impl Send for SendHandle {}

/// A file with mapped-ram that is written: where each page and each other part lies.
pub struct MappedSend {
    handle: Mutex<SendHandle>,
}

impl MappedSend {
    /// Begins a file of the machine of this name. No page is in it yet: all are zeros.
    ///
    /// # Errors
    ///
    /// `ZIMGASOL_BAD_LENGTH` if the name is longer than 1,024 bytes, or a refused allocation.
    pub fn new(table: &Table, order: ByteOrder, machine: &str) -> Result<MappedSend, Error> {
        let mut handle = sys::zimgasol_mapped_send { at: std::ptr::null_mut(), full: 0 };
        let big = order == ByteOrder::Big;
        // SAFETY: the handle is empty, and the name is lent for the call.
        done(table.with(|table| unsafe {
            let (name, len) = (machine.as_ptr(), machine.len());
            sys::zimgasol_mapped_send_new(&mut handle, table, big, name, len)
        }))?;
        Ok(MappedSend { handle: Mutex::new(SendHandle(handle)) })
    }

    fn with<R>(&self, call: impl FnOnce(&mut sys::zimgasol_mapped_send) -> R) -> R {
        call(&mut self.handle.lock().unwrap_or_else(PoisonError::into_inner).0)
    }

    /// Says whether the file has the content of a page; without one the page is zeros. Returns the
    /// page's offset in the file: a content is to be written there.
    ///
    /// # Errors
    ///
    /// `ZIMGASOL_NO_PAGE` if there is no such page.
    pub fn mark(&self, place: Place, has_content: bool) -> Result<u64, Error> {
        let mut offset = 0;
        // SAFETY: no other call works on the handle.
        done(self.with(|handle| unsafe {
            let Place { block, page } = place;
            sys::zimgasol_mapped_send_mark(handle, block, page, has_content, &mut offset)
        }))?;
        Ok(offset)
    }

    /// Returns a part of the file that isn't a page, and its offset; None if there is no such part.
    /// Part 0 is the front, part 1 + i the head of block i with the bits so far, and the last one
    /// what follows the last block's pages, up to the end byte.
    ///
    /// # Errors
    ///
    /// A refused allocation.
    pub fn part(&self, part: usize) -> Result<Option<(u64, Vec<u8>)>, Error> {
        let (mut bytes, mut at) = (vec![], sys::zimgasol_part { offset: 0, len: 0 });
        loop {
            // SAFETY: no other call works on the handle, and the bytes are lent for the call.
            let status = self.with(|handle| unsafe {
                sys::zimgasol_mapped_send_part(
                    handle,
                    part,
                    bytes.as_mut_ptr(),
                    bytes.len(),
                    &mut at,
                )
            });
            match status {
                sys::ZIMGASOL_NO_PAGE => return Ok(None),
                sys::ZIMGASOL_BAD_LENGTH if bytes.len() < at.len => bytes.resize(at.len, 0),
                _ => {
                    done(status)?;
                    return Ok(Some((at.offset, bytes)));
                }
            }
        }
    }
}

impl Drop for MappedSend {
    fn drop(&mut self) {
        // SAFETY: it is freed once, and no call works on it.
        self.with(|handle| unsafe { sys::zimgasol_mapped_send_free(handle) })
    }
}

// Writes those pages of a block that aren't zeros into a file, and marks them: from `first` on.
fn write_pages(
    send: &MappedSend,
    file: &File,
    page: usize,
    block: usize,
    first: u64,
    memory: &[u8],
) -> io::Result<()> {
    for (i, content) in memory.chunks(page).enumerate() {
        if content.iter().any(|byte| *byte != 0) {
            let place = Place { block, page: first + i as u64 };
            let offset = send.mark(place, true).map_err(invalid)?;
            file.write_all_at(content, offset)?;
        }
    }
    Ok(())
}

/// Writes a guest's memory into an empty file with mapped-ram, by so many threads, as that of the
/// machine of this name without devices: a slice for each block of the table, in its order. Pages
/// of zeros aren't written.
///
/// # Errors
///
/// That of a write; else what the library refuses, as an [`Error`] in it.
///
/// # Panics
///
/// If the slices aren't those of the table, or there is no thread.
pub fn save(
    table: &Table,
    machine: &str,
    blocks: &[&[u8]],
    file: &File,
    threads: usize,
) -> io::Result<()> {
    let lengths: Vec<_> = (0..table.len()).filter_map(|i| table.bytes_of(i)).collect();
    assert!(blocks.iter().map(|it| it.len()).eq(lengths), "the slices aren't those of the table");
    let send = MappedSend::new(table, ByteOrder::Little, machine).map_err(invalid)?;
    let page = table.page_size().bytes();
    let pieces: Vec<_> = blocks
        .iter()
        .enumerate()
        .flat_map(|(block, memory)| {
            let parts = memory.chunks(PIECE * page).enumerate();
            parts.map(move |(i, part)| (block, (i * PIECE) as u64, part))
        })
        .collect();
    in_threads(threads, &Mutex::new(pieces), |(block, first, memory)| {
        write_pages(&send, file, page, block, first, memory)
    })?;
    for part in 0.. {
        let Some((offset, bytes)) = send.part(part).map_err(invalid)? else {
            break;
        };
        file.write_all_at(&bytes, offset)?;
    }
    Ok(())
}
