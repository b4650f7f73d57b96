//! Sends of a guest's memory: as one stream, or on several channels.

use crate::error::done;
use crate::{Error, Source, Table, sys};
use std::fmt;
use std::io::{self, Write};

/// How many bytes are handed out at once.
const PIECE: usize = 65_536;

/// What a send is made of beside its table.
#[derive(Clone, Copy, Debug, Default)]
pub struct SendSettings<'a> {
    channels: usize,
    limit: usize,
    uuid: [u8; 16],
    machine: Option<&'a str>,
    left_open: bool,
}

impl<'a> SendSettings<'a> {
    /// Returns those of one stream.
    pub fn single() -> SendSettings<'a> {
        SendSettings::default()
    }

    /// Returns those of a main stream and 1 to 255 channels, whose packets have at most `limit`
    /// pages, 1 to 128 of 4096 bytes, or 1 to 64 of 8192, and whose hellos name this UUID.
    pub fn channels(channels: usize, limit: usize, uuid: [u8; 16]) -> SendSettings<'a> {
        SendSettings { channels, limit, uuid, ..SendSettings::default() }
    }

    /// Returns them for a machine's stream, which begins with the machine's name: QEMU refuses a
    /// stream with another name than its own machine's. The stream is left open behind RAM: the
    /// caller goes on with the sections of devices and the end byte.
    pub fn machine(self, name: &'a str) -> SendSettings<'a> {
        SendSettings { machine: Some(name), left_open: true, ..self }
    }

    /// Returns them for a stream that ends with its end byte, also if it is a machine's.
    pub fn ended(self) -> SendSettings<'a> {
        SendSettings { left_open: false, ..self }
    }

    fn raw(&self) -> sys::zimgasol_send_settings {
        let mut raw = sys::zimgasol_send_settings {
            channels: self.channels,
            limit: self.limit,
            uuid: self.uuid,
            named: u64::from(self.machine.is_some()),
            name_len: self.machine.map_or(0, str::len),
            name: [0; 1024],
            reserved: [0; 4],
        };
        let name = self.machine.unwrap_or("").as_bytes();
        let len = name.len().min(raw.name.len());
        raw.name[..len].copy_from_slice(&name[..len]);
        raw
    }
}

/// A page of a block, by their numbers.
#[derive(Clone, Copy, Debug, PartialEq, Eq, Hash)]
pub struct Place {
    /// The number of the block.
    pub block: usize,
    /// The number of the page in it.
    pub page: u64,
}

/// A send of a guest's memory.
pub struct Sender {
    handle: sys::zimgasol_send,
    channels: usize,
    left_open: bool,
}

// SAFETY: a handle may pass to another thread, by what also passes the value. It isn't Sync.
unsafe impl Send for Sender {}

impl Sender {
    /// Makes a send of the blocks of a table, which has sent nothing.
    ///
    /// # Errors
    ///
    /// `ZIMGASOL_BAD_LENGTH` of a name with more than 1,024 bytes, `ZIMGASOL_CHANNELS`,
    /// `ZIMGASOL_BATCH_LIMIT`, or a refused allocation.
    pub fn new(table: &Table, settings: &SendSettings<'_>) -> Result<Sender, Error> {
        let mut handle = sys::zimgasol_send { at: std::ptr::null_mut(), full: 0 };
        // SAFETY: the handle is empty, and no other call has the table.
        done(
            table.with(|table| unsafe {
                sys::zimgasol_send_new(&mut handle, table, &settings.raw())
            }),
        )?;
        Ok(Sender { handle, channels: settings.channels, left_open: settings.left_open })
    }

    /// Begins a round of one stream, whose pages are put.
    ///
    /// # Errors
    ///
    /// `ZIMGASOL_OUT_OF_TURN` where the stream is ended, or on channels: those have
    /// [`begin_round_pages`](Sender::begin_round_pages). Or a refused allocation.
    pub fn begin_round(&mut self) -> Result<Round<'_>, Error> {
        if self.channels > 0 {
            return Err(Error::of_call(sys::ZIMGASOL_OUT_OF_TURN));
        }
        // SAFETY: the handle is this send's.
        done(unsafe { sys::zimgasol_send_begin_round(&mut self.handle) })?;
        Ok(Round { sender: self, is_over: false })
    }

    /// Begins a round on channels, of these dirty pages, in any order, and makes the worker of each
    /// channel.
    ///
    /// # Errors
    ///
    /// `ZIMGASOL_OUT_OF_TURN` of one stream, or where the streams are ended; `ZIMGASOL_NO_PAGE` if
    /// the table lacks one of them; or a refused allocation.
    pub fn begin_round_pages(&mut self, dirty: &[Place]) -> Result<ChannelRound<'_>, Error> {
        let list: Vec<_> =
            dirty.iter().map(|it| sys::zimgasol_place { block: it.block, page: it.page }).collect();
        // SAFETY: the handle is this send's, and the list is lent for the call.
        done(unsafe {
            sys::zimgasol_send_begin_round_pages(&mut self.handle, list.as_ptr(), list.len())
        })?;
        self.with_workers()
    }

    /// Begins a round on channels, of the pages whose bit is set in the bitmap of their block: bit
    /// `page % 64` of word `page / 64`, as KVM's dirty log has it.
    ///
    /// # Errors
    ///
    /// As [`begin_round_pages`](Sender::begin_round_pages), and `ZIMGASOL_BAD_LENGTH` if there are
    /// more or fewer bitmaps than blocks, or one is too short.
    pub fn begin_round_bitmaps(&mut self, bitmaps: &[&[u64]]) -> Result<ChannelRound<'_>, Error> {
        let list: Vec<_> = bitmaps
            .iter()
            .map(|it| sys::zimgasol_bitmap { words: it.as_ptr(), len: it.len() })
            .collect();
        // SAFETY: the handle is this send's, and the bitmaps are lent for the call.
        done(unsafe {
            sys::zimgasol_send_begin_round_bitmaps(&mut self.handle, list.as_ptr(), list.len())
        })?;
        self.with_workers()
    }

    // Makes the workers of the round that was begun. Without them it is cancelled.
    fn with_workers(&mut self) -> Result<ChannelRound<'_>, Error> {
        let channels = self.channels;
        let mut round = ChannelRound { sender: self, workers: vec![], is_over: false };
        for _ in 0..channels {
            let mut handle = sys::zimgasol_worker { at: std::ptr::null_mut(), full: 0 };
            // SAFETY: the handle is empty, and the send is this one.
            done(unsafe { sys::zimgasol_send_worker(&mut round.sender.handle, &mut handle) })?;
            round.workers.push(Owned { handle });
        }
        Ok(round)
    }

    /// Ends the streams. What waits of them is still to be drained.
    ///
    /// # Errors
    ///
    /// `ZIMGASOL_OUT_OF_TURN` where they are ended, or a refused allocation.
    pub fn finish(&mut self) -> Result<(), Error> {
        // SAFETY: the handle is this send's.
        done(unsafe { sys::zimgasol_send_finish(&mut self.handle, self.left_open) })
    }

    /// Writes what waits of a source: of the only stream or the main one; or of a channel, once the
    /// streams are ended, what no worker has written. Returns how many bytes there were. After an
    /// error the bytes that weren't written wait as before.
    ///
    /// # Errors
    ///
    /// Those of `out`.
    pub fn drain_to<W: Write>(&mut self, source: Source, out: &mut W) -> io::Result<u64> {
        let mut piece = vec![0; PIECE];
        let mut count = 0;
        loop {
            // SAFETY: the handle is this send's, and the piece is of this function.
            let len = unsafe {
                sys::zimgasol_send_peek(
                    &mut self.handle,
                    source.number(),
                    piece.as_mut_ptr(),
                    piece.len(),
                )
            };
            if len == 0 {
                return Ok(count);
            }
            let written = write_some(out, &piece[..len])?;
            // SAFETY: as above.
            unsafe { sys::zimgasol_send_skip(&mut self.handle, source.number(), written) };
            count += written as u64;
        }
    }
}

// Writes some bytes, at least one.
fn write_some<W: Write>(out: &mut W, bytes: &[u8]) -> io::Result<usize> {
    loop {
        match out.write(bytes) {
            Ok(0) => return Err(io::ErrorKind::WriteZero.into()),
            Err(error) if error.kind() == io::ErrorKind::Interrupted => {}
            written => return written,
        }
    }
}

impl Drop for Sender {
    fn drop(&mut self) {
        // SAFETY: it is freed once, and no call works on it.
        unsafe { sys::zimgasol_send_free(&mut self.handle) }
    }
}

impl fmt::Debug for Sender {
    fn fmt(&self, out: &mut fmt::Formatter<'_>) -> fmt::Result {
        out.debug_struct("Sender").field("channels", &self.channels).finish_non_exhaustive()
    }
}

/// A round of one stream. If it is dropped before its [`end`](Round::end) it is cancelled: it sends
/// nothing.
#[derive(Debug)]
#[must_use = "a round that isn't ended is cancelled"]
pub struct Round<'s> {
    sender: &'s mut Sender,
    is_over: bool,
}

impl Round<'_> {
    /// Sends a page: its bytes, of the page size. Of several at one place the last one counts.
    ///
    /// # Errors
    ///
    /// `ZIMGASOL_NO_PAGE`, `ZIMGASOL_BAD_LENGTH`, or a refused allocation: then the page isn't in
    /// the round.
    pub fn put_page(&mut self, place: Place, bytes: &[u8]) -> Result<(), Error> {
        // SAFETY: the handle is the send's, and the bytes are lent for the call.
        done(unsafe {
            sys::zimgasol_send_put_page(
                &mut self.sender.handle,
                place.block,
                place.page,
                bytes.as_ptr(),
                bytes.len(),
            )
        })
    }

    /// Ends the round: it becomes a section.
    ///
    /// # Errors
    ///
    /// A refused allocation: the round is cancelled.
    pub fn end(mut self) -> Result<(), Error> {
        // SAFETY: the handle is the send's.
        done(unsafe { sys::zimgasol_send_end_round(&mut self.sender.handle) })?;
        self.is_over = true;
        Ok(())
    }
}

impl Drop for Round<'_> {
    fn drop(&mut self) {
        if !self.is_over {
            // SAFETY: the handle is the send's. (a round is open, so it isn't out of turn)
            let _cancelled =
                unsafe { sys::zimgasol_send_cancel_round(&mut self.sender.handle, false) };
        }
    }
}

/// A round on channels, with a worker for each. If it is dropped before its
/// [`end`](ChannelRound::end) the streams are given up: no other round can follow.
///
/// The workers can't outlive it:
///
/// ```compile_fail
/// # use zimgasol::{Error, PageSize, SendSettings, Sender, Table};
/// # fn main() -> Result<(), Error> {
/// let table = Table::new(PageSize::Small, &[("pc.ram", 1)])?;
/// let mut sender = Sender::new(&table, &SendSettings::channels(1, 128, [0; 16]))?;
/// let mut round = sender.begin_round_pages(&[])?;
/// let mut worker = round.workers().remove(0);
/// round.end()?;
/// worker.next_batch()?; // the round has ended
/// # Ok(())
/// # }
/// ```
#[derive(Debug)]
#[must_use = "where a round isn't ended the streams are given up"]
pub struct ChannelRound<'s> {
    sender: &'s mut Sender,
    workers: Vec<Owned>,
    is_over: bool,
}

impl ChannelRound<'_> {
    /// Returns the worker of each channel, in their order. They may run at once, each on a thread of
    /// its own.
    pub fn workers(&mut self) -> Vec<Worker<'_>> {
        self.workers.iter_mut().map(|it| Worker { handle: &mut it.handle }).collect()
    }

    /// Ends the round, once each worker has ended. What wasn't drained of them is their channels'
    /// in the next round. The main stream has the round's mark then, which is to be drained.
    ///
    /// # Errors
    ///
    /// `ZIMGASOL_OUT_OF_TURN` where a worker hasn't ended, or a part of its bytes was drained; or a
    /// refused allocation. Then the streams are given up.
    pub fn end(mut self) -> Result<(), Error> {
        for worker in &mut self.workers {
            // SAFETY: the worker was made by this send, and so by the order of the channels.
            done(unsafe {
                sys::zimgasol_send_give_back(&mut self.sender.handle, &mut worker.handle)
            })?;
        }
        // SAFETY: the handle is the send's.
        done(unsafe { sys::zimgasol_send_end_round(&mut self.sender.handle) })?;
        self.is_over = true;
        Ok(())
    }
}

impl Drop for ChannelRound<'_> {
    fn drop(&mut self) {
        if !self.is_over {
            // SAFETY: the handle is the send's. (a round is open, so it isn't out of turn)
            let _given_up =
                unsafe { sys::zimgasol_send_cancel_round(&mut self.sender.handle, true) };
        }
    }
}

/// The pages of one packet.
#[derive(Clone, Copy)]
pub struct Batch {
    raw: sys::zimgasol_batch,
}

impl Batch {
    /// Returns the number of the block that all of them are of.
    pub fn block(&self) -> usize {
        self.raw.block
    }

    /// Returns their numbers in the block, ascending.
    pub fn pages(&self) -> &[u64] {
        &self.raw.pages[..self.raw.count.min(128)]
    }
}

impl fmt::Debug for Batch {
    fn fmt(&self, out: &mut fmt::Formatter<'_>) -> fmt::Result {
        out.debug_struct("Batch")
            .field("block", &self.block())
            .field("pages", &self.pages())
            .finish()
    }
}

// The worker of a channel, which its round owns, so that no other send gets it.
struct Owned {
    handle: sys::zimgasol_worker,
}

impl Drop for Owned {
    fn drop(&mut self) {
        // SAFETY: it is freed once; one that was given back is empty, which stays so.
        unsafe { sys::zimgasol_worker_free(&mut self.handle) }
    }
}

// SAFETY: a handle may pass to another thread, by what also passes the value. It isn't Sync.
unsafe impl Send for Owned {}

impl fmt::Debug for Owned {
    fn fmt(&self, out: &mut fmt::Formatter<'_>) -> fmt::Result {
        out.write_str("Worker")
    }
}

/// The worker of a channel in a round.
pub struct Worker<'r> {
    handle: &'r mut sys::zimgasol_worker,
}

// SAFETY: a handle may pass to another thread, by what also passes the reference. It isn't Sync.
unsafe impl Send for Worker<'_> {}

impl Worker<'_> {
    /// Draws the pages of the next packet: until the packet is written they are the same. Returns
    /// None where none is left: the worker has ended, and has the channel's mark of the round.
    ///
    /// # Errors
    ///
    /// A refused allocation: the next call goes on.
    pub fn next_batch(&mut self) -> Result<Option<Batch>, Error> {
        let mut raw = sys::zimgasol_batch { block: 0, count: 0, pages: [0; 128] };
        // SAFETY: the handle is this worker's.
        match unsafe { sys::zimgasol_worker_next(self.handle, &mut raw) } {
            sys::ZIMGASOL_RUNNING => Ok(Some(Batch { raw })),
            sys::ZIMGASOL_DONE => Ok(None),
            status => Err(Error::of_call(status)),
        }
    }

    /// Writes the head of the packet that was drawn into `out`, and returns its length. After it the
    /// caller sends the contents of the pages that aren't `zeros`, in the batch's order, from where
    /// they lie.
    ///
    /// # Errors
    ///
    /// `ZIMGASOL_OUT_OF_TURN` where no packet is drawn, or bytes of the channel wait to be drained;
    /// `ZIMGASOL_BAD_LENGTH` where `zeros` hasn't a number for each page, or `out` is too short; or
    /// a refused allocation.
    pub fn head(&mut self, zeros: &[bool], out: &mut [u8]) -> Result<usize, Error> {
        let zeros: Vec<u8> = zeros.iter().map(|it| u8::from(*it)).collect();
        let mut written = 0;
        // SAFETY: the handle is this worker's, and the buffers are lent for the call.
        let status = unsafe {
            sys::zimgasol_worker_head(
                self.handle,
                zeros.as_ptr(),
                zeros.len(),
                out.as_mut_ptr(),
                out.len(),
                &mut written,
            )
        };
        if status == sys::ZIMGASOL_RUNNING { Ok(written) } else { Err(Error::of_call(status)) }
    }

    /// Writes the packet that was drawn, of the contents of its pages, in the batch's order. It finds
    /// those of zeros.
    ///
    /// # Errors
    ///
    /// `ZIMGASOL_OUT_OF_TURN` where no packet is drawn, `ZIMGASOL_BAD_LENGTH` where there isn't a
    /// content of the page size for each page, or a refused allocation: then the call can be made
    /// again.
    pub fn pack(&mut self, contents: &[&[u8]]) -> Result<(), Error> {
        let list: Vec<_> = contents
            .iter()
            .map(|it| sys::zimgasol_lent { bytes: it.as_ptr(), len: it.len() })
            .collect();
        // SAFETY: the handle is this worker's, and the contents are lent for the call.
        let status = unsafe { sys::zimgasol_worker_pack(self.handle, list.as_ptr(), list.len()) };
        if status == sys::ZIMGASOL_RUNNING { Ok(()) } else { Err(Error::of_call(status)) }
    }

    /// Writes what waits of the channel. Returns how many bytes there were. After an error the
    /// channel lacks the bytes that were taken out and not written, so its streams are to be given
    /// up.
    ///
    /// # Errors
    ///
    /// Those of `out`.
    pub fn drain_to<W: Write>(&mut self, out: &mut W) -> io::Result<u64> {
        let mut piece = vec![0; PIECE];
        let mut count = 0;
        loop {
            // SAFETY: the handle is this worker's, and the piece is of this function.
            let len =
                unsafe { sys::zimgasol_worker_drain(self.handle, piece.as_mut_ptr(), piece.len()) };
            if len == 0 {
                return Ok(count);
            }
            out.write_all(&piece[..len])?;
            count += len as u64;
        }
    }
}

impl fmt::Debug for Worker<'_> {
    fn fmt(&self, out: &mut fmt::Formatter<'_>) -> fmt::Result {
        out.debug_struct("Worker").finish_non_exhaustive()
    }
}
