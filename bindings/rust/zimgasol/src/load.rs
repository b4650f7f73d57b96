//! Loads of a guest: of one stream, or of a main stream and its channels.

use crate::error::{NO_FAULT, done};
use crate::{Error, Source, Table, sys};
use std::io::{self, ErrorKind, Read};
use std::marker::PhantomData;
use std::num::NonZeroU64;
use std::{fmt, slice};

/// What a stream is read as.
#[derive(Clone, Copy, Debug, Default, PartialEq, Eq)]
pub enum Frame {
    /// RAM's section alone, up to the end byte after its END.
    #[default]
    Ram,
    /// A whole machine's stream, as QEMU writes it, up to the footer of RAM's END. What follows is
    /// the caller's.
    Machine,
}

impl Frame {
    pub(crate) fn number(self) -> sys::zimgasol_frame {
        match self {
            Frame::Ram => sys::ZIMGASOL_FRAME_RAM,
            Frame::Machine => sys::ZIMGASOL_FRAME_MACHINE,
        }
    }
}

/// What ends a round of a main stream, in a load of several channels.
#[derive(Clone, Copy, Debug, Default, PartialEq, Eq)]
pub enum RoundEnd {
    /// Each FLUSH record, as of machine types of 8.1 and newer, and as [`Sender`](crate::Sender)
    /// writes it.
    ByFlush,
    /// Each EOS of a section, as of machine types of 8.0 and older.
    ByEos,
    /// What the stream shows. It reads each of the streams above.
    #[default]
    AsShown,
}

impl RoundEnd {
    fn number(self) -> sys::zimgasol_round_end {
        match self {
            RoundEnd::ByFlush => sys::ZIMGASOL_BY_FLUSH,
            RoundEnd::ByEos => sys::ZIMGASOL_BY_EOS,
            RoundEnd::AsShown => sys::ZIMGASOL_AS_SHOWN,
        }
    }
}

/// How streams are loaded.
#[derive(Clone, Copy, Debug, Default)]
pub struct LoadSettings {
    /// What the stream, or the main stream, is read as.
    pub frame: Frame,
    /// What ends a round of a main stream. A load of one stream doesn't use it.
    pub round_end: RoundEnd,
    /// The most page records of one section of a single stream, or of one round of a main stream,
    /// and the most packets and pages of a channel's round. Without it there is no limit.
    pub waiting: Option<NonZeroU64>,
    /// The blocks hold zeros when the load begins, as a fresh mapping does. A page that comes as
    /// zeros is then neither read nor written, unless something else may be in it. Where a block
    /// holds something else at first, it is left in the guest.
    pub zero_blocks: bool,
    /// The blocks get whole rounds alone, or of one stream whole sections: those that are counted,
    /// whatever comes. The load keeps the pages of an open round apart.
    pub whole_rounds: bool,
}

impl LoadSettings {
    fn raw(&self) -> sys::zimgasol_settings {
        sys::zimgasol_settings {
            frame: self.frame.number(),
            round_end: self.round_end.number(),
            waiting: self.waiting.map_or(0, NonZeroU64::get),
            zero_blocks: u64::from(self.zero_blocks),
            whole_rounds: u64::from(self.whole_rounds),
            reserved: [0; 4],
        }
    }
}

/// What a piece came to.
#[derive(Clone, Copy, Debug, PartialEq, Eq)]
pub struct Fed {
    /// How many of its bytes were taken. Those that weren't are fed again, once
    /// [`takes`](Load::takes) returns true for the source.
    pub taken: usize,
    /// How many rounds, or of one stream how many sections, are counted then.
    pub rounds: u64,
}

/// How a load stands.
#[derive(Clone, Copy, Debug, PartialEq, Eq)]
pub struct Standing {
    /// How many rounds of several channels were judged lawful, or how many sections of one stream
    /// are complete.
    pub rounds: u64,
    /// How many pages of the blocks nothing named: with `Verdict::Done` it is 0 for a whole guest.
    pub missing: u64,
    /// How many pages are claimed.
    pub claimed: u64,
    /// Whether all rounds are in. The channels may not have ended yet: QEMU with a return path ends
    /// them only after its answer.
    pub has_all_rounds: bool,
    /// How many of the bytes taken the only stream or the main one has, once it is closed. Those
    /// after them are the caller's.
    pub closed_at: Option<u64>,
}

/// How much a load has of a source.
#[derive(Clone, Copy, Debug, PartialEq, Eq)]
pub struct SourceBytes {
    /// How many bytes were taken.
    pub fed: u64,
    /// How many of them are complete items without a fault, if that is known.
    pub valid_up_to: Option<u64>,
}

/// What is known of the bytes that were taken.
#[derive(Clone, Copy, Debug, PartialEq, Eq)]
pub enum Verdict {
    /// More of a source is needed.
    Running,
    /// All of the streams were loaded. Whether they have the whole guest is [`Standing::missing`].
    Done,
    /// The streams have this fault, or memory was refused for good.
    Fault(Error),
}

/// What the next bytes of one stream are.
#[derive(Clone, Copy, Debug, PartialEq, Eq)]
pub enum Next {
    /// So many bytes to feed, at least 1.
    Bytes(usize),
    /// The content of a page.
    Page {
        /// The number of its block.
        block: usize,
        /// The byte of the block at which it begins.
        offset: usize,
        /// Its length.
        len: usize,
    },
}

/// A load into blocks. As long as it lives nobody else reads or writes them.
///
/// ```compile_fail
/// # use zimgasol::{Error, Load, LoadSettings, PageSize, Source, Table};
/// # fn main() -> Result<(), Error> {
/// let table = Table::new(PageSize::Small, &[("pc.ram", 1)])?;
/// let mut ram = vec![0; 4096];
/// let mut load = Load::single(&table, vec![&mut ram], &LoadSettings::default())?;
/// ram[0] = 1; // the load has the block
/// load.end(Source::Main)?;
/// # Ok(())
/// # }
/// ```
pub struct Load<'b> {
    handle: sys::zimgasol_load,
    blocks: Vec<sys::zimgasol_buffer>,
    page_len: usize,
    channels: usize,
    lent: PhantomData<&'b mut [u8]>,
}

// SAFETY: a handle may pass to another thread, by what also passes the value, and the blocks are
// lent to the load alone. It isn't Sync.
unsafe impl Send for Load<'_> {}

impl<'b> Load<'b> {
    /// Makes a load of one stream into blocks: a slice for each block of the table, in its order,
    /// of the block's length.
    ///
    /// # Errors
    ///
    /// `ZIMGASOL_BAD_LENGTH` if the slices aren't those of the table, or a refused allocation.
    pub fn single(
        table: &Table,
        blocks: Vec<&'b mut [u8]>,
        settings: &LoadSettings,
    ) -> Result<Load<'b>, Error> {
        Load::into_slices(table, blocks, &[], 0, settings)
    }

    /// Makes a load of a main stream and 1 to 255 channels, whose hellos name this UUID.
    ///
    /// # Errors
    ///
    /// `ZIMGASOL_BAD_CHANNELS`, `ZIMGASOL_BAD_LENGTH` if the slices aren't those of the table, or a
    /// refused allocation.
    pub fn channels(
        table: &Table,
        blocks: Vec<&'b mut [u8]>,
        uuid: &[u8; 16],
        channels: usize,
        settings: &LoadSettings,
    ) -> Result<Load<'b>, Error> {
        if channels == 0 {
            return Err(Error::of_call(sys::ZIMGASOL_BAD_CHANNELS));
        }
        Load::into_slices(table, blocks, uuid, channels, settings)
    }

    fn into_slices(
        table: &Table,
        blocks: Vec<&'b mut [u8]>,
        uuid: &[u8],
        channels: usize,
        settings: &LoadSettings,
    ) -> Result<Load<'b>, Error> {
        let list = blocks.into_iter().map(|it| (it.as_mut_ptr(), it.len())).collect();
        // SAFETY: the slices are lent for 'b, exclusively, and share no byte.
        unsafe { Load::into_raw(table, list, uuid, channels, settings) }
    }

    /// Makes a load into memory that isn't a slice of Rust's, as a VMM's mapping of a guest: of one
    /// stream if there are no channels, where the UUID isn't looked at.
    ///
    /// # Safety
    ///
    /// Each pointer is valid for reads and writes of its length for all of `'b`, and for that long
    /// nobody else reads or writes the bytes: the guest doesn't run yet. No two share a byte.
    ///
    /// # Errors
    ///
    /// As of [`single`](Load::single) and [`channels`](Load::channels).
    pub unsafe fn into_raw(
        table: &Table,
        blocks: Vec<(*mut u8, usize)>,
        uuid: &[u8],
        channels: usize,
        settings: &LoadSettings,
    ) -> Result<Load<'b>, Error> {
        let fits = blocks.len() == table.len()
            && blocks.iter().enumerate().all(|(i, (_, len))| table.bytes_of(i) == Some(*len));
        if !fits {
            return Err(Error::of_call(sys::ZIMGASOL_BAD_LENGTH));
        }
        let mut handle = sys::zimgasol_load { at: std::ptr::null_mut(), full: 0 };
        // SAFETY: the handle is empty, no other call has the table, and all else is lent for the
        // call.
        done(table.with(|table| unsafe {
            sys::zimgasol_load_new(
                &mut handle,
                table,
                uuid.as_ptr(),
                uuid.len(),
                channels,
                &settings.raw(),
            )
        }))?;
        let blocks =
            blocks.into_iter().map(|(bytes, len)| sys::zimgasol_buffer { bytes, len }).collect();
        let page_len = table.page_size().bytes();
        Ok(Load { handle, blocks, page_len, channels, lent: PhantomData })
    }

    /// Returns the number of sources: 1, and one for each channel.
    pub fn sources(&self) -> usize {
        1 + self.channels
    }

    pub(crate) fn page_len(&self) -> usize {
        self.page_len
    }

    /// Takes the first bytes of a piece of a source, and writes its pages into the blocks. A channel
    /// takes bytes up to the end of the current round, the main stream all of a piece or nothing.
    ///
    /// # Errors
    ///
    /// `ZIMGASOL_OUT_OF_TURN` while pages are claimed, `ZIMGASOL_BAD_SOURCE`, `ZIMGASOL_IS_OVER`
    /// after [`end`](Load::end), `ZIMGASOL_TOO_LONG`, or a refused allocation: then the piece can
    /// be fed again, unless the verdict is that fault.
    pub fn feed(&mut self, source: Source, piece: &[u8]) -> Result<Fed, Error> {
        let mut fed = sys::zimgasol_fed { taken: 0, rounds: 0 };
        // SAFETY: the blocks are this load's alone, and `piece` is none of them, since it is shared.
        done(unsafe {
            sys::zimgasol_load_feed(
                &mut self.handle,
                self.blocks.as_mut_ptr(),
                self.blocks.len(),
                source.number(),
                piece.as_ptr(),
                piece.len(),
                &mut fed,
            )
        })?;
        Ok(Fed { taken: fed.taken, rounds: fed.rounds })
    }

    /// Returns whether bytes of a source are taken now.
    pub fn takes(&mut self, source: Source) -> bool {
        // SAFETY: the handle is this load's.
        unsafe { sys::zimgasol_load_takes(&mut self.handle, source.number()) }
    }

    /// Ends a source, all of whose bytes were taken.
    ///
    /// # Errors
    ///
    /// `ZIMGASOL_BAD_SOURCE`.
    pub fn end(&mut self, source: Source) -> Result<(), Error> {
        // SAFETY: the handle is this load's.
        done(unsafe { sys::zimgasol_load_end(&mut self.handle, source.number()) })
    }

    /// Returns what is known of the bytes that were taken.
    pub fn verdict(&mut self) -> Verdict {
        let mut found = NO_FAULT;
        // SAFETY: the handle is this load's.
        match unsafe { sys::zimgasol_load_verdict(&mut self.handle, &mut found) } {
            sys::ZIMGASOL_RUNNING => Verdict::Running,
            sys::ZIMGASOL_DONE => Verdict::Done,
            _ => Verdict::Fault(self.placed(found)),
        }
    }

    /// Returns the fault of a source's own bytes, if they have one, whatever other sources have. It
    /// is known at once, where the verdict may wait for other sources.
    pub fn fault_of(&mut self, source: Source) -> Option<Error> {
        let mut found = NO_FAULT;
        // SAFETY: the handle is this load's.
        match unsafe { sys::zimgasol_load_fault_of(&mut self.handle, source.number(), &mut found) }
        {
            sys::ZIMGASOL_DONE | sys::ZIMGASOL_BAD_SOURCE => None,
            _ => Some(self.placed(found)),
        }
    }

    // A fault, with the byte at which its item begins, if it has one.
    fn placed(&mut self, fault: sys::zimgasol_fault) -> Error {
        let has_place = matches!(fault.number, 11..=49 | 64 | 65);
        let place = Error::of_streams(fault, None).source().filter(|_| has_place);
        let at = place.and_then(|source| self.source(source).valid_up_to);
        Error::of_streams(fault, at)
    }

    /// Returns how the load stands.
    pub fn standing(&mut self) -> Standing {
        let mut out = sys::zimgasol_standing {
            rounds: 0,
            missing: 0,
            claimed: 0,
            has_all_rounds: 0,
            is_closed: 0,
            closed_at: 0,
            reserved: [0; 4],
        };
        // SAFETY: the handle is this load's.
        unsafe { sys::zimgasol_load_standing(&mut self.handle, &mut out) };
        Standing {
            rounds: out.rounds,
            missing: out.missing,
            claimed: out.claimed,
            has_all_rounds: out.has_all_rounds != 0,
            closed_at: (out.is_closed != 0).then_some(out.closed_at),
        }
    }

    /// Returns how much the load has of a source.
    pub fn source(&mut self, source: Source) -> SourceBytes {
        let mut out =
            sys::zimgasol_source { fed: 0, is_known: 0, valid_up_to: 0, reserved: [0; 4] };
        // SAFETY: the handle is this load's.
        unsafe { sys::zimgasol_load_source(&mut self.handle, source.number(), &mut out) };
        SourceBytes { fed: out.fed, valid_up_to: (out.is_known != 0).then_some(out.valid_up_to) }
    }

    /// Returns what the next bytes of one stream are; None if no more of it is read, and of several
    /// channels and with `whole_rounds`.
    pub fn wanted(&mut self) -> Option<Next> {
        let mut next = sys::zimgasol_next { len: 0, is_page: 0, block: 0, offset: 0 };
        // SAFETY: the handle is this load's.
        if !unsafe { sys::zimgasol_load_wanted(&mut self.handle, &mut next) } {
            return None;
        }
        Some(match next.is_page {
            0 => Next::Bytes(next.len),
            _ => Next::Page { block: next.block, offset: next.offset as usize, len: next.len },
        })
    }

    /// Returns a page of a block: for what was read, or is to be read, straight to its place.
    pub(crate) fn place(&mut self, block: usize, offset: usize, len: usize) -> Option<*mut u8> {
        let block = self.blocks.get(block)?;
        let end = offset.checked_add(len)?;
        // SAFETY: the page is inside the block.
        (end <= block.len).then(|| unsafe { block.bytes.add(offset) })
    }

    /// Reads all of one stream, each page straight into its block, and no byte beyond the stream.
    /// Ends the stream. The verdict is [`verdict`](Load::verdict).
    ///
    /// # Errors
    ///
    /// That of a read; else what [`feed`](Load::feed) and the library refuse, as `InvalidData` with
    /// an [`Error`] in it.
    pub fn read_from<R: Read>(&mut self, input: &mut R) -> io::Result<()> {
        let mut piece = [0; 4096];
        while let Some(next) = self.wanted() {
            let read = match next {
                Next::Page { block, offset, len } => self.read_page(input, block, offset, len)?,
                Next::Bytes(len) => {
                    let len = read_some(input, &mut piece[..len.min(4096)])?;
                    self.feed(Source::Main, &piece[..len]).map_err(invalid)?;
                    len > 0
                }
            };
            if !read {
                break;
            }
        }
        self.end(Source::Main).map_err(invalid)
    }

    // Reads a page into its block. Feeds what there is of it where the input ends inside it.
    fn read_page<R: Read>(
        &mut self,
        input: &mut R,
        block: usize,
        offset: usize,
        len: usize,
    ) -> io::Result<bool> {
        let Some(at) = self.place(block, offset, len) else {
            return Err(invalid(Error::of_call(sys::ZIMGASOL_NO_PAGE)));
        };
        // SAFETY: the page is inside the block, which is this load's alone.
        let page = unsafe { slice::from_raw_parts_mut(at, len) };
        let mut read = 0;
        while read < len {
            match read_some(input, &mut page[read..])? {
                0 => break,
                more => read += more,
            }
        }
        if read < len {
            let part = page[..read].to_vec();
            self.feed(Source::Main, &part).map_err(invalid)?;
            return Ok(false);
        }
        // SAFETY: the blocks are this load's alone.
        done(unsafe {
            sys::zimgasol_load_page_read(&mut self.handle, self.blocks.as_ptr(), self.blocks.len())
        })
        .map_err(invalid)?;
        Ok(true)
    }

    /// Claims the places of the next packet of a channel, by its head. Returns the status with
    /// which the library answers, and the pages.
    pub(crate) fn claim(
        &mut self,
        channel: usize,
        head: &[u8],
        pages: &mut sys::zimgasol_pages,
    ) -> sys::zimgasol_status {
        // SAFETY: the handle is this load's.
        unsafe {
            sys::zimgasol_load_claim(&mut self.handle, channel, head.as_ptr(), head.len(), pages)
        }
    }

    /// Takes the packet that was claimed with this head, whose pages are at their places.
    pub(crate) fn take(
        &mut self,
        channel: usize,
        head: &[u8],
        contents: &[sys::zimgasol_lent],
    ) -> sys::zimgasol_status {
        // SAFETY: the handle is this load's; each content is a page that this thread has claimed,
        // and that nobody writes any more.
        unsafe {
            sys::zimgasol_load_take(
                &mut self.handle,
                channel,
                head.as_ptr(),
                head.len(),
                contents.as_ptr(),
                contents.len(),
            )
        }
    }
}

impl Drop for Load<'_> {
    fn drop(&mut self) {
        // SAFETY: it is freed once, and no call works on it.
        unsafe { sys::zimgasol_load_free(&mut self.handle) }
    }
}

impl fmt::Debug for Load<'_> {
    fn fmt(&self, out: &mut fmt::Formatter<'_>) -> fmt::Result {
        out.debug_struct("Load")
            .field("blocks", &self.blocks.len())
            .field("channels", &self.channels)
            .finish_non_exhaustive()
    }
}

/// Reads some bytes, as `read` does, but goes on where a signal interrupted it.
pub(crate) fn read_some<R: Read>(input: &mut R, buffer: &mut [u8]) -> io::Result<usize> {
    loop {
        match input.read(buffer) {
            Err(error) if error.kind() == ErrorKind::Interrupted => {}
            read => return read,
        }
    }
}

/// An error of the library as one of `std::io`.
pub(crate) fn invalid(error: Error) -> io::Error {
    let kind = if error.is_no_memory() { ErrorKind::OutOfMemory } else { ErrorKind::InvalidData };
    io::Error::new(kind, error)
}
