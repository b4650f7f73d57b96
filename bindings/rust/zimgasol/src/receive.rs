//! Threads that receive a guest: one for each channel, which reads the pages of its packets straight
//! to their places, and one for the main stream.

use crate::load::{invalid, read_some};
use crate::{Error, Load, Source, Standing, Verdict, sys};
use std::io::{self, IoSliceMut, Read};
use std::sync::{Condvar, Mutex, MutexGuard, PoisonError};
use std::{slice, thread};

/// How many bytes of the main stream are read at once.
const PIECE: usize = 65_536;

/// What a receiver came to.
#[derive(Clone, Debug, PartialEq, Eq)]
pub struct Received {
    /// How the load stands at the end.
    pub standing: Standing,
    /// The bytes of the main stream that were read, and stand after RAM.
    pub after: Vec<u8>,
}

type Answer<'l> = Box<dyn FnOnce(&Standing) + Send + 'l>;

// The load, which the threads share, and whether they give up.
struct Shared<'l, 'b> {
    load: &'l mut Load<'b>,
    failure: Option<io::Error>,
    answer: Option<Answer<'l>>,
    // how many channels' hellos were fed: no page is claimed before all were
    hellos: usize,
}

struct Receiver<'l, 'b> {
    shared: Mutex<Shared<'l, 'b>>,
    turned: Condvar,
    channels: usize,
}

/// Receives a guest on a main stream and its channels, by a thread for each: `main` is the main
/// stream's connection, and `channels` has those of the channels, as many as the load was made for.
/// Each reader's end ends its source. `answer` is called once, where all rounds are in: QEMU with a
/// return path ends its channels only after an answer. It returns where the verdict is there, with
/// the bytes of the main stream after RAM that were read.
///
/// After a fault, or a read that fails, nothing more is taken, and it returns once each thread's
/// read has: a caller who can't wait shuts the connections down.
///
/// # Errors
///
/// That of a read; else what the library refuses, or the streams' fault, as an [`Error`] in it.
///
/// # Panics
///
/// If there aren't as many channels as the load has.
pub fn channels<'l, M: Read + Send, C: Read + Send>(
    load: &'l mut Load<'_>,
    main: M,
    channels: Vec<C>,
    answer: impl FnOnce(&Standing) + Send + 'l,
) -> io::Result<Received> {
    assert_eq!(load.sources(), 1 + channels.len(), "the load has another number of channels");
    let receiver = Receiver {
        channels: channels.len(),
        shared: Mutex::new(Shared {
            load,
            failure: None,
            answer: Some(Box::new(answer)),
            hellos: 0,
        }),
        turned: Condvar::new(),
    };
    let after = thread::scope(|scope| {
        for (j, input) in channels.into_iter().enumerate() {
            let receiver = &receiver;
            scope.spawn(move || receiver.run(|| receiver.read_channel(j, input).map(|()| vec![])));
        }
        receiver.run(|| receiver.read_main(main))
    });
    let shared = receiver.shared.into_inner().unwrap_or_else(PoisonError::into_inner);
    if let Some(failure) = shared.failure {
        return Err(failure);
    }
    match shared.load.verdict() {
        Verdict::Done => Ok(Received { standing: shared.load.standing(), after }),
        Verdict::Fault(fault) => Err(invalid(fault)),
        Verdict::Running => Err(invalid(Error::of_call(sys::ZIMGASOL_RUNNING))),
    }
}

impl<'l, 'b> Receiver<'l, 'b> {
    // (a thread that panics under the lock has broken nothing of the load, which is the library's)
    fn lock(&self) -> MutexGuard<'_, Shared<'l, 'b>> {
        self.shared.lock().unwrap_or_else(PoisonError::into_inner)
    }

    fn wait<'g>(&self, shared: MutexGuard<'g, Shared<'l, 'b>>) -> MutexGuard<'g, Shared<'l, 'b>> {
        self.turned.wait(shared).unwrap_or_else(PoisonError::into_inner)
    }

    // Runs a source's thread. Its failure is that of the receiver, unless there was one before.
    fn run(&self, read: impl FnOnce() -> io::Result<Vec<u8>>) -> Vec<u8> {
        match read() {
            Ok(after) => after,
            Err(failure) => {
                self.lock().failure.get_or_insert(failure);
                self.turned.notify_all();
                vec![]
            }
        }
    }

    // Feeds all of some bytes, each as soon as they may be fed. Returns whether all were taken: not
    // once the verdict is there, or the receiver gave up.
    fn feed(&self, source: Source, mut bytes: &[u8]) -> io::Result<bool> {
        let mut shared = self.lock();
        while !bytes.is_empty() {
            if !shared.goes_on() {
                return Ok(false);
            }
            if shared.load.standing().claimed > 0 || !shared.load.takes(source) {
                shared = self.wait(shared);
                continue;
            }
            let fed = shared.load.feed(source, bytes).map_err(invalid)?;
            bytes = &bytes[fed.taken..];
            self.turned.notify_all();
            shared.test(source)?;
        }
        Ok(true)
    }

    // Ends a source, once its reader has.
    fn end(&self, source: Source) -> io::Result<()> {
        let mut shared = self.lock();
        shared.load.end(source).map_err(invalid)?;
        self.turned.notify_all();
        shared.test(source)
    }

    // Reads the main stream up to the end of RAM. Returns what was read after it.
    fn read_main<M: Read>(&self, mut main: M) -> io::Result<Vec<u8>> {
        let mut piece = vec![0; PIECE];
        loop {
            let len = read_some(&mut main, &mut piece)?;
            if len == 0 {
                self.end(Source::Main)?;
                return Ok(vec![]);
            }
            let went_on = self.feed(Source::Main, &piece[..len])?;
            let mut shared = self.lock();
            if let Some(closed_at) = shared.load.standing().closed_at {
                let fed = shared.load.source(Source::Main).fed;
                let after = usize::try_from(fed - closed_at).unwrap_or(len).min(len);
                shared.load.end(Source::Main).map_err(invalid)?;
                self.turned.notify_all();
                return Ok(piece[len - after..len].to_vec());
            }
            if !went_on {
                return Ok(vec![]);
            }
        }
    }

    // Reads a channel to its end.
    fn read_channel<C: Read>(&self, j: usize, mut input: C) -> io::Result<()> {
        let source = Source::Channel(j);
        let mut hello = [0; sys::ZIMGASOL_HELLO_LEN];
        let len = read_full(&mut input, &mut hello)?;
        let fed = self.feed(source, &hello[..len])?;
        self.lock().hellos += 1;
        self.turned.notify_all();
        if !fed || len < hello.len() {
            return self.end(source);
        }
        let head_len = 8 * (40 + 524_288 / self.lock().load.page_len());
        let mut head = vec![0; head_len];
        loop {
            let len = read_full(&mut input, &mut head)?;
            if len < head_len {
                self.feed(source, &head[..len])?;
                return self.end(source);
            }
            if !self.read_packet(j, &head, &mut input)? {
                return self.end(source);
            }
        }
    }

    // Claims the places of a packet, as soon as its channel may go on. Returns the library's answer.
    fn claim(&self, j: usize, head: &[u8], pages: &mut sys::zimgasol_pages) -> Option<u32> {
        let mut shared = self.lock();
        loop {
            if !shared.goes_on() {
                return None;
            }
            if shared.hellos == self.channels && shared.load.takes(Source::Channel(j)) {
                match shared.load.claim(j, head, pages) {
                    sys::ZIMGASOL_IS_CLAIMED => {}
                    status => return Some(status),
                }
            }
            shared = self.wait(shared);
        }
    }

    // Reads what follows the head of a packet: its pages to their places, or else feeds all of it.
    // Returns whether the channel goes on.
    fn read_packet<C: Read>(&self, j: usize, head: &[u8], input: &mut C) -> io::Result<bool> {
        let mut pages = sys::zimgasol_pages { block: 0, normal: 0, zero: 0, pages: [0; 128] };
        match self.claim(j, head, &mut pages) {
            None => Ok(false),
            Some(sys::ZIMGASOL_RUNNING) => self.read_pages(j, head, &pages, input),
            Some(_) => self.feed_packet(j, head, input),
        }
    }

    // Feeds a packet, of which the head says how many bytes follow.
    fn feed_packet<C: Read>(&self, j: usize, head: &[u8], input: &mut C) -> io::Result<bool> {
        let source = Source::Channel(j);
        if !self.feed(source, head)? {
            return Ok(false);
        }
        let number =
            |at: usize| u32::from_be_bytes([head[at], head[at + 1], head[at + 2], head[at + 3]]);
        let mut left = if number(16) == 0 { 0 } else { number(20) as usize };
        let mut piece = vec![0; PIECE];
        while left > 0 {
            let room = left.min(PIECE);
            let len = read_some(input, &mut piece[..room])?;
            if len == 0 || !self.feed(source, &piece[..len])? {
                return Ok(false);
            }
            left -= len;
        }
        Ok(true)
    }

    // Reads the pages that were claimed to their places, and takes the packet. If the input ends in
    // them, or a read fails, the pages stay claimed, and the receiver gives up.
    fn read_pages<C: Read>(
        &self,
        j: usize,
        head: &[u8],
        pages: &sys::zimgasol_pages,
        input: &mut C,
    ) -> io::Result<bool> {
        let (mut normal, zero) = self.lock().places(pages)?;
        for page in zero {
            page.fill(0);
        }
        read_into(input, &mut normal)?;
        let contents: Vec<_> = normal
            .iter()
            .map(|page| sys::zimgasol_lent { bytes: page.as_ptr(), len: page.len() })
            .collect();
        let mut shared = self.lock();
        match shared.load.take(j, head, &contents) {
            sys::ZIMGASOL_RUNNING => self.turned.notify_all(),
            status => return Err(invalid(Error::of_call(status))),
        }
        shared.test(Source::Channel(j))?;
        Ok(true)
    }
}

type PagesOf<'p> = (Vec<&'p mut [u8]>, Vec<&'p mut [u8]>);

impl Shared<'_, '_> {
    // Returns whether more of the sources is taken.
    fn goes_on(&mut self) -> bool {
        self.failure.is_none() && self.load.verdict() == Verdict::Running
    }

    // Gives up if a source has a fault, and answers once all rounds are in.
    fn test(&mut self, source: Source) -> io::Result<()> {
        if let Some(fault) = self.load.fault_of(source) {
            return Err(invalid(fault));
        }
        if self.answer.is_some() {
            let standing = self.load.standing();
            if standing.has_all_rounds
                && let Some(answer) = self.answer.take()
            {
                answer(&standing);
            }
        }
        Ok(())
    }

    // Returns the pages that were claimed: those with contents, and those to be cleared.
    fn places<'p>(&mut self, pages: &sys::zimgasol_pages) -> io::Result<PagesOf<'p>> {
        let len = self.load.page_len();
        let mut all = Vec::with_capacity(pages.normal + pages.zero);
        for number in pages.pages.iter().take(pages.normal + pages.zero) {
            let offset = (*number as usize).saturating_mul(len);
            let Some(at) = self.load.place(pages.block, offset, len) else {
                return Err(invalid(Error::of_call(sys::ZIMGASOL_NO_PAGE)));
            };
            // SAFETY: the page is inside its block, and claimed: until it is taken it is this
            // thread's alone, and no call of the library gets the blocks. A packet names no page
            // twice.
            all.push(unsafe { slice::from_raw_parts_mut(at, len) });
        }
        let zero = all.split_off(pages.normal);
        Ok((all, zero))
    }
}

// Reads all of some pages, with as few calls as the reader allows.
fn read_into<C: Read>(input: &mut C, pages: &mut [&mut [u8]]) -> io::Result<()> {
    let mut list: Vec<_> = pages.iter_mut().map(|page| IoSliceMut::new(page)).collect();
    let mut left = &mut list[..];
    while !left.is_empty() {
        match input.read_vectored(left) {
            Ok(0) => return Err(io::ErrorKind::UnexpectedEof.into()),
            Ok(len) => IoSliceMut::advance_slices(&mut left, len),
            Err(error) if error.kind() == io::ErrorKind::Interrupted => {}
            Err(error) => return Err(error),
        }
    }
    Ok(())
}

// Reads until the buffer is full, or the input ends. Returns how many bytes there are.
fn read_full<C: Read>(input: &mut C, buffer: &mut [u8]) -> io::Result<usize> {
    let mut len = 0;
    while len < buffer.len() {
        match read_some(input, &mut buffer[len..])? {
            0 => break,
            more => len += more,
        }
    }
    Ok(len)
}
