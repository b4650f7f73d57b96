//! Guests that are sent and loaded, and what is refused.

use std::io::{self, Cursor, Read, Write};
use std::num::NonZeroU64;
use std::os::unix::net::UnixStream;
use std::thread;
use zimgasol::{
    Error, Frame, Load, LoadSettings, Next, PageSize, Place, RoundEnd, SendSettings, Sender,
    Source, Table, Verdict, receive, sys,
};

const PAGE: usize = 4096;
const UUID: [u8; 16] = [1, 2, 3, 4, 5, 6, 7, 8, 9, 10, 11, 12, 13, 14, 15, 16];

/// A guest of two blocks, in which each third page is zeros.
struct Guest {
    table: Table,
    blocks: Vec<Vec<u8>>,
}

fn guest(pages: usize, others: usize) -> Guest {
    let table =
        Table::new(PageSize::Small, &[("pc.ram", pages as u64), ("vga.vram", others as u64)])
            .unwrap();
    let fill =
        |len: usize, seed: usize| {
            (0..len * PAGE)
                .map(|i| {
                    if (i / PAGE) % 3 == 0 {
                        0
                    } else {
                        ((i * 31 + i / PAGE * 7 + seed) % 251) as u8
                    }
                })
                .collect()
        };
    Guest { blocks: vec![fill(pages, 1), fill(others, 2)], table }
}

impl Guest {
    fn page(&self, block: usize, page: usize) -> &[u8] {
        &self.blocks[block][page * PAGE..][..PAGE]
    }

    fn places(&self) -> Vec<Place> {
        let of = |block: usize| {
            (0..self.blocks[block].len() / PAGE).map(move |page| Place { block, page: page as u64 })
        };
        of(0).chain(of(1)).collect()
    }

    /// One stream of rounds of a few pages.
    fn stream(&self, settings: &SendSettings<'_>) -> Vec<u8> {
        let (mut sender, mut stream) = (Sender::new(&self.table, settings).unwrap(), vec![]);
        for places in self.places().chunks(5) {
            let mut round = sender.begin_round().unwrap();
            for place in places {
                round.put_page(*place, self.page(place.block, place.page as usize)).unwrap();
            }
            round.end().unwrap();
            sender.drain_to(Source::Main, &mut stream).unwrap();
        }
        sender.finish().unwrap();
        sender.drain_to(Source::Main, &mut stream).unwrap();
        stream
    }

    fn zeros(&self) -> Vec<Vec<u8>> {
        self.blocks.iter().map(|it| vec![0; it.len()]).collect()
    }
}

fn slices(blocks: &mut [Vec<u8>]) -> Vec<&mut [u8]> {
    blocks.iter_mut().map(Vec::as_mut_slice).collect()
}

#[test]
fn one_stream_in_pieces_and_straight() {
    let guest = guest(13, 4);
    let stream = guest.stream(&SendSettings::single());
    for (cut, zero_blocks, whole_rounds) in
        [(1, true, false), (7, false, false), (4096, true, true), (1 << 20, false, true)]
    {
        let mut blocks = guest.zeros();
        let settings = LoadSettings { zero_blocks, whole_rounds, ..Default::default() };
        let mut load = Load::single(&guest.table, slices(&mut blocks), &settings).unwrap();
        let mut rounds = 0;
        for piece in stream.chunks(cut) {
            let fed = load.feed(Source::Main, piece).unwrap();
            assert_eq!(fed.taken, piece.len());
            assert!(fed.rounds >= rounds && fed.rounds == load.standing().rounds);
            rounds = fed.rounds;
        }
        assert!(!load.takes(Source::Main));
        load.end(Source::Main).unwrap();
        assert_eq!(load.verdict(), Verdict::Done);
        assert_eq!(load.standing().missing, 0);
        assert_eq!(load.source(Source::Main).valid_up_to, Some(stream.len() as u64));
        drop(load);
        assert_eq!(blocks, guest.blocks);
    }
    let mut blocks = guest.zeros();
    let mut load =
        Load::single(&guest.table, slices(&mut blocks), &LoadSettings::default()).unwrap();
    // (nothing is read beyond the stream)
    let mut input = Cursor::new([&stream[..], b"more"].concat());
    load.read_from(&mut input).unwrap();
    assert_eq!(input.position(), stream.len() as u64);
    assert_eq!(load.verdict(), Verdict::Done);
    drop(load);
    assert_eq!(blocks, guest.blocks);
}

#[test]
fn a_machines_stream_is_left_open() {
    let guest = guest(3, 1);
    let stream = guest.stream(&SendSettings::single().machine("pc-i440fx-7.2"));
    let mut blocks = guest.zeros();
    let settings = LoadSettings { frame: Frame::Machine, ..Default::default() };
    let mut load = Load::single(&guest.table, slices(&mut blocks), &settings).unwrap();
    load.feed(Source::Main, &stream).unwrap();
    load.feed(Source::Main, b"devices").unwrap();
    assert_eq!(load.standing().closed_at, Some(stream.len() as u64));
    assert_eq!(load.source(Source::Main).fed, stream.len() as u64 + 7);
    assert_eq!(load.verdict(), Verdict::Done);
    let ended = guest.stream(&SendSettings::single().machine("pc-i440fx-7.2").ended());
    assert_eq!(ended, [&stream[..], &[0]].concat());
}

#[test]
fn each_cut_is_a_fault_with_its_place() {
    let guest = guest(2, 1);
    let stream = guest.stream(&SendSettings::single());
    for len in 0..stream.len() {
        let mut blocks = guest.zeros();
        let mut load =
            Load::single(&guest.table, slices(&mut blocks), &LoadSettings::default()).unwrap();
        load.read_from(&mut &stream[..len]).unwrap();
        let Verdict::Fault(fault) = load.verdict() else {
            panic!("{len} bytes of {} are no fault", stream.len());
        };
        assert_eq!(
            (fault.number(), fault.source()),
            (sys::ZIMGASOL_STREAM_TRUNCATED, Some(Source::Main))
        );
        assert!(fault.at().unwrap() <= len as u64);
        assert_eq!(load.fault_of(Source::Main), Some(fault));
    }
    let mut bad = stream;
    bad[0] = b'q';
    let mut blocks = guest.zeros();
    let mut load =
        Load::single(&guest.table, slices(&mut blocks), &LoadSettings::default()).unwrap();
    load.feed(Source::Main, &bad).unwrap();
    let Verdict::Fault(fault) = load.verdict() else { panic!("no fault") };
    assert_eq!((fault.number(), fault.at(), fault.rounds()), (11, Some(0), Some(0)));
    assert!(
        fault.to_string().starts_with("11, ") && fault.to_string().ends_with("at byte 0"),
        "{fault}"
    );
}

/// Sends a guest on channels, by threads: all its pages, in two rounds.
fn send(guest: &Guest, main: UnixStream, channels: Vec<UnixStream>, heads: bool) {
    let settings = SendSettings::channels(channels.len(), 16, UUID);
    let mut sender = Sender::new(&guest.table, &settings).unwrap();
    let (mut main, mut outs) = (main, channels);
    sender.drain_to(Source::Main, &mut main).unwrap();
    let bits = |pages: usize, odd: bool| {
        let mut words = vec![0u64; pages.div_ceil(64)];
        (0..pages)
            .filter(|it| (it % 2 == 1) == odd)
            .for_each(|it| words[it / 64] |= 1 << (it % 64));
        words
    };
    for odd in [false, true] {
        let maps: Vec<_> = guest.blocks.iter().map(|it| bits(it.len() / PAGE, odd)).collect();
        let maps: Vec<_> = maps.iter().map(Vec::as_slice).collect();
        let mut round = sender.begin_round_bitmaps(&maps).unwrap();
        thread::scope(|scope| {
            for (mut worker, out) in round.workers().into_iter().zip(&mut outs) {
                scope.spawn(move || {
                    worker.drain_to(out).unwrap();
                    while let Some(batch) = worker.next_batch().unwrap() {
                        let pages: Vec<_> = batch
                            .pages()
                            .iter()
                            .map(|it| guest.page(batch.block(), *it as usize))
                            .collect();
                        if heads {
                            let zeros: Vec<_> =
                                pages.iter().map(|it| it.iter().all(|byte| *byte == 0)).collect();
                            let mut head = [0; 1344];
                            let len = worker.head(&zeros, &mut head).unwrap();
                            out.write_all(&head[..len]).unwrap();
                            for (page, _) in pages.iter().zip(&zeros).filter(|(_, zero)| !**zero) {
                                out.write_all(page).unwrap();
                            }
                        } else {
                            worker.pack(&pages).unwrap();
                            worker.drain_to(out).unwrap();
                        }
                    }
                    worker.drain_to(out).unwrap();
                });
            }
        });
        round.end().unwrap();
        sender.drain_to(Source::Main, &mut main).unwrap();
    }
    sender.finish().unwrap();
    sender.drain_to(Source::Main, &mut main).unwrap();
    for (j, out) in outs.iter_mut().enumerate() {
        sender.drain_to(Source::Channel(j), out).unwrap();
    }
}

#[test]
fn channels_by_threads() {
    for (channels, heads, whole_rounds) in
        [(1, true, false), (4, true, false), (3, false, false), (2, true, true)]
    {
        let guest = guest(100, 33);
        let mut blocks = guest.zeros();
        let settings = LoadSettings { zero_blocks: true, whole_rounds, ..Default::default() };
        let mut load =
            Load::channels(&guest.table, slices(&mut blocks), &UUID, channels, &settings).unwrap();
        let (main, from_main) = UnixStream::pair().unwrap();
        let (outs, ins): (Vec<_>, Vec<_>) =
            (0..channels).map(|_| UnixStream::pair().unwrap()).unzip();
        let mut answered = None;
        let received = thread::scope(|scope| {
            scope.spawn(|| send(&guest, main, outs, heads));
            receive::channels(&mut load, from_main, ins, |standing| answered = Some(*standing))
        })
        .unwrap();
        assert_eq!((received.standing.rounds, received.standing.missing), (2, 0));
        assert!(answered.unwrap().has_all_rounds && received.after.is_empty());
        drop(load);
        assert_eq!(blocks, guest.blocks);
    }
}

/// A reader that ends early.
struct Cut<R> {
    from: R,
    left: usize,
}

impl<R: Read> Read for Cut<R> {
    fn read(&mut self, buffer: &mut [u8]) -> io::Result<usize> {
        let room = buffer.len().min(self.left);
        let len = self.from.read(&mut buffer[..room])?;
        self.left -= len;
        Ok(len)
    }
}

#[test]
fn a_lost_channel_is_named() {
    let guest = guest(100, 33);
    let (mut texts, mut files) = (vec![], vec![]);
    for _ in 0..3 {
        let (one, other) = UnixStream::pair().unwrap();
        texts.push(one);
        files.push(other);
    }
    let main = texts.remove(0);
    let bytes: Vec<Vec<u8>> = thread::scope(|scope| {
        let read = files.into_iter().map(|mut it| {
            scope.spawn(move || {
                let mut bytes = vec![];
                it.read_to_end(&mut bytes).unwrap();
                bytes
            })
        });
        let read: Vec<_> = read.collect();
        send(&guest, main, texts, true);
        read.into_iter().map(|it| it.join().unwrap()).collect()
    });
    for left in [0, 10, 64, 1000, bytes[2].len() / 2, bytes[2].len() - 1] {
        let mut blocks = guest.zeros();
        let settings = LoadSettings { zero_blocks: true, ..Default::default() };
        let mut load =
            Load::channels(&guest.table, slices(&mut blocks), &UUID, 2, &settings).unwrap();
        let ins =
            vec![Cut { from: &bytes[1][..], left: usize::MAX }, Cut { from: &bytes[2][..], left }];
        let lost = receive::channels(&mut load, &bytes[0][..], ins, |_| {}).unwrap_err();
        assert!(!load.standing().has_all_rounds || left == bytes[2].len() - 1);
        match lost.get_ref().and_then(|it| it.downcast_ref::<Error>()) {
            Some(fault) => assert!([44, 45, 53].contains(&fault.number()), "{left}: {fault:?}"),
            // (the pages of a packet that was claimed)
            None => assert_eq!(lost.kind(), io::ErrorKind::UnexpectedEof),
        }
    }
}

#[test]
fn whole_rounds_by_turns() {
    let guest = guest(20, 6);
    let (one, mut other) = UnixStream::pair().unwrap();
    let (main, mut from_main) = UnixStream::pair().unwrap();
    let (mut text, mut channel) = (vec![], vec![]);
    thread::scope(|scope| {
        scope.spawn(|| send(&guest, main, vec![one], false));
        let read = scope.spawn(|| from_main.read_to_end(&mut text).unwrap());
        other.read_to_end(&mut channel).unwrap();
        read.join().unwrap();
    });
    let mut blocks = guest.zeros();
    let settings = LoadSettings {
        whole_rounds: true,
        round_end: RoundEnd::ByFlush,
        waiting: NonZeroU64::new(1000),
        ..Default::default()
    };
    let mut load = Load::channels(&guest.table, slices(&mut blocks), &UUID, 1, &settings).unwrap();
    let mut at = [0, 0];
    while load.verdict() == Verdict::Running {
        for (i, source) in [Source::Main, Source::Channel(0)].into_iter().enumerate() {
            let bytes = if i == 0 { &text[at[i]..] } else { &channel[at[i]..] };
            if bytes.is_empty() {
                load.end(source).unwrap();
            } else if load.takes(source) {
                at[i] += load.feed(source, &bytes[..bytes.len().min(777)]).unwrap().taken;
            }
        }
    }
    assert_eq!((load.verdict(), load.standing().rounds), (Verdict::Done, 2));
    assert!(load.wanted().is_none());
    drop(load);
    assert_eq!(blocks, guest.blocks);
}

#[test]
fn tables() {
    let number = |blocks: &[(&str, u64)]| Table::new(PageSize::Large, blocks).unwrap_err().number();
    assert_eq!(number(&[]), 1);
    assert_eq!(number(&[("", 1)]), 3);
    assert_eq!(number(&[("a\0b", 1)]), 3);
    assert_eq!(number(&[(&"x".repeat(256), 1)]), 3);
    assert_eq!(number(&[("a", 1), ("a", 1)]), 4);
    assert_eq!(number(&[("a", 0)]), 5);
    assert_eq!(number(&[("a", 1 << 40)]), 6);
    let guest = guest(3, 2);
    assert_eq!(
        guest.table.blocks().collect::<Vec<_>>(),
        [("pc.ram".into(), 3), ("vga.vram".into(), 2)]
    );
    assert_eq!((guest.table.block(2), guest.table.bytes_of(1)), (None, Some(2 * PAGE)));
    let stream = guest.stream(&SendSettings::single());
    assert!(Table::of_stream(Frame::Ram, PageSize::Small, &stream[..30]).unwrap().is_none());
    let found = Table::of_stream(Frame::Ram, PageSize::Small, &stream).unwrap().unwrap();
    assert_eq!(found.blocks().collect::<Vec<_>>(), guest.table.blocks().collect::<Vec<_>>());
    let bad = [&stream[..7], &[9], &stream[8..]].concat();
    // (the file header is one item)
    let fault = Table::of_stream(Frame::Ram, PageSize::Small, &bad).unwrap_err();
    assert_eq!((fault.number(), fault.at()), (12, Some(0)));
}

#[test]
fn what_is_refused() {
    let guest = guest(3, 2);
    let mut short = vec![vec![0; 3 * PAGE], vec![0; PAGE]];
    let none = LoadSettings::default();
    let number = |it: Result<Load<'_>, Error>| it.unwrap_err().number();
    assert_eq!(
        number(Load::single(&guest.table, slices(&mut short), &none)),
        sys::ZIMGASOL_BAD_LENGTH
    );
    assert_eq!(
        number(Load::single(&guest.table, slices(&mut short[..1]), &none)),
        sys::ZIMGASOL_BAD_LENGTH
    );
    let mut blocks = guest.zeros();
    assert_eq!(
        number(Load::channels(&guest.table, slices(&mut blocks), &UUID, 0, &none)),
        sys::ZIMGASOL_BAD_CHANNELS
    );
    assert_eq!(
        number(Load::channels(&guest.table, slices(&mut blocks), &UUID, 256, &none)),
        sys::ZIMGASOL_BAD_CHANNELS
    );
    let mut load = Load::single(&guest.table, slices(&mut blocks), &none).unwrap();
    assert_eq!(load.feed(Source::Channel(0), &[]).unwrap_err().number(), sys::ZIMGASOL_BAD_SOURCE);
    assert_eq!(
        load.end(Source::Channel(usize::MAX)).unwrap_err().number(),
        sys::ZIMGASOL_BAD_SOURCE
    );
    assert!(matches!(load.wanted(), Some(Next::Bytes(1..))));
    load.end(Source::Main).unwrap();
    assert_eq!(load.feed(Source::Main, &[1]).unwrap_err().number(), sys::ZIMGASOL_IS_OVER);
    let long = "x".repeat(1025);
    let named = SendSettings::single().machine(&long);
    assert_eq!(Sender::new(&guest.table, &named).unwrap_err().number(), sys::ZIMGASOL_BAD_LENGTH);
    let many = SendSettings::channels(1, 129, UUID);
    assert_eq!(Sender::new(&guest.table, &many).unwrap_err().number(), sys::ZIMGASOL_BATCH_LIMIT);
    assert_eq!(zimgasol::version(), sys::ZIMGASOL_VERSION_NUMBER);
}

#[test]
fn rounds_that_are_dropped() {
    let guest = guest(3, 2);
    let mut sender = Sender::new(&guest.table, &SendSettings::single()).unwrap();
    let mut round = sender.begin_round().unwrap();
    assert_eq!(
        round.put_page(Place { block: 0, page: 3 }, &[0; PAGE]).unwrap_err().number(),
        sys::ZIMGASOL_NO_PAGE
    );
    assert_eq!(
        round.put_page(Place { block: 0, page: 0 }, &[0; 7]).unwrap_err().number(),
        sys::ZIMGASOL_BAD_LENGTH
    );
    round.put_page(Place { block: 0, page: 1 }, &[5; PAGE]).unwrap();
    drop(round);
    sender.finish().unwrap();
    let mut stream = vec![];
    sender.drain_to(Source::Main, &mut stream).unwrap();
    assert!(stream.len() < PAGE && !stream.contains(&5));

    let mut sender = Sender::new(&guest.table, &SendSettings::channels(2, 8, UUID)).unwrap();
    assert!(sender.begin_round().is_err());
    let round = sender.begin_round_pages(&guest.places()).unwrap();
    drop(round);
    assert_eq!(sender.begin_round_pages(&[]).unwrap_err().number(), sys::ZIMGASOL_OUT_OF_TURN);
    assert_eq!(sender.finish().unwrap_err().number(), sys::ZIMGASOL_OUT_OF_TURN);

    let mut sender = Sender::new(&guest.table, &SendSettings::channels(2, 8, UUID)).unwrap();
    let round = sender.begin_round_pages(&guest.places()).unwrap();
    assert_eq!(round.end().unwrap_err().number(), sys::ZIMGASOL_OUT_OF_TURN);
}

/// A writer that takes a few bytes at a time, and then none.
struct Slow(Vec<u8>, usize);

impl Write for Slow {
    fn write(&mut self, bytes: &[u8]) -> io::Result<usize> {
        if self.0.len() >= self.1 {
            return Err(io::ErrorKind::WouldBlock.into());
        }
        let len = bytes.len().min(100).min(self.1 - self.0.len());
        self.0.extend_from_slice(&bytes[..len]);
        Ok(len)
    }

    fn flush(&mut self) -> io::Result<()> {
        Ok(())
    }
}

#[test]
fn a_writer_that_blocks_loses_nothing() {
    let guest = guest(3, 2);
    let wanted = guest.stream(&SendSettings::single());
    let mut sender = Sender::new(&guest.table, &SendSettings::single()).unwrap();
    let mut out = Slow(vec![], 0);
    for places in guest.places().chunks(5) {
        let mut round = sender.begin_round().unwrap();
        for place in places {
            round.put_page(*place, guest.page(place.block, place.page as usize)).unwrap();
        }
        round.end().unwrap();
    }
    sender.finish().unwrap();
    while sender.drain_to(Source::Main, &mut out).is_err() {
        out.1 += 333;
    }
    assert_eq!(out.0, wanted);
}
