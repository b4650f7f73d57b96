//! The library for C of Zimgasol, as its header `zimgasol.h` declares it. `tools/bindings.py` writes
//! this file from the header, with its comments. Nothing checks here that a caller keeps to its
//! rules, which follow; the crate `zimgasol` keeps them by types.
//!
//! zimgasol.h: sends and loads guest memory in layouts of QEMU's migration.
//!
//! A single stream is RAM's section of the migration stream (stream version 3, RAM section version
//! 4), with all pages in it. A main stream of the same form has channels beside it, with packets of
//! pages (multifd, uncompressed). Both are written round by round and read in pieces of any length.
//! Besides, a file with the capability mapped-ram has a place of its own for each page, which the
//! caller's threads read or write by themselves.
//! Of the documents, C.md has programs and the order of calls, FORMATS.md all bytes, and FAULTS.md
//! all numbers.
//!
//! What a call does is proved of the library behind this header, for any bytes that it is fed. The
//! proofs hold only if the caller follows these rules, which aren't checked:
//!
//!  - Handles. A handle is all zeros before its `_new`, and then only changed by calls. Never write
//!    to one or copy one; it may be moved if the old location isn't used again. Pass `_new` an empty
//!    handle: zero-initialized, or left by `_free` or a failed `_new`. `_free` takes any handle of
//!    its kind, and does nothing to an empty one. Every other call takes a handle whose `_new`
//!    returned ZIMGASOL_DONE and that wasn't freed since. The rules of `_new` also hold for
//!    zimgasol_table_of_stream and zimgasol_mapped_load_table, which make a table, and
//!    zimgasol_send_worker, which makes a worker.
//!    A zimgasol_send_give_back that returns ZIMGASOL_DONE leaves the worker's handle empty.
//!  - Threads. One call at a time works on a handle. A handle may pass to another thread if the
//!    earlier calls happen before the later ones: by a lock, the start or join of a thread, or an
//!    atomic that is released and acquired. Calls on different handles may run at once; a `_new`
//!    that takes a table is a call on that table, too. Each call that takes a handle writes to it,
//!    even one that only reports, so no handle is passed as `const`.
//!  - Signals and forks. Make no call in a signal handler, nor in the child of a `fork` of a process
//!    with threads.
//!  - Buffers. A buffer is valid for its length, and nobody writes to it during the call. Two
//!    buffers of one call don't overlap. A pointer is never null, even if the length is 0.
//!  - Memory. `malloc`, `realloc` and `free` belong together, and align each block to every power of
//!    two up to 16 that divides its size.
//!
//! No call keeps a pointer to a caller's buffer. None returns a buffer of the library's, except for
//! the constant texts of zimgasol_read_status_text. Pages are loaded into blocks that the caller
//! passes to each call.
//!
//! The library calls `malloc`, `realloc`, `free` and the functions of <string.h> that move and
//! compare bytes, and nothing else. So no call starts a thread, blocks, does I/O or prints, and only
//! `malloc` and `realloc` may set `errno`. The proofs don't count the stack: as with any C function,
//! the system stops a thread that has too little. The library is for 64-bit x86-64 processors with
//! SSE4.2 (x86-64-v2). Its files are marked so, and the system's loader refuses the program on
//! another processor.
//!
//! A call that may be refused returns a status: ZIMGASOL_DONE; the number of a fault, 1 to 76; or a
//! number from 100 on, which says how a load stands or what is wrong with the call. Later versions
//! may return others: treat an unknown number as a fault. After anything but ZIMGASOL_DONE nothing
//! has changed, unless the call says otherwise.
//!
//! Pages that are written meanwhile. The bytes passed to a call must not change while it runs. So
//! copy a page of a running guest to a buffer of your own, and pass that copy. It may be torn: it
//! has some bytes from before a write and some from after. This does no harm if each write after the
//! start of the copy marks the page as dirty, so that it is sent again in a later round, and the
//! last round is sent with the guest stopped. Making the copy is the caller's affair: to C a plain
//! read is a race then, and hypervisors use `memcpy` on memory that a vCPU writes. On several
//! channels a page need not be copied: zimgasol_worker_head writes a packet up to its pages, and the
//! caller sends the pages from where they lie. No call reads them then.
#![no_std]
#![allow(non_camel_case_types)]

use core::ffi::c_void;

/// The version of this header, its three parts, and its number: 10000 * major + 100 * minor +
/// patch.
pub const ZIMGASOL_VERSION: &str = "0.3.0";

pub const ZIMGASOL_VERSION_MAJOR: u32 = 0;

pub const ZIMGASOL_VERSION_MINOR: u32 = 3;

pub const ZIMGASOL_VERSION_PATCH: u32 = 0;

pub const ZIMGASOL_VERSION_NUMBER: u32 = 300;

/// The status that a call returns, or the fault that a load ended with.
pub type zimgasol_status = u32;

pub const ZIMGASOL_DONE: zimgasol_status = 0;
/// there is no block
pub const ZIMGASOL_NO_BLOCKS: zimgasol_status = 1;
/// there are more than 256 blocks
pub const ZIMGASOL_TOO_MANY_BLOCKS: zimgasol_status = 2;
/// a block's id isn't 1 to 255 bytes of 0x20 to 0x7E
pub const ZIMGASOL_ID: zimgasol_status = 3;
/// an earlier block has the id
pub const ZIMGASOL_ID_TWICE: zimgasol_status = 4;
/// a block has no page
pub const ZIMGASOL_NO_PAGES: zimgasol_status = 5;
/// all blocks together have more than 2^40 bytes
pub const ZIMGASOL_TOO_LARGE: zimgasol_status = 6;
/// it doesn't begin with QEVM
pub const ZIMGASOL_STREAM_MAGIC: zimgasol_status = 11;
/// its version isn't 3
pub const ZIMGASOL_STREAM_VERSION: zimgasol_status = 12;
/// an unexpected section type
pub const ZIMGASOL_STREAM_SECTION_TYPE: zimgasol_status = 13;
/// a section's name isn't ram
pub const ZIMGASOL_STREAM_SECTION_NAME: zimgasol_status = 14;
/// a section's instance isn't 0
pub const ZIMGASOL_STREAM_INSTANCE: zimgasol_status = 15;
/// a section's version isn't 4
pub const ZIMGASOL_STREAM_RAM_VERSION: zimgasol_status = 16;
/// a section's id isn't that of START
pub const ZIMGASOL_STREAM_SECTION_ID: zimgasol_status = 17;
/// a footer isn't 0x7E with the section id of START
pub const ZIMGASOL_STREAM_FOOTER: zimgasol_status = 18;
/// the configuration's name is longer than 1,024 bytes
pub const ZIMGASOL_STREAM_CONFIG_LENGTH: zimgasol_status = 19;
/// the total of the size list is 0, or above 2^40
pub const ZIMGASOL_STREAM_TOTAL: zimgasol_status = 20;
/// an entry's id isn't 1 to 255 bytes of 0x20 to 0x7E
pub const ZIMGASOL_STREAM_ID: zimgasol_status = 21;
/// an earlier entry has the id
pub const ZIMGASOL_STREAM_ID_TWICE: zimgasol_status = 22;
/// an entry's length is 0, or not a multiple of the page size
pub const ZIMGASOL_STREAM_LENGTH: zimgasol_status = 23;
/// the size list has more than 256 entries
pub const ZIMGASOL_STREAM_TOO_MANY_BLOCKS: zimgasol_status = 24;
/// the entries' lengths add up to more than the total
pub const ZIMGASOL_STREAM_SIZE_SUM: zimgasol_status = 25;
/// the first record of START isn't a size list, or there is one elsewhere
pub const ZIMGASOL_STREAM_SIZE_PLACE: zimgasol_status = 26;
/// a record has flags that aren't accepted: `first`
pub const ZIMGASOL_STREAM_FLAGS: zimgasol_status = 27;
/// a page record names no block, and none was named before
pub const ZIMGASOL_STREAM_NO_BLOCK: zimgasol_status = 28;
/// a page record names a block that isn't in the table
pub const ZIMGASOL_STREAM_UNKNOWN_BLOCK: zimgasol_status = 29;
/// an offset isn't in its block, or isn't 0 where it must be
pub const ZIMGASOL_STREAM_OFFSET_OUT: zimgasol_status = 30;
/// the byte of a zero page isn't 0: `first`
pub const ZIMGASOL_STREAM_FILL: zimgasol_status = 31;
/// a FLUSH in a single stream
pub const ZIMGASOL_STREAM_FLUSH: zimgasol_status = 32;
/// the main stream ends with page records that are in no round
pub const ZIMGASOL_STREAM_TAIL: zimgasol_status = 33;
/// the stream ends before it is closed
pub const ZIMGASOL_STREAM_TRUNCATED: zimgasol_status = 34;
/// the hello doesn't begin with MULTIFD_MAGIC
pub const ZIMGASOL_CHANNEL_HELLO_MAGIC: zimgasol_status = 35;
/// the hello's version isn't MULTIFD_VERSION
pub const ZIMGASOL_CHANNEL_HELLO_VERSION: zimgasol_status = 36;
/// the hello has another UUID
pub const ZIMGASOL_CHANNEL_HELLO_UUID: zimgasol_status = 37;
/// the hello's id isn't below the number of channels
pub const ZIMGASOL_CHANNEL_HELLO_ID: zimgasol_status = 38;
/// a packet doesn't begin with MULTIFD_MAGIC
pub const ZIMGASOL_CHANNEL_PACKET_MAGIC: zimgasol_status = 39;
/// a packet's version isn't MULTIFD_VERSION
pub const ZIMGASOL_CHANNEL_PACKET_VERSION: zimgasol_status = 40;
/// a packet has flags other than MULTIFD_FLAG_SYNC: `first`
pub const ZIMGASOL_CHANNEL_PACKET_FLAGS: zimgasol_status = 41;
/// a packet has more pages than a packet may have
pub const ZIMGASOL_CHANNEL_PAGE_COUNT: zimgasol_status = 42;
/// next_packet_size isn't the length of the normal pages
pub const ZIMGASOL_CHANNEL_PACKET_SIZE: zimgasol_status = 43;
/// the channel ends inside the hello or a packet
pub const ZIMGASOL_CHANNEL_TRUNCATED: zimgasol_status = 44;
/// the channel ends after a packet without SYNC
pub const ZIMGASOL_CHANNEL_UNSYNCED: zimgasol_status = 45;
/// a subsection of the configuration, or its version, isn't known
pub const ZIMGASOL_MACHINE_SUBSECTION: zimgasol_status = 46;
/// the capability mapped-ram: pages are at fixed offsets of a file
pub const ZIMGASOL_MACHINE_CAPABILITY: zimgasol_status = 47;
/// the configuration's page bits don't match the page size
pub const ZIMGASOL_MACHINE_PAGE_BITS: zimgasol_status = 48;
/// a COMMAND that isn't skipped, or that allows postcopy together with x-ignore-shared
pub const ZIMGASOL_MACHINE_COMMAND: zimgasol_status = 49;
/// a hello has the id of an earlier channel
pub const ZIMGASOL_HELLO_TWICE: zimgasol_status = 51;
/// a channel has more rounds than the main stream
pub const ZIMGASOL_EXTRA: zimgasol_status = 52;
/// a channel has fewer rounds than the main stream
pub const ZIMGASOL_SHORT: zimgasol_status = 53;
/// packet `first` is of an earlier round
pub const ZIMGASOL_ROUND_FOREIGN: zimgasol_status = 54;
/// packet `first` comes twice
pub const ZIMGASOL_ROUND_DOUBLED: zimgasol_status = 55;
/// packet `first` is missing
pub const ZIMGASOL_ROUND_MISSING: zimgasol_status = 56;
/// packet `first` names a block that isn't in the table
pub const ZIMGASOL_ROUND_UNKNOWN_BLOCK: zimgasol_status = 57;
/// offset `second` of packet `first` is of no page of its block
pub const ZIMGASOL_ROUND_OFFSET: zimgasol_status = 58;
/// page `second` of block `first` comes twice
pub const ZIMGASOL_ROUND_DOUBLE_PAGE: zimgasol_status = 59;
/// an allocation was refused; each call says what holds then
pub const ZIMGASOL_NO_MEMORY: zimgasol_status = 60;
/// a send on more than 255 channels
pub const ZIMGASOL_CHANNELS: zimgasol_status = 61;
/// the most pages of a packet is 0, or more than fit into one
pub const ZIMGASOL_BATCH_LIMIT: zimgasol_status = 62;
/// the stream has another table than the blocks of the load
pub const ZIMGASOL_OTHER_TABLE: zimgasol_status = 63;
/// more page records in a section or a round than `waiting` of zimgasol_settings
pub const ZIMGASOL_STREAM_WAITING: zimgasol_status = 64;
/// more packets and pages in a channel's round than `waiting` of zimgasol_settings
pub const ZIMGASOL_CHANNEL_WAITING: zimgasol_status = 65;
/// the version of a block's header isn't 1
pub const ZIMGASOL_MAPPED_HEADER_VERSION: zimgasol_status = 72;
/// the page size in a block's header isn't the one that was passed
pub const ZIMGASOL_MAPPED_HEADER_PAGE_SIZE: zimgasol_status = 73;
/// a block's bitmap doesn't follow its header: offsets count from another byte of the file
pub const ZIMGASOL_MAPPED_BITMAP_OFFSET: zimgasol_status = 74;
/// the offset of a block's pages is before the end of its bitmap, is no multiple of the page
/// size, or leaves no room for the pages below 2^63
pub const ZIMGASOL_MAPPED_PAGES_OFFSET: zimgasol_status = 75;
/// a bit is set after that of the block's last page: try the other byte order
pub const ZIMGASOL_MAPPED_BITMAP_TAIL: zimgasol_status = 76;
/// no fault: a load needs more of a source or a file; or a success of zimgasol_worker_next,
/// _head and _pack, and of zimgasol_load_claim and _take
pub const ZIMGASOL_RUNNING: zimgasol_status = 100;
/// a page size other than 4096 and 8192
pub const ZIMGASOL_BAD_PAGE_SIZE: zimgasol_status = 101;
/// a load of more than 255 channels
pub const ZIMGASOL_BAD_CHANNELS: zimgasol_status = 103;
/// no such source
pub const ZIMGASOL_BAD_SOURCE: zimgasol_status = 104;
/// the source was ended before
pub const ZIMGASOL_IS_OVER: zimgasol_status = 105;
/// the stream would have 2^63 bytes or more (with channels, a source 2^64)
pub const ZIMGASOL_TOO_LONG: zimgasol_status = 106;
/// no such block, page or part
pub const ZIMGASOL_NO_PAGE: zimgasol_status = 107;
/// a buffer of another length than is needed
pub const ZIMGASOL_BAD_LENGTH: zimgasol_status = 108;
/// a call out of order: a round is open, or none is; the stream is ended; the call is for the
/// other kind of send; a worker isn't the next one, hasn't ended, has no batch, or has bytes to
/// be drained; no page comes next (zimgasol_load_page_read); pages are claimed, or this packet's
/// aren't (zimgasol_load_take); heads are still to be taken (zimgasol_mapped_load_table)
pub const ZIMGASOL_OUT_OF_TURN: zimgasol_status = 109;
/// more pages than a packet has: 128 of 4096 bytes, 64 of 8192
pub const ZIMGASOL_TOO_MANY_PAGES: zimgasol_status = 110;
/// not a zimgasol_frame
pub const ZIMGASOL_BAD_FRAME: zimgasol_status = 113;
/// not a zimgasol_round_end
pub const ZIMGASOL_BAD_ROUND_END: zimgasol_status = 114;
/// no fault: a page is claimed for a packet that wasn't taken yet (zimgasol_load_claim)
pub const ZIMGASOL_IS_CLAIMED: zimgasol_status = 115;
/// no fault: feed these bytes, which aren't the head of a packet with pages to claim
/// (zimgasol_load_claim)
pub const ZIMGASOL_TO_FEED: zimgasol_status = 116;

/// The source of a fault or a piece: the main stream (or the single stream), channel j from 0 on, or
/// no one source (of a fault only). j counts the caller's connections, whatever ids are in their
/// hellos.
pub const ZIMGASOL_MAIN: usize = 0;

pub const ZIMGASOL_ROUND: u64 = u64::MAX;

/// How a stream is framed. RAM: RAM's section alone, up to the end byte after its END, as this
/// library writes it. MACHINE: a whole machine's stream, as QEMU writes it, up to the footer of
/// RAM's END, or in a background snapshot, which has none, up to the first device's section.
/// COMMANDs and subsections that don't concern RAM are skipped, and the sections of devices that
/// follow aren't read: they begin at `closed_at` of zimgasol_standing.
pub type zimgasol_frame = u32;

pub const ZIMGASOL_FRAME_RAM: zimgasol_frame = 0;
pub const ZIMGASOL_FRAME_MACHINE: zimgasol_frame = 1;

/// What ends a round of the main stream, in a load of several channels. BY_FLUSH: each FLUSH record,
/// as this library writes it, and QEMU for machine types of 8.1 and newer. BY_EOS: each EOS of a
/// section, as QEMU writes it, without any FLUSH, for machine types of 8.0 and older or with
/// `multifd-flush-after-each-section=on`. AS_SHOWN: as the stream shows, BY_FLUSH if START has a
/// FLUSH or the first record after START is one, else BY_EOS. It reads all of these streams, so use
/// it if you don't know the sender. With the wrong one of the other two, sources wait for each other
/// forever, or files have a fault 33, 52 or 53.
pub type zimgasol_round_end = u32;

pub const ZIMGASOL_BY_FLUSH: zimgasol_round_end = 0;
pub const ZIMGASOL_BY_EOS: zimgasol_round_end = 1;
pub const ZIMGASOL_AS_SHOWN: zimgasol_round_end = 2;

/// The settings of a load. All zeros: the frame RAM, rounds that end with FLUSH, no limit, blocks
/// that hold anything, and each page written as it comes.
///  - `round_end`: what ends a round of a main stream. A load of a single stream ignores it.
///  - `waiting`: the most page records of a section of a single stream, or of a round of a main
///    stream; one more is the fault STREAM_WAITING. Also the most packets and pages, counted
///    together, of a channel's round; one more is CHANNEL_WAITING. 0 sets no limit. 2 * pages + 1
///    suffices if each page is sent at most once in a section or round. Every load tests the limit,
///    so all have the same result. With `whole_rounds` it bounds what a load keeps of the open
///    section of a single stream: as many pages, and up to 48 bytes for each. With channels it
///    bounds the main stream's page records of the open round as much. It doesn't bound the
///    sections, or rounds of a main stream, that one piece completes: feed short pieces, and give up
///    a sender of which much is fed without a round more.
///  - `zero_blocks`: nonzero if the blocks hold zeros when the load begins, as a fresh mapping does.
///    The load keeps a bit for each page that may hold something else, and neither reads nor writes
///    any other page that comes as zeros. So blocks of a memfd, of a file or of huge pages stay as
///    small as their contents, and a sender that repeats zero pages costs little. Nothing checks it:
///    if a page held something else, that stays in the guest.
///  - `whole_rounds`: nonzero to write complete rounds only, or of a single stream complete
///    sections. After each call the blocks have the rounds or sections counted (`rounds`) and
///    nothing else, also after a fault or a refused allocation. The load keeps the open round or
///    section apart, and copies it into the blocks once it is complete and without a fault. With
///    channels it reserves memory for a second guest, which the system provides as a round needs it,
///    and each round uses it again. Of a single stream it keeps the page records of the open section
///    (see `waiting`). All bytes are fed: no page is read in place (zimgasol_load_wanted,
///    zimgasol_load_claim).
///  - `reserved`: zeros.
#[repr(C)]
#[derive(Clone, Copy, Debug)]
pub struct zimgasol_settings {
    pub frame: zimgasol_frame,
    pub round_end: zimgasol_round_end,
    pub waiting: u64,
    pub zero_blocks: u64,
    pub whole_rounds: u64,
    pub reserved: [u64; 4],
}

/// The settings of a send. All zeros: a single stream without a machine's name.
///  - `channels`: the number of channels beside the main stream, at most 255. 0 asks for a single
///    stream, which ignores `limit` and `uuid`.
///  - `limit`: the most pages of a packet, 1 to 128 of 4096 bytes or 1 to 64 of 8192.
///  - `uuid`: the UUID in the hellos of the channels.
///  - `named`: nonzero to write a machine's stream: a configuration with the machine's name, the
///    first `name_len` bytes of `name`, follows the file header. QEMU refuses a stream with another
///    name than its own machine's.
///  - `reserved`: zeros.
#[repr(C)]
#[derive(Clone, Copy, Debug)]
pub struct zimgasol_send_settings {
    pub channels: usize,
    pub limit: usize,
    pub uuid: [u8; 16],
    pub named: u64,
    pub name_len: usize,
    pub name: [u8; 1024],
    pub reserved: [u64; 4],
}

/// A RAM block: its id, ended by a byte 0 as in QEMU's idstr, and its number of pages.
#[repr(C)]
#[derive(Clone, Copy, Debug)]
pub struct zimgasol_block {
    pub id: [u8; 256],
    pub pages: u64,
}

/// A fault of a load: its number, the rounds counted before it (single stream: sections), its
/// source, and in `first` and `second` what it carries: flags (27, 41), a byte (31), a packet's
/// number (54 to 58; with 58 `second` is the index of an offset), or a block and a page (59).
/// `reserved` has zeros. With DONE all fields are zeros. With RUNNING `number` is 100, `round` the
/// rounds counted, and the others are zeros.
#[repr(C)]
#[derive(Clone, Copy, Debug)]
pub struct zimgasol_fault {
    pub round: u64,
    pub source: u64,
    pub number: u32,
    pub first: u64,
    pub second: u64,
    pub reserved: [u64; 3],
}

/// The result of feeding a piece: how many of its bytes were taken, and the rounds counted since the
/// beginning (single stream: sections), which tells whether a round ended.
#[repr(C)]
#[derive(Clone, Copy, Debug)]
pub struct zimgasol_fed {
    pub taken: usize,
    pub rounds: u64,
}

/// The state of a load (zimgasol_load_standing). `reserved` has zeros.
///  - `rounds`: with channels, the number of valid rounds, which are in the blocks (with
///    whole_rounds nothing else is). START and END aren't rounds. Of a single stream, the number of
///    complete sections, START and END included. The blocks may also have records of the next
///    section; with whole_rounds they don't.
///  - `missing`: how many pages of the blocks no record and no packet named, in the rounds counted
///    or in the single stream so far; with whole_rounds its open section counts as naming none. With
///    DONE, or once all rounds are in, the streams don't have these pages, and the blocks hold there
///    what they held before. It is 0 for a complete guest. An incremental stream, or a main stream
///    whose channels were lost, leaves pages out and is DONE all the same. With OTHER_TABLE it is
///    the number of all pages. After NO_MEMORY for good it has no meaning.
///  - `claimed`: how many pages are claimed (zimgasol_load_claim); 0 with whole_rounds.
///  - `has_all_rounds`: 1 once all rounds are in, else 0: the main stream is closed, each of its
///    rounds is valid and in the blocks, and no packet of a further round has begun. QEMU with a
///    return path ends its channels only after the answer, and DONE waits for their ends: so answer
///    when this is 1. A single stream has all rounds once it is closed.
///  - `is_closed`: 1 if the main stream, or the single stream, is closed, else 0; always 0 with
///    NO_MEMORY, and of a single stream with OTHER_TABLE.
///  - `closed_at`: if it is closed, how many of the bytes taken belong to it: up to its end byte, or
///    in the frame MACHINE up to the footer of RAM's END, in a background snapshot up to the first
///    device's section. Bytes taken after them are the caller's. Else 0.
#[repr(C)]
#[derive(Clone, Copy, Debug)]
pub struct zimgasol_standing {
    pub rounds: u64,
    pub missing: u64,
    pub claimed: u64,
    pub has_all_rounds: u64,
    pub is_closed: u64,
    pub closed_at: u64,
    pub reserved: [u64; 4],
}

/// What a load has of a source (zimgasol_load_source). `reserved` has zeros.
///  - `fed`: how many of its bytes were taken.
///  - `is_known`: 1 if `valid_up_to` is known, else 0: after NO_MEMORY, and of a single stream with
///    OTHER_TABLE.
///  - `valid_up_to`: how many bytes, from the first one on, are complete items without a fault; 0 if
///    it isn't known. If the verdict is a fault of this source (11 to 49, 64, 65), the item with the
///    fault begins at this byte, counted from 0. Other faults are of no item.
#[repr(C)]
#[derive(Clone, Copy, Debug)]
pub struct zimgasol_source {
    pub fed: u64,
    pub is_known: u64,
    pub valid_up_to: u64,
    pub reserved: [u64; 4],
}

/// A constant string of the library's: its bytes, the last of which is 0.
#[repr(C)]
#[derive(Clone, Copy, Debug)]
pub struct zimgasol_text {
    pub bytes: *const u8,
    pub bytes_len: usize,
}

/// A page of a block, by number.
#[repr(C)]
#[derive(Clone, Copy, Debug)]
pub struct zimgasol_place {
    pub block: usize,
    pub page: u64,
}

/// The dirty bitmap of a block, for reading: `len` words of 64 bits. A page has bit `page % 64`,
/// counted from the least significant, of word `page / 64`: as in QEMU's bitmaps on a 64-bit host,
/// and in KVM's dirty log on a little-endian host.
#[repr(C)]
#[derive(Clone, Copy, Debug)]
pub struct zimgasol_bitmap {
    pub words: *const u64,
    pub len: usize,
}

/// The pages of one packet: their block, how many there are, and their numbers in the block,
/// ascending. Only the first `count` numbers have a meaning.
#[repr(C)]
#[derive(Clone, Copy, Debug)]
pub struct zimgasol_batch {
    pub block: usize,
    pub count: usize,
    pub pages: [u64; 128],
}

/// The bytes of a page, for reading.
#[repr(C)]
#[derive(Clone, Copy, Debug)]
pub struct zimgasol_lent {
    pub bytes: *const u8,
    pub len: usize,
}

/// The bytes of a block, for writing.
#[repr(C)]
#[derive(Clone, Copy, Debug)]
pub struct zimgasol_buffer {
    pub bytes: *mut u8,
    pub len: usize,
}

/// The pages of one packet that the caller reads in place (zimgasol_load_claim): their block, how
/// many have contents in the packet (`normal`), how many the caller clears (`zero`), and their
/// numbers in the block, those with contents first. Only the first `normal + zero` numbers have a
/// meaning. The caller clears all zero pages of the packet, or with `zero_blocks` those that may
/// hold something else.
#[repr(C)]
#[derive(Clone, Copy, Debug)]
pub struct zimgasol_pages {
    pub block: usize,
    pub normal: usize,
    pub zero: usize,
    pub pages: [u64; 128],
}

/// The bytes of a channel's hello, and of a packet before its pages' contents: 1344, or 832 with
/// pages of 8192 bytes.
pub const ZIMGASOL_HELLO_LEN: usize = 64;

/// What the next `len` bytes of a stream are, at least 1 (zimgasol_load_wanted). If is_page is 1
/// they are the content of a page that belongs `offset` bytes into the buffer of block `block`. Else
/// is_page, `block` and `offset` are 0.
#[repr(C)]
#[derive(Clone, Copy, Debug)]
pub struct zimgasol_next {
    pub len: usize,
    pub is_page: u64,
    pub block: usize,
    pub offset: u64,
}

/// Pages of a block whose contents follow each other in a file with mapped-ram: the first one, how
/// many there are, and the offset in the file of the first one's content. With 0 `pages` there is
/// none: `page` is the block's number of pages, and `offset` 0.
#[repr(C)]
#[derive(Clone, Copy, Debug)]
pub struct zimgasol_run {
    pub page: u64,
    pub pages: u64,
    pub offset: u64,
}

/// Where a part of a file with mapped-ram lies: the offset in the file of its first byte, and how
/// many bytes it has.
#[repr(C)]
#[derive(Clone, Copy, Debug)]
pub struct zimgasol_part {
    pub offset: u64,
    pub len: usize,
}

/// The handles. `full` is 0 if a handle is empty. Its other values, and `at`, are internal.
#[repr(C)]
#[derive(Debug)]
pub struct zimgasol_table {
    pub at: *mut c_void,
    pub full: u64,
}

#[repr(C)]
#[derive(Debug)]
pub struct zimgasol_load {
    pub at: *mut c_void,
    pub full: u64,
}

#[repr(C)]
#[derive(Debug)]
pub struct zimgasol_send {
    pub at: *mut c_void,
    pub full: u64,
}

#[repr(C)]
#[derive(Debug)]
pub struct zimgasol_worker {
    pub at: *mut c_void,
    pub full: u64,
}

#[repr(C)]
#[derive(Clone, Copy, Debug)]
pub struct zimgasol_mapped_load {
    pub at: *mut c_void,
    pub full: u64,
}

#[repr(C)]
#[derive(Clone, Copy, Debug)]
pub struct zimgasol_mapped_send {
    pub at: *mut c_void,
    pub full: u64,
}

unsafe extern "C" {
    /// Returns the library's version: the ZIMGASOL_VERSION_NUMBER of the header that it came with.
    pub fn zimgasol_version() -> u32;

    /// Replaces *out, which must have a text, by the text of a status. It lasts as long as the
    /// program.
    pub fn zimgasol_read_status_text(status: u32, out: *mut zimgasol_text);

    /// Writes the text of a fault, with what it carries and its source, to `out` of `len` bytes, and
    /// ends it with a byte 0. It is cut if there is no room; 256 bytes are always enough. If has_at is
    /// true it ends with the byte `at` of the source: `valid_up_to` of zimgasol_load_source. Returns the
    /// length of the whole text without the byte 0.
    pub fn zimgasol_read_fault_text(
        fault: *const zimgasol_fault,
        has_at: bool,
        at: u64,
        out: *mut u8,
        len: usize,
    ) -> u64;

    /// Makes a table of `count` blocks, which it copies. Returns DONE, BAD_PAGE_SIZE, NO_MEMORY, or the
    /// first fault of the blocks, 1 to 6. With 3, 4 and 5 *entry is the number of the block, from 0;
    /// with 1, 2, 6 and NO_MEMORY it is 0; else it is unchanged.
    pub fn zimgasol_table_new(
        table: *mut zimgasol_table,
        page_size: u64,
        blocks: *const zimgasol_block,
        count: usize,
        entry: *mut usize,
    ) -> zimgasol_status;

    /// Makes the table of a stream from its first `len` bytes, read in this frame with pages of
    /// page_size bytes. They may be those of a saved file, a single stream or a main stream, and are fed
    /// to a load again. Returns DONE; RUNNING if more bytes are needed: call again with all of them and
    /// some more (a size list of 256 blocks has less than 70,000 bytes); the number of the fault before
    /// the end of the table; BAD_PAGE_SIZE, BAD_FRAME or NO_MEMORY. *at is the number of bytes that are
    /// complete items without a fault, as far as they were read; an item with a fault begins there. With
    /// the last three statuses it is unchanged.
    ///
    /// So a reader finds the blocks of a file, maps or allocates them, and loads into them. All blocks
    /// together may have up to 2^40 bytes: test how much the guest may get.
    pub fn zimgasol_table_of_stream(
        table: *mut zimgasol_table,
        page_size: u64,
        frame: zimgasol_frame,
        bytes: *const u8,
        len: usize,
        at: *mut u64,
    ) -> zimgasol_status;

    /// Returns the number of blocks of a table.
    pub fn zimgasol_table_blocks(table: *mut zimgasol_table) -> usize;

    /// Writes the id of block `i` and its number of pages to *out. Returns DONE, or NO_PAGE, with *out
    /// unchanged, if there is no such block.
    pub fn zimgasol_table_block(
        table: *mut zimgasol_table,
        i: usize,
        out: *mut zimgasol_block,
    ) -> zimgasol_status;

    /// Frees a table. Sends and loads that were made with it keep their own copy.
    pub fn zimgasol_table_free(table: *mut zimgasol_table);

    /// Makes a load into the blocks of a table, with settings; it copies both. With 0 `channels` it is
    /// of a single stream, and ignores round_end and the UUID, for which any pointer but null will do.
    /// Else it is of a main stream and 1 to 255 channels, with a UUID of 16 bytes in their hellos.
    /// Nothing is claimed. Returns DONE, or the first of these that applies: BAD_CHANNELS (more than
    /// 255), BAD_LENGTH (of the UUID), BAD_FRAME, BAD_ROUND_END, NO_MEMORY.
    pub fn zimgasol_load_new(
        load: *mut zimgasol_load,
        table: *mut zimgasol_table,
        uuid: *const u8,
        uuid_len: usize,
        channels: usize,
        settings: *const zimgasol_settings,
    ) -> zimgasol_status;

    /// Takes the first bytes of a piece of a source, ZIMGASOL_MAIN or ZIMGASOL_CHANNEL(j), and writes
    /// their pages into the `count` blocks, which are in the table's order. It doesn't change the array
    /// `blocks`. fed->taken is the number of bytes taken: with DONE all, or with channels fewer, as
    /// above; else 0. fed->rounds is the number of rounds or sections counted, whatever is returned:
    /// more than after the call before if the piece ended one. (If the load fails for good with
    /// NO_MEMORY, bytes of the piece may be taken: zimgasol_load_source counts them, and their pages may
    /// be written; with whole_rounds only those of rounds counted are.)
    ///
    /// Returns DONE, also once there is a verdict: then no byte is taken with channels, and those of a
    /// single stream are only counted. Or it returns the first of these that applies, with nothing
    /// changed: OUT_OF_TURN if pages are claimed; BAD_SOURCE; IS_OVER after _end; TOO_LONG; BAD_LENGTH
    /// if the blocks aren't the table's. Or NO_MEMORY: if the verdict is NO_MEMORY too, the load has
    /// failed for good; else nothing has changed, and the piece can be fed again. A single stream with
    /// whole_rounds never fails for good.
    pub fn zimgasol_load_feed(
        load: *mut zimgasol_load,
        blocks: *mut zimgasol_buffer,
        count: usize,
        source: usize,
        piece: *const u8,
        len: usize,
        fed: *mut zimgasol_fed,
    ) -> zimgasol_status;

    /// Returns whether bytes of a source are taken now. They aren't if there is no such source, or it
    /// was ended, is closed or has a fault. With channels they aren't either once there is a verdict, if
    /// the source has all of the current round, or if it is a channel after its hello and the main
    /// stream's table isn't known. Ask again after a call that changed the rounds counted or the
    /// verdict, and after the main stream took bytes.
    pub fn zimgasol_load_takes(load: *mut zimgasol_load, source: usize) -> bool;

    /// Ends a source whose bytes were all taken. Returns DONE or BAD_SOURCE. A second call changes
    /// nothing.
    pub fn zimgasol_load_end(load: *mut zimgasol_load, source: usize) -> zimgasol_status;

    /// Returns the verdict on the bytes taken: DONE, RUNNING, or the number of a fault; *found has it
    /// with its source. NO_MEMORY is for good.
    ///
    /// A single stream is DONE once it is closed: its end byte was read, or in the frame MACHINE the
    /// footer of RAM's END. Without a fault so far it is RUNNING, and after _end STREAM_TRUNCATED (34);
    /// else it is its first fault.
    ///
    /// With channels it is DONE once the main stream is closed and every channel has ended after as many
    /// rounds. It is RUNNING as long as any source may have more of the round, even if another one has a
    /// fault: which fault is reported doesn't depend on which bytes come first. It is that of the first
    /// round that fails, and stays, whatever is fed. To get it at once, end the sources that stall. They
    /// may have a fault then, too: the main stream's fault comes before those of channels, and these in
    /// their order.
    pub fn zimgasol_load_verdict(
        load: *mut zimgasol_load,
        found: *mut zimgasol_fault,
    ) -> zimgasol_status;

    /// Returns the fault of the bytes taken of one source, whatever the other sources have, or DONE if
    /// they have none; *found has it. It is known at once, while the verdict is RUNNING as long as
    /// another source may still have bytes. A source that was ended too early has STREAM_TRUNCATED,
    /// CHANNEL_TRUNCATED, or after a packet without SYNC CHANNEL_UNSYNCED, which tells which connection
    /// broke. Another table is no fault of a main stream's own; of a single stream it is OTHER_TABLE.
    /// Returns BAD_SOURCE with *found unchanged. After NO_MEMORY no fault is known with channels, and
    /// that of a single stream is NO_MEMORY.
    pub fn zimgasol_load_fault_of(
        load: *mut zimgasol_load,
        source: usize,
        found: *mut zimgasol_fault,
    ) -> zimgasol_status;

    /// Writes the state of a load to *out.
    pub fn zimgasol_load_standing(load: *mut zimgasol_load, out: *mut zimgasol_standing);

    /// Writes to *out what the load has of a source; zeros if there is no such source, as for
    /// ZIMGASOL_ROUND.
    pub fn zimgasol_load_source(load: *mut zimgasol_load, source: usize, out: *mut zimgasol_source);

    /// Frees a load. The blocks stay the caller's.
    pub fn zimgasol_load_free(load: *mut zimgasol_load);

    /// Writes to *next what the next bytes of a single stream are: those of an incomplete item, or the
    /// content of a page, which lies within the blocks. Returns whether the stream has more: false once
    /// it is closed, has a fault or another table, or a piece failed for good with NO_MEMORY; and always
    /// with channels and with whole_rounds. Then *next is unchanged. _end has no influence on it, though
    /// no call takes bytes after _end.
    pub fn zimgasol_load_wanted(load: *mut zimgasol_load, next: *mut zimgasol_next) -> bool;

    /// Takes the next page, whose bytes the caller has read into its block. The other bytes of the
    /// blocks are as the call before left them. Returns DONE. With channels, and with whole_rounds, it
    /// returns OUT_OF_TURN. Of a single stream it returns the first of these that applies, with nothing
    /// changed: IS_OVER after _end; OUT_OF_TURN if no page comes next; TOO_LONG; BAD_LENGTH if the
    /// blocks aren't the table's.
    pub fn zimgasol_load_page_read(
        load: *mut zimgasol_load,
        blocks: *const zimgasol_buffer,
        count: usize,
    ) -> zimgasol_status;

    /// Claims the pages of the next packet of channel `channel`, from 0 on, by its head of
    /// ZIMGASOL_HEAD_LEN bytes. Returns
    ///  - RUNNING: *pages has them, and until _take only the caller writes them;
    ///  - IS_CLAIMED: one of them is claimed for another packet. ask again after that one was taken;
    ///  - TO_FEED: no packet with this head is claimed. It is a SYNC packet or none, it has a fault, a
    ///    page of it or of the round is outside its block, no bytes of the channel are taken now, or the
    ///    load has whole_rounds. Pass the bytes to _feed, which says what they are;
    ///  - BAD_SOURCE: there is no such channel.
    ///
    /// Unless it returns RUNNING nothing is claimed, and *pages is unchanged.
    pub fn zimgasol_load_claim(
        load: *mut zimgasol_load,
        channel: usize,
        head: *const u8,
        len: usize,
        pages: *mut zimgasol_pages,
    ) -> zimgasol_status;

    /// Takes the packet that was claimed with this head, once its pages are in the blocks: the zero
    /// pages are cleared, and the others have these contents, in order, each in its block or a copy of
    /// it. They aren't claimed any more. Returns RUNNING; OUT_OF_TURN if the packet isn't the channel's
    /// next one, its pages aren't claimed (so always with whole_rounds), or there isn't a content of the
    /// page size for each of its `normal`; BAD_SOURCE; or NO_MEMORY. Unless it returns RUNNING nothing
    /// has changed: after NO_MEMORY call it again.
    pub fn zimgasol_load_take(
        load: *mut zimgasol_load,
        channel: usize,
        head: *const u8,
        len: usize,
        contents: *const zimgasol_lent,
        count: usize,
    ) -> zimgasol_status;

    /// Makes a send of a table, which it copies, with settings: of a single stream if `channels` is 0,
    /// else on that many channels. Returns DONE, or the first of these that applies: BAD_LENGTH (of the
    /// name), CHANNELS, BATCH_LIMIT, NO_MEMORY.
    pub fn zimgasol_send_new(
        send: *mut zimgasol_send,
        table: *mut zimgasol_table,
        settings: *const zimgasol_send_settings,
    ) -> zimgasol_status;

    /// Begins a round: of a single stream, or on channels one without pages. Returns DONE, NO_MEMORY, or
    /// OUT_OF_TURN if a round is open or the streams are ended.
    pub fn zimgasol_send_begin_round(send: *mut zimgasol_send) -> zimgasol_status;

    /// Begins a round on channels with `count` dirty pages, in any order; 0 is allowed, and a page that
    /// is listed twice counts once. Returns DONE; OUT_OF_TURN of a single stream, or if a round is open
    /// or the streams are ended; NO_PAGE if one isn't in the table; or NO_MEMORY.
    pub fn zimgasol_send_begin_round_pages(
        send: *mut zimgasol_send,
        dirty: *const zimgasol_place,
        count: usize,
    ) -> zimgasol_status;

    /// Begins a round on channels with the pages whose bits are set: `count` bitmaps, one for each block
    /// of the table, in its order. A bitmap has a bit for each page of its block and may be longer; bits
    /// after the last page are ignored. The round keeps one copy of the bitmaps and no list of pages, so
    /// they may change once the call returns. Returns DONE; OUT_OF_TURN of a single stream, or if a
    /// round is open or the streams are ended; BAD_LENGTH if there aren't as many bitmaps as blocks, or
    /// one is too short; or NO_MEMORY.
    pub fn zimgasol_send_begin_round_bitmaps(
        send: *mut zimgasol_send,
        bitmaps: *const zimgasol_bitmap,
        count: usize,
    ) -> zimgasol_status;

    /// Puts a page of a block into the open round of a single stream: its `len` bytes, the page size.
    /// Pages come in any order; if a page comes twice, the last one counts. Returns DONE, or the first
    /// of these that applies: OUT_OF_TURN with channels, or if no round is open; NO_PAGE; BAD_LENGTH;
    /// NO_MEMORY (the round is open as before, without the page).
    pub fn zimgasol_send_put_page(
        send: *mut zimgasol_send,
        block: usize,
        number: u64,
        bytes: *const u8,
        len: usize,
    ) -> zimgasol_status;

    /// Makes the worker of the next channel, from channel 0 on, in an empty handle. Its bytes begin with
    /// those of its channel that weren't drained before, at first the hello. Returns DONE, NO_MEMORY, or
    /// OUT_OF_TURN of a single stream, if no round is open, or if every channel's worker was made.
    pub fn zimgasol_send_worker(
        send: *mut zimgasol_send,
        worker: *mut zimgasol_worker,
    ) -> zimgasol_status;

    /// Takes back the worker of the next channel, from channel 0 on, once it has ended. Its handle is
    /// empty then, and bytes that weren't drained come first in the channel's next round. Returns DONE,
    /// NO_MEMORY, or OUT_OF_TURN if no round is open, the worker isn't the next one or hasn't ended, or
    /// a drain returned a part of its bytes: drain the others first. After anything but DONE the handle
    /// has the worker as before.
    pub fn zimgasol_send_give_back(
        send: *mut zimgasol_send,
        worker: *mut zimgasol_worker,
    ) -> zimgasol_status;

    /// Ends the round: it becomes a section of a single stream, or with channels a FLUSH ends it on the
    /// main stream. Returns DONE, NO_MEMORY (the round is open as before), or OUT_OF_TURN if no round is
    /// open, or with channels not all workers are back.
    pub fn zimgasol_send_end_round(send: *mut zimgasol_send) -> zimgasol_status;

    /// Cancels the open round: it sends nothing, and the send is as before the round. Returns DONE; or
    /// OUT_OF_TURN if no round is open, or with channels a worker of it was made: packets of it may have
    /// been drained then, and no call takes them back from the receiver.
    ///
    /// With `give_up` it gives the streams up instead, whether workers were made or not: use it if a
    /// channel broke or the migration is cancelled. What the send holds is freed. From then on every
    /// call but _free does nothing and returns OUT_OF_TURN, or 0 bytes. The main stream lacks its END,
    /// without which no load is DONE. Workers that are out go on as before, also on another thread
    /// meanwhile, and each is freed on its own. A round of a single stream is cancelled as without
    /// `give_up`.
    pub fn zimgasol_send_cancel_round(send: *mut zimgasol_send, give_up: bool) -> zimgasol_status;

    /// Ends the streams; drain what is left of them. The single stream, or the main stream, ends with
    /// its end byte. With `left_open` it ends with the footer of RAM's END instead: the caller goes on
    /// with the sections of devices and the end byte once all was drained. Returns DONE, NO_MEMORY, or
    /// OUT_OF_TURN if a round is open or the streams are ended.
    pub fn zimgasol_send_finish(send: *mut zimgasol_send, left_open: bool) -> zimgasol_status;

    /// Copies the next bytes of a source to `out`, at most `len`, and returns their number; 0 if there
    /// are none, or no such source.
    ///
    /// ZIMGASOL_MAIN is the single stream or the main stream. The pieces that it returns, one after
    /// another, are the stream. If it returns 0 to a buffer with room, all was returned: between two
    /// rounds the stream's beginning and all rounds that were ended, and after zimgasol_send_finish the
    /// complete stream. While a round is open it may return 0 though bytes of earlier rounds wait, which
    /// come once that round is ended or cancelled.
    ///
    /// ZIMGASOL_CHANNEL(j) is channel j, once the streams are ended: the bytes that no worker drained,
    /// such as the hello if no round was sent. Before that it returns 0.
    pub fn zimgasol_send_drain(
        send: *mut zimgasol_send,
        source: usize,
        out: *mut u8,
        len: usize,
    ) -> usize;

    /// The two halves of zimgasol_send_drain, for an output that may take fewer bytes than it is
    /// offered, such as a non-blocking socket. _peek copies bytes as _drain does, but keeps them: the
    /// next call returns the same ones. _skip drops the first `len` of them, or all if there are fewer,
    /// and returns their number. Call it after a _peek: it gets no bytes from the stream itself.
    pub fn zimgasol_send_peek(
        send: *mut zimgasol_send,
        source: usize,
        out: *mut u8,
        len: usize,
    ) -> usize;

    pub fn zimgasol_send_skip(send: *mut zimgasol_send, source: usize, len: usize) -> usize;

    /// Returns how many bytes a _peek of the source copies to a buffer with room for all; 0 exactly if
    /// there are none. More may follow once these are gone, and once an open round has ended.
    pub fn zimgasol_send_waiting(send: *mut zimgasol_send, source: usize) -> usize;

    /// Frees a send, with what wasn't drained. Workers that are out are freed on their own.
    pub fn zimgasol_send_free(send: *mut zimgasol_send);

    /// Writes the pages of the worker's next packet to *batch. Until a _head or a _pack has written that
    /// packet, each call reports the same pages. If no batch is left it writes the channel's SYNC
    /// packet. Returns RUNNING, with a batch; DONE once the worker has ended, after which further calls
    /// change nothing; or NO_MEMORY if nothing was written, and the next call writes the SYNC packet.
    /// With DONE and NO_MEMORY *batch is unchanged.
    pub fn zimgasol_worker_next(
        worker: *mut zimgasol_worker,
        batch: *mut zimgasol_batch,
    ) -> zimgasol_status;

    /// Writes the head of the reported packet to `out`, and its length to *written: 1,344 bytes, or 832
    /// with pages of 8192. `zeros` has a byte for each page of the batch, in its order: 0 unless the
    /// page is zeros. The caller sends the head on the channel, and after it the contents of the other
    /// pages, in the batch's order. That is the packet that a _pack of these contents writes, if `zeros`
    /// says which of them are zeros. A page that wasn't zeros when it was tested, and is when it is
    /// sent, still loads, but no contract covers such a stream.
    ///
    /// Returns RUNNING; OUT_OF_TURN if no batch was reported, its packet is written, or bytes of the
    /// channel must be drained first, as the hello; BAD_LENGTH if `zeros_len` isn't the batch's count,
    /// or `out` is shorter than the head; or NO_MEMORY. After anything but RUNNING nothing was written,
    /// the batch still has no packet, and *written is unchanged. After RUNNING the pages must be sent
    /// before the channel's next bytes: if you can't send them, give the streams up
    /// (zimgasol_send_cancel_round).
    pub fn zimgasol_worker_head(
        worker: *mut zimgasol_worker,
        zeros: *const u8,
        zeros_len: usize,
        out: *mut u8,
        len: usize,
        written: *mut usize,
    ) -> zimgasol_status;

    /// Writes the reported packet into the worker's channel. `contents` has the bytes of each of its
    /// `count` pages, in the batch's order. They are read where they lie: in the guest's memory, if
    /// nobody writes to it during the call, or in a copy. Returns RUNNING, or the first of these that
    /// applies: OUT_OF_TURN if no batch was reported, or its packet is written; BAD_LENGTH if `count`
    /// isn't the batch's, or one of the contents isn't as long as a page; NO_MEMORY if nothing was
    /// written, and the next call writes the packet.
    pub fn zimgasol_worker_pack(
        worker: *mut zimgasol_worker,
        contents: *const zimgasol_lent,
        count: usize,
    ) -> zimgasol_status;

    /// Copies the next bytes of the worker's channel to `out`, at most `len`, and returns their number;
    /// 0 if there are none. There is no peek: keep what the socket didn't take.
    pub fn zimgasol_worker_drain(worker: *mut zimgasol_worker, out: *mut u8, len: usize) -> usize;

    /// Frees a worker instead of giving it back. Its round can't be ended then, only the streams given
    /// up (zimgasol_send_cancel_round).
    pub fn zimgasol_worker_free(worker: *mut zimgasol_worker);

    /// Begins the load of a file whose stream begins with these bytes, at the byte `base` of the file: 0
    /// in a file of QEMU's, and in one of libvirt's the bytes before the stream. `big_endian` says
    /// whether a big-endian host wrote the file, which the file doesn't say: its bitmaps have words in
    /// the host's order. *place is the offset of the first block's head. Returns DONE; BAD_PAGE_SIZE;
    /// RUNNING if the bytes don't begin with the front of such a file or end inside it; TOO_LONG if its
    /// size list would begin at 2^63 or later; or NO_MEMORY. After anything but DONE *place is
    /// unchanged.
    ///
    /// The front is what comes before the size list, some hundred bytes. It has no fault of its own: if
    /// 64 KiB of a file are RUNNING it is another file. Of the same bytes zimgasol_table_of_stream
    /// returns MACHINE_CAPABILITY (47) if it is a file with mapped-ram, and else what a stream is.
    pub fn zimgasol_mapped_load_new(
        load: *mut zimgasol_mapped_load,
        page_size: u64,
        big_endian: bool,
        base: u64,
        bytes: *const u8,
        len: usize,
        place: *mut u64,
    ) -> zimgasol_status;

    /// Takes bytes of the file that begin at the offset *place that the call before reported. They are
    /// the head of the next block, up to the end of its bitmap: 9 bytes and the id, 28 bytes, and 8
    /// bytes for each 64 pages. More bytes may follow in the buffer; they aren't taken. After the last
    /// head they are those that follow the last block's pages, up to RAM's END, in pieces of any length:
    /// they have no pages. Writes the offset of what comes next to *place.
    ///
    /// Returns RUNNING if bytes were taken and others come next; DONE once RAM came to its end, and
    /// *place is the offset after RAM's END, where the devices' state begins; or a fault, and *place is
    /// the offset of the head or of the item at fault. STREAM_TRUNCATED (34) says that the bytes end
    /// inside a head, or that there are none: pass more of the file from *place on, and if it has no
    /// more, it was cut there. Other faults are final, as DONE is: the call returns them again.
    ///
    /// The faults of heads are 21 to 25 and 72 to 76. After the pages they are those of a machine's
    /// stream, 11 to 49, and 64 for a page record, which such a file doesn't have. A fault of the front,
    /// as 27 or 48 for another page size, is reported by the first call, at the first head's offset.
    /// TOO_LONG comes at 2^63 bytes. After NO_MEMORY either nothing has changed, or each call returns it
    /// again.
    pub fn zimgasol_mapped_load_take(
        load: *mut zimgasol_mapped_load,
        bytes: *const u8,
        len: usize,
        place: *mut u64,
    ) -> zimgasol_status;

    /// Makes the table of the file's blocks, once the heads of all of them were taken: also before the
    /// bytes after the pages were. Returns DONE, OUT_OF_TURN before that, or NO_MEMORY. All blocks
    /// together may have up to 2^40 bytes: test how much the guest may get.
    pub fn zimgasol_mapped_load_table(
        load: *mut zimgasol_mapped_load,
        table: *mut zimgasol_table,
    ) -> zimgasol_status;

    /// Writes to *run the first pages of a block from page `from` on whose contents the file has, as
    /// many as follow each other. The pages from `from` up to run->page are zeros. Returns DONE, also
    /// with no page; or NO_PAGE, with *run unchanged, if the block's head wasn't taken, or `from` is
    /// above its number of pages. It only looks up: threads may ask in any order, each call under one
    /// lock, or each thread of a load of its own that took the same heads. A lookup goes page by page to
    /// the end of the run: keep the rest of a run that is read in parts.
    pub fn zimgasol_mapped_load_run(
        load: *mut zimgasol_mapped_load,
        block: usize,
        from: u64,
        run: *mut zimgasol_run,
    ) -> zimgasol_status;

    /// Frees the load of a file. Tables that it made are freed on their own.
    pub fn zimgasol_mapped_load_free(load: *mut zimgasol_mapped_load);

    /// Begins a send of a table, which it copies, as the file of a machine with this name, of at most
    /// 1,024 bytes. No page is in the file yet: all are zeros. `big_endian` is true if a big-endian host
    /// is to load it. Returns DONE; BAD_LENGTH (of the name); NO_MEMORY; or MAPPED_PAGES_OFFSET, which
    /// no table leads to.
    pub fn zimgasol_mapped_send_new(
        send: *mut zimgasol_mapped_send,
        table: *mut zimgasol_table,
        big_endian: bool,
        name: *const u8,
        name_len: usize,
    ) -> zimgasol_status;

    /// Says whether the file has the content of a page: sets its bit if `has_content` is true, and else
    /// clears it, which makes it a page of zeros. Writes the page's offset in the file to *offset: if
    /// the bit is set the caller writes the content there, before the part with the bit. Returns DONE,
    /// or NO_PAGE with nothing changed.
    pub fn zimgasol_mapped_send_mark(
        send: *mut zimgasol_mapped_send,
        block: usize,
        page: u64,
        has_content: bool,
        offset: *mut u64,
    ) -> zimgasol_status;

    /// Copies a part of the file that isn't a page to the front of `out`, and writes where it lies to
    /// *at. Part 0 is the front, part 1 + i the head of block i, with the bits so far, and the part
    /// after those what follows the last block's pages: the end of START, END, and the end byte. To go
    /// on with the sections of devices leave out that last byte. Returns DONE; BAD_LENGTH if `out` is
    /// too short, with *at written; NO_PAGE if there is no such part; or NO_MEMORY. A file with all
    /// parts and with the pages whose bits are set stands for the memory of the pages that were marked,
    /// whatever else lies in it.
    pub fn zimgasol_mapped_send_part(
        send: *mut zimgasol_mapped_send,
        part: usize,
        out: *mut u8,
        len: usize,
        at: *mut zimgasol_part,
    ) -> zimgasol_status;

    /// Frees a send. The file is the caller's.
    pub fn zimgasol_mapped_send_free(send: *mut zimgasol_mapped_send);

    /// Writes the hello of channel `id`, with a UUID of 16 bytes, to a buffer of 64 bytes. Returns DONE
    /// or BAD_LENGTH.
    pub fn zimgasol_hello(
        uuid: *const u8,
        uuid_len: usize,
        id: u8,
        out: *mut u8,
        len: usize,
    ) -> zimgasol_status;

    /// Writes one packet to the front of `out`: with a block's id without a byte 0 (a reader takes it up
    /// to the first one), the offsets in bytes of its normal pages, their contents one after another,
    /// and the offsets of its zero pages. It checks neither id, offsets nor number. Returns DONE,
    /// BAD_PAGE_SIZE, TOO_MANY_PAGES, NO_MEMORY, or BAD_LENGTH: of the contents (all normal pages
    /// together), of the id (at most 255), or of `out`. With DONE, and if only `out` is too short,
    /// *written is the packet's length; else it is unchanged.
    pub fn zimgasol_put_packet(
        page_size: u64,
        number: u64,
        sync: bool,
        id: *const u8,
        id_len: usize,
        normal: *const u64,
        normal_len: usize,
        contents: *const u8,
        contents_len: usize,
        zero: *const u64,
        zero_len: usize,
        out: *mut u8,
        len: usize,
        written: *mut usize,
    ) -> zimgasol_status;
}
