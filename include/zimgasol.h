/*
 * zimgasol.h: sends and loads guest memory in layouts of QEMU's migration.
 *
 * A single stream is RAM's section of the migration stream (stream version 3, RAM section version
 * 4), with all pages in it. A main stream of the same form has channels beside it, with packets of
 * pages (multifd, uncompressed). Both are written round by round and read in pieces of any length.
 * Besides, a file with the capability mapped-ram has a place of its own for each page, which the
 * caller's threads read or write by themselves.
 * Of the documents, C.md has programs and the order of calls, FORMATS.md all bytes, and FAULTS.md
 * all numbers.
 *
 * What a call does is proved of the library behind this header, for any bytes that it is fed. The
 * proofs hold only if the caller follows these rules, which aren't checked:
 *
 *  - Handles. A handle is all zeros before its `_new`, and then only changed by calls. Never write
 *    to one or copy one; it may be moved if the old location isn't used again. Pass `_new` an empty
 *    handle: zero-initialized, or left by `_free` or a failed `_new`. `_free` takes any handle of
 *    its kind, and does nothing to an empty one. Every other call takes a handle whose `_new`
 *    returned ZIMGASOL_DONE and that wasn't freed since. The rules of `_new` also hold for
 *    zimgasol_table_of_stream and zimgasol_mapped_load_table, which make a table, and
 *    zimgasol_send_worker, which makes a worker.
 *    A zimgasol_send_give_back that returns ZIMGASOL_DONE leaves the worker's handle empty.
 *  - Threads. One call at a time works on a handle. A handle may pass to another thread if the
 *    earlier calls happen before the later ones: by a lock, the start or join of a thread, or an
 *    atomic that is released and acquired. Calls on different handles may run at once; a `_new`
 *    that takes a table is a call on that table, too. Each call that takes a handle writes to it,
 *    even one that only reports, so no handle is passed as `const`.
 *  - Signals and forks. Make no call in a signal handler, nor in the child of a `fork` of a process
 *    with threads.
 *  - Buffers. A buffer is valid for its length, and nobody writes to it during the call. Two
 *    buffers of one call don't overlap. A pointer is never null, even if the length is 0.
 *  - Memory. `malloc`, `realloc` and `free` belong together, and align each block to every power of
 *    two up to 16 that divides its size.
 *
 * No call keeps a pointer to a caller's buffer. None returns a buffer of the library's, except for
 * the constant texts of zimgasol_read_status_text. Pages are loaded into blocks that the caller
 * passes to each call.
 *
 * The library calls `malloc`, `realloc`, `free` and the functions of <string.h> that move and
 * compare bytes, and nothing else. So no call starts a thread, blocks, does I/O or prints, and only
 * `malloc` and `realloc` may set `errno`. The proofs don't count the stack: as with any C function,
 * the system stops a thread that has too little. The library is for 64-bit x86-64 processors with
 * SSE4.2 (x86-64-v2). Its files are marked so, and the system's loader refuses the program on
 * another processor.
 *
 * A call that may be refused returns a status: ZIMGASOL_DONE; the number of a fault, 1 to 76; or a
 * number from 100 on, which says how a load stands or what is wrong with the call. Later versions
 * may return others: treat an unknown number as a fault. After anything but ZIMGASOL_DONE nothing
 * has changed, unless the call says otherwise.
 *
 * Pages that are written meanwhile. The bytes passed to a call must not change while it runs. So
 * copy a page of a running guest to a buffer of your own, and pass that copy. It may be torn: it
 * has some bytes from before a write and some from after. This does no harm if each write after the
 * start of the copy marks the page as dirty, so that it is sent again in a later round, and the
 * last round is sent with the guest stopped. Making the copy is the caller's affair: to C a plain
 * read is a race then, and hypervisors use `memcpy` on memory that a vCPU writes. On several
 * channels a page need not be copied: zimgasol_worker_head writes a packet up to its pages, and the
 * caller sends the pages from where they lie. No call reads them then.
 */
#ifndef ZIMGASOL_H
#define ZIMGASOL_H

#include <stdbool.h>
#include <stddef.h>
#include <stdint.h>

/* The version of this header, its three parts, and its number: 10000 * major + 100 * minor +
 * patch. */
#define ZIMGASOL_VERSION "0.3.0"
#define ZIMGASOL_VERSION_MAJOR 0
#define ZIMGASOL_VERSION_MINOR 3
#define ZIMGASOL_VERSION_PATCH 0
#define ZIMGASOL_VERSION_NUMBER 300

/* Tests whether this header has at least this version, also in `#if`. */
#define ZIMGASOL_VERSION_AT_LEAST(major, minor, patch)                                             \
    (ZIMGASOL_VERSION_NUMBER >= 10000 * (major) + 100 * (minor) + (patch))

/* The attributes of each call. A program may define it before it includes the header. */
#ifndef ZIMGASOL_API
#if defined(__GNUC__)
#define ZIMGASOL_API __attribute__((visibility("default")))
#else
#define ZIMGASOL_API
#endif
#endif

/* The attributes of each call that returns a status: compilers warn about an ignored status. A
 * program may define it too, as ZIMGASOL_API for no warnings. */
#ifndef ZIMGASOL_CHECKED
#if (defined(__cplusplus) && __cplusplus >= 201703L) ||                                            \
    (defined(__STDC_VERSION__) && __STDC_VERSION__ >= 202311L)
#define ZIMGASOL_CHECKED [[nodiscard]] ZIMGASOL_API
#elif defined(__GNUC__)
#define ZIMGASOL_CHECKED __attribute__((warn_unused_result)) ZIMGASOL_API
#else
#define ZIMGASOL_CHECKED ZIMGASOL_API
#endif
#endif

#ifdef __cplusplus
extern "C" {
#define ZIMGASOL_ASSERT(holds, words) static_assert(holds, words)
#define ZIMGASOL_CAST(type, value) static_cast<type>(value)
#else
#define ZIMGASOL_ASSERT(holds, words) _Static_assert(holds, words)
#define ZIMGASOL_CAST(type, value) ((type)(value))
#endif

ZIMGASOL_ASSERT(sizeof(void *) == 8 && sizeof(size_t) == 8, "zimgasol is for 64 bits only");

/* The status that a call returns, or the fault that a load ended with. */
typedef enum zimgasol_status {
    ZIMGASOL_DONE = 0,

    /* ---- a table (zimgasol_table_new) */
    /* there is no block */
    ZIMGASOL_NO_BLOCKS = 1,
    /* there are more than 256 blocks */
    ZIMGASOL_TOO_MANY_BLOCKS = 2,
    /* a block's id isn't 1 to 255 bytes of 0x20 to 0x7E */
    ZIMGASOL_ID = 3,
    /* an earlier block has the id */
    ZIMGASOL_ID_TWICE = 4,
    /* a block has no page */
    ZIMGASOL_NO_PAGES = 5,
    /* all blocks together have more than 2^40 bytes */
    ZIMGASOL_TOO_LARGE = 6,

    /* ---- a single stream, or a main stream */
    /* it doesn't begin with QEVM */
    ZIMGASOL_STREAM_MAGIC = 11,
    /* its version isn't 3 */
    ZIMGASOL_STREAM_VERSION = 12,
    /* an unexpected section type */
    ZIMGASOL_STREAM_SECTION_TYPE = 13,
    /* a section's name isn't ram */
    ZIMGASOL_STREAM_SECTION_NAME = 14,
    /* a section's instance isn't 0 */
    ZIMGASOL_STREAM_INSTANCE = 15,
    /* a section's version isn't 4 */
    ZIMGASOL_STREAM_RAM_VERSION = 16,
    /* a section's id isn't that of START */
    ZIMGASOL_STREAM_SECTION_ID = 17,
    /* a footer isn't 0x7E with the section id of START */
    ZIMGASOL_STREAM_FOOTER = 18,
    /* the configuration's name is longer than 1,024 bytes */
    ZIMGASOL_STREAM_CONFIG_LENGTH = 19,
    /* the total of the size list is 0, or above 2^40 */
    ZIMGASOL_STREAM_TOTAL = 20,
    /* an entry's id isn't 1 to 255 bytes of 0x20 to 0x7E */
    ZIMGASOL_STREAM_ID = 21,
    /* an earlier entry has the id */
    ZIMGASOL_STREAM_ID_TWICE = 22,
    /* an entry's length is 0, or not a multiple of the page size */
    ZIMGASOL_STREAM_LENGTH = 23,
    /* the size list has more than 256 entries */
    ZIMGASOL_STREAM_TOO_MANY_BLOCKS = 24,
    /* the entries' lengths add up to more than the total */
    ZIMGASOL_STREAM_SIZE_SUM = 25,
    /* the first record of START isn't a size list, or there is one elsewhere */
    ZIMGASOL_STREAM_SIZE_PLACE = 26,
    /* a record has flags that aren't accepted: `first` */
    ZIMGASOL_STREAM_FLAGS = 27,
    /* a page record names no block, and none was named before */
    ZIMGASOL_STREAM_NO_BLOCK = 28,
    /* a page record names a block that isn't in the table */
    ZIMGASOL_STREAM_UNKNOWN_BLOCK = 29,
    /* an offset isn't in its block, or isn't 0 where it must be */
    ZIMGASOL_STREAM_OFFSET_OUT = 30,
    /* the byte of a zero page isn't 0: `first` */
    ZIMGASOL_STREAM_FILL = 31,
    /* a FLUSH in a single stream */
    ZIMGASOL_STREAM_FLUSH = 32,
    /* the main stream ends with page records that are in no round */
    ZIMGASOL_STREAM_TAIL = 33,
    /* the stream ends before it is closed */
    ZIMGASOL_STREAM_TRUNCATED = 34,

    /* ---- a channel */
    /* the hello doesn't begin with MULTIFD_MAGIC */
    ZIMGASOL_CHANNEL_HELLO_MAGIC = 35,
    /* the hello's version isn't MULTIFD_VERSION */
    ZIMGASOL_CHANNEL_HELLO_VERSION = 36,
    /* the hello has another UUID */
    ZIMGASOL_CHANNEL_HELLO_UUID = 37,
    /* the hello's id isn't below the number of channels */
    ZIMGASOL_CHANNEL_HELLO_ID = 38,
    /* a packet doesn't begin with MULTIFD_MAGIC */
    ZIMGASOL_CHANNEL_PACKET_MAGIC = 39,
    /* a packet's version isn't MULTIFD_VERSION */
    ZIMGASOL_CHANNEL_PACKET_VERSION = 40,
    /* a packet has flags other than MULTIFD_FLAG_SYNC: `first` */
    ZIMGASOL_CHANNEL_PACKET_FLAGS = 41,
    /* a packet has more pages than a packet may have */
    ZIMGASOL_CHANNEL_PAGE_COUNT = 42,
    /* next_packet_size isn't the length of the normal pages */
    ZIMGASOL_CHANNEL_PACKET_SIZE = 43,
    /* the channel ends inside the hello or a packet */
    ZIMGASOL_CHANNEL_TRUNCATED = 44,
    /* the channel ends after a packet without SYNC */
    ZIMGASOL_CHANNEL_UNSYNCED = 45,

    /* ---- a machine's stream */
    /* a subsection of the configuration, or its version, isn't known */
    ZIMGASOL_MACHINE_SUBSECTION = 46,
    /* the capability mapped-ram: pages are at fixed offsets of a file */
    ZIMGASOL_MACHINE_CAPABILITY = 47,
    /* the configuration's page bits don't match the page size */
    ZIMGASOL_MACHINE_PAGE_BITS = 48,
    /* a COMMAND that isn't skipped, or that allows postcopy together with x-ignore-shared */
    ZIMGASOL_MACHINE_COMMAND = 49,

    /* ---- several channels together, and a round of theirs */
    /* a hello has the id of an earlier channel */
    ZIMGASOL_HELLO_TWICE = 51,
    /* a channel has more rounds than the main stream */
    ZIMGASOL_EXTRA = 52,
    /* a channel has fewer rounds than the main stream */
    ZIMGASOL_SHORT = 53,
    /* packet `first` is of an earlier round */
    ZIMGASOL_ROUND_FOREIGN = 54,
    /* packet `first` comes twice */
    ZIMGASOL_ROUND_DOUBLED = 55,
    /* packet `first` is missing */
    ZIMGASOL_ROUND_MISSING = 56,
    /* packet `first` names a block that isn't in the table */
    ZIMGASOL_ROUND_UNKNOWN_BLOCK = 57,
    /* offset `second` of packet `first` is of no page of its block */
    ZIMGASOL_ROUND_OFFSET = 58,
    /* page `second` of block `first` comes twice */
    ZIMGASOL_ROUND_DOUBLE_PAGE = 59,

    /* ---- */
    /* an allocation was refused; each call says what holds then */
    ZIMGASOL_NO_MEMORY = 60,
    /* a send on more than 255 channels */
    ZIMGASOL_CHANNELS = 61,
    /* the most pages of a packet is 0, or more than fit into one */
    ZIMGASOL_BATCH_LIMIT = 62,
    /* the stream has another table than the blocks of the load */
    ZIMGASOL_OTHER_TABLE = 63,
    /* more page records in a section or a round than `waiting` of zimgasol_settings */
    ZIMGASOL_STREAM_WAITING = 64,
    /* more packets and pages in a channel's round than `waiting` of zimgasol_settings */
    ZIMGASOL_CHANNEL_WAITING = 65,

    /* ---- a file with mapped-ram (MappedRamHeader in QEMU's migration/ram.c); its size list also
     * has 21 to 25, and a file that was cut 34 */
    /* the version of a block's header isn't 1 */
    ZIMGASOL_MAPPED_HEADER_VERSION = 72,
    /* the page size in a block's header isn't the one that was passed */
    ZIMGASOL_MAPPED_HEADER_PAGE_SIZE = 73,
    /* a block's bitmap doesn't follow its header: offsets count from another byte of the file */
    ZIMGASOL_MAPPED_BITMAP_OFFSET = 74,
    /* the offset of a block's pages is before the end of its bitmap, is no multiple of the page
     * size, or leaves no room for the pages below 2^63 */
    ZIMGASOL_MAPPED_PAGES_OFFSET = 75,
    /* a bit is set after that of the block's last page: try the other byte order */
    ZIMGASOL_MAPPED_BITMAP_TAIL = 76,

    /* ---- a call, and the state of a load */
    /* no fault: a load needs more of a source or a file; or a success of zimgasol_worker_next,
     * _head and _pack, and of zimgasol_load_claim and _take */
    ZIMGASOL_RUNNING = 100,
    /* a page size other than 4096 and 8192 */
    ZIMGASOL_BAD_PAGE_SIZE = 101,
    /* a load of more than 255 channels */
    ZIMGASOL_BAD_CHANNELS = 103,
    /* no such source */
    ZIMGASOL_BAD_SOURCE = 104,
    /* the source was ended before */
    ZIMGASOL_IS_OVER = 105,
    /* the stream would have 2^63 bytes or more (with channels, a source 2^64) */
    ZIMGASOL_TOO_LONG = 106,
    /* no such block, page or part */
    ZIMGASOL_NO_PAGE = 107,
    /* a buffer of another length than is needed */
    ZIMGASOL_BAD_LENGTH = 108,
    /* a call out of order: a round is open, or none is; the stream is ended; the call is for the
     * other kind of send; a worker isn't the next one, hasn't ended, has no batch, or has bytes to
     * be drained; no page comes next (zimgasol_load_page_read); pages are claimed, or this packet's
     * aren't (zimgasol_load_take); heads are still to be taken (zimgasol_mapped_load_table) */
    ZIMGASOL_OUT_OF_TURN = 109,
    /* more pages than a packet has: 128 of 4096 bytes, 64 of 8192 */
    ZIMGASOL_TOO_MANY_PAGES = 110,
    /* not a zimgasol_frame */
    ZIMGASOL_BAD_FRAME = 113,
    /* not a zimgasol_round_end */
    ZIMGASOL_BAD_ROUND_END = 114,
    /* no fault: a page is claimed for a packet that wasn't taken yet (zimgasol_load_claim) */
    ZIMGASOL_IS_CLAIMED = 115,
    /* no fault: feed these bytes, which aren't the head of a packet with pages to claim
     * (zimgasol_load_claim) */
    ZIMGASOL_TO_FEED = 116
} zimgasol_status;

ZIMGASOL_ASSERT(sizeof(zimgasol_status) == sizeof(uint32_t), "an enum has the size of an int");

/* The source of a fault or a piece: the main stream (or the single stream), channel j from 0 on, or
 * no one source (of a fault only). j counts the caller's connections, whatever ids are in their
 * hellos. */
#define ZIMGASOL_MAIN 0
#define ZIMGASOL_CHANNEL(j) (1 + (j))
#define ZIMGASOL_ROUND UINT64_MAX

/* How a stream is framed. RAM: RAM's section alone, up to the end byte after its END, as this
 * library writes it. MACHINE: a whole machine's stream, as QEMU writes it, up to the footer of
 * RAM's END, or in a background snapshot, which has none, up to the first device's section.
 * COMMANDs and subsections that don't concern RAM are skipped, and the sections of devices that
 * follow aren't read: they begin at `closed_at` of zimgasol_standing. */
typedef enum zimgasol_frame {
    ZIMGASOL_FRAME_RAM = 0,
    ZIMGASOL_FRAME_MACHINE = 1
} zimgasol_frame;

ZIMGASOL_ASSERT(sizeof(zimgasol_frame) == sizeof(uint32_t), "an enum has the size of an int");

/* What ends a round of the main stream, in a load of several channels. BY_FLUSH: each FLUSH record,
 * as this library writes it, and QEMU for machine types of 8.1 and newer. BY_EOS: each EOS of a
 * section, as QEMU writes it, without any FLUSH, for machine types of 8.0 and older or with
 * `multifd-flush-after-each-section=on`. AS_SHOWN: as the stream shows, BY_FLUSH if START has a
 * FLUSH or the first record after START is one, else BY_EOS. It reads all of these streams, so use
 * it if you don't know the sender. With the wrong one of the other two, sources wait for each other
 * forever, or files have a fault 33, 52 or 53. */
typedef enum zimgasol_round_end {
    ZIMGASOL_BY_FLUSH = 0,
    ZIMGASOL_BY_EOS = 1,
    ZIMGASOL_AS_SHOWN = 2
} zimgasol_round_end;

ZIMGASOL_ASSERT(sizeof(zimgasol_round_end) == sizeof(uint32_t), "an enum has the size of an int");

/* The settings of a load. All zeros: the frame RAM, rounds that end with FLUSH, no limit, blocks
 * that hold anything, and each page written as it comes.
 *  - `round_end`: what ends a round of a main stream. A load of a single stream ignores it.
 *  - `waiting`: the most page records of a section of a single stream, or of a round of a main
 *    stream; one more is the fault STREAM_WAITING. Also the most packets and pages, counted
 *    together, of a channel's round; one more is CHANNEL_WAITING. 0 sets no limit. 2 * pages + 1
 *    suffices if each page is sent at most once in a section or round. Every load tests the limit,
 *    so all have the same result. With `whole_rounds` it bounds what a load keeps of the open
 *    section of a single stream: as many pages, and up to 48 bytes for each. With channels it
 *    bounds the main stream's page records of the open round as much. It doesn't bound the
 *    sections, or rounds of a main stream, that one piece completes: feed short pieces, and give up
 *    a sender of which much is fed without a round more.
 *  - `zero_blocks`: nonzero if the blocks hold zeros when the load begins, as a fresh mapping does.
 *    The load keeps a bit for each page that may hold something else, and neither reads nor writes
 *    any other page that comes as zeros. So blocks of a memfd, of a file or of huge pages stay as
 *    small as their contents, and a sender that repeats zero pages costs little. Nothing checks it:
 *    if a page held something else, that stays in the guest.
 *  - `whole_rounds`: nonzero to write complete rounds only, or of a single stream complete
 *    sections. After each call the blocks have the rounds or sections counted (`rounds`) and
 *    nothing else, also after a fault or a refused allocation. The load keeps the open round or
 *    section apart, and copies it into the blocks once it is complete and without a fault. With
 *    channels it reserves memory for a second guest, which the system provides as a round needs it,
 *    and each round uses it again. Of a single stream it keeps the page records of the open section
 *    (see `waiting`). All bytes are fed: no page is read in place (zimgasol_load_wanted,
 *    zimgasol_load_claim).
 *  - `reserved`: zeros. */
typedef struct zimgasol_settings {
    zimgasol_frame frame;
    zimgasol_round_end round_end;
    uint64_t waiting;
    uint64_t zero_blocks;
    uint64_t whole_rounds;
    uint64_t reserved[4];
} zimgasol_settings;

/* The settings of a send. All zeros: a single stream without a machine's name.
 *  - `channels`: the number of channels beside the main stream, at most 255. 0 asks for a single
 *    stream, which ignores `limit` and `uuid`.
 *  - `limit`: the most pages of a packet, 1 to 128 of 4096 bytes or 1 to 64 of 8192.
 *  - `uuid`: the UUID in the hellos of the channels.
 *  - `named`: nonzero to write a machine's stream: a configuration with the machine's name, the
 *    first `name_len` bytes of `name`, follows the file header. QEMU refuses a stream with another
 *    name than its own machine's.
 *  - `reserved`: zeros. */
typedef struct zimgasol_send_settings {
    size_t channels;
    size_t limit;
    uint8_t uuid[16];
    uint64_t named;
    size_t name_len;
    uint8_t name[1024];
    uint64_t reserved[4];
} zimgasol_send_settings;

/* A RAM block: its id, ended by a byte 0 as in QEMU's idstr, and its number of pages. */
typedef struct zimgasol_block {
    uint8_t id[256];
    uint64_t pages;
} zimgasol_block;

/* A fault of a load: its number, the rounds counted before it (single stream: sections), its
 * source, and in `first` and `second` what it carries: flags (27, 41), a byte (31), a packet's
 * number (54 to 58; with 58 `second` is the index of an offset), or a block and a page (59).
 * `reserved` has zeros. With DONE all fields are zeros. With RUNNING `number` is 100, `round` the
 * rounds counted, and the others are zeros. */
typedef struct zimgasol_fault {
    uint64_t round;
    uint64_t source;
    uint32_t number;
    uint64_t first;
    uint64_t second;
    uint64_t reserved[3];
} zimgasol_fault;

/* The result of feeding a piece: how many of its bytes were taken, and the rounds counted since the
 * beginning (single stream: sections), which tells whether a round ended. */
typedef struct zimgasol_fed {
    size_t taken;
    uint64_t rounds;
} zimgasol_fed;

/* The state of a load (zimgasol_load_standing). `reserved` has zeros.
 *  - `rounds`: with channels, the number of valid rounds, which are in the blocks (with
 *    whole_rounds nothing else is). START and END aren't rounds. Of a single stream, the number of
 *    complete sections, START and END included. The blocks may also have records of the next
 *    section; with whole_rounds they don't.
 *  - `missing`: how many pages of the blocks no record and no packet named, in the rounds counted
 *    or in the single stream so far; with whole_rounds its open section counts as naming none. With
 *    DONE, or once all rounds are in, the streams don't have these pages, and the blocks hold there
 *    what they held before. It is 0 for a complete guest. An incremental stream, or a main stream
 *    whose channels were lost, leaves pages out and is DONE all the same. With OTHER_TABLE it is
 *    the number of all pages. After NO_MEMORY for good it has no meaning.
 *  - `claimed`: how many pages are claimed (zimgasol_load_claim); 0 with whole_rounds.
 *  - `has_all_rounds`: 1 once all rounds are in, else 0: the main stream is closed, each of its
 *    rounds is valid and in the blocks, and no packet of a further round has begun. QEMU with a
 *    return path ends its channels only after the answer, and DONE waits for their ends: so answer
 *    when this is 1. A single stream has all rounds once it is closed.
 *  - `is_closed`: 1 if the main stream, or the single stream, is closed, else 0; always 0 with
 *    NO_MEMORY, and of a single stream with OTHER_TABLE.
 *  - `closed_at`: if it is closed, how many of the bytes taken belong to it: up to its end byte, or
 *    in the frame MACHINE up to the footer of RAM's END, in a background snapshot up to the first
 *    device's section. Bytes taken after them are the caller's. Else 0. */
typedef struct zimgasol_standing {
    uint64_t rounds;
    uint64_t missing;
    uint64_t claimed;
    uint64_t has_all_rounds;
    uint64_t is_closed;
    uint64_t closed_at;
    uint64_t reserved[4];
} zimgasol_standing;

/* What a load has of a source (zimgasol_load_source). `reserved` has zeros.
 *  - `fed`: how many of its bytes were taken.
 *  - `is_known`: 1 if `valid_up_to` is known, else 0: after NO_MEMORY, and of a single stream with
 *    OTHER_TABLE.
 *  - `valid_up_to`: how many bytes, from the first one on, are complete items without a fault; 0 if
 *    it isn't known. If the verdict is a fault of this source (11 to 49, 64, 65), the item with the
 *    fault begins at this byte, counted from 0. Other faults are of no item. */
typedef struct zimgasol_source {
    uint64_t fed;
    uint64_t is_known;
    uint64_t valid_up_to;
    uint64_t reserved[4];
} zimgasol_source;

/* A constant string of the library's: its bytes, the last of which is 0. */
typedef struct zimgasol_text {
    const uint8_t *bytes;
    size_t bytes_len;
} zimgasol_text;

/* A page of a block, by number. */
typedef struct zimgasol_place {
    size_t block;
    uint64_t page;
} zimgasol_place;

/* The dirty bitmap of a block, for reading: `len` words of 64 bits. A page has bit `page % 64`,
 * counted from the least significant, of word `page / 64`: as in QEMU's bitmaps on a 64-bit host,
 * and in KVM's dirty log on a little-endian host. */
typedef struct zimgasol_bitmap {
    const uint64_t *words;
    size_t len;
} zimgasol_bitmap;

/* The pages of one packet: their block, how many there are, and their numbers in the block,
 * ascending. Only the first `count` numbers have a meaning. */
typedef struct zimgasol_batch {
    size_t block;
    size_t count;
    uint64_t pages[128];
} zimgasol_batch;

/* The bytes of a page, for reading. */
typedef struct zimgasol_lent {
    const uint8_t *bytes;
    size_t len;
} zimgasol_lent;

/* The bytes of a block, for writing. */
typedef struct zimgasol_buffer {
    uint8_t *bytes;
    size_t len;
} zimgasol_buffer;

/* The pages of one packet that the caller reads in place (zimgasol_load_claim): their block, how
 * many have contents in the packet (`normal`), how many the caller clears (`zero`), and their
 * numbers in the block, those with contents first. Only the first `normal + zero` numbers have a
 * meaning. The caller clears all zero pages of the packet, or with `zero_blocks` those that may
 * hold something else. */
typedef struct zimgasol_pages {
    size_t block;
    size_t normal;
    size_t zero;
    uint64_t pages[128];
} zimgasol_pages;

/* The bytes of a channel's hello, and of a packet before its pages' contents: 1344, or 832 with
 * pages of 8192 bytes. */
#define ZIMGASOL_HELLO_LEN 64
#define ZIMGASOL_HEAD_LEN(page_size) (sizeof(uint64_t) * (40 + 524288 / (page_size)))

/* What the next `len` bytes of a stream are, at least 1 (zimgasol_load_wanted). If is_page is 1
 * they are the content of a page that belongs `offset` bytes into the buffer of block `block`. Else
 * is_page, `block` and `offset` are 0. */
typedef struct zimgasol_next {
    size_t len;
    uint64_t is_page;
    size_t block;
    uint64_t offset;
} zimgasol_next;

/* Pages of a block whose contents follow each other in a file with mapped-ram: the first one, how
 * many there are, and the offset in the file of the first one's content. With 0 `pages` there is
 * none: `page` is the block's number of pages, and `offset` 0. */
typedef struct zimgasol_run {
    uint64_t page;
    uint64_t pages;
    uint64_t offset;
} zimgasol_run;

/* Where a part of a file with mapped-ram lies: the offset in the file of its first byte, and how
 * many bytes it has. */
typedef struct zimgasol_part {
    uint64_t offset;
    size_t len;
} zimgasol_part;

/* The handles. `full` is 0 if a handle is empty. Its other values, and `at`, are internal. */
typedef struct zimgasol_table { void *at; uint64_t full; } zimgasol_table;
typedef struct zimgasol_load { void *at; uint64_t full; } zimgasol_load;
typedef struct zimgasol_send { void *at; uint64_t full; } zimgasol_send;
typedef struct zimgasol_worker { void *at; uint64_t full; } zimgasol_worker;
typedef struct zimgasol_mapped_load { void *at; uint64_t full; } zimgasol_mapped_load;
typedef struct zimgasol_mapped_send { void *at; uint64_t full; } zimgasol_mapped_send;

/* ---- versions and texts */

/* Returns the library's version: the ZIMGASOL_VERSION_NUMBER of the header that it came with. */
ZIMGASOL_API uint32_t zimgasol_version(void);

/* Replaces *out, which must have a text, by the text of a status. It lasts as long as the
 * program. */
ZIMGASOL_API void zimgasol_read_status_text(uint32_t status, zimgasol_text *out);

/* Returns a short text on a status, for logs; `unknown status` for an unknown number. */
static inline const char *zimgasol_status_text(uint32_t status) {
    static const uint8_t empty[1] = {0};
    zimgasol_text text = {empty, 1};
    zimgasol_read_status_text(status, &text);
    const void *words = text.bytes;
    return ZIMGASOL_CAST(const char *, words);
}

/* Writes the text of a fault, with what it carries and its source, to `out` of `len` bytes, and
 * ends it with a byte 0. It is cut if there is no room; 256 bytes are always enough. If has_at is
 * true it ends with the byte `at` of the source: `valid_up_to` of zimgasol_load_source. Returns the
 * length of the whole text without the byte 0. */
ZIMGASOL_API uint64_t zimgasol_read_fault_text(const zimgasol_fault *fault, bool has_at,
    uint64_t at, uint8_t *out, size_t len);

/* Writes a fault's text to `out` as `snprintf` does, and returns what that returns. */
static inline int zimgasol_fault_text(const zimgasol_fault *fault, char *out, size_t len) {
    void *bytes = out;
    return ZIMGASOL_CAST(int, zimgasol_read_fault_text(fault, false, 0,
        ZIMGASOL_CAST(uint8_t *, bytes), len));
}

/* Does the same as zimgasol_fault_text, and adds the byte of its source at which the fault is. */
static inline int zimgasol_fault_text_at(const zimgasol_fault *fault, uint64_t at, char *out,
    size_t len) {
    void *bytes = out;
    return ZIMGASOL_CAST(int, zimgasol_read_fault_text(fault, true, at,
        ZIMGASOL_CAST(uint8_t *, bytes), len));
}

/* ---- a table: the page size of a guest, and its RAM blocks in their order */

/* Makes a table of `count` blocks, which it copies. Returns DONE, BAD_PAGE_SIZE, NO_MEMORY, or the
 * first fault of the blocks, 1 to 6. With 3, 4 and 5 *entry is the number of the block, from 0;
 * with 1, 2, 6 and NO_MEMORY it is 0; else it is unchanged. */
ZIMGASOL_CHECKED zimgasol_status zimgasol_table_new(zimgasol_table *table, uint64_t page_size,
    const zimgasol_block *blocks, size_t count, size_t *entry);

/* Makes the table of a stream from its first `len` bytes, read in this frame with pages of
 * page_size bytes. They may be those of a saved file, a single stream or a main stream, and are fed
 * to a load again. Returns DONE; RUNNING if more bytes are needed: call again with all of them and
 * some more (a size list of 256 blocks has less than 70,000 bytes); the number of the fault before
 * the end of the table; BAD_PAGE_SIZE, BAD_FRAME or NO_MEMORY. *at is the number of bytes that are
 * complete items without a fault, as far as they were read; an item with a fault begins there. With
 * the last three statuses it is unchanged.
 *
 * So a reader finds the blocks of a file, maps or allocates them, and loads into them. All blocks
 * together may have up to 2^40 bytes: test how much the guest may get. */
ZIMGASOL_CHECKED zimgasol_status zimgasol_table_of_stream(zimgasol_table *table, uint64_t page_size,
    zimgasol_frame frame, const uint8_t *bytes, size_t len, uint64_t *at);

/* Returns the number of blocks of a table. */
ZIMGASOL_API size_t zimgasol_table_blocks(zimgasol_table *table);

/* Writes the id of block `i` and its number of pages to *out. Returns DONE, or NO_PAGE, with *out
 * unchanged, if there is no such block. */
ZIMGASOL_CHECKED zimgasol_status zimgasol_table_block(zimgasol_table *table, size_t i,
    zimgasol_block *out);

/* Frees a table. Sends and loads that were made with it keep their own copy. */
ZIMGASOL_API void zimgasol_table_free(zimgasol_table *table);

/* ---- a load into the caller's blocks: of a single stream, or of a main stream and its channels
 *
 * The caller has a buffer for each block of a table, with the block's pages one after another, and
 * passes all buffers to each call that feeds. A page is written as soon as its bytes have come. The
 * load keeps a bit for each page (with channels three), and of each source the beginning of one
 * item at most. With channels it also keeps 8 bytes for each packet of the round, and the main
 * stream's page records, which few senders write. With whole_rounds (zimgasol_settings) it keeps
 * the pages of the open round or section, too.
 *
 * Each call gets the blocks as the call before left them, except for pages that the caller read in
 * place (zimgasol_load_wanted, zimgasol_load_claim). Blocks share no byte, and nobody else reads or
 * writes one during a call: the guest doesn't run yet. A page that comes as zeros is compared, and
 * isn't written if the block has zeros already, so fresh pages of private anonymous memory stay
 * unpopulated. The stream must have the blocks of the table, in the same order: with another table
 * nothing is written, and the verdict is OTHER_TABLE. If you don't know the blocks, get the table
 * by zimgasol_table_of_stream; blocks from calloc or mmap, with zero_blocks, are a fresh memory.
 *
 * At any time the blocks have all page records of a single stream so far, those of the incomplete
 * section included, on top of what they held before. After NO_MEMORY for good they have the first
 * of these, in order. With channels they have all rounds counted between two rounds, and at DONE.
 * Within a round, and after a fault of a round, the pages that it names may hold anything. With
 * whole_rounds the blocks have the rounds or sections counted, and nothing else, after each call.
 * Run the guest only after DONE. A page that no record and no packet wrote keeps what it held.
 *
 * A channel takes bytes up to the end of the current round. The rest waits with the caller until
 * all sources have the round and it was checked: if _feed takes fewer bytes than it is passed, feed
 * the rest once _takes returns true for the channel. The main stream takes all of a piece or
 * nothing. So for each source keep what wasn't taken, and go round until the verdict isn't RUNNING
 * (examples/c/channels.c):
 *
 *     for (size_t source = 0; source <= channels; source++)
 *         if (zimgasol_load_takes(&load, source))
 *             feed what is kept of it, or read more; if its connection has ended and nothing is
 *             kept, zimgasol_load_end(&load, source)
 *
 * A channel's hello is taken at any time, its packets only after the main stream's size list.
 * Verdict and rounds depend only on the bytes taken of each source, not on how they are cut into
 * pieces nor on which source's come first. whole_rounds doesn't change them. */

/* Makes a load into the blocks of a table, with settings; it copies both. With 0 `channels` it is
 * of a single stream, and ignores round_end and the UUID, for which any pointer but null will do.
 * Else it is of a main stream and 1 to 255 channels, with a UUID of 16 bytes in their hellos.
 * Nothing is claimed. Returns DONE, or the first of these that applies: BAD_CHANNELS (more than
 * 255), BAD_LENGTH (of the UUID), BAD_FRAME, BAD_ROUND_END, NO_MEMORY. */
ZIMGASOL_CHECKED zimgasol_status zimgasol_load_new(zimgasol_load *load, zimgasol_table *table,
    const uint8_t *uuid, size_t uuid_len, size_t channels, const zimgasol_settings *settings);

/* Takes the first bytes of a piece of a source, ZIMGASOL_MAIN or ZIMGASOL_CHANNEL(j), and writes
 * their pages into the `count` blocks, which are in the table's order. It doesn't change the array
 * `blocks`. fed->taken is the number of bytes taken: with DONE all, or with channels fewer, as
 * above; else 0. fed->rounds is the number of rounds or sections counted, whatever is returned:
 * more than after the call before if the piece ended one. (If the load fails for good with
 * NO_MEMORY, bytes of the piece may be taken: zimgasol_load_source counts them, and their pages may
 * be written; with whole_rounds only those of rounds counted are.)
 *
 * Returns DONE, also once there is a verdict: then no byte is taken with channels, and those of a
 * single stream are only counted. Or it returns the first of these that applies, with nothing
 * changed: OUT_OF_TURN if pages are claimed; BAD_SOURCE; IS_OVER after _end; TOO_LONG; BAD_LENGTH
 * if the blocks aren't the table's. Or NO_MEMORY: if the verdict is NO_MEMORY too, the load has
 * failed for good; else nothing has changed, and the piece can be fed again. A single stream with
 * whole_rounds never fails for good. */
ZIMGASOL_CHECKED zimgasol_status zimgasol_load_feed(zimgasol_load *load, zimgasol_buffer *blocks,
    size_t count, size_t source, const uint8_t *piece, size_t len,
    zimgasol_fed *fed);

/* Returns whether bytes of a source are taken now. They aren't if there is no such source, or it
 * was ended, is closed or has a fault. With channels they aren't either once there is a verdict, if
 * the source has all of the current round, or if it is a channel after its hello and the main
 * stream's table isn't known. Ask again after a call that changed the rounds counted or the
 * verdict, and after the main stream took bytes. */
ZIMGASOL_API bool zimgasol_load_takes(zimgasol_load *load, size_t source);

/* Ends a source whose bytes were all taken. Returns DONE or BAD_SOURCE. A second call changes
 * nothing. */
ZIMGASOL_CHECKED zimgasol_status zimgasol_load_end(zimgasol_load *load, size_t source);

/* Returns the verdict on the bytes taken: DONE, RUNNING, or the number of a fault; *found has it
 * with its source. NO_MEMORY is for good.
 *
 * A single stream is DONE once it is closed: its end byte was read, or in the frame MACHINE the
 * footer of RAM's END. Without a fault so far it is RUNNING, and after _end STREAM_TRUNCATED (34);
 * else it is its first fault.
 *
 * With channels it is DONE once the main stream is closed and every channel has ended after as many
 * rounds. It is RUNNING as long as any source may have more of the round, even if another one has a
 * fault: which fault is reported doesn't depend on which bytes come first. It is that of the first
 * round that fails, and stays, whatever is fed. To get it at once, end the sources that stall. They
 * may have a fault then, too: the main stream's fault comes before those of channels, and these in
 * their order. */
ZIMGASOL_CHECKED zimgasol_status zimgasol_load_verdict(zimgasol_load *load, zimgasol_fault *found);

/* Returns the fault of the bytes taken of one source, whatever the other sources have, or DONE if
 * they have none; *found has it. It is known at once, while the verdict is RUNNING as long as
 * another source may still have bytes. A source that was ended too early has STREAM_TRUNCATED,
 * CHANNEL_TRUNCATED, or after a packet without SYNC CHANNEL_UNSYNCED, which tells which connection
 * broke. Another table is no fault of a main stream's own; of a single stream it is OTHER_TABLE.
 * Returns BAD_SOURCE with *found unchanged. After NO_MEMORY no fault is known with channels, and
 * that of a single stream is NO_MEMORY. */
ZIMGASOL_CHECKED zimgasol_status zimgasol_load_fault_of(zimgasol_load *load, size_t source,
    zimgasol_fault *found);

/* Writes the state of a load to *out. */
ZIMGASOL_API void zimgasol_load_standing(zimgasol_load *load, zimgasol_standing *out);

/* Writes to *out what the load has of a source; zeros if there is no such source, as for
 * ZIMGASOL_ROUND. */
ZIMGASOL_API void zimgasol_load_source(zimgasol_load *load, size_t source, zimgasol_source *out);

/* Frees a load. The blocks stay the caller's. */
ZIMGASOL_API void zimgasol_load_free(zimgasol_load *load);

/* ---- pages of a single stream that the caller reads in place
 *
 * With the two calls below a caller reads pages from its socket straight into the blocks, and no
 * byte beyond the stream:
 *
 *     while (zimgasol_load_wanted(&load, &next)) {
 *         if (next.is_page) {
 *             read all of next.len bytes to blocks[next.block].bytes + next.offset
 *             zimgasol_load_page_read(&load, blocks, count);
 *         } else {
 *             read up to next.len bytes into a piece, of any length from 1 on
 *             zimgasol_load_feed(&load, blocks, count, ZIMGASOL_MAIN, piece, len, &fed);
 *         }
 *     }
 *
 * zimgasol_load_end and zimgasol_load_verdict follow: the end of the loop isn't success. A page may
 * be read by several calls of `read`; call zimgasol_load_page_read once all of it is there. Until
 * then none of the page counts as fed. If the stream ends before that, the block has a part of the
 * page. Bytes that were read past a page, as by `readv`, are fed after it. A page may also be fed
 * like other bytes.
 *
 * With whole_rounds a load wants nothing: feed all bytes while _takes returns true. */

/* Writes to *next what the next bytes of a single stream are: those of an incomplete item, or the
 * content of a page, which lies within the blocks. Returns whether the stream has more: false once
 * it is closed, has a fault or another table, or a piece failed for good with NO_MEMORY; and always
 * with channels and with whole_rounds. Then *next is unchanged. _end has no influence on it, though
 * no call takes bytes after _end. */
ZIMGASOL_API bool zimgasol_load_wanted(zimgasol_load *load, zimgasol_next *next);

/* Takes the next page, whose bytes the caller has read into its block. The other bytes of the
 * blocks are as the call before left them. Returns DONE. With channels, and with whole_rounds, it
 * returns OUT_OF_TURN. Of a single stream it returns the first of these that applies, with nothing
 * changed: IS_OVER after _end; OUT_OF_TURN if no page comes next; TOO_LONG; BAD_LENGTH if the
 * blocks aren't the table's. */
ZIMGASOL_CHECKED zimgasol_status zimgasol_load_page_read(zimgasol_load *load,
    const zimgasol_buffer *blocks, size_t count);

/* ---- pages of several channels that the caller's threads read in place
 *
 * With the two calls below no call copies the pages of packets. Each channel has a thread, and so
 * has the main stream. One lock of the caller's is around each call. Under it a channel's thread
 * passes the head of its next packet, and the load claims the packet's pages. Without it the thread
 * reads the pages from its connection into the blocks. Under it again the thread reports that they
 * are there. No page is claimed for two packets at once, and while pages are claimed no call gets
 * the blocks: a claimed page belongs to its thread alone.
 *
 * With whole_rounds a load claims nothing: feed all bytes.
 *
 * All other bytes are fed while nothing is claimed: hellos, SYNC packets, the main stream, and what
 * has a fault. Channels that come to a SYNC packet wait for each other there in any case. Let
 * `turned` be a condition that is signalled to all threads after each _take, _feed and _end. A
 * channel's thread does this:
 *
 *     feed the hello, ZIMGASOL_HELLO_LEN bytes
 *     until the connection ends, or the verdict isn't RUNNING:
 *         head = the next ZIMGASOL_HEAD_LEN(page_size) bytes
 *         lock
 *         until all channels' hellos were fed, and _takes(ZIMGASOL_CHANNEL(j)): wait for turned
 *         while _claim(j, head, &pages) is IS_CLAIMED: wait for turned
 *         unlock
 *         if it was RUNNING:
 *             read pages.normal pages into the blocks (readv), and clear pages.zero pages
 *             lock, _take(j, head, the normal pages), signal turned, unlock
 *         if it was TO_FEED:
 *             feed the head, and the contents that follow it
 *     if the connection has ended: lock, _end(ZIMGASOL_CHANNEL(j)), signal turned, unlock
 *
 *     to feed bytes:
 *         lock
 *         until all are taken, or the verdict isn't RUNNING:
 *             while _takes(source) is false, or _feed is OUT_OF_TURN: wait for turned
 *             _feed(blocks, source, the bytes that weren't taken), signal turned
 *         unlock
 *
 * Bytes are fed while nothing is claimed, so a hello would wait as long as other threads claim
 * pages: none of them claims before all hellos were fed.
 *
 * Each wait also ends once the verdict isn't RUNNING or the load is given up: then nothing is
 * taken. The thread of the main stream feeds each piece that it reads, and ends it. The head of a
 * packet that is fed says how many bytes follow it: big-endian, in the 4 bytes at offset 20, if
 * those at 16 aren't all 0. After a fault in the head itself nothing more of the channel is taken.
 *
 * The verdict waits for the other sources, and a live sender may wait for the source at fault. So
 * call _fault_of after each _feed and _end. If there is a fault, give the load up and shut the
 * connections down.
 *
 * If a connection ends while its thread reads claimed pages, the thread ends the channel without
 * _take and gives the load up: the pages stay claimed, so nothing more is fed. _fault_of reports
 * CHANNEL_UNSYNCED, or no fault if the round's first packet is the one that was claimed. The pages
 * that the round names may hold anything, as after every fault. */

/* Claims the pages of the next packet of channel `channel`, from 0 on, by its head of
 * ZIMGASOL_HEAD_LEN bytes. Returns
 *  - RUNNING: *pages has them, and until _take only the caller writes them;
 *  - IS_CLAIMED: one of them is claimed for another packet. ask again after that one was taken;
 *  - TO_FEED: no packet with this head is claimed. It is a SYNC packet or none, it has a fault, a
 *    page of it or of the round is outside its block, no bytes of the channel are taken now, or the
 *    load has whole_rounds. Pass the bytes to _feed, which says what they are;
 *  - BAD_SOURCE: there is no such channel.
 *
 * Unless it returns RUNNING nothing is claimed, and *pages is unchanged. */
ZIMGASOL_CHECKED zimgasol_status zimgasol_load_claim(zimgasol_load *load, size_t channel,
    const uint8_t *head, size_t len, zimgasol_pages *pages);

/* Takes the packet that was claimed with this head, once its pages are in the blocks: the zero
 * pages are cleared, and the others have these contents, in order, each in its block or a copy of
 * it. They aren't claimed any more. Returns RUNNING; OUT_OF_TURN if the packet isn't the channel's
 * next one, its pages aren't claimed (so always with whole_rounds), or there isn't a content of the
 * page size for each of its `normal`; BAD_SOURCE; or NO_MEMORY. Unless it returns RUNNING nothing
 * has changed: after NO_MEMORY call it again. */
ZIMGASOL_CHECKED zimgasol_status zimgasol_load_take(zimgasol_load *load, size_t channel,
    const uint8_t *head, size_t len, const zimgasol_lent *contents, size_t count);

/* ---- a send: of a single stream, or of a main stream and its channels
 *
 * Single stream. Its rounds are put page by page, as they are read from a running guest:
 *
 *     zimgasol_send_begin_round(&send);
 *     for each page: zimgasol_send_put_page(&send, block, number, bytes, page_size);
 *     zimgasol_send_end_round(&send);
 *     while ((len = zimgasol_send_drain(&send, ZIMGASOL_MAIN, out, sizeof out)) > 0) send them
 *
 * The pages of a round stay in memory until it is ended and drained. So put 64 to 256 pages into a
 * round, and drain after each: a round that is begun before the earlier ones were drained adds to
 * them.
 *
 * Channels. A round begins with the dirty pages, as a list or as bitmaps, and sends them in packets
 * of at most `limit` pages. Each channel has a worker with a handle of its own, which runs on any
 * thread. The workers of a round may run at once, each on its thread, and take packet after packet
 * until none is left. No call waits for another thread. A round looks as follows. The main stream
 * is drained before the first one, since a load takes no packet without the table:
 *
 *     while ((len = zimgasol_send_drain(&send, ZIMGASOL_MAIN, out, sizeof out)) > 0)
 *         send them on the main stream
 *     zimgasol_send_begin_round_pages(&send, dirty, count);
 *     for each channel: zimgasol_send_worker(&send, &workers[j]);
 *     on a thread for each worker:
 *         send what zimgasol_worker_drain returns, until 0: at first the hello
 *         while ((status = zimgasol_worker_next(&workers[j], &batch)) == ZIMGASOL_RUNNING) {
 *             clear the marks of the batch's pages; then zeros[i]: whether page i is zeros
 *             zimgasol_worker_head(&workers[j], zeros, batch.count, head, sizeof head, &len);
 *             send the head and the pages that aren't zeros, by writev or sendmsg
 *         }
 *         send what zimgasol_worker_drain returns, until 0: the SYNC packet
 *     for each channel, in order: zimgasol_send_give_back(&send, &workers[j]);
 *     zimgasol_send_end_round(&send);
 *     while ((len = zimgasol_send_drain(&send, ZIMGASOL_MAIN, out, sizeof out)) > 0)
 *         send them on the main stream
 *
 * Instead of zimgasol_worker_head and the pages, zimgasol_worker_pack writes a complete packet for
 * zimgasol_worker_drain. It is passed the contents of the batch's pages, and finds the zero pages
 * itself. Pass it pages where they lie if the guest is stopped, in a snapshot or write-protected,
 * and copies of the pages of a running guest.
 *
 * Give a worker back to the send that made it. Another send may accept it, and then sends a corrupt
 * stream. A load detects packets that are missing or come twice, but not another guest's pages.
 *
 * A call for one kind of send returns OUT_OF_TURN for the other kind. */

/* Makes a send of a table, which it copies, with settings: of a single stream if `channels` is 0,
 * else on that many channels. Returns DONE, or the first of these that applies: BAD_LENGTH (of the
 * name), CHANNELS, BATCH_LIMIT, NO_MEMORY. */
ZIMGASOL_CHECKED zimgasol_status zimgasol_send_new(zimgasol_send *send, zimgasol_table *table,
    const zimgasol_send_settings *settings);

/* Begins a round: of a single stream, or on channels one without pages. Returns DONE, NO_MEMORY, or
 * OUT_OF_TURN if a round is open or the streams are ended. */
ZIMGASOL_CHECKED zimgasol_status zimgasol_send_begin_round(zimgasol_send *send);

/* Begins a round on channels with `count` dirty pages, in any order; 0 is allowed, and a page that
 * is listed twice counts once. Returns DONE; OUT_OF_TURN of a single stream, or if a round is open
 * or the streams are ended; NO_PAGE if one isn't in the table; or NO_MEMORY. */
ZIMGASOL_CHECKED zimgasol_status zimgasol_send_begin_round_pages(zimgasol_send *send,
    const zimgasol_place *dirty, size_t count);

/* Begins a round on channels with the pages whose bits are set: `count` bitmaps, one for each block
 * of the table, in its order. A bitmap has a bit for each page of its block and may be longer; bits
 * after the last page are ignored. The round keeps one copy of the bitmaps and no list of pages, so
 * they may change once the call returns. Returns DONE; OUT_OF_TURN of a single stream, or if a
 * round is open or the streams are ended; BAD_LENGTH if there aren't as many bitmaps as blocks, or
 * one is too short; or NO_MEMORY. */
ZIMGASOL_CHECKED zimgasol_status zimgasol_send_begin_round_bitmaps(zimgasol_send *send,
    const zimgasol_bitmap *bitmaps, size_t count);

/* Puts a page of a block into the open round of a single stream: its `len` bytes, the page size.
 * Pages come in any order; if a page comes twice, the last one counts. Returns DONE, or the first
 * of these that applies: OUT_OF_TURN with channels, or if no round is open; NO_PAGE; BAD_LENGTH;
 * NO_MEMORY (the round is open as before, without the page). */
ZIMGASOL_CHECKED zimgasol_status zimgasol_send_put_page(zimgasol_send *send, size_t block,
    uint64_t number, const uint8_t *bytes, size_t len);

/* Makes the worker of the next channel, from channel 0 on, in an empty handle. Its bytes begin with
 * those of its channel that weren't drained before, at first the hello. Returns DONE, NO_MEMORY, or
 * OUT_OF_TURN of a single stream, if no round is open, or if every channel's worker was made. */
ZIMGASOL_CHECKED zimgasol_status zimgasol_send_worker(zimgasol_send *send, zimgasol_worker *worker);

/* Takes back the worker of the next channel, from channel 0 on, once it has ended. Its handle is
 * empty then, and bytes that weren't drained come first in the channel's next round. Returns DONE,
 * NO_MEMORY, or OUT_OF_TURN if no round is open, the worker isn't the next one or hasn't ended, or
 * a drain returned a part of its bytes: drain the others first. After anything but DONE the handle
 * has the worker as before. */
ZIMGASOL_CHECKED zimgasol_status zimgasol_send_give_back(zimgasol_send *send,
    zimgasol_worker *worker);

/* Ends the round: it becomes a section of a single stream, or with channels a FLUSH ends it on the
 * main stream. Returns DONE, NO_MEMORY (the round is open as before), or OUT_OF_TURN if no round is
 * open, or with channels not all workers are back. */
ZIMGASOL_CHECKED zimgasol_status zimgasol_send_end_round(zimgasol_send *send);

/* Cancels the open round: it sends nothing, and the send is as before the round. Returns DONE; or
 * OUT_OF_TURN if no round is open, or with channels a worker of it was made: packets of it may have
 * been drained then, and no call takes them back from the receiver.
 *
 * With `give_up` it gives the streams up instead, whether workers were made or not: use it if a
 * channel broke or the migration is cancelled. What the send holds is freed. From then on every
 * call but _free does nothing and returns OUT_OF_TURN, or 0 bytes. The main stream lacks its END,
 * without which no load is DONE. Workers that are out go on as before, also on another thread
 * meanwhile, and each is freed on its own. A round of a single stream is cancelled as without
 * `give_up`. */
ZIMGASOL_CHECKED zimgasol_status zimgasol_send_cancel_round(zimgasol_send *send, bool give_up);

/* Ends the streams; drain what is left of them. The single stream, or the main stream, ends with
 * its end byte. With `left_open` it ends with the footer of RAM's END instead: the caller goes on
 * with the sections of devices and the end byte once all was drained. Returns DONE, NO_MEMORY, or
 * OUT_OF_TURN if a round is open or the streams are ended. */
ZIMGASOL_CHECKED zimgasol_status zimgasol_send_finish(zimgasol_send *send, bool left_open);

/* Copies the next bytes of a source to `out`, at most `len`, and returns their number; 0 if there
 * are none, or no such source.
 *
 * ZIMGASOL_MAIN is the single stream or the main stream. The pieces that it returns, one after
 * another, are the stream. If it returns 0 to a buffer with room, all was returned: between two
 * rounds the stream's beginning and all rounds that were ended, and after zimgasol_send_finish the
 * complete stream. While a round is open it may return 0 though bytes of earlier rounds wait, which
 * come once that round is ended or cancelled.
 *
 * ZIMGASOL_CHANNEL(j) is channel j, once the streams are ended: the bytes that no worker drained,
 * such as the hello if no round was sent. Before that it returns 0. */
ZIMGASOL_API size_t zimgasol_send_drain(zimgasol_send *send, size_t source, uint8_t *out,
    size_t len);

/* The two halves of zimgasol_send_drain, for an output that may take fewer bytes than it is
 * offered, such as a non-blocking socket. _peek copies bytes as _drain does, but keeps them: the
 * next call returns the same ones. _skip drops the first `len` of them, or all if there are fewer,
 * and returns their number. Call it after a _peek: it gets no bytes from the stream itself. */
ZIMGASOL_API size_t zimgasol_send_peek(zimgasol_send *send, size_t source, uint8_t *out,
    size_t len);
ZIMGASOL_API size_t zimgasol_send_skip(zimgasol_send *send, size_t source, size_t len);

/* Returns how many bytes a _peek of the source copies to a buffer with room for all; 0 exactly if
 * there are none. More may follow once these are gone, and once an open round has ended. */
ZIMGASOL_API size_t zimgasol_send_waiting(zimgasol_send *send, size_t source);

/* Frees a send, with what wasn't drained. Workers that are out are freed on their own. */
ZIMGASOL_API void zimgasol_send_free(zimgasol_send *send);

/* ---- a worker of a round on channels
 *
 * The k-th worker of a round, from 0, is that of channel k. _next reports the pages of one packet.
 * Then either _head writes the packet's head, and the caller sends the pages after it from where
 * they lie; or _pack writes the packet from the contents of the pages. Each packet may be written
 * either way. A page that is written meanwhile may be torn: clear its mark before you read it, so
 * that a write marks it again and it is sent again. */

/* Writes the pages of the worker's next packet to *batch. Until a _head or a _pack has written that
 * packet, each call reports the same pages. If no batch is left it writes the channel's SYNC
 * packet. Returns RUNNING, with a batch; DONE once the worker has ended, after which further calls
 * change nothing; or NO_MEMORY if nothing was written, and the next call writes the SYNC packet.
 * With DONE and NO_MEMORY *batch is unchanged. */
ZIMGASOL_CHECKED zimgasol_status zimgasol_worker_next(zimgasol_worker *worker,
    zimgasol_batch *batch);

/* Writes the head of the reported packet to `out`, and its length to *written: 1,344 bytes, or 832
 * with pages of 8192. `zeros` has a byte for each page of the batch, in its order: 0 unless the
 * page is zeros. The caller sends the head on the channel, and after it the contents of the other
 * pages, in the batch's order. That is the packet that a _pack of these contents writes, if `zeros`
 * says which of them are zeros. A page that wasn't zeros when it was tested, and is when it is
 * sent, still loads, but no contract covers such a stream.
 *
 * Returns RUNNING; OUT_OF_TURN if no batch was reported, its packet is written, or bytes of the
 * channel must be drained first, as the hello; BAD_LENGTH if `zeros_len` isn't the batch's count,
 * or `out` is shorter than the head; or NO_MEMORY. After anything but RUNNING nothing was written,
 * the batch still has no packet, and *written is unchanged. After RUNNING the pages must be sent
 * before the channel's next bytes: if you can't send them, give the streams up
 * (zimgasol_send_cancel_round). */
ZIMGASOL_CHECKED zimgasol_status zimgasol_worker_head(zimgasol_worker *worker, const uint8_t *zeros,
    size_t zeros_len, uint8_t *out, size_t len, size_t *written);

/* Writes the reported packet into the worker's channel. `contents` has the bytes of each of its
 * `count` pages, in the batch's order. They are read where they lie: in the guest's memory, if
 * nobody writes to it during the call, or in a copy. Returns RUNNING, or the first of these that
 * applies: OUT_OF_TURN if no batch was reported, or its packet is written; BAD_LENGTH if `count`
 * isn't the batch's, or one of the contents isn't as long as a page; NO_MEMORY if nothing was
 * written, and the next call writes the packet. */
ZIMGASOL_CHECKED zimgasol_status zimgasol_worker_pack(zimgasol_worker *worker,
    const zimgasol_lent *contents, size_t count);

/* Copies the next bytes of the worker's channel to `out`, at most `len`, and returns their number;
 * 0 if there are none. There is no peek: keep what the socket didn't take. */
ZIMGASOL_API size_t zimgasol_worker_drain(zimgasol_worker *worker, uint8_t *out, size_t len);

/* Frees a worker instead of giving it back. Its round can't be ended then, only the streams given
 * up (zimgasol_send_cancel_round). */
ZIMGASOL_API void zimgasol_worker_free(zimgasol_worker *worker);

/* ---- a file with mapped-ram that is loaded
 *
 * With the capability mapped-ram QEMU (9.0 and newer; libvirt's format `sparse`) saves a machine
 * into a file in which each page has an offset of its own. Before the pages of each block there is
 * its head, with a bitmap: a page whose bit isn't set is zeros, whatever bytes lie at its offset.
 * The library reads the heads, and what follows the last block's pages. The caller reads the pages
 * straight into the guest's memory, in any order and by any threads. Nothing is copied.
 *
 *     zimgasol_mapped_load_new(&load, page_size, false, 0, bytes, n, &place), with the first bytes
 *     do {
 *         n = what `pread` returns for some bytes of the file at `place`
 *         status = zimgasol_mapped_load_take(&load, bytes, n, &place);
 *     } while (status == ZIMGASOL_RUNNING);
 *     zimgasol_mapped_load_table(&load, &table), and memory for its blocks
 *     on each thread, from the first page of its part of a block on, until its end:
 *         lock, zimgasol_mapped_load_run(&load, block, page, &run), unlock
 *         clear the pages from `page` to run.page, unless the memory is zeros
 *         `pread` run.pages pages, or those of its part, from run.offset to page run.page
 *         page = run.page + run.pages
 *
 * The calls keep 32 KiB for each GiB of the guest, and no page. After DONE the file has all pages
 * of which a bit is set, and RAM came to its end. Only then are the pages those of a guest: a save
 * that was broken off has heads, too, without a bit. */

/* Begins the load of a file whose stream begins with these bytes, at the byte `base` of the file: 0
 * in a file of QEMU's, and in one of libvirt's the bytes before the stream. `big_endian` says
 * whether a big-endian host wrote the file, which the file doesn't say: its bitmaps have words in
 * the host's order. *place is the offset of the first block's head. Returns DONE; BAD_PAGE_SIZE;
 * RUNNING if the bytes don't begin with the front of such a file or end inside it; TOO_LONG if its
 * size list would begin at 2^63 or later; or NO_MEMORY. After anything but DONE *place is
 * unchanged.
 *
 * The front is what comes before the size list, some hundred bytes. It has no fault of its own: if
 * 64 KiB of a file are RUNNING it is another file. Of the same bytes zimgasol_table_of_stream
 * returns MACHINE_CAPABILITY (47) if it is a file with mapped-ram, and else what a stream is. */
ZIMGASOL_CHECKED zimgasol_status zimgasol_mapped_load_new(zimgasol_mapped_load *load,
    uint64_t page_size, bool big_endian, uint64_t base, const uint8_t *bytes, size_t len,
    uint64_t *place);

/* Takes bytes of the file that begin at the offset *place that the call before reported. They are
 * the head of the next block, up to the end of its bitmap: 9 bytes and the id, 28 bytes, and 8
 * bytes for each 64 pages. More bytes may follow in the buffer; they aren't taken. After the last
 * head they are those that follow the last block's pages, up to RAM's END, in pieces of any length:
 * they have no pages. Writes the offset of what comes next to *place.
 *
 * Returns RUNNING if bytes were taken and others come next; DONE once RAM came to its end, and
 * *place is the offset after RAM's END, where the devices' state begins; or a fault, and *place is
 * the offset of the head or of the item at fault. STREAM_TRUNCATED (34) says that the bytes end
 * inside a head, or that there are none: pass more of the file from *place on, and if it has no
 * more, it was cut there. Other faults are final, as DONE is: the call returns them again.
 *
 * The faults of heads are 21 to 25 and 72 to 76. After the pages they are those of a machine's
 * stream, 11 to 49, and 64 for a page record, which such a file doesn't have. A fault of the front,
 * as 27 or 48 for another page size, is reported by the first call, at the first head's offset.
 * TOO_LONG comes at 2^63 bytes. After NO_MEMORY either nothing has changed, or each call returns it
 * again. */
ZIMGASOL_CHECKED zimgasol_status zimgasol_mapped_load_take(zimgasol_mapped_load *load,
    const uint8_t *bytes, size_t len, uint64_t *place);

/* Makes the table of the file's blocks, once the heads of all of them were taken: also before the
 * bytes after the pages were. Returns DONE, OUT_OF_TURN before that, or NO_MEMORY. All blocks
 * together may have up to 2^40 bytes: test how much the guest may get. */
ZIMGASOL_CHECKED zimgasol_status zimgasol_mapped_load_table(zimgasol_mapped_load *load,
    zimgasol_table *table);

/* Writes to *run the first pages of a block from page `from` on whose contents the file has, as
 * many as follow each other. The pages from `from` up to run->page are zeros. Returns DONE, also
 * with no page; or NO_PAGE, with *run unchanged, if the block's head wasn't taken, or `from` is
 * above its number of pages. It only looks up: threads may ask in any order, each call under one
 * lock, or each thread of a load of its own that took the same heads. A lookup goes page by page to
 * the end of the run: keep the rest of a run that is read in parts. */
ZIMGASOL_CHECKED zimgasol_status zimgasol_mapped_load_run(zimgasol_mapped_load *load, size_t block,
    uint64_t from, zimgasol_run *run);

/* Frees the load of a file. Tables that it made are freed on their own. */
ZIMGASOL_API void zimgasol_mapped_load_free(zimgasol_mapped_load *load);

/* ---- a file with mapped-ram that is sent
 *
 * The caller writes the file, in any order and by any threads: each page that isn't zeros at its
 * offset, and at the end the parts, which aren't pages. Blocks, heads and offsets are as QEMU lays
 * them out (mapped_ram_setup_ramblock). A page has the same offset each time, so a round of dirty
 * pages writes over what was there, and a file never grows by it. A page that became zeros isn't
 * written: its bit is cleared.
 *
 *     zimgasol_mapped_send_new(&send, &table, false, name, name_len);
 *     for each page that is dirty, in rounds as long as the guest runs:
 *         lock, zimgasol_mapped_send_mark(&send, block, page, is_not_zeros, &offset), unlock
 *         `pwrite` the page at the offset, if it isn't zeros
 *     with the guest stopped, for part = 0, 1, .. until NO_PAGE:
 *         zimgasol_mapped_send_part(&send, part, bytes, len, &at), and `pwrite` it at at.offset
 */

/* Begins a send of a table, which it copies, as the file of a machine with this name, of at most
 * 1,024 bytes. No page is in the file yet: all are zeros. `big_endian` is true if a big-endian host
 * is to load it. Returns DONE; BAD_LENGTH (of the name); NO_MEMORY; or MAPPED_PAGES_OFFSET, which
 * no table leads to. */
ZIMGASOL_CHECKED zimgasol_status zimgasol_mapped_send_new(zimgasol_mapped_send *send,
    zimgasol_table *table, bool big_endian, const uint8_t *name, size_t name_len);

/* Says whether the file has the content of a page: sets its bit if `has_content` is true, and else
 * clears it, which makes it a page of zeros. Writes the page's offset in the file to *offset: if
 * the bit is set the caller writes the content there, before the part with the bit. Returns DONE,
 * or NO_PAGE with nothing changed. */
ZIMGASOL_CHECKED zimgasol_status zimgasol_mapped_send_mark(zimgasol_mapped_send *send, size_t block,
    uint64_t page, bool has_content, uint64_t *offset);

/* Copies a part of the file that isn't a page to the front of `out`, and writes where it lies to
 * *at. Part 0 is the front, part 1 + i the head of block i, with the bits so far, and the part
 * after those what follows the last block's pages: the end of START, END, and the end byte. To go
 * on with the sections of devices leave out that last byte. Returns DONE; BAD_LENGTH if `out` is
 * too short, with *at written; NO_PAGE if there is no such part; or NO_MEMORY. A file with all
 * parts and with the pages whose bits are set stands for the memory of the pages that were marked,
 * whatever else lies in it. */
ZIMGASOL_CHECKED zimgasol_status zimgasol_mapped_send_part(zimgasol_mapped_send *send, size_t part,
    uint8_t *out, size_t len, zimgasol_part *at);

/* Frees a send. The file is the caller's. */
ZIMGASOL_API void zimgasol_mapped_send_free(zimgasol_mapped_send *send);

/* ---- hellos and packets of channels, written into the caller's buffers */

/* Writes the hello of channel `id`, with a UUID of 16 bytes, to a buffer of 64 bytes. Returns DONE
 * or BAD_LENGTH. */
ZIMGASOL_CHECKED zimgasol_status zimgasol_hello(const uint8_t *uuid, size_t uuid_len, uint8_t id,
    uint8_t *out, size_t len);

/* Writes one packet to the front of `out`: with a block's id without a byte 0 (a reader takes it up
 * to the first one), the offsets in bytes of its normal pages, their contents one after another,
 * and the offsets of its zero pages. It checks neither id, offsets nor number. Returns DONE,
 * BAD_PAGE_SIZE, TOO_MANY_PAGES, NO_MEMORY, or BAD_LENGTH: of the contents (all normal pages
 * together), of the id (at most 255), or of `out`. With DONE, and if only `out` is too short,
 * *written is the packet's length; else it is unchanged. */
ZIMGASOL_CHECKED zimgasol_status zimgasol_put_packet(uint64_t page_size, uint64_t number, bool sync,
    const uint8_t *id, size_t id_len, const uint64_t *normal, size_t normal_len,
    const uint8_t *contents, size_t contents_len, const uint64_t *zero, size_t zero_len,
    uint8_t *out, size_t len, size_t *written);

#ifdef __cplusplus
}
#endif

#endif
