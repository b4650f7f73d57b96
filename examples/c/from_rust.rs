//! The library for C, called from Rust: a page is sent as a stream, loaded, and compared.
//!
//!     rustc --edition 2021 -L out -l static=zimgasol examples/c/from_rust.rs
use std::ffi::c_void;

#[repr(C)]
struct Handle {
    at: *mut c_void,
    full: u64,
}

const EMPTY: Handle = Handle { at: std::ptr::null_mut(), full: 0 };

#[repr(C)]
struct Block {
    id: [u8; 256],
    pages: u64,
}

#[repr(C)]
#[derive(Default)]
struct Fault {
    round: u64,
    source: u64,
    number: u32,
    first: u64,
    second: u64,
    reserved: [u64; 3],
}

/// All zeros are a stream of RAM's section alone, as the sends of the library write it.
#[repr(C)]
#[derive(Default)]
struct Settings {
    frame: u32,
    round_end: u32,
    waiting: u64,
    zero_blocks: u64,
    whole_rounds: u64,
    reserved: [u64; 4],
}

/// All zeros are one stream without a name.
#[repr(C)]
struct SendSettings {
    channels: usize,
    limit: usize,
    uuid: [u8; 16],
    named: u64,
    name_len: usize,
    name: [u8; 1024],
    reserved: [u64; 4],
}

const ONE_STREAM: SendSettings = SendSettings {
    channels: 0,
    limit: 0,
    uuid: [0; 16],
    named: 0,
    name_len: 0,
    name: [0; 1024],
    reserved: [0; 4],
};

#[repr(C)]
struct Buffer {
    bytes: *mut u8,
    len: usize,
}

#[repr(C)]
struct Fed {
    taken: usize,
    rounds: u64,
}

type Status = u32;

/// The only source of one stream.
const MAIN: usize = 0;

extern "C" {
    fn zimgasol_table_new(
        table: &mut Handle,
        page_size: u64,
        blocks: *const Block,
        count: usize,
        entry: &mut usize,
    ) -> Status;
    fn zimgasol_table_free(table: &mut Handle);
    fn zimgasol_send_new(
        send: &mut Handle,
        table: &mut Handle,
        settings: &SendSettings,
    ) -> Status;
    fn zimgasol_send_begin_round(send: &mut Handle) -> Status;
    fn zimgasol_send_put_page(
        send: &mut Handle,
        block: usize,
        number: u64,
        bytes: *const u8,
        len: usize,
    ) -> Status;
    fn zimgasol_send_end_round(send: &mut Handle) -> Status;
    fn zimgasol_send_finish(send: &mut Handle, left_open: bool) -> Status;
    fn zimgasol_send_drain(send: &mut Handle, source: usize, out: *mut u8, len: usize) -> usize;
    fn zimgasol_send_free(send: &mut Handle);
    fn zimgasol_load_new(
        load: &mut Handle,
        table: &mut Handle,
        uuid: *const u8,
        uuid_len: usize,
        channels: usize,
        settings: &Settings,
    ) -> Status;
    fn zimgasol_load_feed(
        load: &mut Handle,
        blocks: *mut Buffer,
        count: usize,
        source: usize,
        piece: *const u8,
        len: usize,
        fed: &mut Fed,
    ) -> Status;
    fn zimgasol_load_end(load: &mut Handle, source: usize) -> Status;
    fn zimgasol_load_verdict(load: &mut Handle, found: &mut Fault) -> Status;
    fn zimgasol_load_free(load: &mut Handle);
}

/// A call's status as a `Result`.
fn done(status: Status) -> Result<(), Status> {
    if status == 0 { Ok(()) } else { Err(status) }
}

/// A send, which is freed when it is dropped.
struct Sending(Handle);

impl Drop for Sending {
    fn drop(&mut self) {
        unsafe { zimgasol_send_free(&mut self.0) }
    }
}

/// A load, which is freed when it is dropped.
struct Load(Handle);

impl Drop for Load {
    fn drop(&mut self) {
        unsafe { zimgasol_load_free(&mut self.0) }
    }
}

/// A table, which is freed when it is dropped.
struct Table(Handle);

impl Drop for Table {
    fn drop(&mut self) {
        unsafe { zimgasol_table_free(&mut self.0) }
    }
}

/// Creates the table of one block with two pages.
fn table() -> Result<Table, Status> {
    let mut block = Block { id: [0; 256], pages: 2 };
    block.id[..6].copy_from_slice(b"pc.ram");
    let (mut handle, mut entry) = (EMPTY, 0);
    done(unsafe { zimgasol_table_new(&mut handle, 4096, &block, 1, &mut entry) })?;
    Ok(Table(handle))
}

/// Sends one page as a stream of its own.
fn sent(page: &[u8; 4096]) -> Result<Vec<u8>, Status> {
    let (mut table, mut handle) = (table()?, EMPTY);
    let (mut stream, mut piece) = (Vec::new(), [0; 1000]);
    unsafe {
        done(zimgasol_send_new(&mut handle, &mut table.0, &ONE_STREAM))?;
        let Sending(handle) = &mut Sending(handle);
        done(zimgasol_send_begin_round(handle))?;
        done(zimgasol_send_put_page(handle, 0, 1, page.as_ptr(), page.len()))?;
        done(zimgasol_send_end_round(handle))?;
        done(zimgasol_send_finish(handle, false))?;
        loop {
            match zimgasol_send_drain(handle, MAIN, piece.as_mut_ptr(), piece.len()) {
                0 => return Ok(stream),
                len => stream.extend_from_slice(&piece[..len]),
            }
        }
    }
}

/// Loads a stream into a block of zeros, by complete sections alone.
fn loaded(stream: &[u8]) -> Result<Vec<u8>, Status> {
    let (mut table, mut handle, mut fault) = (table()?, EMPTY, Fault::default());
    let mut ram = vec![0; 2 * 4096];
    let mut blocks = [Buffer { bytes: ram.as_mut_ptr(), len: ram.len() }];
    let settings = Settings { zero_blocks: 1, whole_rounds: 1, ..Settings::default() };
    let mut fed = Fed { taken: 0, rounds: 0 };
    unsafe {
        // no channels: one stream, which has no UUID
        done(zimgasol_load_new(&mut handle, &mut table.0, stream.as_ptr(), 0, 0, &settings))?;
        let Load(handle) = &mut Load(handle);
        for piece in stream.chunks(777) {
            let (at, len) = (piece.as_ptr(), piece.len());
            done(zimgasol_load_feed(handle, blocks.as_mut_ptr(), 1, MAIN, at, len, &mut fed))?;
        }
        done(zimgasol_load_end(handle, MAIN))?;
        done(zimgasol_load_verdict(handle, &mut fault))?;
    }
    Ok(ram)
}

fn main() {
    let page: [u8; 4096] = std::array::from_fn(|i| (i * 7) as u8);
    let stream = sent(&page).expect("the page is sent");
    assert_eq!(loaded(&stream), Ok([[0; 4096], page].concat()));
    assert_eq!(loaded(&stream[..stream.len() - 1]), Err(34));
    println!("from Rust: the page that was sent");
}
