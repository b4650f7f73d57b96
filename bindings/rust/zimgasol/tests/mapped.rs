//! Files with mapped-ram that are written and loaded, and what is refused.

use std::fs::{File, OpenOptions};
use std::os::unix::fs::FileExt;
use std::path::PathBuf;
use zimgasol::mapped::{self, ByteOrder, MappedLoad, MappedSend, Run, Taken};
use zimgasol::{PageSize, Place, Table, sys};

const PAGE: usize = 4096;

/// A file of its own for a test, removed at the end.
struct Room(PathBuf);

impl Room {
    fn new(name: &str) -> Room {
        Room(std::env::temp_dir().join(format!("zimgasol-{}-{name}", std::process::id())))
    }

    fn file(&self) -> File {
        let mut how = OpenOptions::new();
        how.read(true).write(true).create(true).truncate(true).open(&self.0).unwrap()
    }
}

impl Drop for Room {
    fn drop(&mut self) {
        let _ = std::fs::remove_file(&self.0);
    }
}

fn table() -> Table {
    Table::new(PageSize::Small, &[("pc.ram", 3000), ("vga.vram", 5)]).unwrap()
}

/// Memory in which each third page is zeros.
fn memory(pages: usize, seed: usize) -> Vec<u8> {
    let byte = |i: usize| ((i * 31 + i / PAGE * 7 + seed) % 250 + 1) as u8;
    (0..pages * PAGE).map(|i| if i / PAGE % 3 == 0 { 0 } else { byte(i) }).collect()
}

#[test]
fn a_guest_is_written_and_loaded() {
    let (ram, vram) = (memory(3000, 1), memory(5, 2));
    for threads in [1, 3] {
        let room = Room::new(&format!("whole-{threads}"));
        let file = room.file();
        mapped::save(&table(), "none", &[&ram, &vram], &file, threads).unwrap();
        let load = mapped::open(&file, 0, PageSize::Small, ByteOrder::Little).unwrap().unwrap();
        let blocks: Vec<_> = load.table().unwrap().blocks().collect();
        assert_eq!(blocks, [("pc.ram".to_owned(), 3000), ("vga.vram".to_owned(), 5)]);
        // the memory isn't zeros before
        let (mut own, mut other) = (vec![7; ram.len()], vec![7; vram.len()]);
        mapped::load(&load, &file, &mut [&mut own, &mut other], threads).unwrap();
        assert!(own == ram && other == vram);
        // one byte is left after RAM: the end byte
        assert_eq!(load.place(), file.metadata().unwrap().len() - 1);
    }
}

#[test]
fn runs_name_the_pages_with_contents() {
    let room = Room::new("runs");
    let file = room.file();
    mapped::save(&table(), "none", &[&memory(3000, 1), &vec![0; 5 * PAGE]], &file, 2).unwrap();
    let load = mapped::open(&file, 0, PageSize::Small, ByteOrder::Little).unwrap().unwrap();
    let runs: Vec<Run> = load.runs(0).collect();
    assert_eq!(runs.len(), 1000);
    assert!(runs.iter().enumerate().all(|(i, run)| (run.page, run.pages) == (3 * i as u64 + 1, 2)));
    let mut page = vec![0; PAGE];
    file.read_exact_at(&mut page, runs[0].offset).unwrap();
    assert!(page == memory(3000, 1)[PAGE..2 * PAGE]);
    assert_eq!((load.run(1, 0), load.run(2, 0), load.run(0, 3001)), (None, None, None));
}

#[test]
fn a_page_that_becomes_zeros_loses_its_bit() {
    let room = Room::new("marks");
    let file = room.file();
    let send = MappedSend::new(&table(), ByteOrder::Little, "none").unwrap();
    for page in [4, 5] {
        let offset = send.mark(Place { block: 1, page: page - 1 }, true).unwrap();
        file.write_all_at(&[9; PAGE], offset).unwrap();
    }
    send.mark(Place { block: 1, page: 3 }, false).unwrap();
    let refused = send.mark(Place { block: 1, page: 5 }, true).unwrap_err();
    assert_eq!(refused.number(), sys::ZIMGASOL_NO_PAGE);
    let parts: Vec<_> = (0..).map_while(|i| send.part(i).unwrap()).collect();
    assert_eq!(parts.len(), 4);
    for (offset, bytes) in &parts {
        file.write_all_at(bytes, *offset).unwrap();
    }
    let load = mapped::open(&file, 0, PageSize::Small, ByteOrder::Little).unwrap().unwrap();
    let runs: Vec<_> = load.runs(1).map(|run| (run.page, run.pages)).collect();
    assert_eq!(runs, [(4, 1)]);
    assert_eq!(load.runs(0).count(), 0);
}

#[test]
fn other_files_and_cut_ones_are_refused() {
    let room = Room::new("cut");
    let file = room.file();
    file.write_all_at(b"QFI\xfb and no stream", 0).unwrap();
    assert!(mapped::open(&file, 0, PageSize::Small, ByteOrder::Little).unwrap().is_none());
    let file = room.file();
    mapped::save(&table(), "none", &[&memory(3000, 1), &memory(5, 2)], &file, 1).unwrap();
    let whole = file.metadata().unwrap().len();
    // the end is cut: then the heads are there, and RAM doesn't end
    file.set_len(whole - 9).unwrap();
    let cut = mapped::open(&file, 0, PageSize::Small, ByteOrder::Little).err().unwrap();
    let fault = cut.get_ref().unwrap().downcast_ref::<zimgasol::Error>().unwrap();
    assert_eq!(fault.number(), sys::ZIMGASOL_STREAM_TRUNCATED);
    assert!(fault.at().is_some());
}

#[test]
fn heads_are_taken_piece_by_piece() {
    let room = Room::new("pieces");
    let file = room.file();
    mapped::save(&table(), "none", &[&memory(3000, 1), &memory(5, 2)], &file, 1).unwrap();
    let mut front = vec![0; 4096];
    file.read_exact_at(&mut front, 0).unwrap();
    assert!(
        MappedLoad::new(PageSize::Small, ByteOrder::Little, 0, &front[..40]).unwrap().is_none()
    );
    let mut load = MappedLoad::new(PageSize::Small, ByteOrder::Little, 0, &front).unwrap().unwrap();
    assert_eq!(load.table().unwrap_err().number(), sys::ZIMGASOL_OUT_OF_TURN);
    let short = load.take(&front[load.place() as usize..][..20]).unwrap_err();
    assert_eq!(short.number(), sys::ZIMGASOL_STREAM_TRUNCATED);
    let mut taken = 0;
    loop {
        let mut bytes = vec![0; 600];
        let len = file.read_at(&mut bytes, load.place()).unwrap();
        taken += 1;
        if load.take(&bytes[..len]).unwrap() == Taken::All {
            break;
        }
    }
    assert!(taken >= 3);
    assert_eq!(load.table().unwrap().len(), 2);
}
