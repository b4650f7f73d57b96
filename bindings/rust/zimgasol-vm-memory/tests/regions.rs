//! A guest of two regions, that is sent and loaded, and memories that aren't.

use vm_memory::{Bytes, GuestAddress, GuestMemoryMmap};
use zimgasol::{LoadSettings, PageSize, Place, SendSettings, Sender, Source, Verdict};
use zimgasol_vm_memory::{Unfit, copy_page, load_into, table_of};

type Memory = GuestMemoryMmap<()>;

const REGIONS: [(GuestAddress, usize); 2] =
    [(GuestAddress(0), 5 * 4096), (GuestAddress(1 << 32), 3 * 4096)];

#[test]
fn a_guest_is_the_same() {
    let (from, to) =
        (Memory::from_ranges(&REGIONS).unwrap(), Memory::from_ranges(&REGIONS).unwrap());
    let table = table_of(&from, &["low", "high"], PageSize::Small).unwrap();
    let mut sender = Sender::new(&table, &SendSettings::single()).unwrap();
    let mut round = sender.begin_round().unwrap();
    for (block, (start, len)) in REGIONS.iter().enumerate() {
        for page in 0..*len as u64 / 4096 {
            let content = [(block * 50 + page as usize) as u8; 4096];
            from.write_slice(&content, GuestAddress(start.0 + page * 4096)).unwrap();
            let (place, mut copy) = (Place { block, page }, [0; 4096]);
            copy_page(&from, place, &mut copy).unwrap();
            assert_eq!(copy, content);
            round.put_page(place, &copy).unwrap();
        }
    }
    round.end().unwrap();
    sender.finish().unwrap();
    let mut stream = Vec::new();
    sender.drain_to(Source::Main, &mut stream).unwrap();
    // SAFETY: no guest runs on this memory.
    let mut load = unsafe { load_into(&to, &table, &[], 0, &LoadSettings::default()) }.unwrap();
    load.read_from(&mut &stream[..]).unwrap();
    assert_eq!((load.verdict(), load.standing().missing), (Verdict::Done, 0));
    drop(load);
    for (start, len) in REGIONS {
        let (mut one, mut other) = (vec![0; len], vec![0; len]);
        from.read_slice(&mut one, start).unwrap();
        to.read_slice(&mut other, start).unwrap();
        assert_eq!(one, other);
    }
}

#[test]
fn what_is_refused() {
    let memory = Memory::from_ranges(&REGIONS).unwrap();
    assert!(matches!(table_of(&memory, &["low"], PageSize::Small), Err(Unfit::Ids)));
    assert!(matches!(table_of(&memory, &["low", "high"], PageSize::Large), Err(Unfit::Length)));
    assert!(matches!(table_of(&memory, &["low", "low"], PageSize::Small), Err(Unfit::Library(_))));
    let mut page = [0; 4096];
    for (block, page_number) in [(0, 5), (1, 3), (2, 0), (0, u64::MAX)] {
        let place = Place { block, page: page_number };
        assert!(matches!(copy_page(&memory, place, &mut page), Err(Unfit::Memory(_))));
    }
    let other = Memory::from_ranges(&REGIONS[..1]).unwrap();
    let table = table_of(&memory, &["low", "high"], PageSize::Small).unwrap();
    // SAFETY: no guest runs on this memory.
    let load = unsafe { load_into(&other, &table, &[], 0, &LoadSettings::default()) };
    assert!(matches!(load, Err(Unfit::Library(_))));
}
