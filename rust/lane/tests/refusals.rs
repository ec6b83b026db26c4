//! Refusals through the safe interface: the number, and that nothing changed.

use lane::{format, Key, Range, Refusal, Report, Store};

const RANGE: Range = Range {
    first: 100,
    pages: 2,
};

/// A started card of 8 area blocks and two pages, with memory of 4 frames.
struct Lane {
    card: Vec<u8>,
    memory: Vec<u8>,
    store: Store,
}

impl Lane {
    fn new() -> Lane {
        let mut card = vec![0; 12 * 512];
        let memory = vec![0; 4 * 512];
        format(&mut card, 8, &[RANGE]).unwrap();
        let store = Store::start(&card, &memory).unwrap();
        Lane {
            card,
            memory,
            store,
        }
    }

    fn key(&self, oid: u32) -> Key {
        self.store.key(&self.card, &self.memory, oid).unwrap()
    }

    fn read(&self, key: Key, buffer: &mut [u8]) -> Result<(), Refusal> {
        self.store.read(&self.card, &self.memory, key, buffer)
    }

    fn write(&mut self, key: Key, at: usize, bytes: &[u8]) -> Result<(), Refusal> {
        self.store
            .write(&self.card, &mut self.memory, key, at, bytes)
    }

    fn snapshot(&mut self) -> Result<(), Refusal> {
        self.store.snapshot(&self.card, &self.memory)
    }

    fn advance(&mut self) -> Result<Report, Refusal> {
        self.store.advance(&mut self.card, &self.memory)
    }

    fn forecast(&self) -> Result<u32, Refusal> {
        self.store.forecast(&self.card, &self.memory)
    }
}

#[test]
fn format_asks_for_a_card_that_its_ranges_fill() {
    let mut card = vec![9; 13 * 512];
    let before = card.clone();
    assert_eq!(format(&mut card[..700], 8, &[RANGE]), Err(Refusal::Card));
    assert_eq!(format(&mut [], 8, &[RANGE]), Err(Refusal::Card));
    assert_eq!(format(&mut card, 8, &[RANGE]), Err(Refusal::Geometry));
    assert_eq!(format(&mut card, 8, &[]), Err(Refusal::Geometry));
    assert_eq!(format(&mut card, 8, &[RANGE; 9]), Err(Refusal::Geometry));
    assert!(card == before);
}

#[test]
fn format_takes_at_most_8_ranges() {
    let ranges: Vec<Range> = (0..20).map(|first| Range { first, pages: 1 }).collect();
    let mut card = vec![9; (1 + 8 + 8 * 2) * 512];
    assert_eq!(format(&mut card, 8, &ranges[..8]), Ok(()));
    assert_eq!(format(&mut card, 8, &ranges[..9]), Err(Refusal::Geometry));
    assert_eq!(format(&mut card, 8, &ranges), Err(Refusal::Geometry));
}

#[test]
fn start_asks_memory_before_card() {
    let lane = Lane::new();
    let start = |card: &[u8], memory: &[u8]| Store::start(card, memory).unwrap_err();
    assert_eq!(start(&[], &[]), Refusal::Memory);
    assert_eq!(start(&[], &lane.memory), Refusal::Card);
    assert_eq!(start(&[0; 11 * 512], &lane.memory), Refusal::Layout);
    assert_eq!(start(&lane.card, &lane.memory[..1536]), Refusal::Memory);
}

#[test]
fn card_and_memory_are_as_long_as_at_start() {
    let lane = Lane::new();
    let short = &lane.card[512..];
    assert_eq!(lane.store.key(short, &lane.memory, 100), Err(Refusal::Card));
    let foretold = lane.store.forecast(short, &lane.memory);
    assert_eq!(foretold, Err(Refusal::Card));
    let long = vec![0; 5 * 512];
    assert_eq!(lane.store.key(&lane.card, &long, 100), Err(Refusal::Memory));
    assert_eq!(lane.store.forecast(short, &long), Err(Refusal::Memory));
}

/// OIDs 10 to 14 and 20 to 24; then 10 to 14 and 15 to 19, which touch.
#[test]
fn an_oid_between_two_ranges_is_told_from_one_outside() {
    let (gap, outside) = (Some(Refusal::Gap), Some(Refusal::Oid));
    for (second, of_14_to_20) in [
        (20, [None, gap, gap, gap, gap, gap, None]),
        (15, [None, None, None, None, None, None, outside]),
    ] {
        let ranges = [10, second].map(|first| Range { first, pages: 5 });
        let mut card = vec![0; 21 * 512];
        let mut memory = vec![0; 4 * 512];
        format(&mut card, 8, &ranges).unwrap();
        let mut store = Store::start(&card, &memory).unwrap();
        let rows = (14..).zip(of_14_to_20);
        for (oid, refusal) in rows.chain([(9, outside), (25, outside)]) {
            let key = Key { oid, count: 0 };
            let expected = refusal.map_or(Ok(()), Err);
            let found = store.key(&card, &memory, oid);
            assert_eq!(found, expected.map(|()| key));
            let read = store.read(&card, &memory, key, &mut [0; 512]);
            let write = store.write(&card, &mut memory, key, 0, &[]);
            assert_eq!([read, write], [expected; 2]);
            if refusal.is_some() {
                let rescinded = store.rescind(&card, &mut memory, key);
                assert_eq!(rescinded, expected);
            }
        }
    }
}

#[test]
fn a_key_is_an_oid_of_a_range_with_the_present_count() {
    let mut lane = Lane::new();
    let outside = lane.store.key(&lane.card, &lane.memory, 102);
    assert_eq!(outside, Err(Refusal::Oid));

    let old = lane.key(101);
    lane.write(old, 0, b"paid").unwrap();
    let rescinded = lane.store.rescind(&lane.card, &mut lane.memory, old);
    assert_eq!(rescinded, Ok(()));
    assert_eq!(lane.key(101), Key { oid: 101, count: 1 });
    let mut page = [9; 512];
    assert_eq!(lane.read(old, &mut page), Err(Refusal::Count));
    assert_eq!(page, [9; 512]);
    let new = lane.key(101);
    assert_eq!(lane.read(new, &mut page), Ok(()));
    assert_eq!(page, [0; 512]);
}

#[test]
fn bytes_stay_within_a_page() {
    let mut lane = Lane::new();
    let key = lane.key(100);
    assert_eq!(lane.read(key, &mut []), Err(Refusal::Length));
    assert_eq!(lane.read(key, &mut [0; 513]), Err(Refusal::Length));
    assert_eq!(lane.write(key, 511, b"12"), Err(Refusal::Length));
    assert_eq!(lane.write(key, usize::MAX, b"1"), Err(Refusal::Length));
    assert_eq!(lane.write(key, 512, b""), Ok(()));
    assert_eq!(lane.snapshot(), Err(Refusal::Unchanged));
    assert_eq!(lane.write(key, 511, b"1"), Ok(()));
    assert_eq!(lane.snapshot(), Ok(()));
    assert_eq!(lane.snapshot(), Err(Refusal::Pending));
}

#[test]
fn a_generation_stays_within_half_the_area() {
    let mut lane = Lane::new();
    let (first, second) = (lane.key(100), lane.key(101));
    lane.write(first, 0, b"1").unwrap();
    let memory = lane.memory.clone();
    assert_eq!(lane.write(second, 0, b"2"), Err(Refusal::GenerationFull));
    assert!(lane.memory == memory);
    let mut page = [9; 512];
    lane.read(second, &mut page).unwrap();
    assert_eq!(page, [0; 512]);
}

#[test]
fn every_write_is_reported_until_none_is_due() {
    let mut lane = Lane::new();
    let key = lane.key(100);
    let owed = lane.store.page_out(&mut lane.card, &lane.memory);
    assert_eq!(owed, Err(Refusal::FlushDue));
    assert_eq!(lane.advance(), Ok(Report::F(0)));
    assert_eq!(lane.advance(), Err(Refusal::NothingDue));
    let none = lane.store.page_out(&mut lane.card, &lane.memory);
    assert_eq!(none, Err(Refusal::NoneWaits));
    lane.write(key, 0, &[7]).unwrap();
    lane.snapshot().unwrap();
    let reports: Vec<String> = std::iter::from_fn(|| lane.advance().ok())
        .map(|report| report.to_string())
        .collect();
    let all = [
        "P 1", "P 2", "D 3", "T 4", "F 0", "H 0", "F 0", "M 9", "M 10",
    ];
    assert_eq!(reports, all);
    assert_eq!(lane.advance(), Err(Refusal::NothingDue));
}

/// Whatever else is called, done or refused, leaves what is foretold.
#[test]
fn every_advance_of_a_commit_is_foretold() {
    let mut lane = Lane::new();
    let key = lane.key(100);
    assert_eq!(lane.forecast(), Ok(1));
    lane.write(key, 0, &[7]).unwrap();
    assert_eq!(lane.forecast(), Ok(1));
    lane.snapshot().unwrap();
    let all = ["F 0", "P 1", "P 2", "D 3", "T 4", "F 0", "H 0", "F 0"];
    for (left, report) in (1..=8).rev().zip(all) {
        assert_eq!(lane.forecast(), Ok(left));
        lane.write(key, 0, &[left as u8]).unwrap();
        lane.read(key, &mut [0; 512]).unwrap();
        assert_eq!(lane.read(key, &mut []), Err(Refusal::Length));
        assert_eq!(lane.forecast(), Ok(left));
        assert_eq!(lane.advance().unwrap().to_string(), report);
    }
    for home in [9, 10] {
        assert_eq!(lane.forecast(), Ok(0));
        assert_eq!(lane.advance(), Ok(Report::M(home)));
    }
    assert_eq!(lane.advance(), Err(Refusal::NothingDue));
    assert_eq!(lane.forecast(), Ok(0));
}

#[test]
fn page_out_writes_one_block_of_the_area() {
    let mut lane = Lane::new();
    let key = lane.key(100);
    lane.write(key, 0, &[7]).unwrap();
    assert_eq!(lane.advance(), Ok(Report::F(0)));
    let before = lane.card.clone();
    let paged = lane.store.page_out(&mut lane.card, &lane.memory);
    assert_eq!(paged, Ok(Report::P(1)));
    let changed: Vec<usize> = (0..12)
        .filter(|b| lane.card[b * 512..][..512] != before[b * 512..][..512])
        .collect();
    assert_eq!(changed, [1]);
}

#[test]
fn a_refusal_says_its_number_and_meaning() {
    assert_eq!(Refusal::Oid.number(), 9);
    assert_eq!(
        Refusal::Oid.to_string(),
        "refused 9: the OID is below the first range or above the last"
    );
}
