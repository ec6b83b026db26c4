//! Empty pages stay out of home (document 02, #104): what advance reports, a forecast tells and a
//! start shows, on cards that were formatted over any bytes.

use lane::{format, Key, Range, Refusal, Report, Store, BLOCK};

const FIRST: u32 = 100;
/// What stands on the card before its format.
const OLD: u8 = 9;

/// A card of two pages with memory of 4 frames. Keys carry the present count.
struct Lane {
    area: usize,
    card: Vec<u8>,
    memory: Vec<u8>,
    store: Store,
}

impl Lane {
    fn new(area: usize) -> Lane {
        let range = Range {
            first: FIRST,
            pages: 2,
        };
        let mut card = vec![OLD; (1 + area + 3) * BLOCK];
        let memory = vec![0; 4 * BLOCK];
        format(&mut card, area, &[range]).unwrap();
        let store = Store::start(&card, &memory).unwrap();
        Lane {
            area,
            card,
            memory,
            store,
        }
    }

    fn key(&self, page: u32) -> Key {
        let oid = FIRST + page;
        self.store.key(&self.card, &self.memory, oid).unwrap()
    }

    fn write(&mut self, page: u32, byte: u8) {
        let key = self.key(page);
        let (card, memory) = (&self.card, &mut self.memory);
        let answer = self.store.write(card, memory, key, 0, &[byte]);
        answer.unwrap();
    }

    fn rescind(&mut self, page: u32) {
        let key = self.key(page);
        let answer = self.store.rescind(&self.card, &mut self.memory, key);
        answer.unwrap();
    }

    fn snapshot(&mut self) {
        self.store.snapshot(&self.card, &self.memory).unwrap();
    }

    /// All that is due, as it is reported.
    fn settle(&mut self) -> String {
        let mut reports = Vec::new();
        loop {
            match self.store.advance(&mut self.card, &self.memory) {
                Ok(report) => reports.push(report.to_string()),
                Err(refusal) => {
                    assert_eq!(refusal, Refusal::NothingDue);
                    return reports.join(", ");
                }
            }
        }
    }

    fn forecast(&self) -> u32 {
        self.store.forecast(&self.card, &self.memory).unwrap()
    }

    fn start(&mut self) {
        self.store = Store::start(&self.card, &self.memory).unwrap();
    }

    /// The page's count and first byte; the others are zeros.
    fn page(&self, page: u32) -> (u32, u8) {
        let key = self.key(page);
        let mut bytes = [OLD; BLOCK];
        let answer = self.store.read(&self.card, &self.memory, key, &mut bytes);
        answer.unwrap();
        assert!(bytes[1..].iter().all(|byte| *byte == 0), "{bytes:?}");
        (key.count, bytes[0])
    }

    /// The first two bytes of the page's home block.
    fn home(&self, page: usize) -> [u8; 2] {
        let at = (1 + self.area + 1 + page) * BLOCK;
        [self.card[at], self.card[at + 1]]
    }
}

/// A page that is written and rescinded before its snapshot.
fn emptied() -> Lane {
    let mut lane = Lane::new(8);
    lane.write(0, 7);
    lane.rescind(0);
    lane.snapshot();
    lane
}

/// The documents' case: M for the pot only, also after a start.
#[test]
fn a_page_that_is_rescinded_before_its_snapshot_is_passed_over() {
    let mut lane = emptied();
    assert_eq!(lane.settle(), "F 0, P 1, P 2, D 3, T 4, F 0, H 0, F 0, M 9");
    let entry = |pot: usize| &lane.card[pot * BLOCK..][..5];
    assert_eq!([entry(2), entry(9)], [[1, 0, 0, 0, 1]; 2]);
    assert_eq!(lane.home(0), [OLD, OLD]);
    lane.start();
    assert_eq!((lane.page(0), lane.page(1)), ((1, 0), (0, 0)));
    assert_eq!(lane.settle(), "F 0, M 9");
}

/// The next commit does not wait for it, and a write begins with zeros, not with what is at home.
#[test]
fn a_page_that_was_passed_over_is_written_anew() {
    let mut lane = emptied();
    lane.settle();
    lane.write(0, 8);
    assert_eq!(lane.page(0), (1, 8));
    lane.snapshot();
    assert_eq!(
        lane.settle(),
        "P 5, P 6, D 7, T 8, F 0, H 0, F 0, M 9, M 10"
    );
    assert_eq!(lane.home(0), [8, 0]);
    lane.start();
    assert_eq!(lane.page(0), (1, 8));
}

/// What is foretold are the writes that are made: F, P, D, T, M of the pot, F, H, F.
#[test]
fn a_page_that_is_passed_over_is_not_foretold() {
    let mut lane = emptied();
    assert_eq!(lane.forecast(), 8);
    while lane.store.advance(&mut lane.card, &lane.memory) != Ok(Report::H(0)) {}
    assert_eq!(lane.forecast(), 1);
    lane.rescind(0);
    lane.snapshot();
    assert_eq!(lane.forecast(), 8);
    assert_eq!(lane.settle(), "F 0, P 5, D 6, T 7, M 9, F 0, H 0, F 0, M 9");
    assert_eq!(lane.forecast(), 0);
}

/// A rescind wipes nothing: what went home stays there behind the flag.
#[test]
fn a_page_that_is_rescinded_at_home_leaves_its_bytes_there() {
    let mut lane = Lane::new(8);
    lane.write(0, 7);
    lane.snapshot();
    lane.settle();
    lane.rescind(0);
    lane.snapshot();
    assert_eq!(lane.settle(), "P 5, D 6, T 7, F 0, H 0, F 0, M 9");
    assert_eq!(lane.home(0), [7, 0]);
    lane.start();
    assert_eq!(lane.page(0), (1, 0));
}

/// The flag is asked of the committed generation: what was rescinded after the next snapshot is not
/// empty there.
#[test]
fn a_page_that_is_rescinded_after_the_next_snapshot_goes_home() {
    let mut lane = Lane::new(12);
    lane.write(0, 7);
    lane.snapshot();
    while lane.store.advance(&mut lane.card, &lane.memory) != Ok(Report::H(0)) {}
    lane.write(1, 8);
    lane.snapshot();
    lane.rescind(0);
    let all = "F 0, P 5, P 6, D 7, T 8, M 13, M 14, F 0, H 0, F 0, M 13, M 15";
    assert_eq!(lane.settle(), all);
    lane.start();
    assert_eq!((lane.page(0), lane.page(1)), ((0, 7), (0, 8)));
}
