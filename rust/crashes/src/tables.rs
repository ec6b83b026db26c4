//! What each snapshot of a day holds, and which of them a cut may show: told from the calls, their
//! answers and the commit numbers of recorded headers alone.

use crate::block::mixed;
use crate::day::Call;
use crate::layer::{Answer, Fault};
use crate::shape::Room;
use lane::{Report, BLOCK};
use std::collections::BTreeSet;
use std::rc::Rc;

#[derive(Clone, PartialEq)]
pub struct Page {
    pub count: u32,
    pub bytes: [u8; BLOCK],
}

/// The pages over the ranges in order.
pub type Pages = Vec<Rc<Page>>;

/// A snapshot's pages, with a number that tells one table from another.
#[derive(Clone)]
pub struct Table {
    pub pages: Pages,
    pub mark: u64,
    since: Since,
}

/// Pages that have changed since the snapshot before.
#[derive(Clone, Default)]
struct Since {
    written: BTreeSet<usize>,
    /// Written, and rescinded after it: they are in the generation, and empty.
    emptied: BTreeSet<usize>,
}

impl Table {
    /// Does migration pass over a page of this snapshot's generation?
    pub fn passes_over(&self) -> bool {
        !self.since.emptied.is_empty()
    }
}

#[derive(Clone)]
pub struct Tables {
    present: Pages,
    since: Since,
    /// By commit number; the first is the empty card's.
    snapshots: Vec<Table>,
    /// Has a page changed since the last snapshot or open?
    changed: bool,
    /// The commit number of the last header that was recorded.
    header: u32,
    /// The last commit that a caller was told is done. No cut takes it away.
    safe: u32,
    /// Is the newest snapshot one that the present call may make, or not?
    may_be: bool,
}

impl Tables {
    /// An empty card's.
    pub fn empty(pages: usize) -> Tables {
        let zeros = Rc::new(Page {
            count: 0,
            bytes: [0; BLOCK],
        });
        let present = vec![zeros; pages];
        let mut tables = Tables {
            present,
            since: Since::default(),
            snapshots: Vec::new(),
            changed: false,
            header: 0,
            safe: 0,
            may_be: false,
        };
        tables.snapshot();
        tables
    }

    pub fn newest(&self) -> u32 {
        self.snapshots.len() as u32 - 1
    }

    /// What a card with this commit number must show, if one may have it.
    pub fn shown(&self, commit: u32) -> Result<&Table, String> {
        let newest = self.newest();
        if commit < self.safe {
            return Err(format!(
                "the header has commit {commit}, and {} was answered done",
                self.safe
            ));
        }
        let table = self.snapshots.get(commit as usize);
        table.ok_or_else(|| format!("the header has commit {commit}, of {newest} snapshots"))
    }

    pub fn present(&self) -> &Pages {
        &self.present
    }

    fn snapshot(&mut self) {
        let pages = self.present.clone();
        let mark = mark(&pages);
        let since = std::mem::take(&mut self.since);
        self.snapshots.push(Table { pages, mark, since });
        self.changed = false;
    }

    /// A call is about to be made. A commit takes its snapshot in the call, and so does a change
    /// with room by commit, if it finds none.
    pub fn begin(&mut self, call: &Call, room: Room) {
        let changes = matches!(call, Call::Write { .. } | Call::Rescind(_));
        let commits = *call == Call::Commit || (changes && room == Room::Commit);
        if commits && self.changed {
            self.snapshot();
            self.may_be = changes;
        }
    }

    /// A header write was recorded.
    pub fn header(&mut self, commit: u32) {
        self.header = commit;
    }

    /// The call was answered. Says what cannot be answered so.
    pub fn end(&mut self, call: &Call, room: Room, answer: &Answer) -> Result<(), String> {
        if std::mem::take(&mut self.may_be) && self.header < self.newest() {
            self.take_back();
        }
        match (call, answer) {
            (Call::Key(page), Answer::Count(count)) if *count == self.present[*page].count => {}
            (Call::Read(page), Answer::Page(bytes)) if **bytes == self.present[*page].bytes => {}
            (Call::Write { page, at, bytes }, Answer::Done) => self.write(*page, *at, bytes),
            (Call::Rescind(page), Answer::Done) => self.rescind(*page),
            (Call::Write { bytes, .. }, refused) if !bytes.is_empty() => no_room(room, refused)?,
            (Call::Rescind(_), refused) => no_room(room, refused)?,
            (Call::Snapshot, answer) => self.snapshot_answered(answer)?,
            (Call::Finish | Call::Commit | Call::Settle, Answer::Done) => self.all_done()?,
            (Call::Advance | Call::ToHeader, Answer::Report(report)) => self.advanced(*report),
            (Call::Reopen, Answer::Done) => {}
            (_, answer) => return Err(format!("{call} is answered {}", answer.text())),
        }
        Ok(())
    }

    /// The newest snapshot was not made.
    fn take_back(&mut self) {
        self.since = self.snapshots.pop().expect("the one that may be").since;
        self.changed = true;
    }

    fn write(&mut self, page: usize, at: usize, bytes: &[u8]) {
        if bytes.is_empty() {
            return;
        }
        Rc::make_mut(&mut self.present[page]).bytes[at..at + bytes.len()].copy_from_slice(bytes);
        self.since.written.insert(page);
        self.since.emptied.remove(&page);
        self.changed = true;
    }

    fn rescind(&mut self, page: usize) {
        if self.since.written.contains(&page) {
            self.since.emptied.insert(page);
        }
        let page = Rc::make_mut(&mut self.present[page]);
        page.count += 1;
        page.bytes = [0; BLOCK];
        self.changed = true;
    }

    fn snapshot_answered(&mut self, answer: &Answer) -> Result<(), String> {
        let pending = self.header < self.newest();
        let right = match (pending, self.changed) {
            (true, _) => Answer::Fault(Fault::Refused(16)),
            (false, false) => Answer::Fault(Fault::Refused(17)),
            (false, true) => Answer::Done,
        };
        if *answer != right {
            let (was, right) = (answer.text(), right.text());
            return Err(format!("snapshot is answered {was}, and {right} is right"));
        }
        if right == Answer::Done {
            self.snapshot();
        }
        Ok(())
    }

    /// Every snapshot was answered done.
    fn all_done(&mut self) -> Result<(), String> {
        self.safe = self.newest();
        if self.header < self.safe {
            let (safe, header) = (self.safe, self.header);
            return Err(format!(
                "commit {safe} is answered done after header {header}"
            ));
        }
        Ok(())
    }

    /// A flush makes every earlier header safe, and one comes before every header.
    fn advanced(&mut self, report: Option<Report>) {
        match report {
            Some(Report::F(_)) | None => self.safe = self.header,
            Some(Report::H(_)) => self.safe = self.header.saturating_sub(1),
            Some(_) => {}
        }
    }

    /// An open was answered done on a card with this commit number: later snapshots are forgotten.
    pub fn opened(&mut self, commit: u32) -> Result<(), String> {
        self.present = self.shown(commit)?.pages.clone();
        self.snapshots.truncate(commit as usize + 1);
        self.since = Since::default();
        self.changed = false;
        self.header = commit;
        self.safe = commit;
        Ok(())
    }
}

/// A change may be refused 12 unless room is made by commit, and 13 and 14 where none is made.
fn no_room(room: Room, answer: &Answer) -> Result<(), String> {
    let numbers: &[u32] = match room {
        Room::Refuse => &[12, 13, 14],
        Room::Make => &[12],
        Room::Commit => &[],
    };
    match answer {
        Answer::Fault(Fault::Refused(number)) if numbers.contains(number) => Ok(()),
        answer => Err(format!("a change is answered {}", answer.text())),
    }
}

fn mark(pages: &Pages) -> u64 {
    let marks = pages.iter().enumerate().map(|(i, page)| {
        let count = u64::from(page.count) + 1;
        mixed(i as u64 ^ count.rotate_left(32), &page.bytes)
    });
    marks.fold(0, |sum, mark| sum ^ mark)
}

#[cfg(test)]
mod tests {
    use super::*;

    fn write(byte: u8) -> Call {
        Call::Write {
            page: 0,
            at: 0,
            bytes: vec![byte],
        }
    }

    /// Makes calls that are done; the header of a commit is written in it.
    fn made(tables: &mut Tables, room: Room, calls: &[Call]) {
        for call in calls {
            tables.begin(call, room);
            if *call == Call::Commit {
                tables.header(tables.newest());
            }
            tables.end(call, room, &Answer::Done).unwrap();
        }
    }

    fn byte(tables: &Tables, commit: u32) -> u8 {
        tables.shown(commit).unwrap().pages[0].bytes[0]
    }

    #[test]
    fn a_commit_that_was_answered_done_is_not_taken_away() {
        let mut tables = Tables::empty(1);
        made(&mut tables, Room::Make, &[write(1), Call::Commit, write(2)]);
        assert_eq!(byte(&tables, 1), 1);
        assert!(tables.shown(0).is_err() && tables.shown(2).is_err());
    }

    #[test]
    fn a_commit_that_is_under_way_may_be_found_or_not() {
        let mut tables = Tables::empty(1);
        made(&mut tables, Room::Make, &[write(1)]);
        tables.begin(&Call::Commit, Room::Make);
        assert_eq!((byte(&tables, 0), byte(&tables, 1)), (0, 1));
    }

    #[test]
    fn an_open_forgets_later_snapshots() {
        let mut tables = Tables::empty(1);
        made(
            &mut tables,
            Room::Make,
            &[write(1), Call::Snapshot, write(2)],
        );
        tables.opened(0).unwrap();
        made(&mut tables, Room::Make, &[write(3), Call::Commit]);
        assert_eq!(byte(&tables, 1), 3);
    }

    #[test]
    fn a_change_may_commit_what_was_before_it() {
        let mut tables = Tables::empty(1);
        made(&mut tables, Room::Commit, &[write(1), write(2)]);
        assert_eq!(tables.newest(), 0);
        tables.begin(&write(3), Room::Commit);
        tables.header(1);
        tables.end(&write(3), Room::Commit, &Answer::Done).unwrap();
        assert_eq!((byte(&tables, 1), tables.present[0].bytes[0]), (2, 3));
    }

    /// Whether the last snapshot's generation has a page that is passed over.
    fn passes_over(calls: &[Call]) -> bool {
        let mut tables = Tables::empty(2);
        made(&mut tables, Room::Make, calls);
        tables.shown(tables.newest()).unwrap().passes_over()
    }

    #[test]
    fn a_page_that_is_rescinded_in_the_generation_that_has_it_is_passed_over() {
        let (rescind, commit) = (Call::Rescind(0), Call::Commit);
        let over = [write(1), rescind.clone(), commit.clone()];
        assert!(passes_over(&over));
        let written_again = [write(1), rescind.clone(), write(2), commit.clone()];
        assert!(!passes_over(&written_again));
        let in_the_next = [write(1), commit.clone(), rescind, commit];
        assert!(!passes_over(&in_the_next));
    }

    #[test]
    fn a_snapshot_that_was_not_made_forgets_no_page() {
        let mut tables = Tables::empty(1);
        made(&mut tables, Room::Commit, &[write(1), Call::Rescind(0)]);
        made(&mut tables, Room::Commit, &[Call::Rescind(0), Call::Commit]);
        assert_eq!(tables.newest(), 1);
        assert!(tables.shown(1).unwrap().passes_over());
    }

    #[test]
    fn an_answer_that_cannot_be_is_told() {
        let refused = |number| Answer::Fault(Fault::Refused(number));
        let mut tables = Tables::empty(1);
        let mut end = |call: &Call, answer| tables.end(call, Room::Make, &answer);
        assert!(end(&Call::Snapshot, Answer::Done).is_err());
        assert!(end(&Call::Key(0), Answer::Count(1)).is_err());
        assert!(end(&write(1), refused(12)).is_ok());
        assert!(end(&write(1), refused(13)).is_err());
        assert!(end(&Call::Commit, refused(17)).is_err());
    }
}
