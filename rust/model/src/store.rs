//! The frame layer: what the record means, and the calls that know nothing of
//! keys, counts or flags. Which frames M passes over the layer above tells.

use crate::blocks::{self, Block, ENTRIES};
use crate::generation::{directory_blocks, size, Changes, Committed, Pending};
use crate::geometry::Geometry;
use crate::{Refusal, LAST_NUMBER};

/// The kinds that advance reports.
#[derive(Clone, Copy, Debug, PartialEq, Eq)]
pub enum Kind {
    /// A waiting frame of the pending generation.
    P,
    /// A block of its directory.
    D,
    /// Its trailer.
    T,
    /// A frame of the committed generation, copied home.
    M,
    /// The header.
    H,
    /// A flush, which writes no block and reports block 0.
    F,
}

/// How flushes stand.
#[derive(Clone, Copy, Debug, PartialEq, Eq)]
pub enum Phase {
    /// The next header write needs a flush first.
    Writing,
    /// That flush is made, and the header write is next.
    Flushed,
    /// The flush after a header write or a start is due.
    Owed,
}

#[derive(Clone, Debug)]
pub struct Store {
    pub geometry: Geometry,
    /// Frames of lent memory.
    pub memory: usize,
    pub commit: u32,
    pub committed: Option<Committed>,
    pub pending: Option<Pending>,
    pub current: Changes,
    pub phase: Phase,
}

impl Store {
    /// The block in which start finds a frame: the committed one, else home.
    pub fn kept_block(&self, frame: usize) -> usize {
        let committed = self.committed.as_ref();
        committed
            .and_then(|committed| committed.block_of(frame))
            .unwrap_or(frame)
    }

    /// A read takes the newest of: current, pending, committed, home.
    pub fn newest(&self, card: &[u8], frame: usize) -> Block {
        let pending = self.pending.as_ref().map(|pending| &pending.changes);
        for changes in [Some(&self.current), pending].into_iter().flatten() {
            if let Some(bytes) = changes.waiting_bytes(frame) {
                return *bytes;
            }
            if let Some(place) = changes.last_place(frame) {
                return blocks::get(card, self.geometry.ring(changes.first, place));
            }
        }
        blocks::get(card, self.kept_block(frame))
    }

    /// The sizes of the committed and the pending generation together.
    pub fn other_sizes(&self) -> usize {
        let committed = self.committed.as_ref().map_or(0, Committed::size);
        let pending = self.pending.as_ref();
        committed + pending.map_or(0, |pending| pending.changes.size())
    }

    /// Frames that wait, pending ones and current ones.
    fn waiting(&self) -> usize {
        let pending = self.pending.as_ref();
        self.current.waiting.len() + pending.map_or(0, |pending| pending.changes.waiting.len())
    }

    /// Changes frames in that order, if questions 12 to 14, asked once over
    /// all of them, are answered "yes".
    pub fn change(&mut self, frames: &[(usize, Block)]) -> Result<(), Refusal> {
        let current = &self.current;
        let waits = |frame: usize| current.waiting_bytes(frame).is_some();
        let k = frames.iter().filter(|(frame, _)| !waits(*frame)).count();
        let entries = frames.iter().filter(|(frame, _)| !current.holds(*frame));
        if k > 0 {
            let after = size(current.p() + k, current.e() + entries.count());
            if after > self.geometry.half() {
                return Err(12);
            }
            if self.other_sizes() + after > self.geometry.area {
                return Err(13);
            }
            if self.waiting() + k > self.memory {
                return Err(14);
            }
        }
        for (frame, bytes) in frames {
            self.current.change(*frame, *bytes);
        }
        Ok(())
    }

    /// The current generation becomes the pending one; what changes from now
    /// on goes above its mark.
    pub fn snapshot(&mut self) -> Result<(), Refusal> {
        if self.pending.is_some() {
            return Err(16);
        }
        if self.current.p() == 0 {
            return Err(17);
        }
        if self.commit == LAST_NUMBER {
            return Err(18);
        }
        let mark = self.geometry.ring(self.current.first, self.current.size());
        let changes = std::mem::replace(&mut self.current, Changes::none(mark));
        self.pending = Some(Pending {
            changes,
            directory_down: 0,
            trailer_down: false,
        });
        Ok(())
    }

    /// Writes the oldest waiting frame, pending before current, and says in
    /// which block. It is refused while a flush is owed, also if none waits.
    pub fn page_out(&mut self, card: &mut [u8]) -> Result<usize, Refusal> {
        if self.phase == Phase::Owed {
            return Err(28);
        }
        let pending = self.pending.as_mut().map(|pending| &mut pending.changes);
        for changes in pending.into_iter().chain([&mut self.current]) {
            if let Some(oldest) = changes.waiting.pop_front() {
                let place = changes.written.len();
                let block = self.geometry.ring(changes.first, place);
                changes.written.push(oldest.frame);
                blocks::put(card, block, &oldest.bytes);
                return Ok(block);
            }
        }
        Err(19)
    }

    /// The kind that advance makes next, if one is due, with these frames
    /// passed over by M.
    pub fn due(&self, over: &[usize]) -> Option<Kind> {
        if self.phase == Phase::Owed {
            return Some(Kind::F);
        }
        let committed = self.committed.as_ref();
        let migrating = committed.is_some_and(|committed| committed.to_migrate(over).is_some());
        let Some(pending) = &self.pending else {
            return migrating.then_some(Kind::M);
        };
        if !pending.changes.waiting.is_empty() {
            Some(Kind::P)
        } else if pending.directory_down < directory_blocks(pending.changes.e()) {
            Some(Kind::D)
        } else if !pending.trailer_down {
            Some(Kind::T)
        } else if migrating {
            Some(Kind::M)
        } else if self.phase == Phase::Writing {
            Some(Kind::F)
        } else {
            Some(Kind::H)
        }
    }

    /// 1 while the flush after a header write or a start is due.
    pub fn owed(&self) -> usize {
        usize::from(self.phase == Phase::Owed)
    }

    /// The advances until a pending snapshot is safe, with these frames passed
    /// over by M: a flush that is owed; waiting frames, directory blocks and a
    /// trailer that are not down; M writes left; the flush before the header,
    /// if it is not made; the header; the flush after it.
    pub fn until_safe(&self, pending: &Pending, over: &[usize]) -> usize {
        let waiting = pending.changes.waiting.len();
        let directory = directory_blocks(pending.changes.e()) - pending.directory_down;
        let trailer = usize::from(!pending.trailer_down);
        let committed = self.committed.as_ref();
        let migration = committed.map_or(0, |committed| committed.left(over));
        let before = usize::from(self.phase != Phase::Flushed);
        let (header, after) = (1, 1);
        self.owed() + waiting + directory + trailer + migration + before + header + after
    }

    /// Writes no block. After the flush that was owed all else may go on; any
    /// other is the one before a header write, when migration is over.
    fn flush(&mut self, over: &[usize]) -> usize {
        if self.phase == Phase::Owed {
            self.phase = Phase::Writing;
            return 0;
        }
        if let Some(committed) = &mut self.committed {
            committed.pass(over);
        }
        self.phase = Phase::Flushed;
        0
    }

    /// One block write or a flush, with these frames passed over by M; says
    /// its kind and block.
    pub fn advance(&mut self, card: &mut [u8], over: &[usize]) -> Result<(Kind, usize), Refusal> {
        let kind = self.due(over).ok_or(20u32)?;
        let block = match kind {
            Kind::P => self.page_out(card)?,
            Kind::M => self.migrate(card, over).ok_or(20u32)?,
            Kind::D => self.put_directory(card).ok_or(20u32)?,
            Kind::T => self.put_trailer(card).ok_or(20u32)?,
            Kind::H => self.put_header(card).ok_or(20u32)?,
            Kind::F => self.flush(over),
        };
        Ok((kind, block))
    }

    /// The pending directory: rising frames with the last block of each.
    fn pending_entries(&self, changes: &Changes) -> Vec<(usize, usize)> {
        let mut entries = Vec::new();
        for frame in changes.frames() {
            if let Some(place) = changes.last_place(frame) {
                entries.push((frame, self.geometry.ring(changes.first, place)));
            }
        }
        entries
    }

    fn put_directory(&mut self, card: &mut [u8]) -> Option<usize> {
        let pending = self.pending.as_ref()?;
        let entries = self.pending_entries(&pending.changes);
        let down = pending.directory_down;
        let on = pending.changes.p() + down;
        let block = self.geometry.ring(pending.changes.first, on);
        let part = entries.chunks(ENTRIES).nth(down)?;
        blocks::put(card, block, &blocks::directory(part));
        self.pending.as_mut()?.directory_down += 1;
        Some(block)
    }

    /// The trailer is the last block of its generation.
    fn pending_trailer(&self) -> Option<usize> {
        let changes = &self.pending.as_ref()?.changes;
        Some(self.geometry.ring(changes.first, changes.size() - 1))
    }

    fn put_trailer(&mut self, card: &mut [u8]) -> Option<usize> {
        let block = self.pending_trailer()?;
        let commit = self.commit + 1;
        let pending = self.pending.as_mut()?;
        let changes = &pending.changes;
        let bytes = blocks::trailer(commit, changes.first, changes.p(), changes.e());
        blocks::put(card, block, &bytes);
        pending.trailer_down = true;
        Some(block)
    }

    /// Copies the next area block that is not passed over to its home frame.
    fn migrate(&mut self, card: &mut [u8], over: &[usize]) -> Option<usize> {
        let committed = self.committed.as_mut()?;
        committed.pass(over);
        let (frame, block) = committed.to_migrate(over)?;
        let bytes = blocks::get(card, block);
        blocks::put(card, frame, &bytes);
        committed.migrated += 1;
        Some(frame)
    }

    /// Commits: the pending generation is now the committed one, and the
    /// blocks of the old one are free.
    fn put_header(&mut self, card: &mut [u8]) -> Option<usize> {
        let trailer = self.pending_trailer()?;
        let pending = self.pending.take()?;
        self.commit += 1;
        blocks::put(
            card,
            0,
            &blocks::header(&self.geometry, self.commit, trailer),
        );
        self.committed = Some(Committed {
            first: pending.changes.first,
            p: pending.changes.p(),
            entries: self.pending_entries(&pending.changes),
            migrated: 0,
        });
        self.phase = Phase::Owed;
        Some(0)
    }
}
