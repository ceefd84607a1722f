//! The distributed lock, after `dist_rwlock.rs`.

use super::bytes::{Out, Raw};
use super::code::Code;
use super::Machine;

const MAX_WIDTH: usize = 16;

/// One reader counter with the pending readers and guards behind it. All
/// guards carry the stored record, so their number is enough.
#[derive(Clone, Copy, Default, PartialEq)]
struct Cell {
    count: u8,
    pending: u8,
    guards: u8,
}

pub struct Lock {
    locked: bool,
    stored: Option<u32>,
    /// A writer on its way, with the next cell it looks at.
    cursor: Option<u8>,
    /// A writer that holds the record.
    guard: bool,
    cells: Vec<Cell>,
}

pub enum Step {
    ExcStart,
    ExcCheckCount,
    ExcFinish,
    ExcRelease { t: u32 },
    SharedStart { cell: u8 },
    SharedFinish { cell: u8 },
    SharedRelease { cell: u8, t: u32 },
}

impl Lock {
    fn cell(&mut self, cell: u8) -> Result<&mut Cell, Code> {
        self.cells.get_mut(usize::from(cell)).ok_or(Code::Outside)
    }

    fn exc_start(&mut self) -> Result<(), Code> {
        if self.locked {
            return Err(Code::Phase);
        }
        self.locked = true;
        self.cursor = Some(0);
        Ok(())
    }

    fn exc_check_count(&mut self) -> Result<(), Code> {
        let cursor = self.cursor.ok_or(Code::Phase)?;
        let cell = self.cells.get(usize::from(cursor)).ok_or(Code::Cursor)?;
        if cell.count != 0 {
            return Err(Code::Busy);
        }
        self.cursor = Some(cursor + 1);
        Ok(())
    }

    fn exc_finish(&mut self, log: &mut Out) -> Result<(), Code> {
        let cursor = self.cursor.ok_or(Code::Phase)?;
        if usize::from(cursor) != self.cells.len() {
            return Err(Code::Cursor);
        }
        // With a writer on its way the record is still there.
        let t = self.stored.take().ok_or(Code::Phase)?;
        self.cursor = None;
        self.guard = true;
        log.put([5, 1]);
        log.number(t);
        Ok(())
    }

    fn exc_release(&mut self, t: u32) -> Result<(), Code> {
        if !self.guard {
            return Err(Code::Phase);
        }
        self.guard = false;
        self.locked = false;
        self.stored = Some(t);
        Ok(())
    }

    fn shared_start(&mut self, cell: u8) -> Result<(), Code> {
        let cell = self.cell(cell)?;
        cell.count = cell.count.checked_add(1).ok_or(Code::Full)?;
        cell.pending += 1;
        Ok(())
    }

    fn shared_finish(&mut self, r: u8, log: &mut Out) -> Result<(), Code> {
        let (locked, stored) = (self.locked, self.stored);
        let cell = self.cell(r)?;
        if locked {
            return Err(Code::Phase);
        }
        if cell.pending == 0 {
            return Err(Code::Missing);
        }
        cell.pending -= 1;
        cell.guards += 1;
        log.put([6, 2, r]);
        // Unlocked means that the record is there.
        log.number(stored.unwrap_or(0));
        Ok(())
    }

    fn shared_release(&mut self, r: u8, t: u32) -> Result<(), Code> {
        let stored = self.stored;
        let cell = self.cell(r)?;
        if cell.guards == 0 || stored != Some(t) {
            return Err(Code::Missing);
        }
        cell.guards -= 1;
        cell.count -= 1;
        Ok(())
    }

    /// The invariants of the source.
    fn sound(&self) -> bool {
        let writer = self.locked == (self.cursor.is_some() || self.guard)
            && self.stored.is_some() != self.guard
            && !(self.cursor.is_some() && self.guard);
        // Guards only while the record is there, and none behind the cursor.
        let passed = self.cursor.map_or(0, usize::from);
        passed <= self.cells.len()
            && writer
            && self.cells[..passed].iter().all(|cell| cell.guards == 0)
            && self.cells.iter().all(|cell| {
                let held = u16::from(cell.pending) + u16::from(cell.guards);
                u16::from(cell.count) == held && (cell.guards == 0 || self.stored.is_some())
            })
    }
}

impl Machine for Lock {
    type Step = Step;
    const KIND: u8 = 2;
    const PARAMETERS: usize = 5;
    const LENGTHS: &'static [u8] = &[1, 1, 1, 5, 2, 2, 6];
    const RAW: usize = 58;

    fn fresh(parameters: &[u8]) -> Option<Self> {
        let &[width, a, b, c, d] = parameters else {
            return None;
        };
        let width = usize::from(width);
        if !(1..=MAX_WIDTH).contains(&width) {
            return None;
        }
        Some(Lock {
            locked: false,
            stored: Some(u32::from_be_bytes([a, b, c, d])),
            cursor: None,
            guard: false,
            cells: vec![Cell::default(); width],
        })
    }

    #[inline(always)]
    fn read(step: &[u8]) -> Option<Step> {
        Some(match *step {
            [1] => Step::ExcStart,
            [2] => Step::ExcCheckCount,
            [3] => Step::ExcFinish,
            [4, a, b, c, d] => Step::ExcRelease {
                t: u32::from_be_bytes([a, b, c, d]),
            },
            [5, cell] => Step::SharedStart { cell },
            [6, cell] => Step::SharedFinish { cell },
            [7, cell, a, b, c, d] => Step::SharedRelease {
                cell,
                t: u32::from_be_bytes([a, b, c, d]),
            },
            _ => return None,
        })
    }

    #[inline(always)]
    fn apply(&mut self, step: Step, log: &mut Out) -> Result<(), Code> {
        match step {
            Step::ExcStart => self.exc_start(),
            Step::ExcCheckCount => self.exc_check_count(),
            Step::ExcFinish => self.exc_finish(log),
            Step::ExcRelease { t } => self.exc_release(t),
            Step::SharedStart { cell } => self.shared_start(cell),
            Step::SharedFinish { cell } => self.shared_finish(cell, log),
            Step::SharedRelease { cell, t } => self.shared_release(cell, t),
        }
    }

    fn image(&self, out: &mut Out) {
        out.flag(self.locked);
        out.option(self.stored);
        out.flag(self.cursor.is_some());
        out.byte(self.cursor.unwrap_or(0));
        out.flag(self.guard);
        for cell in &self.cells {
            out.put([cell.count, cell.pending, cell.guards]);
        }
    }

    fn load(raw: &[u8]) -> Option<Self> {
        let mut raw = Raw(raw);
        let (t, width, cursor) = (raw.number(), usize::from(raw.byte()), raw.byte());
        let (locked, stored, pending, guard) = (raw.flag(), raw.flag(), raw.flag(), raw.flag());
        let mut cells: Vec<Cell> = (0..MAX_WIDTH)
            .map(|_| Cell {
                count: raw.byte(),
                pending: raw.byte(),
                guards: raw.byte(),
            })
            .collect();
        if !(1..=MAX_WIDTH).contains(&width) || (!stored && t != 0) || (!pending && cursor != 0) {
            return None;
        }
        if cells.drain(width..).any(|cell| cell != Cell::default()) {
            return None;
        }
        let lock = Lock {
            locked,
            stored: stored.then_some(t),
            cursor: pending.then_some(cursor),
            guard,
            cells,
        };
        lock.sound().then_some(lock)
    }

    fn store(&self, out: &mut Out) {
        out.number(self.stored.unwrap_or(0));
        out.put([self.cells.len() as u8, self.cursor.unwrap_or(0)]);
        out.flag(self.locked);
        out.flag(self.stored.is_some());
        out.flag(self.cursor.is_some());
        out.flag(self.guard);
        // Cells beyond the width are zero in every sound state already.
        for cell in &self.cells {
            out.put([cell.count, cell.pending, cell.guards]);
        }
    }
}
