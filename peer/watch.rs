//! Who looks on while a drive file runs: nobody, or a witness that counts coverage and keeps the journal.

use crate::board::{Answer, Board, State};
use crate::cover::Cover;
use crate::journal::{After, Entry, Journal, ScanEntry};
use crate::wire::Image;

/// Is told of everything that a run does, and changes nothing in it.
pub trait Watch {
    /// A board was made, with this order setting.
    fn made(&mut self, order: u8, board: &Board);
    /// A scan was answered; `before` is the state that it met.
    fn scanned(&mut self, before: State, board: &Board, written: Image, answer: &Answer);
    fn read(&mut self, board: &Board, told: Result<[u8; 4], u8>);
    /// The end record was met in its place, in a file of this length.
    fn ended(&mut self, length: usize);
    fn faulted(&mut self, number: u8);
}

/// Nobody looks on: nothing is left of these calls in the compiled loop.
pub struct Nobody;

impl Watch for Nobody {
    fn made(&mut self, _: u8, _: &Board) {}
    fn scanned(&mut self, _: State, _: &Board, _: Image, _: &Answer) {}
    fn read(&mut self, _: &Board, _: Result<[u8; 4], u8>) {}
    fn ended(&mut self, _: usize) {}
    fn faulted(&mut self, _: u8) {}
}

pub struct Witness<'a> {
    pub cover: &'a mut Cover,
    /// There is none if no board was made.
    pub journal: Option<Journal>,
}

impl Witness<'_> {
    fn enter(&mut self, board: &Board, scan: Option<ScanEntry>) {
        let look = board.look();
        let after = After { open: look.open, zero: look.zero, tare: look.tare, deviation: look.deviation };
        if let Some(journal) = &mut self.journal {
            journal.entries.push(Entry { scan, after });
        }
    }
}

impl Watch for Witness<'_> {
    fn made(&mut self, order: u8, board: &Board) {
        self.cover.settings(order, board.settings().increment as u16);
        self.journal = Some(Journal { order, entries: Vec::new() });
        self.enter(board, None);
    }

    fn scanned(&mut self, before: State, board: &Board, written: Image, answer: &Answer) {
        let word = board.settings().order.image_to_block(written).word3;
        self.cover.scan(before, board.state(), answer, word);
        let scan = ScanEntry {
            written,
            read: answer.image,
            taken: answer.note.taken,
            posted: answer.note.posted,
            closed: answer.note.closed,
            load: board.ramp().load(),
        };
        self.enter(board, Some(scan));
    }

    fn read(&mut self, board: &Board, told: Result<[u8; 4], u8>) {
        self.cover.read(told);
        self.enter(board, None);
    }

    fn ended(&mut self, length: usize) {
        self.cover.end(length);
    }

    fn faulted(&mut self, number: u8) {
        self.cover.fault(number);
    }
}
