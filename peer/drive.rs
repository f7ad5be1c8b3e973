//! The drive file and its listing (docs/RULES.md, sections 9 and 10).

use std::io::Write;

use crate::board::{Answer, Board};
use crate::cover::Cover;
use crate::journal::Journal;
use crate::ramp::Ramp;
use crate::watch::{Nobody, Watch, Witness};
use crate::wire::{Image, Settings};

pub const LONGEST_FILE: usize = 65_536;

pub const KIND_END: u8 = 0;
pub const KIND_SETTINGS: u8 = 1;
pub const KIND_IMAGE: u8 = 2;
pub const KIND_READ: u8 = 4;
pub const KIND_RAMP: u8 = 5;

#[derive(Clone, Copy, Debug, PartialEq)]
pub struct Fault {
    pub number: u8,
    pub place: usize,
}

/// What may stand at a place of the file.
#[derive(Clone, Copy)]
enum Turn {
    Settings,
    Ramp,
    Calls,
}

impl Turn {
    fn allows(self, kind: u8) -> bool {
        match self {
            Turn::Settings => kind == KIND_SETTINGS,
            Turn::Ramp => kind == KIND_RAMP,
            Turn::Calls => matches!(kind, KIND_IMAGE | KIND_READ | KIND_END),
        }
    }
}

fn body_length(kind: u8) -> Option<usize> {
    match kind {
        KIND_END => Some(0),
        KIND_SETTINGS => Some(3),
        KIND_IMAGE => Some(8),
        KIND_READ => Some(4),
        KIND_RAMP => Some(12),
        _ => None,
    }
}

struct Record<'a> {
    place: usize,
    kind: u8,
    body: &'a [u8],
}

impl Record<'_> {
    fn fault(&self, number: u8) -> Fault {
        Fault { number, place: self.place }
    }

    /// Big-endian number of four bytes at a place of the body.
    fn signed(&self, at: usize) -> i32 {
        i32::from_be_bytes([self.body[at], self.body[at + 1], self.body[at + 2], self.body[at + 3]])
    }

    fn word(&self, at: usize) -> u16 {
        u16::from_be_bytes([self.body[at], self.body[at + 1]])
    }
}

struct Reader<'a> {
    bytes: &'a [u8],
    place: usize,
}

impl<'a> Reader<'a> {
    /// The next record, with the checks that every kind has, in their order.
    fn next(&mut self, turn: Turn) -> Result<Record<'a>, Fault> {
        let place = self.place;
        let fault = |number| Fault { number, place };
        let kind = *self.bytes.get(place).ok_or(fault(32))?;
        let length = body_length(kind).ok_or(fault(31))?;
        if !turn.allows(kind) {
            return Err(fault(33));
        }
        let body = self.bytes.get(place + 1..place + 1 + length).ok_or(fault(32))?;
        self.place = place + 1 + length;
        Ok(Record { place, kind, body })
    }
}

/// A drive file run to its end or to its fault, under the eyes of a witness.
pub struct Run {
    pub listing: Vec<u8>,
    /// There is none if no board was made.
    pub journal: Option<Journal>,
}

/// Runs a drive file and keeps its journal. What it reaches is counted in `cover`.
pub fn run(bytes: &[u8], cover: &mut Cover) -> Run {
    let mut witness = Witness { cover, journal: None };
    let listing = watched_listing(bytes, &mut witness);
    Run { listing, journal: witness.journal }
}

/// The listing of a drive file and nothing else.
pub fn list(bytes: &[u8]) -> Vec<u8> {
    watched_listing(bytes, &mut Nobody)
}

fn watched_listing(bytes: &[u8], watch: &mut impl Watch) -> Vec<u8> {
    let mut listing = Vec::new();
    if let Err(fault) = list_records(bytes, &mut listing, watch) {
        let _ = writeln!(listing, "fault {} at {}", fault.number, fault.place);
        watch.faulted(fault.number);
    }
    listing
}

fn list_records(bytes: &[u8], listing: &mut Vec<u8>, watch: &mut impl Watch) -> Result<(), Fault> {
    if bytes.len() > LONGEST_FILE {
        return Err(Fault { number: 34, place: 0 });
    }
    let mut reader = Reader { bytes, place: 0 };
    let record = reader.next(Turn::Settings)?;
    let order = record.body[0];
    let settings = Settings::new(order, record.word(1)).map_err(|n| record.fault(n))?;
    let record = reader.next(Turn::Ramp)?;
    let ramp = Ramp::new(record.signed(0), record.signed(4), record.signed(8)).map_err(|n| record.fault(n))?;

    let mut board = Board::new(settings, ramp);
    watch.made(order, &board);
    // Images have the longest lines for their size, so this is room enough for any file.
    listing.reserve(bytes.len() / IMAGE_RECORD * SCAN_LINE.len() + SCAN_LINE.len());
    loop {
        let record = reader.next(Turn::Calls)?;
        match record.kind {
            KIND_IMAGE => {
                let mut written: Image = [0; 8];
                written.copy_from_slice(record.body);
                let before = board.state();
                let answer = board.scan(written);
                list_scan(listing, &answer);
                watch.scanned(before, &board, written, &answer);
            }
            KIND_READ => {
                let told = board.acyclic_read(record.word(0), record.body[2], record.body[3]);
                list_read(listing, told);
                watch.read(&board, told);
            }
            _ => return end(&reader, listing, watch),
        }
    }
}

fn end(reader: &Reader, listing: &mut Vec<u8>, watch: &mut impl Watch) -> Result<(), Fault> {
    if reader.place < reader.bytes.len() {
        return Err(Fault { number: 33, place: reader.place });
    }
    listing.extend_from_slice(b"end\n");
    watch.ended(reader.bytes.len());
    Ok(())
}

/// An image's kind and body.
const IMAGE_RECORD: usize = 9;

/// A scan's line before the read image (i) and the note's three words are filled in.
const SCAN_LINE: [u8; 37] = *b"scan iiiiiiiiiiiiiiii ---- ---- ----\n";

fn list_scan(listing: &mut Vec<u8>, answer: &Answer) {
    let mut line = SCAN_LINE;
    put_hex(&mut line[5..21], &answer.image);
    let note = &answer.note;
    for (at, field) in [(22, note.taken), (27, note.posted), (32, note.closed)] {
        if let Some(word) = field {
            put_hex(&mut line[at..at + 4], &word.to_be_bytes());
        }
    }
    listing.extend_from_slice(&line);
}

fn list_read(listing: &mut Vec<u8>, told: Result<[u8; 4], u8>) {
    match told {
        Ok(strip) => {
            let mut line = *b"read ssssssss\n";
            put_hex(&mut line[5..13], &strip);
            listing.extend_from_slice(&line);
        }
        Err(number) => {
            let _ = writeln!(listing, "read no {number}");
        }
    }
}

/// The two digits of every byte.
const DIGITS: [[u8; 2]; 256] = {
    let hex = b"0123456789abcdef";
    let mut digits = [[0; 2]; 256];
    let mut byte = 0;
    while byte < 256 {
        digits[byte] = [hex[byte / 16], hex[byte % 16]];
        byte += 1;
    }
    digits
};

/// Writes two digits of the text for each byte.
fn put_hex(text: &mut [u8], bytes: &[u8]) {
    for (pair, byte) in text.chunks_exact_mut(2).zip(bytes) {
        pair.copy_from_slice(&DIGITS[*byte as usize]);
    }
}
