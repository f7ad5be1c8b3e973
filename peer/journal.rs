//! The journal of a run and the promises that are checked on it (docs/RULES.md, section 8).
//! Nothing of the board's code is used here: images are decoded anew, with other means.

/// The most answered scans that a command may wait for its response on the ramp.
const PATIENCE: u32 = 50;

pub struct ScanEntry {
    pub written: [u8; 8],
    pub read: [u8; 8],
    pub taken: Option<u16>,
    pub posted: Option<u16>,
    pub closed: Option<u16>,
    pub load: i64,
}

/// What look told after a call.
#[derive(Clone, Copy)]
pub struct After {
    pub open: Option<u16>,
    pub zero: i64,
    pub tare: i64,
    pub deviation: i64,
}

/// One call: a scan, or (without `scan`) one that is no answered scan.
pub struct Entry {
    pub scan: Option<ScanEntry>,
    pub after: After,
}

/// A run from the making of the board on; the first entry is the new board.
pub struct Journal {
    pub order: u8,
    pub entries: Vec<Entry>,
}

impl Journal {
    /// Checks every promise after every call.
    pub fn check(&self) -> Result<(), String> {
        let mut account = Account::default();
        let mut book = Book::default();
        let mut progress = Progress::default();
        for (i, entry) in self.entries.iter().enumerate() {
            if let Some(scan) = &entry.scan {
                account.feed(scan);
                book.feed(scan, self.order);
                progress.feed(scan, self.order, entry.after.open);
            }
            let verdict = account
                .check(entry.after.open)
                .and_then(|()| book.check(&entry.after))
                .and_then(|()| progress.check());
            verdict.map_err(|why| format!("call {i}: {why}"))?;
        }
        Ok(())
    }
}

/// The words taken and closed so far, each in order.
#[derive(Default)]
struct Account {
    taken: Vec<u16>,
    closed: Vec<u16>,
    // How many closings have been found equal to their word taken; spares comparing them again.
    matched: usize,
}

impl Account {
    fn feed(&mut self, scan: &ScanEntry) {
        self.taken.extend(scan.taken);
        self.closed.extend(scan.closed);
    }

    fn check(&mut self, open: Option<u16>) -> Result<(), String> {
        let expected = self.closed.len() + open.iter().count();
        if self.taken.len() != expected {
            return Err(format!("account: {} words taken, {} closed or open", self.taken.len(), expected));
        }
        while self.matched < self.closed.len() {
            let k = self.matched;
            if self.closed[k] != self.taken[k] {
                return Err(format!("account: closing {k} closes {}, taken was {}", self.closed[k], self.taken[k]));
            }
            self.matched += 1;
        }
        match open {
            Some(word) if self.taken.last() != Some(&word) => Err(format!("account: {word} is open, but was not taken last")),
            _ => Ok(()),
        }
    }
}

/// Zero, tare and deviation, kept from what the board told.
#[derive(Default)]
struct Book {
    zero: i64,
    tare: i64,
    deviation: i64,
    empty: i64,
    v: i64,
    in_process_before: bool,
}

impl Book {
    fn feed(&mut self, scan: &ScanEntry, order: u8) {
        let in_process = shown_response(&scan.read, order) == 2047;
        if in_process && !self.in_process_before {
            if let Some(v) = written_whole(&scan.written, order) {
                self.v = v;
            }
        }
        self.in_process_before = in_process;
        if scan.posted == Some(2045) {
            self.empty = scan.load - self.zero;
        }
        if scan.closed.is_some() && scan.closed == scan.posted {
            self.enter(scan.closed, scan.load);
        }
    }

    /// Enters a word that was closed by its own number.
    fn enter(&mut self, word: Option<u16>, load: i64) {
        match word {
            Some(401 | 404) => {
                self.zero = load;
                self.tare = 0;
            }
            Some(400 | 403) => self.tare = load - self.zero,
            Some(402) => self.tare = 0,
            Some(201) => self.tare = self.v,
            Some(440) => self.deviation = load - self.zero - self.empty - self.v,
            _ => {}
        }
    }

    fn check(&self, after: &After) -> Result<(), String> {
        let book = (self.zero, self.tare, self.deviation);
        let board = (after.zero, after.tare, after.deviation);
        if book == board {
            return Ok(());
        }
        Err(format!("book: zero, tare, deviation are {board:?}, the book has {book:?}"))
    }
}

/// How long the open command has gone without a response.
#[derive(Default)]
struct Progress {
    awaits_response: bool,
    without: u32,
}

impl Progress {
    fn feed(&mut self, scan: &ScanEntry, order: u8, open: Option<u16>) {
        if scan.posted.is_some() {
            self.without = 0;
        } else if self.awaits_response {
            self.without += 1;
        }
        let awaits_step = matches!(shown_response(&scan.read, order), 2045 | 0x8020);
        let awaited_before = self.awaits_response;
        self.awaits_response = open.is_some() && !awaits_step;
        // The scan that begins the wait is not one of the P scans after it.
        if !awaited_before || !self.awaits_response {
            self.without = 0;
        }
    }

    fn check(&self) -> Result<(), String> {
        if self.without < PATIENCE {
            return Ok(());
        }
        Err(format!("progress: no response for {} answered scans", self.without))
    }
}

fn shown_response(read: &[u8; 8], order: u8) -> u16 {
    let (a, b) = (read[6] as u16, read[7] as u16);
    if order % 2 == 1 { b * 256 + a } else { a * 256 + b }
}

/// The value written if it is whole, by float arithmetic (the board looks at the bits).
fn written_whole(written: &[u8; 8], order: u8) -> Option<i64> {
    let places: [usize; 4] = match order {
        0 => [0, 1, 2, 3],
        1 => [1, 0, 3, 2],
        2 => [2, 3, 0, 1],
        _ => [3, 2, 1, 0],
    };
    let value = f32::from_be_bytes(places.map(|p| written[p])) as f64;
    if value.is_finite() && value == value.trunc() && value.abs() <= 16_777_215.0 {
        return Some(value as i64);
    }
    None
}
