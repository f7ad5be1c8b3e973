//! Makes drive files from a seed, and damages them.
//! The maker runs a board beside the file it writes, so that it can choose words that fit the state:
//! words drawn blindly would hardly ever get through a weight test.

use crate::board::{Board, State, Step, CANCEL, NEXT, NEXT_TOO, RETRY, SKIP, WEIGHT_TEST};
use crate::drive::{KIND_END, KIND_IMAGE, KIND_RAMP, KIND_READ, KIND_SETTINGS, LONGEST_FILE};
use crate::ramp::{Ramp, CAPACITY};
use crate::wire::{float_of, Block, Order, Settings, INCREMENTS};

/// The splitmix64 generator.
pub struct Random(u64);

impl Random {
    pub fn new(seed: u64) -> Random {
        Random(seed)
    }

    fn next(&mut self) -> u64 {
        self.0 = self.0.wrapping_add(0x9e37_79b9_7f4a_7c15);
        let mut z = self.0;
        z = (z ^ (z >> 30)).wrapping_mul(0xbf58_476d_1ce4_e5b9);
        z = (z ^ (z >> 27)).wrapping_mul(0x94d0_49bb_1331_11eb);
        z ^ (z >> 31)
    }

    fn below(&mut self, n: usize) -> usize {
        (self.next() % n as u64) as usize
    }

    /// A number from `low` to `high`, both included.
    fn between(&mut self, low: i64, high: i64) -> i64 {
        low + (self.next() % (high - low + 1) as u64) as i64
    }

    fn chance(&mut self, percent: usize) -> bool {
        self.below(100) < percent
    }

    fn pick<T: Copy>(&mut self, list: &[T]) -> T {
        list[self.below(list.len())]
    }

    fn byte(&mut self) -> u8 {
        self.next() as u8
    }
}

/// What shall be wrong with a file, if anything.
#[derive(Clone, Copy, PartialEq)]
enum Plan {
    Valid,
    Longest,
    TooLong,
    StrangeKind,
    CutShort,
    OutOfTurn,
    BadOrder,
    BadIncrement,
    BadRamp,
}

/// The few longest files come at fixed seeds: they are costly, and a run of few seeds needs them too.
const LONGEST_EVERY: u64 = 250;
const LONGEST_SEED: u64 = 17;
const TOO_LONG_SEED: u64 = 18;

fn choose_plan(seed: u64, random: &mut Random) -> Plan {
    match seed % LONGEST_EVERY {
        LONGEST_SEED => return Plan::Longest,
        TOO_LONG_SEED => return Plan::TooLong,
        _ => {}
    }
    if !random.chance(25) {
        return Plan::Valid;
    }
    random.pick(&[
        Plan::StrangeKind,
        Plan::CutShort,
        Plan::CutShort,
        Plan::OutOfTurn,
        Plan::OutOfTurn,
        Plan::BadOrder,
        Plan::BadIncrement,
        Plan::BadRamp,
    ])
}

/// The drive file of a seed.
pub fn make(seed: u64) -> Vec<u8> {
    let mut random = Random::new(seed.wrapping_mul(0x2545_f491_4f6c_dd1d));
    let plan = choose_plan(seed, &mut random);
    let mut maker = Maker::new(random);
    match plan {
        Plan::Longest => maker.fill_to(LONGEST_FILE),
        Plan::TooLong => {
            // Most are one byte too long; some have that byte after a whole file of the longest size.
            let (length, extra) = maker.random.pick(&[(1, 0), (1, 0), (0, 1), (64, 0)]);
            maker.fill_to(LONGEST_FILE + length);
            maker.bytes.extend(std::iter::repeat_n(KIND_END, extra));
        }
        _ => {
            maker.fill_some();
            maker.spoil(plan);
        }
    }
    maker.bytes
}

/// The shapes of ramp. Each is there for something that only it reaches often.
fn choose_ramp(random: &mut Random) -> (i32, i32, i32) {
    let step = random.pick(&[1, 1, 2, 3, 7, 10, 50, 333, 999, 1000]);
    let sign = random.pick(&[1, -1]);
    let (start, step, target) = match random.below(11) {
        // Still, small, on either side of zero.
        0 | 1 => {
            let load = random.between(-400, 400);
            (load, step, load)
        }
        // Still, at the limit of zero.
        2 => {
            let load = sign * random.between(298, 302);
            (load, step, load)
        }
        // Still, somewhere in the capacity and a little beyond.
        3 => {
            let load = random.between(0, 20_000);
            (load, step, load)
        }
        // Moves for a few scans.
        4 | 5 => {
            let start = random.between(-600, 600);
            (start, step, start + sign * step * random.between(1, 30))
        }
        // Slow past the limit of zero, or past zero itself.
        6 => {
            let start = sign * random.between(250, 310);
            (start, 1, -start + random.between(-40, 40))
        }
        // Moves for longer than the patience, then is still.
        7 => {
            let start = random.between(-1_000, 1_000);
            (start, step, start + sign * step * random.between(45, 160))
        }
        // Never still.
        8 => (random.between(-200, 200), 1, sign * 4_000_000),
        9 => (random.between(-4_000_000, 4_000_000), 1, sign * random.between(0, 4_000_000)),
        // The ends of the range.
        _ => {
            let start = sign * 4_000_000;
            let near = start - sign * random.between(0, 3_000);
            (start, step, random.pick(&[start, -start, near]))
        }
    };
    (start as i32, step as i32, target as i32)
}

/// How a file's controller behaves while an order stands: in percent for each scan.
#[derive(Clone, Copy)]
struct Temper {
    cancel: usize,
    meddle: usize,
}

struct Maker {
    random: Random,
    bytes: Vec<u8>,
    /// Where each record begins, the end record included.
    places: Vec<usize>,
    order: Order,
    board: Board,
    last_word: u16,
    last_mask: u16,
    last_value: u32,
    temper: Temper,
}

impl Maker {
    fn new(mut random: Random) -> Maker {
        let setting = random.below(4) as u8;
        let increment = random.pick(&INCREMENTS);
        let (start, step, target) = choose_ramp(&mut random);
        let settings = Settings::new(setting, increment).expect("the settings are chosen among the good");
        let ramp = Ramp::new(start, step, target).expect("the ramp is chosen among the good");
        let mut maker = Maker {
            random,
            bytes: Vec::new(),
            places: Vec::new(),
            order: settings.order,
            board: Board::new(settings, ramp),
            last_word: 0,
            last_mask: 0,
            last_value: 0,
            temper: Temper { cancel: 5, meddle: 20 },
        };
        let d = increment.to_be_bytes();
        maker.record(KIND_SETTINGS, &[setting, d[0], d[1]]);
        let body = [start, step, target].map(i32::to_be_bytes).concat();
        maker.record(KIND_RAMP, &body);
        maker
    }

    fn record(&mut self, kind: u8, body: &[u8]) {
        self.places.push(self.bytes.len());
        self.bytes.push(kind);
        self.bytes.extend_from_slice(body);
    }

    /// A file of a usual length, with its end.
    fn fill_some(&mut self) {
        let calls = match self.random.below(20) {
            0 => self.random.between(0, 6),
            1..=14 => self.random.between(20, 120),
            15..=17 => self.random.between(120, 300),
            _ => self.random.between(300, 700),
        };
        for _ in 0..calls {
            if self.random.chance(9) {
                self.add_read();
            } else {
                self.add_image();
            }
        }
        self.record(KIND_END, &[]);
    }

    /// A whole file of just this length: records of 9 and of 5 bytes make up any length from 32 on.
    fn fill_to(&mut self, length: usize) {
        let records = length - 1;
        while records - self.bytes.len() > 64 {
            if self.random.chance(5) {
                self.add_read();
            } else {
                self.add_image();
            }
        }
        while (records - self.bytes.len()) % 9 != 0 {
            self.add_read();
        }
        while self.bytes.len() < records {
            self.add_image();
        }
        self.record(KIND_END, &[]);
    }

    fn add_read(&mut self) {
        let mut class = 0x300u16;
        let mut instance = 1u8;
        let mut attribute = self.random.between(1, 7) as u8;
        // More than one may be wrong, so that the order of the declines shows.
        if self.random.chance(15) {
            class = self.random.pick(&[0, 3, 0x301, 0x2ff, 0x0003, 0x100, 0xffff]);
        }
        if self.random.chance(15) {
            instance = self.random.pick(&[0, 2, 255]);
        }
        if self.random.chance(25) {
            attribute = self.random.pick(&[0, 8, 9, 128, 255]);
        }
        let c = class.to_be_bytes();
        self.record(KIND_READ, &[c[0], c[1], instance, attribute]);
    }

    fn add_image(&mut self) {
        let before = self.board.state();
        let word = self.choose_word(before);
        let value = self.choose_value(before, word);
        let mask = self.choose_mask();
        let image = self.order.block_to_image(Block { value, word2: mask, word3: word });
        (self.last_word, self.last_value, self.last_mask) = (word, value, mask);
        self.record(KIND_IMAGE, &image);
        self.board.scan(image);
        if before == State::NothingOpen {
            self.temper = Temper {
                cancel: self.random.pick(&[0, 0, 1, 6, 30]),
                meddle: self.random.pick(&[2, 10, 40]),
            };
        }
    }

    // --- the command word ---

    fn choose_word(&mut self, state: State) -> u16 {
        let word = match state {
            State::NothingOpen => self.word_for_nothing_open(),
            State::Ordered(_) | State::Settling(_) => self.word_while_order_stands(),
            State::Failed(_) => self.word_for_step(&[RETRY]),
            State::Between => self.word_for_step(&[NEXT, NEXT_TOO]),
            State::Cancelled(_) => self.word_after_cancel(),
        };
        // A word with a bit above its number; on step words it shows whether they are still heeded.
        if self.random.chance(2) {
            return word ^ 1 << self.random.between(11, 15);
        }
        word
    }

    fn word_for_nothing_open(&mut self) -> u16 {
        match self.random.below(100) {
            0..=9 => self.last_word,
            10..=35 => WEIGHT_TEST,
            36..=63 => self.random.pick(&[201, 201, 400, 400, 401, 401, 402, 403, 403, 404, 404]),
            64..=84 => self.random.pick(&[0, 1, 2, 3, 5, 6, 7, 1800, 1800]),
            85..=88 => 2000,
            89..=93 => self.random.pick(&[NEXT, NEXT_TOO, CANCEL, RETRY, SKIP]),
            _ => self.strange_word(),
        }
    }

    /// Mostly the word is held, so that orders come to their end and patience is used up.
    fn word_while_order_stands(&mut self) -> u16 {
        let ends_now = self.ends_in_next_scan();
        if ends_now && self.random.chance(8) {
            return CANCEL;
        }
        if self.random.chance(self.temper.cancel) {
            return CANCEL;
        }
        if !self.random.chance(self.temper.meddle) {
            return self.last_word;
        }
        match self.random.below(4) {
            0 => self.random.pick(&[NEXT, NEXT_TOO, RETRY, SKIP]),
            1 => self.strange_word(),
            _ => self.random.pick(&[0, 1, 3, 7, 201, 400, 401, 404, 440, 1800, 2000]),
        }
    }

    /// Whether the standing order ends with the next tend; a copy of the ramp tells.
    fn ends_in_next_scan(&self) -> bool {
        let mut ramp = self.board.ramp().clone();
        ramp.tend();
        ramp.tends_left().is_none()
    }

    /// `wanted` leads on from this state; but a word that is already the compared one is not judged.
    fn word_for_step(&mut self, wanted: &[u16]) -> u16 {
        match self.random.below(100) {
            0..=49 => {
                let word = self.random.pick(wanted);
                if word == self.board.compared() { self.random.pick(&[SKIP, 2000, 0]) } else { word }
            }
            50..=57 => CANCEL,
            58..=79 => self.random.pick(&[NEXT, NEXT_TOO, RETRY, SKIP]),
            80..=91 => self.last_word,
            92..=95 => self.random.pick(&[0, 400, 440, 2000, 1800]),
            _ => self.strange_word(),
        }
    }

    /// 8010h is posted whatever is written; a word that differs must wait for the scan after.
    fn word_after_cancel(&mut self) -> u16 {
        match self.random.below(4) {
            0 | 1 => self.last_word,
            2 => self.random.pick(&[NEXT, RETRY, SKIP, 440, 400, 201, 0]),
            _ => self.word_for_nothing_open(),
        }
    }

    fn strange_word(&mut self) -> u16 {
        match self.random.below(3) {
            0 => self.random.pick(&[
                4, 8, 200, 202, 399, 405, 439, 441, 1799, 1801, 1999, 2001, 2007, 2045, 2046, 2047,
            ]),
            1 => self.random.pick(&[0x8000, 0x8190, 0x0800, 0x4000, 0x0fd4, 0x87d4, 0x8001, 0x8010, 0xffff]),
            _ => self.random.next() as u16,
        }
    }

    // --- the value and the mask ---

    fn choose_value(&mut self, state: State, word: u16) -> u32 {
        let step_two = matches!(state, State::Between | State::Failed(Step::Second));
        if step_two && self.random.chance(50) {
            return float_of(self.random.between(1, CAPACITY));
        }
        if word == 201 && self.random.chance(60) {
            let inside = self.random.between(0, CAPACITY);
            return float_of(self.random.pick(&[inside, inside, inside, 0, CAPACITY, CAPACITY + 1]));
        }
        match self.random.below(10) {
            0..=2 => self.last_value,
            3 | 4 => self.value_not_whole(),
            5 => float_of(self.random.between(-16_777_215, 16_777_215)),
            6 => self.random.next() as u32,
            _ => float_of(self.random.pick(&[
                0, 1, 2, -1, 300, CAPACITY - 1, CAPACITY, CAPACITY + 1, -CAPACITY, 4_000_000, 16_777_215, -16_777_215,
            ])),
        }
    }

    /// Floats at the border of what is whole. Minus zero is among them, and it is whole.
    fn value_not_whole(&mut self) -> u32 {
        let nan = 0x7f80_0001 | self.random.next() as u32 & 0x803f_ffff;
        self.random.pick(&[
            0x8000_0000,
            nan,
            0x7fc0_0000,
            0x7f80_0000,
            0xff80_0000,
            0x4b80_0000, // 16,777,216
            0xcb80_0000,
            0x3f00_0000, // 0.5
            0x4030_a3d7, // 2.76
            0x4669_fc01, // a little above 14,975
            0x0000_0001, // the smallest of all
            0x807f_ffff,
            0x3f7f_ffff, // just below 1
        ])
    }

    fn choose_mask(&mut self) -> u16 {
        match self.random.below(40) {
            0 => self.random.pick(&[2, 3, 0x0100, 0x8000, 0xffff]),
            1 => self.random.next() as u16,
            2..=9 => self.last_mask,
            10..=24 => 1,
            _ => 0,
        }
    }

    // --- faults ---

    fn spoil(&mut self, plan: Plan) {
        match plan {
            Plan::Valid | Plan::Longest | Plan::TooLong => {}
            Plan::StrangeKind => {
                let place = self.some_place();
                self.bytes[place] = self.random.pick(&[3, 6, 7, 8, 0x20, 0x80, 255]);
            }
            Plan::CutShort => self.cut_short(),
            Plan::OutOfTurn => self.put_out_of_turn(),
            Plan::BadOrder => {
                self.bytes[1] = self.random.pick(&[4, 5, 128, 255]);
                if self.random.chance(30) {
                    self.put_bad_increment();
                }
            }
            Plan::BadIncrement => self.put_bad_increment(),
            Plan::BadRamp => self.put_bad_ramp(),
        }
    }

    fn some_place(&mut self) -> usize {
        if self.random.chance(30) {
            return self.places[self.random.below(2)];
        }
        self.random.pick(&self.places)
    }

    /// Cuts at the beginning of a record, or within one.
    fn cut_short(&mut self) {
        let length = if self.random.chance(50) { self.some_place() } else { self.random.below(self.bytes.len()) };
        self.bytes.truncate(length);
    }

    fn put_out_of_turn(&mut self) {
        let place = self.some_place();
        match self.random.below(4) {
            // A record of the beginning once more; before the first or second record, one that comes too early.
            0 => {
                let record = self.random.pick(&[(0, 4), (4, 17)]);
                let again: Vec<u8> = self.bytes[record.0..record.1].to_vec();
                self.bytes.splice(place..place, again);
            }
            1 => {
                let at = self.places[self.random.below(2)];
                let kind = self.random.pick(&[KIND_END, KIND_IMAGE, KIND_READ]);
                self.bytes[at] = kind;
            }
            // A kind that is out of turn and cut short as well: 33 comes first.
            2 => {
                self.bytes.truncate(place);
                self.bytes.push(if place == 0 { KIND_RAMP } else { KIND_SETTINGS });
            }
            _ => {
                let more = self.random.between(1, 9);
                for _ in 0..more {
                    let byte = self.random.pick(&[0, 1, 2, 3, 255]);
                    self.bytes.push(byte);
                }
            }
        }
    }

    fn put_bad_increment(&mut self) {
        let bad = self.random.pick(&[0u16, 3, 4, 15, 25, 101, 250, 256, 999, 1001, 2000, 5000, 10_000, 65_535]);
        self.bytes[2..4].copy_from_slice(&bad.to_be_bytes());
    }

    fn put_bad_ramp(&mut self) {
        let field = self.random.below(3);
        let bad: i32 = if field == 1 {
            self.random.pick(&[0, -1, 1001, i32::MAX, i32::MIN])
        } else {
            self.random.pick(&[4_000_001, -4_000_001, i32::MAX, i32::MIN])
        };
        let at = 5 + 4 * field;
        self.bytes[at..at + 4].copy_from_slice(&bad.to_be_bytes());
    }
}

/// A copy with one byte changed, cut or added.
pub fn damage(seed: u64, bytes: &[u8]) -> Vec<u8> {
    let mut random = Random::new(seed ^ 0x6461_6d61_6765_0000);
    let mut copy = bytes.to_vec();
    // The settings and the ramp are a small part of most files, yet have the most checks.
    let reach = if random.chance(20) { copy.len().min(18) } else { copy.len() };
    let at = random.below(reach + 1);
    match random.below(4) {
        0 if at < copy.len() => {
            copy.remove(at);
        }
        1 if at < copy.len() => copy[at] ^= 1 << random.below(8),
        2 if at < copy.len() => {
            // Never the byte that was there.
            copy[at] = copy[at].wrapping_add(1 + random.below(255) as u8);
        }
        _ => {
            let byte = if random.chance(50) { random.pick(&[0, 1, 2, 4, 5]) } else { random.byte() };
            copy.insert(at, byte);
        }
    }
    copy
}
