//! The board: the scan, the command list and the acyclic read (docs/RULES.md, sections 5 to 7).

use crate::ramp::{Ramp, Task, Told, CAPACITY};
use crate::wire::{float_of, round, whole, Block, Image, Settings};

pub const IN_PROCESS: u16 = 2047;
pub const BETWEEN_STEPS: u16 = 2045;
pub const WEIGHT_TEST: u16 = 440;
pub const NEXT: u16 = 2002;
pub const NEXT_TOO: u16 = 2003;
pub const CANCEL: u16 = 2004;
pub const RETRY: u16 = 2005;
pub const SKIP: u16 = 2006;

const NOT_ALLOWED: u16 = 0x8001;
const TOO_LATE: u16 = 0x8002;
const UNKNOWN: u16 = 0x8004;
const BAD_VALUE: u16 = 0x8008;
const ABORTED: u16 = 0x8010;
pub const STEP_FAILED: u16 = 0x8020;

/// Bit 15 and the channel bits 11 to 14; what lies below them is the number.
const BITS_ABOVE_NUMBER: u16 = 0xf800;

pub fn is_step_word(word: u16) -> bool {
    (NEXT..=SKIP).contains(&word)
}

#[derive(Clone, Copy, Debug, PartialEq)]
pub enum Report {
    GrossRounded,
    TareRounded,
    NetRounded,
    Gross,
    Tare,
    Net,
    Deviation,
}

/// The class of a number in the command list.
enum Class {
    Report(Report),
    NoOperation,
    Preset,
    Order(Task),
    WeightTest,
    Step,
}

fn class_of(number: u16) -> Option<Class> {
    Some(match number {
        0 | 1 => Class::Report(Report::GrossRounded),
        2 => Class::Report(Report::TareRounded),
        3 => Class::Report(Report::NetRounded),
        5 => Class::Report(Report::Gross),
        6 => Class::Report(Report::Tare),
        7 => Class::Report(Report::Net),
        1800 => Class::Report(Report::Deviation),
        2000 => Class::NoOperation,
        201 => Class::Preset,
        400 => Class::Order(Task::TareStill),
        401 => Class::Order(Task::ZeroStill),
        402 => Class::Order(Task::ClearTare),
        403 => Class::Order(Task::TareNow),
        404 => Class::Order(Task::ZeroNow),
        WEIGHT_TEST => Class::WeightTest,
        n if is_step_word(n) => Class::Step,
        _ => return None,
    })
}

#[derive(Clone, Copy, Debug, PartialEq, Eq, PartialOrd, Ord)]
pub enum Step {
    First,
    Second,
}

/// What is open, and where it has got to.
#[derive(Clone, Copy, Debug, PartialEq, Eq, PartialOrd, Ord)]
pub enum State {
    NothingOpen,
    /// 201 or 400 to 404, while its order stands below.
    Ordered(u16),
    /// 440, while settle stands below.
    Settling(Step),
    Failed(Step),
    Between,
    /// The word is closed by the next answered scan.
    Cancelled(u16),
}

impl State {
    pub fn open_word(self) -> Option<u16> {
        match self {
            State::NothingOpen => None,
            State::Ordered(word) | State::Cancelled(word) => Some(word),
            State::Settling(_) | State::Failed(_) | State::Between => Some(WEIGHT_TEST),
        }
    }
}

#[derive(Clone, Copy, Debug, Default, PartialEq)]
pub struct Note {
    pub taken: Option<u16>,
    pub posted: Option<u16>,
    pub closed: Option<u16>,
}

/// What became of the command word in step 4 of a scan.
#[derive(Clone, Copy, Debug, PartialEq)]
pub enum Judged {
    /// The same as the compared word.
    Same,
    /// It differs from the compared word, but step 3 posted something.
    PutOff,
    Taken,
    Heeded,
    Ignored,
}

/// An answered scan. `shown` and `judged` are not told by the board; coverage counts them.
#[derive(Clone, Copy, Debug)]
pub struct Answer {
    pub image: Image,
    pub note: Note,
    pub shown: Option<u16>,
    pub judged: Judged,
}

/// What look tells.
#[derive(Clone, Copy, Debug, PartialEq)]
pub struct Look {
    pub open: Option<u16>,
    pub zero: i64,
    pub tare: i64,
    pub deviation: i64,
}

#[derive(Clone, Debug)]
pub struct Board {
    settings: Settings,
    ramp: Ramp,
    compared: u16,
    selected: Report,
    response: u16,
    sequence: u16,
    heartbeat: bool,
    state: State,
    deviation: i64,
    empty: i64,
    test_value: i64,
    // The scan under way writes these two; they begin anew with each scan.
    note: Note,
    shown: Option<u16>,
}

impl Board {
    pub fn new(settings: Settings, mut ramp: Ramp) -> Board {
        // Whether one stood or not is all the same to a new board.
        let _ = ramp.drop_order();
        Board {
            settings,
            ramp,
            compared: 0,
            selected: Report::GrossRounded,
            response: 0,
            sequence: 0,
            heartbeat: false,
            state: State::NothingOpen,
            deviation: 0,
            empty: 0,
            test_value: 0,
            note: Note::default(),
            shown: None,
        }
    }

    pub fn settings(&self) -> Settings {
        self.settings
    }

    pub fn state(&self) -> State {
        self.state
    }

    pub fn compared(&self) -> u16 {
        self.compared
    }

    pub fn ramp(&self) -> &Ramp {
        &self.ramp
    }

    pub fn look(&self) -> Look {
        Look {
            open: self.state.open_word(),
            zero: self.ramp.zero(),
            tare: self.ramp.tare(),
            deviation: self.deviation,
        }
    }

    /// The five steps of a scan. Both strips have eight bytes by their type: 11 and 12 cannot be.
    pub fn scan(&mut self, strip: Image) -> Answer {
        self.note = Note::default();
        self.shown = None;
        let written = self.settings.order.image_to_block(strip);
        let told = self.ramp.tend();
        self.answer_what_is_due(told);
        let judged = self.compare(written);
        self.heartbeat = !self.heartbeat;
        Answer { image: self.read_image(), note: self.note, shown: self.shown, judged }
    }

    pub fn acyclic_read(&self, class: u16, instance: u8, attribute: u8) -> Result<[u8; 4], u8> {
        if class != 0x300 {
            return Err(13);
        }
        if instance != 1 {
            return Err(14);
        }
        let report = match attribute {
            1 | 2 => Report::GrossRounded,
            3 => Report::TareRounded,
            4 => Report::NetRounded,
            5 => Report::Gross,
            6 => Report::Tare,
            7 => Report::Net,
            _ => return Err(15),
        };
        Ok(self.settings.order.float_to_bytes(self.report(report)))
    }

    // --- responses ---

    fn post(&mut self, response: u16) {
        self.response = response;
        self.sequence = (self.sequence + 1) % 4;
        self.note.posted = Some(response);
    }

    /// Shows a response without moving the sequence.
    fn show(&mut self, response: u16) {
        self.response = response;
        self.shown = Some(response);
    }

    fn post_and_close(&mut self, response: u16, word: u16) {
        self.post(response);
        self.note.closed = Some(word);
        self.state = State::NothingOpen;
    }

    fn fail_step(&mut self, step: Step) {
        self.post(STEP_FAILED);
        self.state = State::Failed(step);
    }

    // --- step 3 ---

    fn answer_what_is_due(&mut self, told: Told) {
        match self.state {
            State::Ordered(word) => self.answer_order(word, told),
            State::Settling(step) => self.answer_settle(step, told),
            State::Cancelled(word) => self.post_and_close(ABORTED, word),
            State::NothingOpen | State::Failed(_) | State::Between => {}
        }
    }

    fn answer_order(&mut self, word: u16, told: Told) {
        match told {
            Told::Done => self.post_and_close(word, word),
            Told::NotPossible => self.post_and_close(NOT_ALLOWED, word),
            Told::Late => self.post_and_close(TOO_LATE, word),
            Told::Idle | Told::Waiting => {}
        }
    }

    fn answer_settle(&mut self, step: Step, told: Told) {
        match (told, step) {
            (Told::Idle | Told::Waiting, _) => {}
            (Told::NotPossible | Told::Late, _) => self.fail_step(step),
            (Told::Done, Step::First) => {
                self.empty = self.ramp.gross();
                self.post(BETWEEN_STEPS);
                self.state = State::Between;
            }
            (Told::Done, Step::Second) => {
                self.deviation = self.ramp.gross() - self.empty - self.test_value;
                self.post_and_close(WEIGHT_TEST, WEIGHT_TEST);
            }
        }
    }

    // --- step 4 ---

    fn compare(&mut self, written: Block) -> Judged {
        if written.word3 == self.compared {
            return Judged::Same;
        }
        if self.note.posted.is_some() {
            return Judged::PutOff;
        }
        self.compared = written.word3;
        if self.state == State::NothingOpen {
            self.take(written);
            return Judged::Taken;
        }
        if self.heed(written) { Judged::Heeded } else { Judged::Ignored }
    }

    fn take(&mut self, written: Block) {
        let word = written.word3;
        self.note.taken = Some(word);
        if word & BITS_ABOVE_NUMBER != 0 || written.word2 > 1 {
            return self.post_and_close(NOT_ALLOWED, word);
        }
        match class_of(word) {
            None => self.post_and_close(UNKNOWN, word),
            Some(Class::Step) => self.post_and_close(NOT_ALLOWED, word),
            Some(Class::Report(report)) => {
                self.selected = report;
                self.post_and_close(word, word);
            }
            Some(Class::NoOperation) => self.post_and_close(word, word),
            Some(Class::Preset) => match whole(written.value) {
                None => self.post_and_close(BAD_VALUE, word),
                Some(v) => self.open(word, Task::Preset(v), State::Ordered(word)),
            },
            Some(Class::Order(task)) => self.open(word, task, State::Ordered(word)),
            Some(Class::WeightTest) => self.open(word, Task::Settle, State::Settling(Step::First)),
        }
    }

    fn open(&mut self, word: u16, task: Task, state: State) {
        match self.ramp.begin(task) {
            Ok(()) => {
                self.state = state;
                self.show(IN_PROCESS);
            }
            Err(22) => self.post_and_close(UNKNOWN, word),
            Err(23) => self.post_and_close(BAD_VALUE, word),
            Err(_) => self.post_and_close(NOT_ALLOWED, word),
        }
    }

    /// Gives a judged word to the open command; tells whether it was heeded.
    /// The whole command word is compared with the step word, so a step word with channel bits is ignored.
    fn heed(&mut self, written: Block) -> bool {
        match (self.state, written.word3) {
            (State::NothingOpen | State::Cancelled(_), _) => return false,
            (_, CANCEL) => self.cancel(),
            (State::Failed(Step::First), RETRY) => self.start_settle(Step::First),
            (State::Failed(Step::Second), RETRY) => self.start_second(written.value),
            (State::Between, NEXT | NEXT_TOO) => self.start_second(written.value),
            _ => return false,
        }
        true
    }

    fn start_second(&mut self, value: u32) {
        match whole(value) {
            Some(v) if (1..=CAPACITY).contains(&v) => {
                self.test_value = v;
                self.start_settle(Step::Second);
            }
            _ => self.fail_step(Step::Second),
        }
    }

    fn start_settle(&mut self, step: Step) {
        match self.ramp.begin(Task::Settle) {
            Ok(()) => {
                self.state = State::Settling(step);
                self.show(IN_PROCESS);
            }
            Err(_) => self.fail_step(step),
        }
    }

    fn cancel(&mut self) {
        let Some(word) = self.state.open_word() else { return };
        // Between the steps and after a failed one none stands; that is no error.
        let _ = self.ramp.drop_order();
        self.state = State::Cancelled(word);
        self.show(CANCEL);
    }

    // --- step 5 ---

    fn report(&self, report: Report) -> u32 {
        let d = self.settings.increment;
        float_of(match report {
            Report::GrossRounded => round(self.ramp.gross(), d),
            Report::TareRounded => round(self.ramp.tare(), d),
            Report::NetRounded => round(self.ramp.net(), d),
            Report::Gross => self.ramp.gross(),
            Report::Tare => self.ramp.tare(),
            Report::Net => self.ramp.net(),
            Report::Deviation => self.deviation,
        })
    }

    fn status(&self) -> u16 {
        let bit = |n: u16, set: bool| (set as u16) << n;
        // Bit 4, the fault, stays away: the ramp never has one.
        self.sequence
            | bit(2, self.heartbeat)
            | bit(3, true)
            | bit(5, 4 * self.ramp.gross().abs() <= self.settings.increment)
            | bit(6, !self.ramp.is_still())
            | bit(7, self.ramp.tare() != 0)
    }

    fn read_image(&self) -> Image {
        self.settings.order.block_to_image(Block {
            value: self.report(self.selected),
            word2: self.status(),
            word3: self.response,
        })
    }
}
