//! Counts of what the runs reached. Every item of `Cover::all_items` must be reached.

use std::collections::BTreeMap;

use crate::board::{is_step_word, Answer, Judged, State, Step, CANCEL, NEXT, NEXT_TOO, RETRY, SKIP};
use crate::drive::LONGEST_FILE;
use crate::wire::INCREMENTS;

#[derive(Clone, Copy, PartialEq, Eq, PartialOrd, Ord)]
enum Item {
    Order(u8),
    Increment(u16),
    Posted(u16),
    /// An order that ended with an error of its own: the word and the response.
    Refused(u16, u16),
    Shown(u16),
    State(&'static str),
    Heeded(u16),
    Ignored(u16),
    /// A step word that met nothing open, and so was taken and refused.
    StepTaken(u16),
    /// A step word that met an answer in step 3 and was not judged in that scan.
    StepPutOff(u16),
    Read(u8),
    Decline(u8),
    Fault(u8),
    Ended,
    LongestEnded,
}

const POSTED: [u16; 23] = [
    0, 1, 2, 3, 5, 6, 7, 1800, 2000, 201, 400, 401, 402, 403, 404, 440, 2045, //
    0x8001, 0x8002, 0x8004, 0x8008, 0x8010, 0x8020,
];
const STATES: [State; 8] = [
    State::NothingOpen,
    State::Ordered(400),
    State::Settling(Step::First),
    State::Failed(Step::First),
    State::Between,
    State::Settling(Step::Second),
    State::Failed(Step::Second),
    State::Cancelled(400),
];
const DECLINES: [u8; 3] = [13, 14, 15];
const FAULTS: [u8; 7] = [31, 32, 33, 34, 41, 42, 44];

fn state_name(state: State) -> &'static str {
    match state {
        State::NothingOpen => "nothing open",
        State::Ordered(_) => "order stands",
        State::Settling(Step::First) => "first step settles",
        State::Settling(Step::Second) => "second step settles",
        State::Failed(Step::First) => "first step failed",
        State::Failed(Step::Second) => "second step failed",
        State::Between => "between the steps",
        State::Cancelled(_) => "cancelled",
    }
}

#[derive(Default)]
pub struct Cover {
    counts: BTreeMap<Item, u64>,
}

impl Cover {
    fn count(&mut self, item: Item) {
        *self.counts.entry(item).or_insert(0) += 1;
    }

    pub fn settings(&mut self, order: u8, increment: u16) {
        self.count(Item::Order(order));
        self.count(Item::Increment(increment));
    }

    /// Counts one scan: the states around it, its answer and the command word written.
    pub fn scan(&mut self, before: State, after: State, answer: &Answer, word: u16) {
        if let Some(response) = answer.note.posted {
            self.count(Item::Posted(response));
            if let (State::Ordered(word), 0x8001 | 0x8002) = (before, response) {
                self.count(Item::Refused(word, response));
            }
        }
        if let Some(response) = answer.shown {
            self.count(Item::Shown(response));
        }
        self.count(Item::State(state_name(after)));
        if !is_step_word(word) {
            return;
        }
        match answer.judged {
            Judged::Same => {}
            // After a cancel every word is put off; only a word that met the order's own answer counts.
            Judged::PutOff if matches!(before, State::Cancelled(_)) => {}
            Judged::PutOff => self.count(Item::StepPutOff(word)),
            Judged::Taken => self.count(Item::StepTaken(word)),
            Judged::Heeded => self.count(Item::Heeded(word)),
            Judged::Ignored => self.count(Item::Ignored(word)),
        }
    }

    pub fn read(&mut self, told: Result<[u8; 4], u8>) {
        match told {
            Ok(_) => self.count(Item::Read(0)),
            Err(number) => self.count(Item::Decline(number)),
        }
    }

    pub fn fault(&mut self, number: u8) {
        self.count(Item::Fault(number));
    }

    pub fn end(&mut self, length: usize) {
        self.count(Item::Ended);
        if length == LONGEST_FILE {
            self.count(Item::LongestEnded);
        }
    }

    pub fn add(&mut self, other: &Cover) {
        for (item, count) in &other.counts {
            *self.counts.entry(*item).or_insert(0) += count;
        }
    }

    /// Every item that must be reached. Cancel is heeded wherever it is judged and skip nowhere,
    /// so "ignored 2004" and "heeded 2006" are not among them.
    fn all_items() -> Vec<Item> {
        let steps = [NEXT, NEXT_TOO, CANCEL, RETRY, SKIP];
        let mut items: Vec<Item> = POSTED.map(Item::Posted).to_vec();
        items.extend([400, 401, 403, 404].map(|w| Item::Refused(w, 0x8001)));
        items.extend([400, 401].map(|w| Item::Refused(w, 0x8002)));
        items.extend([2047, 2004].map(Item::Shown));
        items.extend(STATES.map(|s| Item::State(state_name(s))));
        items.extend(steps.iter().filter(|w| **w != SKIP).map(|w| Item::Heeded(*w)));
        items.extend(steps.iter().filter(|w| **w != CANCEL).map(|w| Item::Ignored(*w)));
        items.extend(steps.map(Item::StepTaken));
        items.extend(steps.map(Item::StepPutOff));
        items.push(Item::Read(0));
        items.extend(DECLINES.map(Item::Decline));
        items.extend(FAULTS.map(Item::Fault));
        items.extend([Item::Ended, Item::LongestEnded]);
        items.extend([0, 1, 2, 3].map(Item::Order));
        items.extend(INCREMENTS.map(Item::Increment));
        items
    }

    /// One line for each item, and whether every one was reached.
    pub fn lines(&self) -> (String, bool) {
        let mut text = String::new();
        let mut full = true;
        for item in Cover::all_items() {
            let count = self.counts.get(&item).copied().unwrap_or(0);
            full &= count > 0;
            text.push_str(&format!("cover {} {}\n", item_name(item), count));
        }
        (text, full)
    }
}

fn item_name(item: Item) -> String {
    match item {
        Item::Order(n) => format!("order setting {n}"),
        Item::Increment(d) => format!("increment {d}"),
        Item::Refused(w, r) => format!("order {w} ended with {r:04X}h"),
        Item::Posted(r) if r >= 0x8000 => format!("posted {r:04X}h"),
        Item::Posted(r) => format!("posted {r}"),
        Item::Shown(r) => format!("shown {r}"),
        Item::State(name) => format!("state ({name})"),
        Item::Heeded(w) => format!("heeded {w}"),
        Item::Ignored(w) => format!("ignored {w}"),
        Item::StepTaken(w) => format!("step word taken {w}"),
        Item::StepPutOff(w) => format!("step word met an answer {w}"),
        Item::Read(_) => "read answered".to_string(),
        Item::Decline(n) => format!("declined {n}"),
        Item::Fault(n) => format!("fault {n}"),
        Item::Ended => "ended".to_string(),
        Item::LongestEnded => "ended at 65536 bytes".to_string(),
    }
}
