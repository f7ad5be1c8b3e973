//! The self tests: the worked example of the rules byte for byte, then tests of our own.

use crate::compare;
use crate::cover::Cover;
use crate::drive;
use crate::journal::{After, Entry, Journal, ScanEntry};
use crate::make;
use crate::wire::{float_of, round, whole, Block, Order};

type Outcome = Result<(), String>;

const TESTS: [(&str, fn() -> Outcome); 15] = [
    ("worked example", worked_example),
    ("rounding", rounding),
    ("floats", floats),
    ("orders", orders),
    ("limit of zero", limit_of_zero),
    ("tare below zero", tare_below_zero),
    ("patience", patience),
    ("weight test", weight_test),
    ("failed first step", failed_first_step),
    ("cancel", cancel),
    ("cancel meets completion", cancel_meets_completion),
    ("judging", judging),
    ("reads", reads),
    ("faults", faults),
    ("promises", promises),
];

/// Runs all, and gives their number.
pub fn run_all() -> Result<usize, String> {
    for (name, test) in TESTS {
        test().map_err(|why| format!("{name}: {why}"))?;
    }
    the_maker_keeps_promises()?;
    Ok(TESTS.len() + 1)
}

fn same<T: PartialEq + std::fmt::Debug>(found: T, expected: T) -> Outcome {
    if found == expected {
        return Ok(());
    }
    Err(format!("found {found:?}, expected {expected:?}"))
}

/// Bytes from hexadecimal digits; all else is for the reader's eye.
fn bytes(text: &str) -> Vec<u8> {
    let digits: Vec<u32> = text.chars().filter_map(|c| c.to_digit(16)).collect();
    digits.chunks(2).map(|pair| (pair[0] * 16 + pair[1]) as u8).collect()
}

/// A drive file in order 0, made call by call.
struct Script {
    file: Vec<u8>,
}

impl Script {
    fn new(d: u16, start: i32, step: i32, target: i32) -> Script {
        let mut file = vec![1, 0];
        file.extend(d.to_be_bytes());
        file.push(5);
        file.extend([start, step, target].map(i32::to_be_bytes).concat());
        Script { file }
    }

    fn full(mut self, value: u32, mask: u16, word: u16) -> Script {
        self.file.push(2);
        self.file.extend(value.to_be_bytes());
        self.file.extend(mask.to_be_bytes());
        self.file.extend(word.to_be_bytes());
        self
    }

    fn word(self, word: u16) -> Script {
        self.full(0, 0, word)
    }

    fn value(self, word: u16, value: i64) -> Script {
        self.full(float_of(value), 0, word)
    }

    fn times(mut self, count: usize, word: u16) -> Script {
        for _ in 0..count {
            self = self.word(word);
        }
        self
    }

    fn listing(mut self) -> Result<Vec<String>, String> {
        self.file.push(0);
        listing(&self.file)
    }

    /// Expects the last scan's line to be this.
    fn last(self, expected: &str) -> Outcome {
        let lines = self.listing()?;
        same(lines[lines.len() - 2].as_str(), expected)
    }
}

/// The listing, once the promises are found kept.
fn listing(file: &[u8]) -> Result<Vec<String>, String> {
    let run = drive::run(file, &mut Cover::default());
    if let Some(journal) = &run.journal {
        journal.check()?;
    }
    let text = String::from_utf8(run.listing).map_err(|e| e.to_string())?;
    Ok(text.lines().map(str::to_string).collect())
}

const EXAMPLE_FILE: &str = "01 00 0005, 05 00000007 0000000A 00000007, 02 0000000000000000, \
    02 0000000000000190, 02 0000000000000190, 02 0000000000000003, 00";
const EXAMPLE_LISTING: &str = "scan 40a00000000c0000 ---- ---- ----
scan 40a00000000807ff 0190 ---- ----
scan 40a00000008d0190 ---- 0190 0190
scan 00000000008a0003 0003 0003 0003
end
";

fn worked_example() -> Outcome {
    let run = drive::run(&bytes(EXAMPLE_FILE), &mut Cover::default());
    same(String::from_utf8_lossy(&run.listing).as_ref(), EXAMPLE_LISTING)
}

fn rounding() -> Outcome {
    same(round(7, 5), 5)?;
    same(round(-5, 10), -10)?;
    same(round(-2, 5), 0)?;
    same(round(8, 5), 10)?;
    same(round(-4_000_000, 1), -4_000_000)?;
    same(round(1, 2), 2)
}

fn floats() -> Outcome {
    same(float_of(0), 0)?;
    same(float_of(-10), 0xc120_0000)?;
    for n in [0, 1, -1, 14_975, 16_777_215, -16_777_215, 8_388_608] {
        same(whole(float_of(n)), Some(n))?;
    }
    same(whole(0x8000_0000), Some(0))?;
    // 16,777,216 both ways, infinities, NaNs, fractions, the smallest of all.
    let not_whole = [
        0x4b80_0000, 0xcb80_0000, 0x7f80_0000, 0xff80_0000, 0x7fc0_0000, 0x7f80_0001, 0xffff_ffff, 0x3f00_0000,
        0x4030_a3d7, 0x3f7f_ffff, 0x4aff_ffff, 0x0000_0001, 0x8000_0001,
    ];
    for bits in not_whole {
        same(whole(bits), None)?;
    }
    // The bits' reading agrees with float arithmetic on many floats.
    let mut bits = 1u32;
    for _ in 0..200_000 {
        bits = bits.wrapping_mul(0x0019_660d).wrapping_add(0x3c6e_f35f);
        let float = f32::from_bits(bits);
        let plain = float.is_finite() && float.fract() == 0.0 && float.abs() < 16_777_216.0;
        same(whole(bits), plain.then_some(float as i64))?;
    }
    Ok(())
}

fn orders() -> Outcome {
    let order = |n| Order::from_setting(n).ok_or("no such order".to_string());
    same(order(3)?.float_to_bytes(0x4030_a3d7).to_vec(), bytes("D7 A3 30 40"))?;
    same(order(1)?.float_to_bytes(float_of(-10)).to_vec(), bytes("20 C1 00 00"))?;
    let block = Block { value: 0x1122_3344, word2: 0x5566, word3: 0x7788 };
    let images = ["1122334455667788", "2211443366558877", "3344112255667788", "4433221166558877"];
    for (n, image) in images.iter().enumerate() {
        let order = order(n as u8)?;
        same(order.block_to_image(block).to_vec(), bytes(image))?;
        same(order.image_to_block(order.block_to_image(block)), block)?;
    }
    same(Order::from_setting(4).is_none(), true)
}

fn limit_of_zero() -> Outcome {
    // Selected is the rounded gross; bit 5 is the centre of zero.
    Script::new(1, 300, 1, 300).word(401).word(401).last("scan 0000000000290191 ---- 0191 0191")?;
    Script::new(1, 301, 1, 301).word(401).word(401).last("scan 4396800000098001 ---- 8001 0191")?;
    Script::new(1, -300, 1, -300).word(404).word(404).last("scan 0000000000290194 ---- 0194 0194")?;
    Script::new(1, -301, 1, -301).word(404).word(404).last("scan c396800000098001 ---- 8001 0194")
}

fn tare_below_zero() -> Outcome {
    Script::new(1, -1, 1, -1).word(400).word(400).last("scan bf80000000098001 ---- 8001 0190")?;
    // Tare at gross 0 is done, and tare stays 0.
    Script::new(1, 0, 1, 0).word(403).word(403).last("scan 0000000000290193 ---- 0193 0193")
}

fn patience() -> Outcome {
    // Taken in the first scan; the fiftieth after it is the last.
    let long = || Script::new(1, 0, 1, 4_000_000).word(400);
    long().times(49, 400).last("scan 42480000004807ff ---- ---- ----")?;
    long().times(50, 400).last("scan 424c0000004d8002 ---- 8002 0190")?;
    // On a ramp that stops just in time, the fiftieth tend is done.
    Script::new(1, 0, 1, 50).word(400).times(50, 400).last("scan 42480000008d0190 ---- 0190 0190")
}

fn weight_test() -> Outcome {
    let begun = || Script::new(1, 100, 1, 100).word(440).word(440);
    begun().last("scan 42c80000000907fd ---- 07fd ----")?;
    // A bad value fails the second step at once; retry with a good one mends it.
    begun().value(2002, 0).last("scan 42c80000000e8020 ---- 8020 ----")?;
    begun().value(2002, 15_001).last("scan 42c80000000e8020 ---- 8020 ----")?;
    let mended = || begun().value(2003, -1).value(2005, 40);
    mended().last("scan 42c80000000a07ff ---- ---- ----")?;
    mended().word(2005).last("scan 42c80000000f01b8 ---- 01b8 01b8")?;
    // Deviation is gross - empty - value.
    mended().word(2005).word(1800).last("scan c220000000080708 0708 0708 0708")?;
    // Only this scan's value counts; skip and a repeated next do nothing.
    begun().value(2002, 0).value(2002, 7).last("scan 42c80000000a8020 ---- ---- ----")?;
    begun().word(2006).word(2005).last("scan 42c80000000907fd ---- ---- ----")?;
    // A step word's mask is not looked at, its channel bits are part of the word.
    begun().full(float_of(1), 0xffff, 2002).last("scan 42c80000000d07ff ---- ---- ----")?;
    begun().full(float_of(1), 0, 2002 | 0x0800).last("scan 42c80000000d07fd ---- ---- ----")
}

fn failed_first_step() -> Outcome {
    let failed = || Script::new(1, 0, 1, 60).word(440).times(50, 440);
    failed().last("scan 424c0000004d8020 ---- 8020 ----")?;
    failed().word(2002).last("scan 4250000000498020 ---- ---- ----")?;
    failed().word(2005).last("scan 42500000004907ff ---- ---- ----")?;
    // The load arrives at 60 in the sixtieth scan, and the next one finds it still.
    failed().times(10, 2005).last("scan 42700000000e07fd ---- 07fd ----")
}

fn cancel() -> Outcome {
    let cancelled = || Script::new(1, 0, 1, 1000).word(400).word(2004);
    cancelled().last("scan 40000000004807d4 ---- ---- ----")?;
    cancelled().word(2004).last("scan 40400000004d8010 ---- 8010 0190")?;
    // The word written beside 8010h is judged in the scan after.
    cancelled().word(3).last("scan 40400000004d8010 ---- 8010 0190")?;
    cancelled().word(3).word(3).last("scan 40800000004a0003 0003 0003 0003")?;
    // The cancel itself stays the compared word, so it is not judged again.
    cancelled().word(2004).word(2004).last("scan 4080000000498010 ---- ---- ----")
}

fn cancel_meets_completion() -> Outcome {
    let met = || Script::new(1, 7, 1, 7).word(403).word(2004);
    met().last("scan 40e0000000890193 ---- 0193 0193")?;
    met().word(2004).last("scan 40e00000008e8001 07d4 8001 07d4")
}

fn judging() -> Outcome {
    let new = || Script::new(10, 0, 1, 0);
    // Word 0 is the compared word of a new board; later it is a report like any other.
    new().word(0).last("scan 00000000002c0000 ---- ---- ----")?;
    new().word(1).word(0).last("scan 00000000002a0000 0000 0000 0000")?;
    for (mask, word, response) in [
        (0, 0x8000, "8001"),
        (0, 0x0fff, "8001"),
        (2, 4, "8001"),
        (1, 4, "8004"),
        (0, 2047, "8004"),
        (0, 2045, "8004"),
        (1, 2006, "8001"),
    ] {
        new().full(0, mask, word).last(&format!("scan 00000000002d{response} {word:04x} {response} {word:04x}"))?;
    }
    // Preset tare: not whole, out of range, and minus zero, which is 0.
    for bits in [0x3f00_0000, 0x7fc0_0000, float_of(-1), float_of(15_001), 0x4b80_0000] {
        new().full(bits, 0, 201).last("scan 00000000002d8008 00c9 8008 00c9")?;
    }
    new().full(0x8000_0000, 0, 201).word(201).last("scan 00000000002900c9 ---- 00c9 00c9")?;
    new().value(201, 15_000).word(201).word(6).last("scan 466a600000ae0006 0006 0006 0006")
}

fn reads() -> Outcome {
    // Order 3, d 10, load -5: the rounded gross is -10, the gross -5.
    let file = "01 03 000A, 05 FFFFFFFB 00000001 FFFFFFFB, 04 0300 01 01, 04 0300 01 05, 04 0300 01 06, \
        04 0300 01 00, 04 0300 01 08, 04 0300 02 08, 04 0301 02 08, 00";
    let expected = [
        "read 000020c1", "read 0000a0c0", "read 00000000", "read no 15", "read no 15", "read no 14", "read no 13", "end",
    ];
    same(listing(&bytes(file))?, expected.map(str::to_string).to_vec())
}

fn faults() -> Outcome {
    let head = "01 00 0001, 05 00000000 00000001 00000000,";
    let ends = |text: &str, last: &str| {
        let lines = listing(&bytes(text))?;
        same(lines.last().map(String::as_str), Some(last)).map_err(|why| format!("{text}: {why}"))
    };
    ends("", "fault 32 at 0")?;
    ends("03", "fault 31 at 0")?;
    ends("00", "fault 33 at 0")?;
    ends("05", "fault 33 at 0")?;
    ends("01 00 00", "fault 32 at 0")?;
    ends("01 04 0003", "fault 41 at 0")?;
    ends("01 03 0003", "fault 42 at 0")?;
    ends("01 03 07D0", "fault 42 at 0")?;
    ends("01 00 0001", "fault 32 at 4")?;
    ends("01 00 0001 02", "fault 33 at 4")?;
    ends("01 00 0001 05 003D0901 00000001 00000000", "fault 44 at 4")?;
    ends("01 00 0001 05 003D0900 000003E9 00000000", "fault 44 at 4")?;
    ends("01 00 0001 05 003D0900 000003E8 80000000", "fault 44 at 4")?;
    ends(head, "fault 32 at 17")?;
    ends(&format!("{head} 02 00000000"), "fault 32 at 17")?;
    ends(&format!("{head} 05"), "fault 33 at 17")?;
    ends(&format!("{head} 04 0300 01 01 06"), "fault 31 at 22")?;
    ends(&format!("{head} 00"), "end")?;
    // A byte after the end takes the end's line away.
    same(listing(&bytes(&format!("{head} 00 00")))?, vec!["fault 33 at 18".to_string()])?;
    same(listing(&vec![1; 65_537])?, vec!["fault 34 at 0".to_string()])?;
    same(listing(&vec![3; 65_536])?, vec!["fault 31 at 0".to_string()])
}

/// A journal of one command that never gets a response, and of one that was tampered with.
fn promises() -> Outcome {
    let nothing = After { open: None, zero: 0, tare: 0, deviation: 0 };
    let open = After { open: Some(400), ..nothing };
    let scan = |response: u16, taken, posted, closed, load| {
        let mut read = [0; 8];
        read[6..].copy_from_slice(&response.to_be_bytes());
        Some(ScanEntry { written: [0; 8], read, taken, posted, closed, load })
    };
    let begun = || vec![
        Entry { scan: None, after: nothing },
        Entry { scan: scan(2047, Some(400), None, None, 7), after: open },
    ];
    let verdict = |entries| Journal { order: 0, entries }.check().err().unwrap_or_default();
    let breaks = |entries, promise: &str| {
        let why = verdict(entries);
        if why.contains(promise) { Ok(()) } else { Err(format!("{promise} was not found broken: {why:?}")) }
    };
    let with = |entry| {
        let mut entries = begun();
        entries.push(entry);
        entries
    };
    same(verdict(begun()), String::new())?;

    let tared = After { tare: 7, ..nothing };
    same(verdict(with(Entry { scan: scan(400, None, Some(400), Some(400), 7), after: tared })), String::new())?;
    breaks(with(Entry { scan: scan(400, None, Some(400), Some(400), 8), after: tared }), "book")?;
    breaks(with(Entry { scan: scan(0x8001, None, Some(0x8001), Some(400), 7), after: tared }), "book")?;
    breaks(with(Entry { scan: None, after: After { zero: 1, ..open } }), "book")?;
    breaks(with(Entry { scan: scan(403, None, Some(403), Some(403), 7), after: tared }), "account")?;
    breaks(with(Entry { scan: scan(2047, Some(3), None, None, 7), after: open }), "account")?;
    breaks(with(Entry { scan: scan(2047, None, None, None, 7), after: nothing }), "account")?;

    let silent = |count: usize| {
        let mut entries = begun();
        entries.extend((0..count).map(|_| Entry { scan: scan(2047, None, None, None, 7), after: open }));
        entries
    };
    same(verdict(silent(49)), String::new())?;
    breaks(silent(50), "progress")
}

/// Many made files and their damaged copies: the promises are kept, everything is reached,
/// and the listing is the same whether anybody looks on or not.
fn the_maker_keeps_promises() -> Outcome {
    let mut cover = Cover::default();
    for seed in 1..=300 {
        let file = make::make(seed);
        for copy in [file.clone(), make::damage(seed, &file)] {
            let run = drive::run(&copy, &mut cover);
            if let Some(journal) = &run.journal {
                journal.check().map_err(|why| format!("seed {seed}: {why}"))?;
            }
            let plain = drive::list(&copy);
            if plain != run.listing {
                return Err(compare::describe(&format!("seed {seed}, the plain listing last"), &copy, &run.listing, &plain));
            }
        }
        if seed % 250 == 17 {
            same(file.len(), drive::LONGEST_FILE)?;
        }
        same(make::damage(seed, &file) == file, false)?;
    }
    let (lines, full) = cover.lines();
    if !full {
        return Err(format!("300 seeds do not reach everything:\n{lines}"));
    }
    let shown = compare::describe("x", &[1, 2], b"a\nb\n", b"a\nc\n");
    same(shown.as_str(), "difference: x, 2 bytes, line 2\n0102\npeer:  \"b\"\ndrive: \"c\"")
}
