//! The ramp, the one weigher that a drive file can ask for (docs/RULES.md, section 1).

pub const CAPACITY: i64 = 15_000;
pub const PATIENCE: u32 = 50;
const LOAD_LIMIT: i64 = 4_000_000;
const STEP_LIMIT: i64 = 1_000;

/// An order given to the weigher.
#[derive(Clone, Copy, Debug, PartialEq)]
pub enum Task {
    TareStill,
    ZeroStill,
    TareNow,
    ZeroNow,
    ClearTare,
    Preset(i64),
    Settle,
}

impl Task {
    fn waits(self) -> bool {
        matches!(self, Task::TareStill | Task::ZeroStill | Task::Settle)
    }
}

/// What a tend tells.
#[derive(Clone, Copy, Debug, PartialEq)]
pub enum Told {
    Idle,
    Waiting,
    Done,
    NotPossible,
    Late,
}

#[derive(Clone, Copy, Debug)]
struct Standing {
    task: Task,
    left: u32,
}

#[derive(Clone, Debug)]
pub struct Ramp {
    load: i64,
    step: i64,
    target: i64,
    zero: i64,
    tare: i64,
    still: bool,
    standing: Option<Standing>,
}

impl Ramp {
    pub fn new(start: i32, step: i32, target: i32) -> Result<Ramp, u8> {
        let (start, step, target) = (start as i64, step as i64, target as i64);
        let outside = start.abs() > LOAD_LIMIT || target.abs() > LOAD_LIMIT;
        if outside || !(1..=STEP_LIMIT).contains(&step) {
            return Err(44);
        }
        Ok(Ramp { load: start, step, target, zero: 0, tare: 0, still: false, standing: None })
    }

    pub fn load(&self) -> i64 {
        self.load
    }

    pub fn zero(&self) -> i64 {
        self.zero
    }

    pub fn tare(&self) -> i64 {
        self.tare
    }

    pub fn gross(&self) -> i64 {
        self.load - self.zero
    }

    pub fn net(&self) -> i64 {
        self.gross() - self.tare
    }

    pub fn is_still(&self) -> bool {
        self.still
    }

    /// The tends that the standing order has left. Only the maker of files asks for this.
    pub fn tends_left(&self) -> Option<u32> {
        self.standing.map(|s| s.left)
    }

    /// The ramp knows all seven orders, so 22 cannot come from here.
    pub fn begin(&mut self, task: Task) -> Result<(), u8> {
        if self.standing.is_some() {
            return Err(21);
        }
        if let Task::Preset(v) = task {
            if !(0..=CAPACITY).contains(&v) {
                return Err(23);
            }
        }
        self.standing = Some(Standing { task, left: PATIENCE });
        Ok(())
    }

    pub fn drop_order(&mut self) -> Result<(), u8> {
        match self.standing.take() {
            Some(_) => Ok(()),
            None => Err(24),
        }
    }

    pub fn tend(&mut self) -> Told {
        self.sense();
        let Some(mut standing) = self.standing.take() else { return Told::Idle };
        standing.left -= 1;
        // The ramp never has a fault, so stillness alone decides.
        if self.still || !standing.task.waits() {
            return if self.carry_out(standing.task) { Told::Done } else { Told::NotPossible };
        }
        if standing.left == 0 {
            return Told::Late;
        }
        self.standing = Some(standing);
        Told::Waiting
    }

    /// Moves the load towards the target and not past it. The tend that arrives is still a move.
    fn sense(&mut self) {
        let way = (self.target - self.load).clamp(-self.step, self.step);
        self.load += way;
        self.still = way == 0;
    }

    /// Carries the order out if it is possible, and tells whether it was.
    fn carry_out(&mut self, task: Task) -> bool {
        match task {
            Task::TareStill | Task::TareNow => {
                if self.gross() < 0 {
                    return false;
                }
                self.tare = self.gross();
            }
            Task::ZeroStill | Task::ZeroNow => {
                if 50 * self.load.abs() > CAPACITY {
                    return false;
                }
                self.zero = self.load;
                self.tare = 0;
            }
            Task::ClearTare => self.tare = 0,
            Task::Preset(v) => self.tare = v,
            Task::Settle => {}
        }
        true
    }
}
