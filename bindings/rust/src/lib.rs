//! The machine of an application controller, which gives short addresses to DALI control gear, over `libdali_c.a`.
//!
//! Safe types by the names of `include/dali_c.h`, which says what each call takes and answers. Their bytes are private, so each holds what
//! a call left in it: `Machine::step` needs no test of the struct. Nothing here takes memory, and `std` is not needed.
#![no_std]
#![warn(missing_docs)]

pub mod sys;

use core::mem::MaybeUninit;
pub use sys::{dali_pair as Pair, dali_random as Random, dali_record as Record};

/// `DALI_C_VERSION` of the header that these types are of.
pub const VERSION: u8 = 106;

/// The kinds of a record: `DALI_RESERVE`, `DALI_ENROL`, `DALI_RELEASE`.
pub const RECORD_KINDS: [u8; 3] = [1, 2, 3];

macro_rules! codes {
    ($(#[$about:meta])* $name:ident { $($(#[$what:meta])* $variant:ident = $code:literal,)* }) => {
        $(#[$about])*
        #[derive(Clone, Copy, Debug, PartialEq, Eq)]
        #[repr(u8)]
        #[allow(missing_docs)]
        pub enum $name { $($(#[$what])* $variant = $code,)* }

        impl $name {
            fn of(code: u8) -> $name {
                match code {
                    $($code => $name::$variant,)*
                    // No call of this version answers it.
                    _ => panic!("the library is of another version"),
                }
            }
        }
    };
}

codes! {
    /// Why a call did nothing (`enum dali_status`).
    Status {
        NotDue = 1, NoMachine = 2, BadArgument = 3, NoRecords = 4, DoesNotFit = 5, AddressTaken = 6, RandomTaken = 7, NotReserved = 8,
        OtherVersion = 9, Backwards = 10, Busy = 11,
    }
}
codes! {
    /// Which frame of a send-twice command a frame is (`enum dali_half`).
    Half { Whole = 0, FirstHalf = 1, SecondHalf = 2, }
}
codes! {
    /// Why a commissioning is over (`enum dali_end`).
    End { AllFound = 1, BlockFull = 2, GaveUp = 3, }
}
codes! {
    /// Why a machine has stopped (`enum dali_fault`).
    Fault { Conflict = 1, Store = 2, }
}
codes! {
    /// What a machine waits for (`enum dali_due`).
    Due { Start = 0, Bus = 1, Store = 2, Nothing = 3, }
}
codes! {
    /// What a machine does (`enum dali_phase`).
    Phase { NotStarted = 0, Asking = 1, Searching = 2, Programming = 3, Ending = 4, Over = 5, }
}
codes! {
    /// What is to be done after a step (`enum dali_next`).
    Next { Order = 0, Run = 1, Ready = 2, Ask = 3, Ended = 4, }
}
codes! {
    /// What a receiver of edges tells, and a port (`enum dali_frame_kind`).
    FrameKind { NoFrame = 0, ForwardFrame = 1, BackwardFrame = 2, DeviceFrame = 3, DamagedFrame = 4, NoPower = 5, }
}

fn done(status: u8) -> Result<(), Status> {
    if status == 0 { Ok(()) } else { Err(Status::of(status)) }
}

/// What a call leaves in a struct, if it answers `DALI_OK`.
fn made<T>(call: impl FnOnce(*mut T) -> u8) -> Result<T, Status> {
    let mut it = MaybeUninit::zeroed();
    done(call(it.as_mut_ptr()))?;
    // SAFETY: all structs are bytes, of which any are valid.
    Ok(unsafe { it.assume_init() })
}

/// What a machine is told (`enum dali_input`).
#[derive(Clone, Copy, Debug, PartialEq, Eq)]
#[allow(missing_docs)]
pub enum Input {
    Start,
    HeardSilence,
    HeardByte(u8),
    HeardDamaged,
    Destroyed,
    Lapsed,
    Committed,
    CommitFailed,
    Survey,
}

impl Input {
    fn code(self) -> (u8, u8) {
        match self {
            Input::Start => (0, 0),
            Input::HeardSilence => (1, 0),
            Input::HeardByte(byte) => (2, byte),
            Input::HeardDamaged => (3, 0),
            Input::Destroyed => (4, 0),
            Input::Lapsed => (5, 0),
            Input::Committed => (6, 0),
            Input::CommitFailed => (7, 0),
            Input::Survey => (8, 0),
        }
    }
}

/// One order, as a machine gave it.
#[derive(Clone, Copy, PartialEq, Eq)]
pub struct Order(sys::dali_order);

/// What a machine orders (`enum dali_order_kind`).
#[allow(missing_docs)]
pub enum OrderKind {
    NothingOrdered,
    Put { priority: u8, address_byte: u8, opcode_byte: u8, asks: bool, half: Half },
    Commit(Record),
    Done(End),
    Halt(Fault),
}

impl Order {
    /// What is ordered.
    pub fn kind(&self) -> OrderKind {
        let it = &self.0;
        match it.kind {
            0 => OrderKind::NothingOrdered,
            1 => OrderKind::Put {
                priority: it.priority,
                address_byte: it.address_byte,
                opcode_byte: it.opcode_byte,
                asks: it.asks != 0,
                half: Half::of(it.half),
            },
            2 => OrderKind::Commit(it.record),
            3 => OrderKind::Done(End::of(it.reason)),
            _ => OrderKind::Halt(Fault::of(it.reason)),
        }
    }
}

/// The records of one controller.
#[derive(Clone, PartialEq, Eq)]
pub struct Records(sys::dali_records);

impl Records {
    /// Those of a controller that has kept none, for a block of short addresses.
    pub fn new(first: u8, last: u8) -> Result<Records, Status> {
        // SAFETY: in this file each pointer is to a whole struct of its own.
        made(|it| unsafe { sys::dali_records_new(it, first, last) }).map(Records)
    }

    /// Adds a record that was kept: all of them, oldest first.
    pub fn add(&mut self, addition: &Record) -> Result<(), Status> {
        done(unsafe { sys::dali_records_add(&mut self.0, addition) })
    }

    /// The pairs that are reserved, oldest first.
    pub fn reserved(&self) -> &[Pair] {
        &self.0.reserved.pairs[..self.0.reserved.count as usize]
    }

    /// The pairs that are enrolled, oldest first.
    pub fn enrolled(&self) -> &[Pair] {
        &self.0.enrolled.pairs[..self.0.enrolled.count as usize]
    }
}

/// A machine between two calls.
#[derive(Clone)]
pub struct Machine(sys::dali_machine);

impl Machine {
    /// One that has not started, with these records.
    pub fn new(records: &Records) -> Result<Machine, Status> {
        // SAFETY: dali_c_version takes nothing.
        if unsafe { sys::dali_c_version() } != VERSION {
            return Err(Status::OtherVersion);
        }
        made(|it| unsafe { sys::dali_machine_new(it, &records.0) }).map(Machine)
    }

    /// Tells it what happened, and gives its next order.
    pub fn step(&mut self, input: Input) -> Result<Order, Status> {
        let (code, byte) = input.code();
        // SAFETY: its bytes are private, so they are as a call left them that answered DALI_OK.
        made(|order| unsafe { sys::dali_machine_go(&mut self.0, code, byte, order) }).map(Order)
    }

    /// The same, but ends the run at the next moment at which nothing is outstanding.
    pub fn stop(&mut self, input: Input) -> Result<Order, Status> {
        let (code, byte) = input.code();
        made(|order| unsafe { sys::dali_machine_stop(&mut self.0, code, byte, order) }).map(Order)
    }

    /// How far it is.
    pub fn progress(&self) -> Result<Progress, Status> {
        let it: sys::dali_progress = made(|it| unsafe { sys::dali_machine_progress(&self.0, it) })?;
        Ok(Progress { phase: Phase::of(it.phase), short_address: (it.short_address < 64).then_some(it.short_address), gear: it.gear })
    }

    /// What it waits for.
    pub fn due(&self) -> Result<Due, Status> {
        made(|it| unsafe { sys::dali_machine_due(&self.0, it) }).map(Due::of)
    }

    /// What it ordered last.
    pub fn last(&self) -> Result<Order, Status> {
        made(|it| unsafe { sys::dali_machine_last(&self.0, it) }).map(Order)
    }

    /// Its records.
    pub fn records(&self) -> Result<Records, Status> {
        made(|it| unsafe { sys::dali_machine_records(&self.0, it) }).map(Records)
    }
}

/// How far a machine is: the short address that it is about, and how many gear are enrolled.
#[derive(Clone, Copy, Debug, PartialEq, Eq)]
#[allow(missing_docs)]
pub struct Progress {
    pub phase: Phase,
    pub short_address: Option<u8>,
    pub gear: u8,
}

/// The runs of a controller, one machine after the other.
#[derive(Clone, PartialEq, Eq)]
pub struct Passes(sys::dali_passes);

impl Default for Passes {
    fn default() -> Passes {
        Passes::new()
    }
}

impl Passes {
    /// Before the first run.
    pub fn new() -> Passes {
        let mut it = Passes(sys::dali_passes { quiet: 0, has_committed: 0, has_heard: 0 });
        unsafe { sys::dali_passes_new(&mut it.0) };
        it
    }

    /// A machine was told this, and has ordered that: after each step.
    pub fn step(&mut self, input: Input, order: &Order) -> Result<Next, Status> {
        made(|next| unsafe { sys::dali_passes_step(&mut self.0, input.code().0, &order.0, next) }).map(Next::of)
    }
}

/// The levels of a forward frame, half bit by half bit: whether the bus is low.
pub fn levels(address_byte: u8, opcode_byte: u8) -> [bool; 40] {
    let mut it = sys::dali_levels { is_low: [0; 40] };
    unsafe { sys::dali_levels_new(&mut it, address_byte, opcode_byte) };
    it.is_low.map(|is_low| is_low != 0)
}

/// What is heard after a forward frame.
#[derive(Clone)]
pub struct Window(sys::dali_window);

impl Default for Window {
    fn default() -> Window {
        Window::new()
    }
}

impl Window {
    /// One at the last edge of the own forward frame.
    pub fn new() -> Window {
        let mut it = Window(sys::dali_window { bytes: [0; 16] });
        unsafe { sys::dali_window_new(&mut it.0) };
        it
    }

    /// An edge, so long after the one before.
    pub fn edge(&mut self, is_low: bool, micros: u32) -> Result<(), Status> {
        done(unsafe { sys::dali_window_edge(&mut self.0, is_low as u8, micros) })
    }

    /// So long after the last edge: what a machine is told, once the window is over.
    pub fn time(&mut self, micros: u32) -> Result<Option<Input>, Status> {
        let heard: sys::dali_heard = made(|it| unsafe { sys::dali_window_time(&mut self.0, micros, it) })?;
        Ok(match (heard.is_over, heard.input) {
            (0, _) => None,
            (_, 1) => Some(Input::HeardSilence),
            (_, 2) => Some(Input::HeardByte(heard.byte)),
            _ => Some(Input::HeardDamaged),
        })
    }
}

/// A frame that a receiver tells, with its bytes, and how many microseconds it took.
#[allow(missing_docs)]
pub struct Told {
    pub kind: FrameKind,
    pub bytes: [u8; 3],
    pub lasted: u32,
}

fn told_of(it: sys::dali_told) -> Told {
    Told { kind: FrameKind::of(it.kind), bytes: it.bytes, lasted: u32::from_le_bytes(it.lasted) }
}

/// Reads the edges of the bus.
#[derive(Clone)]
pub struct Receiver(sys::dali_receiver);

impl Default for Receiver {
    fn default() -> Receiver {
        Receiver::new()
    }
}

impl Receiver {
    /// One of a bus that has been high for the time of a stop condition.
    pub fn new() -> Receiver {
        let mut it = Receiver(sys::dali_receiver { bytes: [0; 10] });
        unsafe { sys::dali_receiver_new(&mut it.0) };
        it
    }

    /// An edge, so long after the one before. Tells the frame that had ended before it.
    pub fn edge(&mut self, is_low: bool, micros: u32) -> Result<Told, Status> {
        made(|it| unsafe { sys::dali_receiver_edge(&mut self.0, is_low as u8, micros, it) }).map(told_of)
    }

    /// So long after the last edge. Tells the frame that has ended by now, once.
    pub fn time(&mut self, micros: u32) -> Result<Told, Status> {
        made(|it| unsafe { sys::dali_receiver_time(&mut self.0, micros, it) }).map(told_of)
    }
}
