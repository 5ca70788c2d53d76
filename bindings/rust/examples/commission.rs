//! Commissions simulated gear until the controller is ready: `cargo run --example commission -- GEAR SEED`.

use dali_c::{levels, End, Input, Machine, Next, OrderKind, Passes, Receiver, FrameKind, Record, Records, Window};

const MASK24: u32 = 0xFF_FFFF;
const MOST_STEPS: u32 = 100_000;
/// From which step on the first run is ended early. Another one goes on from its records.
const STOP: u32 = 300;

#[derive(Clone, Copy, PartialEq)]
enum State {
    Disabled,
    Enabled,
    Withdrawn,
}

struct Gear {
    random: u32,
    search: u32,
    state: State,
    short: Option<u8>,
    half: Option<[u8; 2]>,
}

struct Bus {
    gear: Vec<Gear>,
    chance: u64,
    frames: u32,
}

impl Bus {
    fn draw(&mut self) -> u32 {
        loop {
            self.chance = self.chance.wrapping_mul(6364136223846793005).wrapping_add(1442695040888963407);
            let number = (self.chance >> 40) as u32;
            if number != MASK24 && self.gear.iter().all(|it| it.random != number) {
                return number;
            }
        }
    }

    /// What one gear answers to a frame.
    fn take(&mut self, at: usize, frame: [u8; 2]) -> Option<u8> {
        let drawn = if frame == [0xA7, 0] { self.draw() } else { 0 };
        let it = &mut self.gear[at];
        let is_twice = matches!(frame, [0xA5, _] | [0xA7, 0]);
        let is_second = is_twice && it.half == Some(frame);
        it.half = (is_twice && !is_second).then_some(frame);
        let (is_active, is_found) = (it.state != State::Disabled, it.random == it.search);
        match frame {
            [0xA1, 0] => it.state = State::Disabled,
            [0xA5, 0] if is_second => it.state = State::Enabled,
            [0xA5, 0xFF] if is_second && it.short.is_none() => it.state = State::Enabled,
            [0xA5, byte] if is_second && it.short.is_some_and(|short| 2 * short + 1 == byte) => it.state = State::Enabled,
            [0xA7, 0] if is_second && is_active => it.random = drawn,
            [0xA9, 0] if it.state == State::Enabled && it.random <= it.search => return Some(0xFF),
            [0xAB, 0] if it.state == State::Enabled && is_found => it.state = State::Withdrawn,
            [0xB1, byte] if is_active => it.search = it.search & 0x00_FFFF | (byte as u32) << 16,
            [0xB3, byte] if is_active => it.search = it.search & 0xFF_00FF | (byte as u32) << 8,
            [0xB5, byte] if is_active => it.search = it.search & 0xFF_FF00 | byte as u32,
            [0xB7, byte] if is_active && is_found && byte % 2 == 1 && byte < 0x80 => it.short = Some(byte / 2),
            [0xB9, byte] if is_active && it.short.is_some_and(|short| 2 * short + 1 == byte) => return Some(0xFF),
            [0xBB, 0] if is_active && is_found => return Some(it.short.map_or(0xFF, |short| 2 * short + 1)),
            [byte, opcode] if it.short.is_some_and(|short| 2 * short + 1 == byte) => match opcode {
                0xC2 => return Some((it.random >> 16) as u8),
                0xC3 => return Some((it.random >> 8) as u8),
                0xC4 => return Some(it.random as u8),
                _ => {}
            },
            _ => {}
        }
        None
    }

    /// Sends a frame. An answer goes through a window, by its edges.
    fn send(&mut self, frame: [u8; 2]) -> Input {
        self.frames += 1;
        let answers: Vec<u8> = (0..self.gear.len()).filter_map(|at| self.take(at, frame)).collect();
        match answers[..] {
            [] => heard(None),
            [byte] => heard(Some(byte)),
            _ => Input::HeardDamaged,
        }
    }
}

/// What a window tells of a byte, or of nothing.
fn heard(byte: Option<u8>) -> Input {
    let (mut window, mut since, mut was) = (Window::new(), 6_000, false);
    let bits = byte.into_iter().flat_map(|byte| std::iter::once(true).chain((0..8).rev().map(move |at| byte >> at & 1 == 1)));
    for is_low in bits.flat_map(|bit| [bit, !bit]).chain([false]) {
        if is_low != was {
            window.edge(is_low, since).unwrap();
            (since, was) = (0, is_low);
        }
        since += 417;
    }
    window.time(20_000).unwrap().expect("the window is over")
}

/// A receiver reads a frame from its levels.
fn is_read_back(frame: [u8; 2]) -> bool {
    let (mut receiver, mut since, mut was) = (Receiver::new(), 10_000, false);
    for is_low in levels(frame[0], frame[1]) {
        if is_low != was {
            receiver.edge(is_low, since).unwrap();
            (since, was) = (0, is_low);
        }
        since += 417;
    }
    let told = receiver.time(10_000).unwrap();
    told.kind == FrameKind::ForwardFrame && told.bytes[..2] == frame
}

fn main() {
    let words: Vec<u64> = std::env::args().skip(1).map(|it| it.parse().expect("a number")).collect();
    let gear = |_| Gear { random: MASK24, search: MASK24, state: State::Disabled, short: None, half: None };
    let mut bus = Bus { gear: (0..words[0]).map(gear).collect(), chance: words[1], frames: 0 };
    let mut store: Vec<Record> = Vec::new();
    let mut records = Records::new(0, 63).unwrap();
    let mut machine = Machine::new(&records).unwrap();
    let mut passes = Passes::new();
    let mut input = Input::Survey;
    let mut next = Next::Order;
    let mut is_first = true;
    for step in 0..MOST_STEPS {
        let order = if is_first && step >= STOP { machine.stop(input) } else { machine.step(input) }.unwrap();
        assert_eq!(machine.progress().unwrap().gear as usize, machine.records().unwrap().enrolled().len());
        next = passes.step(input, &order).unwrap();
        input = match order.kind() {
            OrderKind::Put { address_byte, opcode_byte, .. } => {
                assert!(is_read_back([address_byte, opcode_byte]));
                bus.send([address_byte, opcode_byte])
            }
            OrderKind::Commit(record) => {
                store.push(record);
                records.add(&record).unwrap();
                Input::Committed
            }
            OrderKind::Done(End::GaveUp) if is_first => {
                assert!(records.reserved().iter().all(|it| records.enrolled().contains(it)), "a gear is left reserved");
                (is_first, machine, passes) = (false, Machine::new(&records).unwrap(), Passes::new());
                Input::Survey
            }
            _ if next == Next::Run => {
                is_first = false;
                assert!(machine.records().unwrap() == records);
                machine = Machine::new(&records).unwrap();
                Input::Survey
            }
            _ => break,
        };
    }
    for pair in records.enrolled() {
        let random = &pair.random_address;
        let number = u32::from_be_bytes([0, random.high, random.middle, random.low]);
        let theirs = bus.gear.iter().filter(|it| it.short == Some(pair.short_address));
        assert!(theirs.map(|it| it.random).eq([number]), "a record names no gear, or two");
    }
    assert_eq!(records.enrolled().len(), bus.gear.len());
    println!("{next:?}: {} gear enrolled by {} frames and {} records", records.enrolled().len(), bus.frames, store.len());
}
