//! The structs and calls of `include/dali_c.h`, by its names. All structs are bytes, without a gap, but those of a port.
#![allow(non_camel_case_types, missing_docs)]

macro_rules! structs {
    ($align:literal: $($name:ident $size:literal { $($field:ident: $kind:ty,)* })*) => {$(
        #[repr(C)]
        #[derive(Clone, Copy, PartialEq, Eq)]
        pub struct $name { $(pub $field: $kind,)* }
        const _: () = assert!(core::mem::size_of::<$name>() == $size && core::mem::align_of::<$name>() == $align);
    )*};
}

structs! {
    1:
    dali_random 3 { high: u8, middle: u8, low: u8, }
    dali_pair 4 { short_address: u8, random_address: dali_random, }
    dali_record 5 { kind: u8, pair: dali_pair, }
    dali_pairs 257 { count: u8, pairs: [dali_pair; 64], }
    dali_records 516 { first: u8, last: u8, reserved: dali_pairs, enrolled: dali_pairs, }
    dali_order 12 {
        kind: u8, priority: u8, address_byte: u8, opcode_byte: u8, asks: u8, half: u8, record: dali_record, reason: u8,
    }
    dali_machine 640 { state: [u8; 124], records: dali_records, }
    dali_table 257 { count: u8, gear: [dali_pair; 64], }
    dali_progress 3 { phase: u8, short_address: u8, gear: u8, }
    dali_passes 3 { quiet: u8, has_committed: u8, has_heard: u8, }
    dali_levels 40 { is_low: [u8; 40], }
    dali_receiver 10 { bytes: [u8; 10], }
    dali_told 8 { kind: u8, bytes: [u8; 3], lasted: [u8; 4], }
    dali_window 16 { bytes: [u8; 16], }
    dali_heard 3 { is_over: u8, input: u8, byte: u8, }
}

structs! {
    8:
    dali_port 112 { words: [u64; 14], }
}

structs! {
    4:
    dali_event 16 { at: u32, is_low: u8, next: u8, input: u8, byte: u8, read: dali_told, }
}

extern "C" {
    pub fn dali_c_version() -> u8;
    pub fn dali_records_new(records: *mut dali_records, first: u8, last: u8) -> u8;
    pub fn dali_records_add(records: *mut dali_records, addition: *const dali_record) -> u8;
    pub fn dali_machine_new(machine: *mut dali_machine, records: *const dali_records) -> u8;
    pub fn dali_machine_step(machine: *mut dali_machine, input: u8, byte: u8, order: *mut dali_order) -> u8;
    pub fn dali_machine_check(machine: *const dali_machine) -> u8;
    pub fn dali_machine_go(machine: *mut dali_machine, input: u8, byte: u8, order: *mut dali_order) -> u8;
    pub fn dali_machine_due(machine: *const dali_machine, due: *mut u8) -> u8;
    pub fn dali_machine_last(machine: *const dali_machine, order: *mut dali_order) -> u8;
    pub fn dali_machine_records(machine: *const dali_machine, records: *mut dali_records) -> u8;
    pub fn dali_machine_table(machine: *const dali_machine, table: *mut dali_table) -> u8;
    pub fn dali_machine_progress(machine: *const dali_machine, progress: *mut dali_progress) -> u8;
    pub fn dali_machine_stop(machine: *mut dali_machine, input: u8, byte: u8, order: *mut dali_order) -> u8;
    pub fn dali_passes_new(passes: *mut dali_passes) -> u8;
    pub fn dali_passes_step(passes: *mut dali_passes, input: u8, order: *const dali_order, next: *mut u8) -> u8;
    pub fn dali_levels_new(levels: *mut dali_levels, address_byte: u8, opcode_byte: u8) -> u8;
    pub fn dali_window_new(window: *mut dali_window) -> u8;
    pub fn dali_window_edge(window: *mut dali_window, is_low: u8, micros: u32) -> u8;
    pub fn dali_window_time(window: *mut dali_window, micros: u32, heard: *mut dali_heard) -> u8;
    pub fn dali_receiver_new(receiver: *mut dali_receiver) -> u8;
    pub fn dali_receiver_edge(receiver: *mut dali_receiver, is_low: u8, micros: u32, told: *mut dali_told) -> u8;
    pub fn dali_receiver_time(receiver: *mut dali_receiver, micros: u32, told: *mut dali_told) -> u8;
    pub fn dali_port_new(port: *mut dali_port, is_low: u8, now: u32, event: *mut dali_event) -> u8;
    pub fn dali_port_send(port: *mut dali_port, order: *const dali_order, drawn: u32, now: u32, event: *mut dali_event) -> u8;
    pub fn dali_port_edge(port: *mut dali_port, is_low: u8, now: u32, event: *mut dali_event) -> u8;
    pub fn dali_port_lost(port: *mut dali_port, is_low: u8, now: u32, event: *mut dali_event) -> u8;
    pub fn dali_port_timer(port: *mut dali_port, now: u32, event: *mut dali_event) -> u8;
}
