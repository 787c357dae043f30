//! The declarations of the headers in `include/`, name by name: `vandrexu.h`, `vandrexu_hosts.h`, `vandrexu_slots.h` and
//! `vandrexu_remote.h`. What a call does, what it is given and what it answers stands there; the crate `vandrexu` has it
//! in safe Rust.
//!
//! The build is told by `VANDREXU_LIB_DIR` in which folder libvandrexu_c.a lies. tests/header.rs compares each
//! constant, layout and function with the headers.
#![no_std]
#![allow(non_camel_case_types, missing_docs)]

use core::ffi::c_void;
use core::ptr;

/// The version of the header.
pub const VANDREXU_VERSION: &str = "0.1.0";

// ---- What a call answers

pub const VANDREXU_DONE: u32 = 0;
pub const VANDREXU_NO_QUEUE: u32 = 1;
pub const VANDREXU_NO_ROOM: u32 = 2;
pub const VANDREXU_NO_ENTRY: u32 = 3;
pub const VANDREXU_JOBS_FULL: u32 = 4;
pub const VANDREXU_NO_TICKET: u32 = 5;
pub const VANDREXU_CONFLICT: u32 = 6;
pub const VANDREXU_WRONG_STATE: u32 = 7;
pub const VANDREXU_CQ_FULL: u32 = 8;
pub const VANDREXU_NO_COMPLETION: u32 = 9;
pub const VANDREXU_BAD_BATCH: u32 = 10;
pub const VANDREXU_NO_MEMORY: u32 = 11;
pub const VANDREXU_AWUN_TOO_LARGE: u32 = 21;
pub const VANDREXU_ACWU_TOO_LARGE: u32 = 22;
pub const VANDREXU_BOUNDARY_BELOW_UNIT: u32 = 23;
pub const VANDREXU_OFFSET_PAST_BOUNDARY: u32 = 24;
pub const VANDREXU_BAD_BLOCKS: u32 = 25;
pub const VANDREXU_BAD_PAIRS: u32 = 26;
pub const VANDREXU_BAD_SQ_SIZE: u32 = 27;
pub const VANDREXU_BAD_CQ_SIZE: u32 = 28;
pub const VANDREXU_BAD_JOBS: u32 = 29;
pub const VANDREXU_BAD_CQS: u32 = 30;
pub const VANDREXU_NO_HANDLE: u32 = 101;
pub const VANDREXU_IN_USE: u32 = 102;
pub const VANDREXU_TOO_SMALL: u32 = 103;
pub const VANDREXU_NO_BLOCK: u32 = 104;
pub const VANDREXU_NOTHING_READY: u32 = 105;
pub const VANDREXU_BAD_ENTRY: u32 = 106;
pub const VANDREXU_BAD_LINE: u32 = 107;
pub const VANDREXU_NOT_LEGAL: u32 = 108;
pub const VANDREXU_NOT_EXPLAINED: u32 = 109;
pub const VANDREXU_BAD_HISTORY: u32 = 110;
pub const VANDREXU_OTHER_CONFIG: u32 = 111;
pub const VANDREXU_GAVE_UP: u32 = 112;
pub const VANDREXU_NOT_FOUND: u32 = 126;
pub const VANDREXU_NOT_REFUTED: u32 = 127;
pub const VANDREXU_FORGOTTEN: u32 = 129;
pub const VANDREXU_OTHER_ENTRY: u32 = 131;

// ---- What a call about a disk or a host answers besides

pub const VANDREXU_BUSY: u32 = 12;
pub const VANDREXU_CALL_LENGTH: u32 = 41;
pub const VANDREXU_CALL_TOO_LONG: u32 = 42;
pub const VANDREXU_CALL_NO_ROOM: u32 = 43;
pub const VANDREXU_CALL_FAILED: u32 = 44;
pub const VANDREXU_CALL_BUSY: u32 = 45;
pub const VANDREXU_CALL_NO_MEMORY: u32 = 46;
pub const VANDREXU_CALL_SLOT_AREA: u32 = 47;
pub const VANDREXU_UNFINISHED: u32 = 113;
pub const VANDREXU_NO_HOST: u32 = 114;
pub const VANDREXU_BAD_NUMBER: u32 = 115;
pub const VANDREXU_IN_CALL: u32 = 116;
pub const VANDREXU_NO_CALL: u32 = 117;
pub const VANDREXU_USED_NUMBER: u32 = 124;
pub const VANDREXU_USED_QUEUE: u32 = 125;
pub const VANDREXU_OTHER_HOST: u32 = 130;

// ---- What a call about slots answers besides

pub const VANDREXU_CALL_NO_SERIAL: u32 = 48;
pub const VANDREXU_NO_SLOT: u32 = 118;
pub const VANDREXU_NOT_HELD: u32 = 119;
pub const VANDREXU_HELD: u32 = 120;
pub const VANDREXU_BAD_NAME: u32 = 122;
pub const VANDREXU_BAD_AREA: u32 = 123;
pub const VANDREXU_SLOTS_MISUSED: u32 = 128;

// ---- What a step says

pub const VANDREXU_FAILED: u32 = 1;
pub const VANDREXU_FLUSH: u32 = 2;
pub const VANDREXU_UNITS: u32 = 3;
pub const VANDREXU_PAIR: u32 = 4;
pub const VANDREXU_READ: u32 = 1;
pub const VANDREXU_COMPARE: u32 = 2;
pub const VANDREXU_WRITE: u32 = 3;
pub const VANDREXU_WRITE_ZEROES: u32 = 4;
pub const VANDREXU_SHARED: u32 = 1;
pub const VANDREXU_EXCLUSIVE: u32 = 2;
pub const VANDREXU_FOUND_READ: u32 = 1;
pub const VANDREXU_EQUAL: u32 = 2;
pub const VANDREXU_DIFFERS: u32 = 3;
pub const VANDREXU_WRITTEN: u32 = 4;
pub const VANDREXU_STEP_GRANT: u32 = 2;
pub const VANDREXU_STEP_BLOCK: u32 = 3;
pub const VANDREXU_STEP_POST: u32 = 4;

// ---- What became of a host's call

pub const VANDREXU_REPLY_PENDING: u32 = 1;
pub const VANDREXU_REPLY_READ: u32 = 2;
pub const VANDREXU_REPLY_WRITTEN: u32 = 3;
pub const VANDREXU_REPLY_EQUAL: u32 = 4;
pub const VANDREXU_REPLY_DIFFERS: u32 = 5;
pub const VANDREXU_REPLY_SWAPPED: u32 = 6;
pub const VANDREXU_REPLY_FAILED: u32 = 7;

// ---- What became of a slot host's call

pub const VANDREXU_SLOT_PENDING: u32 = 1;
pub const VANDREXU_SLOT_HELD: u32 = 2;
pub const VANDREXU_SLOT_TAKEN: u32 = 3;
pub const VANDREXU_SLOT_RELEASED: u32 = 4;
pub const VANDREXU_SLOT_FREE: u32 = 5;
pub const VANDREXU_SLOT_OF_NAME: u32 = 6;
pub const VANDREXU_SLOT_FOREIGN: u32 = 7;
pub const VANDREXU_SLOT_FAILED: u32 = 8;

// ---- The kinds of lines of a run

pub const VANDREXU_PUBLISH_LINES: u32 = 1;
pub const VANDREXU_FETCH_LINES: u32 = 2;
pub const VANDREXU_GRANT_LINES: u32 = 4;
pub const VANDREXU_BLOCK_LINES: u32 = 8;
pub const VANDREXU_POST_LINES: u32 = 16;
pub const VANDREXU_REAP_LINES: u32 = 32;
pub const VANDREXU_REFUSED_LINES: u32 = 64;
pub const VANDREXU_MEDIUM_LINES: u32 = 128;
pub const VANDREXU_ALL_LINES: u32 = 255;

// ---- Handles, which are neither cloned nor copied: two that own the same would free it twice

#[repr(C)]
#[derive(Debug)]
pub struct vandrexu_controller {
    pub at: *mut c_void,
    pub live: u32,
}

#[repr(C)]
#[derive(Debug)]
pub struct vandrexu_checker {
    pub at: *mut c_void,
    pub live: u32,
}

#[repr(C)]
#[derive(Debug)]
pub struct vandrexu_disk {
    pub at: *mut c_void,
    pub live: u32,
}

#[repr(C)]
#[derive(Debug)]
pub struct vandrexu_host {
    pub at: *mut c_void,
    pub live: u32,
}

#[repr(C)]
#[derive(Debug)]
pub struct vandrexu_slot_host {
    pub at: *mut c_void,
    pub live: u32,
}

#[repr(C)]
#[derive(Debug)]
pub struct vandrexu_tracer {
    pub at: *mut c_void,
    pub live: u32,
}

#[repr(C)]
#[derive(Debug)]
pub struct vandrexu_slot_checker {
    pub at: *mut c_void,
    pub live: u32,
}

#[repr(C)]
#[derive(Debug)]
pub struct vandrexu_remote {
    pub at: *mut c_void,
    pub live: u32,
}

#[repr(C)]
#[derive(Debug)]
pub struct vandrexu_remote_slot_host {
    pub at: *mut c_void,
    pub live: u32,
}

pub const VANDREXU_CONTROLLER_NONE: vandrexu_controller = vandrexu_controller { at: ptr::null_mut(), live: 0 };
pub const VANDREXU_CHECKER_NONE: vandrexu_checker = vandrexu_checker { at: ptr::null_mut(), live: 0 };
pub const VANDREXU_DISK_NONE: vandrexu_disk = vandrexu_disk { at: ptr::null_mut(), live: 0 };
pub const VANDREXU_HOST_NONE: vandrexu_host = vandrexu_host { at: ptr::null_mut(), live: 0 };
pub const VANDREXU_SLOT_HOST_NONE: vandrexu_slot_host = vandrexu_slot_host { at: ptr::null_mut(), live: 0 };
pub const VANDREXU_TRACER_NONE: vandrexu_tracer = vandrexu_tracer { at: ptr::null_mut(), live: 0 };
pub const VANDREXU_SLOT_CHECKER_NONE: vandrexu_slot_checker = vandrexu_slot_checker { at: ptr::null_mut(), live: 0 };
pub const VANDREXU_REMOTE_NONE: vandrexu_remote = vandrexu_remote { at: ptr::null_mut(), live: 0 };
pub const VANDREXU_REMOTE_SLOT_HOST_NONE: vandrexu_remote_slot_host =
    vandrexu_remote_slot_host { at: ptr::null_mut(), live: 0 };

// ---- What is lent to calls

#[repr(C)]
#[derive(Clone, Copy, Debug, Default, PartialEq, Eq)]
pub struct vandrexu_config {
    pub blocks: u32,
    pub awun: u16,
    pub acwu: u16,
    pub nabsn: u16,
    pub nabo: u16,
    pub pairs: u16,
    pub sq_size: u16,
    pub cq_size: u16,
    pub jobs: u16,
    pub cqs: u16,
}

#[repr(C)]
#[derive(Clone, Copy, Debug, PartialEq, Eq)]
pub struct vandrexu_entry {
    pub bytes: [u8; 64],
    pub count: usize,
}

#[repr(C)]
#[derive(Clone, Copy, Debug, Default, PartialEq, Eq)]
pub struct vandrexu_work {
    pub ticket: u64,
    pub slba: u64,
    pub blocks: u32,
    pub kind: u32,
    pub op: u32,
    pub statuses: u32,
}

#[repr(C)]
#[derive(Clone, Copy, Debug, Default, PartialEq, Eq)]
pub struct vandrexu_granted {
    pub unit: u64,
    pub slba: u64,
    pub blocks: u32,
    pub mode: u32,
}

#[repr(C)]
#[derive(Clone, Copy, Debug, Default, PartialEq, Eq)]
pub struct vandrexu_blocked {
    pub lba: u64,
    pub found: u32,
    pub effect: u8,
    pub ended: u8,
    pub zeros: [u8; 2],
}

#[repr(C)]
#[derive(Clone, Copy, Debug, Default, PartialEq, Eq)]
pub struct vandrexu_step {
    pub ticket: u64,
    pub kind: u32,
}

#[repr(C)]
#[derive(Clone, Copy, Debug, Default, PartialEq, Eq)]
pub struct vandrexu_reply {
    pub kind: u32,
    pub sct: u8,
    pub sc: u8,
    pub zeros: [u8; 2],
}

#[repr(C)]
#[derive(Clone, Copy, Debug, Default, PartialEq, Eq)]
pub struct vandrexu_slot_reply {
    pub kind: u32,
    pub slot: u32,
    pub serial: u64,
    pub host: u32,
    pub sct: u8,
    pub sc: u8,
    pub zeros: [u8; 2],
}

#[repr(C)]
#[derive(Clone, Copy, Debug, PartialEq, Eq)]
pub struct vandrexu_outgoing {
    pub bytes: [u8; 64],
    pub count: usize,
    pub more: usize,
    pub queue: u16,
    pub zeros: [u8; 6],
}

unsafe extern "C" {
    pub fn vandrexu_config_fault(config: *const vandrexu_config) -> u32;
    pub fn vandrexu_controller_new(config: *const vandrexu_config, controller: *mut vandrexu_controller) -> u32;
    pub fn vandrexu_controller_free(controller: *mut vandrexu_controller);
    pub fn vandrexu_controller_reserve(controller: *mut vandrexu_controller, more: usize) -> u32;
    pub fn vandrexu_controller_publish(
        controller: *mut vandrexu_controller,
        queue: u16,
        entries: *const vandrexu_entry,
        count: usize,
        data: *const u8,
        data_length: usize,
    ) -> u32;
    pub fn vandrexu_controller_fetch(controller: *mut vandrexu_controller, queue: u16, work: *mut vandrexu_work)
    -> u32;
    pub fn vandrexu_controller_grant(
        controller: *mut vandrexu_controller,
        ticket: u64,
        granted: *mut vandrexu_granted,
    ) -> u32;
    pub fn vandrexu_controller_block(
        controller: *mut vandrexu_controller,
        ticket: u64,
        blocked: *mut vandrexu_blocked,
    ) -> u32;
    pub fn vandrexu_controller_post(controller: *mut vandrexu_controller, ticket: u64, cqe: *mut u8) -> u32;
    pub fn vandrexu_controller_reap(
        controller: *mut vandrexu_controller,
        queue: u16,
        cqe: *mut u8,
        count: *mut usize,
    ) -> u32;
    pub fn vandrexu_controller_data(
        controller: *mut vandrexu_controller,
        out: *mut u8,
        room: usize,
        needed: *mut usize,
    ) -> u32;
    pub fn vandrexu_controller_ready(controller: *mut vandrexu_controller, step: *mut vandrexu_step) -> u32;
    pub fn vandrexu_controller_medium(controller: *mut vandrexu_controller, lba: u64, out: *mut u8) -> u32;
    pub fn vandrexu_controller_history_count(controller: *mut vandrexu_controller, count: *mut u64) -> u32;
    pub fn vandrexu_controller_history(
        controller: *mut vandrexu_controller,
        from: u64,
        out: *mut u8,
        room: usize,
        needed: *mut usize,
        next: *mut u64,
    ) -> u32;
    pub fn vandrexu_controller_forget(controller: *mut vandrexu_controller, place: u64) -> u32;
    pub fn vandrexu_settle(controller: *mut vandrexu_controller) -> u32;
    pub fn vandrexu_controller_replay(controller: *mut vandrexu_controller, line: *const u8, length: usize) -> u32;
    pub fn vandrexu_checker_new(config: *const vandrexu_config, checker: *mut vandrexu_checker) -> u32;
    pub fn vandrexu_checker_free(checker: *mut vandrexu_checker);
    pub fn vandrexu_checker_take_line(checker: *mut vandrexu_checker, line: *const u8, length: usize) -> u32;
    pub fn vandrexu_checker_why(
        checker: *mut vandrexu_checker,
        line: *const u8,
        length: usize,
        out: *mut u8,
        room: usize,
        needed: *mut usize,
    ) -> u32;
    pub fn vandrexu_tracer_new(config: *const vandrexu_config, tracer: *mut vandrexu_tracer) -> u32;
    pub fn vandrexu_tracer_free(tracer: *mut vandrexu_tracer);
    pub fn vandrexu_tracer_take_line(tracer: *mut vandrexu_tracer, line: *const u8, length: usize) -> u32;
    pub fn vandrexu_tracer_seen(tracer: *mut vandrexu_tracer, out: *mut u8, room: usize, needed: *mut usize) -> u32;
    pub fn vandrexu_run_text(
        script: *const u8,
        script_length: usize,
        kinds: u8,
        out: *mut u8,
        room: usize,
        needed: *mut usize,
        line: *mut u64,
    ) -> u32;
    pub fn vandrexu_check_text(
        history: *const u8,
        history_length: usize,
        out: *mut u8,
        room: usize,
        needed: *mut usize,
        line: *mut u64,
    ) -> u32;
    pub fn vandrexu_certify_text(
        trace: *const u8,
        trace_length: usize,
        history: *const u8,
        history_length: usize,
        out: *mut u8,
        room: usize,
        needed: *mut usize,
        line: *mut u64,
    ) -> u32;
    pub fn vandrexu_refute_text(
        trace: *const u8,
        trace_length: usize,
        refutation: *const u8,
        refutation_length: usize,
        out: *mut u8,
        room: usize,
        needed: *mut usize,
        line: *mut u64,
    ) -> u32;
    pub fn vandrexu_observe_text(
        trace: *const u8,
        trace_length: usize,
        steps: u64,
        history: *mut u8,
        history_room: usize,
        found: *mut usize,
        out: *mut u8,
        room: usize,
        needed: *mut usize,
        line: *mut u64,
    ) -> u32;
    pub fn vandrexu_heap_limit(bytes: usize);
    pub fn vandrexu_heap_used() -> usize;
    pub fn vandrexu_disk_new(config: *const vandrexu_config, hosts: u16, disk: *mut vandrexu_disk) -> u32;
    pub fn vandrexu_disk_free(disk: *mut vandrexu_disk);
    pub fn vandrexu_disk_hosts_left(disk: *mut vandrexu_disk, count: *mut usize) -> u32;
    pub fn vandrexu_disk_serve(disk: *mut vandrexu_disk, queue: u16) -> u32;
    pub fn vandrexu_disk_fetch(disk: *mut vandrexu_disk, queue: u16) -> u32;
    pub fn vandrexu_disk_task(disk: *mut vandrexu_disk) -> u32;
    pub fn vandrexu_disk_forget(disk: *mut vandrexu_disk, place: u64) -> u32;
    pub fn vandrexu_disk_history(
        disk: *mut vandrexu_disk,
        from: u64,
        out: *mut u8,
        room: usize,
        needed: *mut usize,
        next: *mut u64,
    ) -> u32;
    pub fn vandrexu_disk_history_count(disk: *mut vandrexu_disk, count: *mut u64) -> u32;
    pub fn vandrexu_disk_medium(disk: *mut vandrexu_disk, lba: u64, out: *mut u8) -> u32;
    pub fn vandrexu_host_new(disk: *mut vandrexu_disk, number: u32, queue: u16, host: *mut vandrexu_host) -> u32;
    pub fn vandrexu_host_free(host: *mut vandrexu_host);
    pub fn vandrexu_host_end(disk: *mut vandrexu_disk, host: *mut vandrexu_host) -> u32;
    pub fn vandrexu_host_again(disk: *mut vandrexu_disk, number: u32, host: *mut vandrexu_host) -> u32;
    pub fn vandrexu_host_read(host: *mut vandrexu_host, lba: u64, blocks: u32, call: *mut u32) -> u32;
    pub fn vandrexu_host_write_zeroes(host: *mut vandrexu_host, lba: u64, blocks: u32, call: *mut u32) -> u32;
    pub fn vandrexu_host_write(
        host: *mut vandrexu_host,
        lba: u64,
        data: *const u8,
        length: usize,
        call: *mut u32,
    ) -> u32;
    pub fn vandrexu_host_compare(
        host: *mut vandrexu_host,
        lba: u64,
        data: *const u8,
        length: usize,
        call: *mut u32,
    ) -> u32;
    pub fn vandrexu_host_compare_and_write(
        host: *mut vandrexu_host,
        lba: u64,
        expected: *const u8,
        expected_length: usize,
        desired: *const u8,
        desired_length: usize,
        call: *mut u32,
    ) -> u32;
    pub fn vandrexu_host_poll(host: *mut vandrexu_host, call: u32, reply: *mut vandrexu_reply) -> u32;
    pub fn vandrexu_host_give_up(host: *mut vandrexu_host, call: u32) -> u32;
    pub fn vandrexu_host_waiting(host: *mut vandrexu_host, calls: *mut usize, given_up: *mut usize) -> u32;
    pub fn vandrexu_host_data(host: *mut vandrexu_host, out: *mut u8, room: usize, needed: *mut usize) -> u32;
    pub fn vandrexu_slot_disk_new(
        config: *const vandrexu_config,
        hosts: u16,
        first: u64,
        count: u32,
        disk: *mut vandrexu_disk,
    ) -> u32;
    pub fn vandrexu_slot_host_new(
        disk: *mut vandrexu_disk,
        number: u32,
        queue: u16,
        host: *mut vandrexu_slot_host,
    ) -> u32;
    pub fn vandrexu_slot_host_free(host: *mut vandrexu_slot_host);
    pub fn vandrexu_slot_claim(host: *mut vandrexu_slot_host, slot: u32) -> u32;
    pub fn vandrexu_slot_claim_any(host: *mut vandrexu_slot_host) -> u32;
    pub fn vandrexu_slot_release(host: *mut vandrexu_slot_host, slot: u32) -> u32;
    pub fn vandrexu_slot_take_over(host: *mut vandrexu_slot_host, slot: u32, dead_host: u32, dead_serial: u64) -> u32;
    pub fn vandrexu_slot_ask_holder(host: *mut vandrexu_slot_host, slot: u32) -> u32;
    pub fn vandrexu_slot_poll(host: *mut vandrexu_slot_host, reply: *mut vandrexu_slot_reply) -> u32;
    pub fn vandrexu_slot_checker_new(
        config: *const vandrexu_config,
        first: u64,
        count: u32,
        checker: *mut vandrexu_slot_checker,
    ) -> u32;
    pub fn vandrexu_slot_checker_free(checker: *mut vandrexu_slot_checker);
    pub fn vandrexu_slot_checker_take_line(checker: *mut vandrexu_slot_checker, line: *const u8, length: usize) -> u32;
    pub fn vandrexu_slot_checker_why(
        checker: *mut vandrexu_slot_checker,
        place: *mut u64,
        block: *mut u64,
        out: *mut u8,
        room: usize,
        needed: *mut usize,
    ) -> u32;
    pub fn vandrexu_remote_new(
        number: u32,
        queue: u16,
        acwu: u16,
        first: u64,
        blocks: u32,
        remote: *mut vandrexu_remote,
    ) -> u32;
    pub fn vandrexu_remote_free(remote: *mut vandrexu_remote);
    pub fn vandrexu_remote_read(remote: *mut vandrexu_remote, lba: u64, blocks: u32, call: *mut u32) -> u32;
    pub fn vandrexu_remote_write_zeroes(remote: *mut vandrexu_remote, lba: u64, blocks: u32, call: *mut u32) -> u32;
    pub fn vandrexu_remote_write(
        remote: *mut vandrexu_remote,
        lba: u64,
        data: *const u8,
        length: usize,
        call: *mut u32,
    ) -> u32;
    pub fn vandrexu_remote_compare(
        remote: *mut vandrexu_remote,
        lba: u64,
        data: *const u8,
        length: usize,
        call: *mut u32,
    ) -> u32;
    pub fn vandrexu_remote_compare_and_write(
        remote: *mut vandrexu_remote,
        lba: u64,
        expected: *const u8,
        expected_length: usize,
        desired: *const u8,
        desired_length: usize,
        call: *mut u32,
    ) -> u32;
    pub fn vandrexu_remote_poll(remote: *mut vandrexu_remote, call: u32, reply: *mut vandrexu_reply) -> u32;
    pub fn vandrexu_remote_give_up(remote: *mut vandrexu_remote, call: u32) -> u32;
    pub fn vandrexu_remote_waiting(remote: *mut vandrexu_remote, calls: *mut usize, given_up: *mut usize) -> u32;
    pub fn vandrexu_remote_data(remote: *mut vandrexu_remote, out: *mut u8, room: usize, needed: *mut usize) -> u32;
    pub fn vandrexu_remote_outgoing(
        remote: *mut vandrexu_remote,
        entry: *mut vandrexu_outgoing,
        out: *mut u8,
        room: usize,
    ) -> u32;
    pub fn vandrexu_remote_incoming(
        remote: *mut vandrexu_remote,
        cqe: *const u8,
        data: *const u8,
        length: usize,
    ) -> u32;
    pub fn vandrexu_remote_dropped(remote: *mut vandrexu_remote, count: *mut u64) -> u32;
    pub fn vandrexu_remote_slot_host_new(
        number: u32,
        queue: u16,
        first: u64,
        count: u32,
        serial: u64,
        host: *mut vandrexu_remote_slot_host,
    ) -> u32;
    pub fn vandrexu_remote_slot_host_free(host: *mut vandrexu_remote_slot_host);
    pub fn vandrexu_remote_slot_claim(host: *mut vandrexu_remote_slot_host, slot: u32) -> u32;
    pub fn vandrexu_remote_slot_claim_any(host: *mut vandrexu_remote_slot_host) -> u32;
    pub fn vandrexu_remote_slot_release(host: *mut vandrexu_remote_slot_host, slot: u32) -> u32;
    pub fn vandrexu_remote_slot_take_over(
        host: *mut vandrexu_remote_slot_host,
        slot: u32,
        dead_host: u32,
        dead_serial: u64,
    ) -> u32;
    pub fn vandrexu_remote_slot_ask_holder(host: *mut vandrexu_remote_slot_host, slot: u32) -> u32;
    pub fn vandrexu_remote_slot_poll(host: *mut vandrexu_remote_slot_host, reply: *mut vandrexu_slot_reply) -> u32;
    pub fn vandrexu_remote_slot_outgoing(
        host: *mut vandrexu_remote_slot_host,
        entry: *mut vandrexu_outgoing,
        out: *mut u8,
        room: usize,
    ) -> u32;
    pub fn vandrexu_remote_slot_incoming(
        host: *mut vandrexu_remote_slot_host,
        cqe: *const u8,
        data: *const u8,
        length: usize,
    ) -> u32;
    pub fn vandrexu_remote_slot_dropped(host: *mut vandrexu_remote_slot_host, count: *mut u64) -> u32;
}
