//! Declares the functions of hoxburen.h.
use core::ffi::{c_char, c_void};

/// `hox_flow`.
#[repr(C)]
pub(crate) struct Flow {
    session: *mut c_void,
}

impl Flow {
    /// `HOX_FLOW_CLOSED`.
    pub(crate) const CLOSED: Flow = Flow {
        session: core::ptr::null_mut(),
    };
}

pub(crate) const HOX_DONE: u32 = 0;

unsafe extern "C" {
    pub(crate) fn hox_version() -> u32;
    pub(crate) fn hox_check(
        text: *const c_char,
        text_length: usize,
        message: *mut c_char,
        message_room: usize,
        message_length: *mut usize,
    ) -> u32;
    pub(crate) fn hox_run(
        text: *const c_char,
        text_length: usize,
        report: *mut c_char,
        report_room: usize,
        report_length: *mut usize,
    ) -> u32;
    pub(crate) fn hox_open(
        flow: *mut Flow,
        text: *const c_char,
        text_length: usize,
        inputs: *const c_char,
        inputs_length: usize,
        outputs: *const c_char,
        outputs_length: usize,
        message: *mut c_char,
        message_room: usize,
        message_length: *mut usize,
    ) -> u32;
    pub(crate) fn hox_close(flow: *mut Flow) -> u32;
    pub(crate) fn hox_input(
        flow: *mut Flow,
        name: *const c_char,
        name_length: usize,
        input: *mut usize,
    ) -> u32;
    pub(crate) fn hox_output(
        flow: *mut Flow,
        name: *const c_char,
        name_length: usize,
        output: *mut usize,
    ) -> u32;
    pub(crate) fn hox_feed(
        flow: *mut Flow,
        input: usize,
        words: *const u64,
        count: usize,
        fed: *mut usize,
    ) -> u32;
    pub(crate) fn hox_advance(flow: *mut Flow, most: u64, pause: *mut u32) -> u32;
    pub(crate) fn hox_drain(
        flow: *mut Flow,
        output: usize,
        words: *mut u64,
        room: usize,
        drained: *mut usize,
    ) -> u32;
    pub(crate) fn hox_end_input(flow: *mut Flow, input: usize) -> u32;
    pub(crate) fn hox_may_feed(flow: *mut Flow, input: usize, may: *mut u32) -> u32;
    pub(crate) fn hox_waits_for_input(flow: *mut Flow, input: usize, waits: *mut u32) -> u32;
    pub(crate) fn hox_waits_for_output(flow: *mut Flow, output: usize, waits: *mut u32) -> u32;
    pub(crate) fn hox_input_fill(
        flow: *mut Flow,
        input: usize,
        held: *mut u64,
        capacity: *mut u64,
    ) -> u32;
    pub(crate) fn hox_output_fill(
        flow: *mut Flow,
        output: usize,
        held: *mut u64,
        capacity: *mut u64,
    ) -> u32;
    pub(crate) fn hox_entries(flow: *mut Flow, entries: *mut u64, growths: *mut u64) -> u32;
    pub(crate) fn hox_verdict(flow: *mut Flow, verdict: *mut u32) -> u32;
    pub(crate) fn hox_report(
        flow: *mut Flow,
        report: *mut c_char,
        report_room: usize,
        report_length: *mut usize,
    ) -> u32;
}
