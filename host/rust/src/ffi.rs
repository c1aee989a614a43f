//! The C interface, and the only unsafe code: every pointer comes with the length of its own array.
#![allow(unsafe_code)]

use std::mem::offset_of;

use crate::layout::HANDLE_BYTES;
use crate::memory::Memory;

/// A handle slot, as the C interface has it.
#[repr(C)]
#[derive(Clone, Copy, Debug, Default, PartialEq, Eq)]
pub(crate) struct Handle {
    pub station: u16,
    pub mask: u16,
    pub number: u32,
    pub token: u64,
}

/// Bytes of what a feed returns.
const FED_BYTES: usize = 24;

/// What a feed returns.
#[repr(C)]
pub(crate) struct Fed {
    pub refusal: u32,
    pub used: usize,
    pub answered: usize,
}

const _: () = assert!(size_of::<Handle>() == HANDLE_BYTES && size_of::<Fed>() == FED_BYTES);
const _: () = assert!(offset_of!(Handle, mask) == 2 && offset_of!(Handle, number) == 4);
const _: () = assert!(offset_of!(Handle, token) == 8);

extern "C" {
    fn obriska_start(
        tokens: *mut u64,
        tokens_len: usize,
        dacls: *mut u8,
        dacls_len: usize,
        handles: *mut Handle,
        handles_len: usize,
        control: *mut u64,
        control_len: usize,
        pending: *mut u8,
        pending_len: usize,
    ) -> u32;

    fn obriska_feed(
        station: u32,
        data: *const u8,
        data_len: usize,
        answer: *mut u8,
        answer_len: usize,
        tokens: *mut u64,
        tokens_len: usize,
        dacls: *mut u8,
        dacls_len: usize,
        handles: *mut Handle,
        handles_len: usize,
        control: *mut u64,
        control_len: usize,
        pending: *mut u8,
        pending_len: usize,
    ) -> Fed;

    fn obriska_reconnect(
        station: u32,
        tokens: *const u64,
        tokens_len: usize,
        dacls: *const u8,
        dacls_len: usize,
        handles: *const Handle,
        handles_len: usize,
        control: *mut u64,
        control_len: usize,
        pending: *mut u8,
        pending_len: usize,
    ) -> u32;

    fn obriska_find(handles: *const Handle, handles_len: usize, station: u32, number: u32)
        -> usize;

    fn obriska_sid(
        control: *const u64,
        control_len: usize,
        number: u32,
        out: *mut u8,
        out_len: usize,
    ) -> usize;

    fn obriska_version() -> u32;

    fn obriska_layout() -> u32;
}

pub(crate) fn version() -> u32 {
    // SAFETY: it takes nothing and touches no memory.
    unsafe { obriska_version() }
}

pub(crate) fn layout() -> u32 {
    // SAFETY: it takes nothing and touches no memory.
    unsafe { obriska_layout() }
}

pub(crate) fn start(m: &mut Memory) -> u32 {
    // SAFETY: the arrays are distinct fields behind one `&mut`.
    unsafe {
        obriska_start(
            m.tokens.as_mut_ptr(),
            m.tokens.len(),
            m.dacls.as_mut_ptr(),
            m.dacls.len(),
            m.handles.as_mut_ptr(),
            m.handles.len(),
            m.control.as_mut_ptr(),
            m.control.len(),
            m.pending.as_mut_ptr(),
            m.pending.len(),
        )
    }
}

pub(crate) fn feed(m: &mut Memory, station: u32, data: &[u8], answer: &mut [u8]) -> Fed {
    // SAFETY: the arrays are distinct fields behind one `&mut`, and `answer` behind another.
    unsafe {
        obriska_feed(
            station,
            data.as_ptr(),
            data.len(),
            answer.as_mut_ptr(),
            answer.len(),
            m.tokens.as_mut_ptr(),
            m.tokens.len(),
            m.dacls.as_mut_ptr(),
            m.dacls.len(),
            m.handles.as_mut_ptr(),
            m.handles.len(),
            m.control.as_mut_ptr(),
            m.control.len(),
            m.pending.as_mut_ptr(),
            m.pending.len(),
        )
    }
}

pub(crate) fn reconnect(m: &mut Memory, station: u32) -> u32 {
    // SAFETY: the arrays are distinct fields behind one `&mut`.
    unsafe {
        obriska_reconnect(
            station,
            m.tokens.as_ptr(),
            m.tokens.len(),
            m.dacls.as_ptr(),
            m.dacls.len(),
            m.handles.as_ptr(),
            m.handles.len(),
            m.control.as_mut_ptr(),
            m.control.len(),
            m.pending.as_mut_ptr(),
            m.pending.len(),
        )
    }
}

pub(crate) fn find(handles: &[Handle], station: u32, number: u32) -> usize {
    // SAFETY: the function only reads the handles.
    unsafe { obriska_find(handles.as_ptr(), handles.len(), station, number) }
}

pub(crate) fn sid(control: &[u64], number: u32, out: &mut [u8]) -> usize {
    // SAFETY: `out` is behind a `&mut`, and the function only reads the control words.
    unsafe { obriska_sid(control.as_ptr(), control.len(), number, out.as_mut_ptr(), out.len()) }
}
