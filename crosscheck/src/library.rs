//! The functions of libanim.a, as include/anim.h declares them, on slices.
use crate::plain::Screen;
use std::os::raw::c_uchar;

type Bytes = *const c_uchar;
type Buffer = *mut c_uchar;

#[rustfmt::skip]
extern "C" {
    fn anim_frame_size(file: Bytes, file_len: usize, size: Buffer, size_len: usize) -> u64;
    fn anim_open(file: Bytes, file_len: usize, state: Buffer, state_len: usize, a: Buffer, a_len: usize, b: Buffer, b_len: usize,
                 map: Buffer, map_len: usize) -> u64;
    fn anim_step_on(file: Bytes, file_len: usize, state: Buffer, state_len: usize, a: Buffer, a_len: usize, b: Buffer, b_len: usize,
                    map: Buffer, map_len: usize, work: Buffer, work_len: usize, record: Buffer, record_len: usize,
                    report: Buffer, report_len: usize) -> u64;
    fn anim_step_back(state: Buffer, state_len: usize, a: Buffer, a_len: usize, b: Buffer, b_len: usize, map: Buffer, map_len: usize,
                      record: Bytes, record_len: usize) -> u64;
    fn anim_row_place(plane: u64, row: u64, state: Bytes, state_len: usize, a: Bytes, a_len: usize, b: Bytes, b_len: usize) -> u64;
    fn anim_row_refusal(plane: u64, row: u64, state: Bytes, state_len: usize, a: Bytes, a_len: usize, b: Bytes, b_len: usize) -> u64;
    fn anim_write_delta(width: u64, height: u64, planes: u64, old: Bytes, old_len: usize, new: Bytes, new_len: usize,
                        out: Buffer, out_len: usize, length: Buffer, length_len: usize) -> u64;
}

// Each call below is safe because a slice's pointer and length name memory that is lent for the call.

pub fn frame_size(file: &[u8], size: &mut [u8]) -> u64 {
    unsafe { anim_frame_size(file.as_ptr(), file.len(), size.as_mut_ptr(), size.len()) }
}

#[rustfmt::skip]
pub fn open(file: &[u8], state: &mut [u8], [a, b, map]: Screen) -> u64 {
    unsafe {
        anim_open(file.as_ptr(), file.len(), state.as_mut_ptr(), state.len(), a.as_mut_ptr(), a.len(), b.as_mut_ptr(), b.len(),
                  map.as_mut_ptr(), map.len())
    }
}

#[rustfmt::skip]
pub fn step_on(file: &[u8], state: &mut [u8], [a, b, map]: Screen, work: &mut [u8], record: &mut [u8], report: &mut [u8]) -> u64 {
    unsafe {
        anim_step_on(file.as_ptr(), file.len(), state.as_mut_ptr(), state.len(), a.as_mut_ptr(), a.len(), b.as_mut_ptr(), b.len(),
                     map.as_mut_ptr(), map.len(), work.as_mut_ptr(), work.len(), record.as_mut_ptr(), record.len(),
                     report.as_mut_ptr(), report.len())
    }
}

#[rustfmt::skip]
pub fn step_back(state: &mut [u8], [a, b, map]: Screen, record: &[u8]) -> u64 {
    unsafe {
        anim_step_back(state.as_mut_ptr(), state.len(), a.as_mut_ptr(), a.len(), b.as_mut_ptr(), b.len(), map.as_mut_ptr(), map.len(),
                       record.as_ptr(), record.len())
    }
}

pub fn row_place(plane: u64, row: u64, state: &[u8], a: &[u8], b: &[u8]) -> u64 {
    unsafe { anim_row_place(plane, row, state.as_ptr(), state.len(), a.as_ptr(), a.len(), b.as_ptr(), b.len()) }
}

pub fn row_refusal(plane: u64, row: u64, state: &[u8], a: &[u8], b: &[u8]) -> u64 {
    unsafe { anim_row_refusal(plane, row, state.as_ptr(), state.len(), a.as_ptr(), a.len(), b.as_ptr(), b.len()) }
}

#[rustfmt::skip]
pub fn write_delta(width: u64, height: u64, planes: u64, old: &[u8], new: &[u8], out: &mut [u8], length: &mut [u8]) -> u64 {
    unsafe {
        anim_write_delta(width, height, planes, old.as_ptr(), old.len(), new.as_ptr(), new.len(),
                         out.as_mut_ptr(), out.len(), length.as_mut_ptr(), length.len())
    }
}
