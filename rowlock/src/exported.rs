//! The exported functions as they are, made safe: slices for pointers with lengths. Each answers 0
//! or the number of a refusal, and stores what it answers beside that, zeros where it refuses.
//! `c/rowlock.h` says what each does.

#![allow(unsafe_code)]
#![allow(clippy::too_many_arguments)]

use crate::Nest;

/// The kinds of a move; any other is refused with 18.
pub const COMPUTE: usize = 1;
pub const DELIVER: usize = 2;

/// The declarations of `c/rowlock.h`.
mod library {
    use crate::Nest;

    extern "C" {
        pub fn rowlock_check(nest: *const Nest) -> u8;
        pub fn rowlock_inspect(nest: *const Nest, iterations: *mut usize) -> u8;
        pub fn rowlock_most_receivers(nest: *const Nest, most: *mut usize) -> u8;
        pub fn rowlock_read(text: *const u8, text_length: usize, nest: *mut Nest) -> u8;
        pub fn rowlock_write(
            nest: *const Nest,
            buffer: *mut u8,
            buffer_length: usize,
            length: *mut usize,
        ) -> u8;
        pub fn rowlock_locate(
            nest: *const Nest,
            entries: usize,
            index: i64,
            span: *mut [usize; 2],
        ) -> u8;
        pub fn rowlock_fill(nest: *const Nest, values: *mut u16, values_length: usize) -> u8;
        pub fn rowlock_plan(
            nest: *const Nest,
            steps: *mut u32,
            steps_length: usize,
            blocks: *mut u16,
            blocks_length: usize,
            processors: *mut u8,
            processors_length: usize,
            values: *mut u16,
            values_length: usize,
            counts: *mut [usize; 5],
        ) -> u8;
        pub fn rowlock_list(
            text: *const u8,
            text_length: usize,
            buffer: *mut u8,
            buffer_length: usize,
            length: *mut usize,
        ) -> u8;
        pub fn rowlock_move(
            nest: *const Nest,
            kind: usize,
            first: usize,
            second: usize,
            steps: *const u32,
            steps_length: usize,
            processors: *const u8,
            processors_length: usize,
            values: *mut u16,
            values_length: usize,
            done: *mut u8,
            done_length: usize,
            delivered: *mut u8,
            delivered_length: usize,
            made: *mut [usize; 2],
        ) -> u8;
    }
}

pub fn check(nest: &Nest) -> u8 {
    // SAFETY: the pointer is a reference's, to the 63 numbers that the library reads.
    unsafe { library::rowlock_check(nest) }
}

pub fn inspect(nest: &Nest, iterations: &mut usize) -> u8 {
    // SAFETY: both pointers are references', and what is written is lent alone.
    unsafe { library::rowlock_inspect(nest, iterations) }
}

pub fn most_receivers(nest: &Nest, most: &mut usize) -> u8 {
    // SAFETY: both pointers are references', and what is written is lent alone.
    unsafe { library::rowlock_most_receivers(nest, most) }
}

pub fn read(text: &[u8], nest: &mut Nest) -> u8 {
    // SAFETY: pointer and length are the slice's; the 63 numbers are lent alone, and any numbers
    // are a `Nest`.
    unsafe { library::rowlock_read(text.as_ptr(), text.len(), nest) }
}

pub fn write(nest: &Nest, buffer: &mut [u8], length: &mut usize) -> u8 {
    // SAFETY: pointer and length are the slice's, and all that is written is lent alone.
    unsafe { library::rowlock_write(nest, buffer.as_mut_ptr(), buffer.len(), length) }
}

pub fn locate(nest: &Nest, entries: usize, index: i64, span: &mut [usize; 2]) -> u8 {
    // SAFETY: both pointers are references', and `span` has the two places that are written.
    unsafe { library::rowlock_locate(nest, entries, index, span) }
}

pub fn fill(nest: &Nest, values: &mut [u16]) -> u8 {
    // SAFETY: pointer and length are the slice's, which is lent alone.
    unsafe { library::rowlock_fill(nest, values.as_mut_ptr(), values.len()) }
}

pub fn plan(
    nest: &Nest,
    steps: &mut [u32],
    blocks: &mut [u16],
    processors: &mut [u8],
    values: &mut [u16],
    counts: &mut [usize; 5],
) -> u8 {
    // SAFETY: each pointer with its length is a slice's, `counts` has the five places that are
    // written, and all are lent alone.
    unsafe {
        library::rowlock_plan(
            nest,
            steps.as_mut_ptr(),
            steps.len(),
            blocks.as_mut_ptr(),
            blocks.len(),
            processors.as_mut_ptr(),
            processors.len(),
            values.as_mut_ptr(),
            values.len(),
            counts,
        )
    }
}

pub fn list(text: &[u8], buffer: &mut [u8], length: &mut usize) -> u8 {
    // SAFETY: each pointer with its length is a slice's, and all that is written is lent alone.
    unsafe {
        library::rowlock_list(text.as_ptr(), text.len(), buffer.as_mut_ptr(), buffer.len(), length)
    }
}

pub fn make_move(
    nest: &Nest,
    [kind, first, second]: [usize; 3],
    steps: &[u32],
    processors: &[u8],
    values: &mut [u16],
    done: &mut [u8],
    delivered: &mut [u8],
    made: &mut [usize; 2],
) -> u8 {
    // SAFETY: each pointer with its length is a slice's, `made` has the two places that are
    // written, and all that is written is lent alone.
    unsafe {
        library::rowlock_move(
            nest,
            kind,
            first,
            second,
            steps.as_ptr(),
            steps.len(),
            processors.as_ptr(),
            processors.len(),
            values.as_mut_ptr(),
            values.len(),
            done.as_mut_ptr(),
            done.len(),
            delivered.as_mut_ptr(),
            delivered.len(),
            made,
        )
    }
}
