//! The eleven calls of the five linked libraries, made safe. Nothing checks these declarations
//! against src/lib.rt of crates capi_c, capi_words_c, capi_sheet_c, capi_group_c and group_row_c:
//! a slice is passed as its pointer and then its length in elements.

use crate::warps::{save, warps_of};
use crate::{Lent, Machine};

mod c {
    use crate::warps::{Stepped, Warp};

    extern "C" {
        pub fn bench_launch(
            card: *const u8,
            card_bytes: usize,
            kernel: *const u32,
            kernel_words: usize,
            vector: *mut u32,
            vector_words: usize,
            data: *const u8,
            data_bytes: usize,
            state: *mut u32,
            state_words: usize,
        ) -> u32;
        pub fn bench_step(
            state: *mut u32,
            state_words: usize,
            kernel: *const u32,
            kernel_words: usize,
            vector: *mut u32,
            vector_words: usize,
            data: *mut u8,
            data_bytes: usize,
        ) -> u32;
        pub fn bench_run(
            state: *mut u32,
            state_words: usize,
            kernel: *const u32,
            kernel_words: usize,
            vector: *mut u32,
            vector_words: usize,
            data: *mut u8,
            data_bytes: usize,
            budget: u32,
            steps: *mut u32,
            steps_words: usize,
        ) -> u32;
        pub fn bench_release(state: *mut u32, state_words: usize) -> u32;
        pub fn bench_decode(word: u32) -> u32;
        pub fn bench_mark(
            card: *const u8,
            card_bytes: usize,
            kernel: *const u32,
            kernel_words: usize,
            vector: *mut u32,
            vector_words: usize,
            data: *mut u8,
            data_bytes: usize,
            sheet: *const u8,
            sheet_bytes: usize,
            result: *mut u32,
            result_words: usize,
        ) -> u32;
        pub fn bench_sheet(
            card: *const u8,
            card_bytes: usize,
            kernel: *const u32,
            kernel_words: usize,
            vector: *mut u32,
            vector_words: usize,
            data: *mut u8,
            data_bytes: usize,
            target: *mut u8,
            target_bytes: usize,
            written: *mut u32,
            written_words: usize,
        ) -> u32;
        pub fn bench_group_launch(
            cards: *const u8,
            cards_bytes: usize,
            kernel: *const u32,
            kernel_words: usize,
            vector: *mut u32,
            vector_words: usize,
            data: *const u8,
            data_bytes: usize,
            local: *const u8,
            local_bytes: usize,
            state: *mut u32,
            state_words: usize,
        ) -> u32;
        pub fn bench_group_step(
            state: *mut u32,
            state_words: usize,
            kernel: *const u32,
            kernel_words: usize,
            vector: *mut u32,
            vector_words: usize,
            data: *mut u8,
            data_bytes: usize,
            local: *mut u8,
            local_bytes: usize,
            stopped: *mut u32,
            stopped_words: usize,
        ) -> u32;
        pub fn bench_group_run(
            state: *mut u32,
            state_words: usize,
            kernel: *const u32,
            kernel_words: usize,
            vector: *mut u32,
            vector_words: usize,
            data: *mut u8,
            data_bytes: usize,
            local: *mut u8,
            local_bytes: usize,
            budget: u32,
            out: *mut u32,
            out_words: usize,
        ) -> u32;
        pub fn bench_step_warps(
            warps: *mut Warp,
            count: usize,
            turn: u32,
            kernel: *const u32,
            kernel_words: usize,
            vector: *mut u32,
            vector_words: usize,
            data: *mut u8,
            data_bytes: usize,
            local: *mut u8,
            local_bytes: usize,
        ) -> Stepped;
    }
}

/// The proved machine.
pub struct Linked;

// SAFETY, of each call: its contract asks nothing of its caller, it keeps no pointer, and each
// pointer and length is that of a slice borrowed for the call, for writing where the call writes.
impl Machine for Linked {
    fn launch(card: &[u8], kernel: &[u32], lent: &mut Lent) -> u32 {
        let Lent { state, vector, data, .. } = lent;
        unsafe {
            c::bench_launch(
                card.as_ptr(),
                card.len(),
                kernel.as_ptr(),
                kernel.len(),
                vector.as_mut_ptr(),
                vector.len(),
                data.as_ptr(),
                data.len(),
                state.as_mut_ptr(),
                state.len(),
            )
        }
    }

    fn step(kernel: &[u32], lent: &mut Lent) -> u32 {
        let Lent { state, vector, data, .. } = lent;
        unsafe {
            c::bench_step(
                state.as_mut_ptr(),
                state.len(),
                kernel.as_ptr(),
                kernel.len(),
                vector.as_mut_ptr(),
                vector.len(),
                data.as_mut_ptr(),
                data.len(),
            )
        }
    }

    fn run(kernel: &[u32], budget: u32, lent: &mut Lent) -> u32 {
        let Lent { state, vector, data, words, .. } = lent;
        unsafe {
            c::bench_run(
                state.as_mut_ptr(),
                state.len(),
                kernel.as_ptr(),
                kernel.len(),
                vector.as_mut_ptr(),
                vector.len(),
                data.as_mut_ptr(),
                data.len(),
                budget,
                words.as_mut_ptr(),
                words.len(),
            )
        }
    }

    fn release(state: &mut [u32]) -> u32 {
        unsafe { c::bench_release(state.as_mut_ptr(), state.len()) }
    }

    fn decode(word: u32) -> u32 {
        unsafe { c::bench_decode(word) }
    }

    fn mark(card: &[u8], kernel: &[u32], sheet: &[u8], lent: &mut Lent) -> u32 {
        let Lent { vector, data, words, .. } = lent;
        unsafe {
            c::bench_mark(
                card.as_ptr(),
                card.len(),
                kernel.as_ptr(),
                kernel.len(),
                vector.as_mut_ptr(),
                vector.len(),
                data.as_mut_ptr(),
                data.len(),
                sheet.as_ptr(),
                sheet.len(),
                words.as_mut_ptr(),
                words.len(),
            )
        }
    }

    fn write_sheet(card: &[u8], kernel: &[u32], lent: &mut Lent) -> u32 {
        let Lent { vector, data, words, target, .. } = lent;
        unsafe {
            c::bench_sheet(
                card.as_ptr(),
                card.len(),
                kernel.as_ptr(),
                kernel.len(),
                vector.as_mut_ptr(),
                vector.len(),
                data.as_mut_ptr(),
                data.len(),
                target.as_mut_ptr(),
                target.len(),
                words.as_mut_ptr(),
                words.len(),
            )
        }
    }

    fn group_launch(cards: &[u8], kernel: &[u32], lent: &mut Lent) -> u32 {
        let Lent { state, vector, data, local, .. } = lent;
        unsafe {
            c::bench_group_launch(
                cards.as_ptr(),
                cards.len(),
                kernel.as_ptr(),
                kernel.len(),
                vector.as_mut_ptr(),
                vector.len(),
                data.as_ptr(),
                data.len(),
                local.as_ptr(),
                local.len(),
                state.as_mut_ptr(),
                state.len(),
            )
        }
    }

    fn group_step(kernel: &[u32], lent: &mut Lent) -> u32 {
        let Lent { state, vector, data, local, words, .. } = lent;
        unsafe {
            c::bench_group_step(
                state.as_mut_ptr(),
                state.len(),
                kernel.as_ptr(),
                kernel.len(),
                vector.as_mut_ptr(),
                vector.len(),
                data.as_mut_ptr(),
                data.len(),
                local.as_mut_ptr(),
                local.len(),
                words.as_mut_ptr(),
                words.len(),
            )
        }
    }

    fn group_run(kernel: &[u32], budget: u32, lent: &mut Lent) -> u32 {
        let Lent { state, vector, data, local, words, .. } = lent;
        unsafe {
            c::bench_group_run(
                state.as_mut_ptr(),
                state.len(),
                kernel.as_ptr(),
                kernel.len(),
                vector.as_mut_ptr(),
                vector.len(),
                data.as_mut_ptr(),
                data.len(),
                local.as_mut_ptr(),
                local.len(),
                budget,
                words.as_mut_ptr(),
                words.len(),
            )
        }
    }

    fn step_warps(kernel: &[u32], lent: &mut Lent) -> u32 {
        let Lent { state, vector, data, local, words, .. } = lent;
        let (turn, each) = state.split_first_mut().expect("a turn");
        let mut warps = warps_of(each).expect("words that stand for warps");
        let stepped = unsafe {
            c::bench_step_warps(
                warps.as_mut_ptr(),
                warps.len(),
                *turn,
                kernel.as_ptr(),
                kernel.len(),
                vector.as_mut_ptr(),
                vector.len(),
                data.as_mut_ptr(),
                data.len(),
                local.as_mut_ptr(),
                local.len(),
            )
        };
        save(&warps, each);
        (*turn, words[0]) = (stepped.turn, stepped.stopped);
        stepped.code
    }
}
