//! The C interface of the static library `protocol` as safe Rust functions on
//! slices.

// Each test binary uses its own part of the interface.
#![allow(dead_code)]

#[cfg(missing_protocol)]
compile_error!(
    "libprotocol.a is not in target/staticlib (or in the folder that SERVICE_PAIR_LIB names): \
     run `./library protocol` in the repository's root to make it."
);

use service_pair_tests::reference::frame::Shared;

mod linked {
    /// A lent slice that is read, as the C interface passes it.
    type In = *const u8;
    /// A lent slice that is written.
    type Out = *mut u8;
    type Length = usize;

    #[link(name = "protocol", kind = "static")]
    extern "C" {
        pub fn pair_matrix_check(set: u32, file: In, n: Length) -> u32;
        pub fn pair_matrix_write(set: u32, rows: In, n: Length, out: Out, room: Length) -> u32;
        pub fn pair_matrix_read(set: u32, file: In, n: Length, out: Out, room: Length) -> u32;
        pub fn pair_tied_rows(
            set: u32,
            file: In,
            n: Length,
            out: Out,
            room: Length,
            count: *mut u64,
        ) -> u32;
        pub fn pair_evaluate(
            set: u32,
            key: In,
            key_length: Length,
            label: In,
            label_length: Length,
            file: In,
            file_length: Length,
            out: Out,
            room: Length,
        ) -> u32;
        pub fn pair_sample(
            set: u32,
            start: u64,
            source: In,
            source_length: Length,
            out: Out,
            room: Length,
            next: *mut u64,
        ) -> u32;
        pub fn pair_deal(
            set: u32,
            session: u32,
            line: u8,
            tape: In,
            n: Length,
            out: Out,
            room: Length,
        ) -> u32;
        pub fn pair_deal_source(
            set: u32,
            session: u32,
            line: u8,
            start: u64,
            source: In,
            source_length: Length,
            out: Out,
            room: Length,
            next: *mut u64,
        ) -> u32;
        pub fn pair_begin(
            set: u32,
            side: u32,
            session: u32,
            line: u8,
            key_half: In,
            key_length: Length,
            label_half: In,
            label_length: Length,
            state: Out,
            state_length: Length,
        ) -> u32;
        pub fn pair_step(
            state: Out,
            state_length: Length,
            frame: In,
            frame_length: Length,
            file: In,
            file_length: Length,
            out: Out,
            room: Length,
            written: *mut u64,
        ) -> u32;
        pub fn pair_join(
            set: u32,
            share0: In,
            length0: Length,
            share1: In,
            length1: Length,
            out: Out,
            room: Length,
        ) -> u32;
        pub fn pair_run(input: In, n: Length, out: Out, room: Length) -> u32;
    }
}

// Each wrapper below is sound because every slice goes with its own length, and
// slices and counts that are written are lent alone.

pub fn matrix_check(set: u32, file: &[u8]) -> u32 {
    unsafe { linked::pair_matrix_check(set, file.as_ptr(), file.len()) }
}

pub fn matrix_write(set: u32, rows: &[u8], out: &mut [u8]) -> u32 {
    let (output, room) = (out.as_mut_ptr(), out.len());
    unsafe { linked::pair_matrix_write(set, rows.as_ptr(), rows.len(), output, room) }
}

pub fn matrix_read(set: u32, file: &[u8], out: &mut [u8]) -> u32 {
    let (output, room) = (out.as_mut_ptr(), out.len());
    unsafe { linked::pair_matrix_read(set, file.as_ptr(), file.len(), output, room) }
}

pub fn tied_rows(set: u32, file: &[u8], out: &mut [u8], count: &mut u64) -> u32 {
    let (output, room) = (out.as_mut_ptr(), out.len());
    unsafe { linked::pair_tied_rows(set, file.as_ptr(), file.len(), output, room, count) }
}

pub fn evaluate(set: u32, key: &[u8], label: &[u8], file: &[u8], out: &mut [u8]) -> u32 {
    unsafe {
        linked::pair_evaluate(
            set,
            key.as_ptr(),
            key.len(),
            label.as_ptr(),
            label.len(),
            file.as_ptr(),
            file.len(),
            out.as_mut_ptr(),
            out.len(),
        )
    }
}

pub fn sample(set: u32, start: u64, source: &[u8], out: &mut [u8], next: &mut u64) -> u32 {
    let (output, room) = (out.as_mut_ptr(), out.len());
    unsafe { linked::pair_sample(set, start, source.as_ptr(), source.len(), output, room, next) }
}

pub fn deal(set: u32, shared: Shared, tape: &[u8], out: &mut [u8]) -> u32 {
    let Shared { session, line } = shared;
    let (output, room) = (out.as_mut_ptr(), out.len());
    unsafe { linked::pair_deal(set, session, line, tape.as_ptr(), tape.len(), output, room) }
}

pub fn deal_source(
    set: u32,
    shared: Shared,
    start: u64,
    source: &[u8],
    out: &mut [u8],
    next: &mut u64,
) -> u32 {
    unsafe {
        linked::pair_deal_source(
            set,
            shared.session,
            shared.line,
            start,
            source.as_ptr(),
            source.len(),
            out.as_mut_ptr(),
            out.len(),
            next,
        )
    }
}

pub fn begin(
    set: u32,
    side: u32,
    shared: Shared,
    key: &[u8],
    label: &[u8],
    state: &mut [u8],
) -> u32 {
    unsafe {
        linked::pair_begin(
            set,
            side,
            shared.session,
            shared.line,
            key.as_ptr(),
            key.len(),
            label.as_ptr(),
            label.len(),
            state.as_mut_ptr(),
            state.len(),
        )
    }
}

pub fn step(state: &mut [u8], frame: &[u8], file: &[u8], out: &mut [u8], written: &mut u64) -> u32 {
    unsafe {
        linked::pair_step(
            state.as_mut_ptr(),
            state.len(),
            frame.as_ptr(),
            frame.len(),
            file.as_ptr(),
            file.len(),
            out.as_mut_ptr(),
            out.len(),
            written,
        )
    }
}

pub fn join(set: u32, share0: &[u8], share1: &[u8], out: &mut [u8]) -> u32 {
    let (first, second) = (share0.as_ptr(), share1.as_ptr());
    let (output, room) = (out.as_mut_ptr(), out.len());
    unsafe { linked::pair_join(set, first, share0.len(), second, share1.len(), output, room) }
}

pub fn run(input: &[u8], out: &mut [u8]) -> u32 {
    let (output, room) = (out.as_mut_ptr(), out.len());
    unsafe { linked::pair_run(input.as_ptr(), input.len(), output, room) }
}
