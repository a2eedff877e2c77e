//! The functions of the static library `linear` as safe Rust functions on
//! slices; inlined, so that a benchmark times the calls themselves.

#[cfg(missing_linear)]
compile_error!(
    "liblinear.a is not in target/staticlib (or in the folder that SERVICE_PAIR_LIB names): \
     run `./library linear` in the repository's root to make it."
);

mod linked {
    /// A lent slice's bytes, that are read or written; its length follows.
    type In = *const u8;
    type Out = *mut u8;

    // A truth value is declared as a byte, so that any other byte than 0 and 1
    // is seen and not assumed away.
    #[link(name = "linear", kind = "static")]
    extern "C" {
        pub fn add_bits(a: In, n: usize, b: In, m: usize, out: Out, room: usize);
        pub fn add_bits_to(a: In, n: usize, out: Out, room: usize);
        pub fn circulant_product(key: In, n: usize, label: In, m: usize, out: Out, room: usize);
        pub fn add_trits(a: In, n: usize, b: In, m: usize, out: Out, room: usize);
        pub fn subtract_trits(w: In, n: usize, r: In, m: usize, out: Out, room: usize);
        pub fn inner_share(side: u8, w: In, n: usize, r: In, m: usize, out: Out, room: usize);
        pub fn matrix_product(rows: In, n: usize, v: In, m: usize, t: usize, out: Out, room: usize);
        pub fn trits_fit(v: In, n: usize, t: usize) -> u8;
        pub fn spare_bits_clear(v: In, n: usize, t: usize) -> u8;
        pub fn row_is_zero(row: In, n: usize) -> u8;
    }
}

// Each wrapper below is sound because every slice goes with its own length, and
// a slice that is written is lent alone.

macro_rules! two_inputs {
    ($($name:ident),*) => {$(
        #[inline(always)]
        pub fn $name(a: &[u8], b: &[u8], out: &mut [u8]) {
            let (output, room) = (out.as_mut_ptr(), out.len());
            unsafe { linked::$name(a.as_ptr(), a.len(), b.as_ptr(), b.len(), output, room) }
        }
    )*};
}

two_inputs!(add_bits, circulant_product, add_trits, subtract_trits);

#[inline(always)]
pub fn add_bits_to(a: &[u8], out: &mut [u8]) {
    unsafe { linked::add_bits_to(a.as_ptr(), a.len(), out.as_mut_ptr(), out.len()) }
}

#[inline(always)]
pub fn inner_share(side: u8, w: &[u8], r: &[u8], out: &mut [u8]) {
    let (output, room) = (out.as_mut_ptr(), out.len());
    unsafe { linked::inner_share(side, w.as_ptr(), w.len(), r.as_ptr(), r.len(), output, room) }
}

#[inline(always)]
pub fn matrix_product(rows: &[u8], v: &[u8], t: usize, out: &mut [u8]) {
    let (output, room) = (out.as_mut_ptr(), out.len());
    let (vector, n) = (v.as_ptr(), v.len());
    unsafe { linked::matrix_product(rows.as_ptr(), rows.len(), vector, n, t, output, room) }
}

#[inline(always)]
pub fn trits_fit(v: &[u8], t: usize) -> u8 {
    unsafe { linked::trits_fit(v.as_ptr(), v.len(), t) }
}

#[inline(always)]
pub fn spare_bits_clear(v: &[u8], t: usize) -> u8 {
    unsafe { linked::spare_bits_clear(v.as_ptr(), v.len(), t) }
}

#[inline(always)]
pub fn row_is_zero(row: &[u8]) -> u8 {
    unsafe { linked::row_is_zero(row.as_ptr(), row.len()) }
}
