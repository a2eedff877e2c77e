//! libsodium's scalar multiplication on Curve25519, where the library is
//! installed. It is loaded while the benchmark runs, so that nothing is missing
//! where it is not.

use crate::timing::{kept, Table};
use std::ffi::{c_char, c_int, c_void, CStr};
use std::hint::black_box;

const NAMES: [&CStr; 3] = [c"libsodium.so.23", c"libsodium.so.26", c"libsodium.so"];
/// `RTLD_NOW`: all of the library's symbols are found at once.
const NOW: c_int = 2;

type Initialise = unsafe extern "C" fn() -> c_int;
type Multiply = unsafe extern "C" fn(*mut u8, *const u8, *const u8) -> c_int;
type MultiplyBase = unsafe extern "C" fn(*mut u8, *const u8) -> c_int;

extern "C" {
    fn dlopen(name: *const c_char, flags: c_int) -> *mut c_void;
    fn dlsym(library: *mut c_void, name: *const c_char) -> *mut c_void;
}

#[derive(Clone, Copy)]
struct Curve {
    multiply: Multiply,
    multiply_base: MultiplyBase,
}

impl Curve {
    fn load() -> Option<Curve> {
        // Sound: the names are C strings, and the library stays loaded.
        let library = NAMES.iter().map(|name| unsafe { dlopen(name.as_ptr(), NOW) });
        let library = library.into_iter().find(|library| !library.is_null())?;
        let find = |name: &CStr| {
            let symbol = unsafe { dlsym(library, name.as_ptr()) };
            (!symbol.is_null()).then_some(symbol)
        };
        let initialise = find(c"sodium_init")?;
        let multiply = find(c"crypto_scalarmult_curve25519")?;
        let multiply_base = find(c"crypto_scalarmult_curve25519_base")?;
        // Sound: these are the types in the library's manual.
        unsafe {
            let initialise: Initialise = std::mem::transmute(initialise);
            // It picks the fastest form that the machine has.
            (initialise() >= 0).then(|| Curve {
                multiply: std::mem::transmute::<*mut c_void, Multiply>(multiply),
                multiply_base: std::mem::transmute::<*mut c_void, MultiplyBase>(multiply_base),
            })
        }
    }

    /// A scalar times the base point.
    fn base(&self, scalar: &[u8; 32]) -> [u8; 32] {
        let mut point = [0; 32];
        // Sound: both have the 32 bytes that the function reads and writes.
        let number = unsafe { (self.multiply_base)(point.as_mut_ptr(), scalar.as_ptr()) };
        assert_eq!(number, 0, "a product of libsodium is refused");
        point
    }

    /// A scalar times a point.
    fn times(&self, scalar: &[u8; 32], point: &[u8; 32]) -> [u8; 32] {
        let mut product = [0; 32];
        let out = product.as_mut_ptr();
        // Sound: as above.
        let number = unsafe { (self.multiply)(out, scalar.as_ptr(), point.as_ptr()) };
        assert_eq!(number, 0, "a product of libsodium is refused");
        product
    }
}

/// Adds the rows of both products, if there is a libsodium.
pub fn rows(scalars: [[u8; 32]; 2], table: &mut Table) -> bool {
    let Some(curve) = Curve::load() else {
        return false;
    };
    let [a, b] = scalars;
    let point = curve.base(&b);
    // Both orders give the same point: the functions are what they are taken for.
    assert_eq!(curve.times(&a, &point), curve.times(&b, &curve.base(&a)));
    table.alone("libsodium crypto_scalarmult_curve25519", move || {
        kept(curve.times(black_box(&a), black_box(&point)))
    });
    table.alone("libsodium crypto_scalarmult_curve25519_base", move || {
        kept(curve.base(black_box(&a)))
    });
    true
}
