//! FLINT's matrices modulo a word, where FLINT is installed.

use std::ffi::{c_char, c_int, c_void, CStr};

/// The calls of flint.c.
mod library {
    use super::*;

    extern "C" {
        pub fn bench_flint_new(
            p: u32,
            rows: u32,
            inner: u32,
            columns: u32,
            vectors: u32,
            a: *const u32,
            b: *const u32,
            c: *const u32,
            x: *const u32,
        ) -> *mut c_void;
        pub fn bench_flint_free(matrices: *mut c_void);
        pub fn bench_flint_freivalds(matrices: *mut c_void) -> c_int;
        pub fn bench_flint_product(matrices: *mut c_void);
        pub fn bench_flint_equal(matrices: *mut c_void) -> c_int;
        pub fn bench_flint_version() -> *const c_char;
    }
}

/// A, B, the matrix C of the claims and the matrix X whose columns are the
/// challenge vectors, and room for results.
pub struct Matrices(*mut c_void);

// SAFETY, for every block below: the pointer is that of `bench_flint_new`, which
// is told the sizes of the slices, and nothing else has it.

impl Matrices {
    /// The matrices in residues, each row by row, with their sizes.
    pub fn new([rows, inner, columns, vectors]: [u32; 4], a: &[u32], b: &[u32], c: &[u32], x: &[u32]) -> Matrices {
        let sizes = [
            (a, rows * inner),
            (b, inner * columns),
            (c, rows * columns),
            (x, columns * vectors),
        ];
        assert!(sizes.iter().all(|(matrix, size)| matrix.len() == *size as usize));
        let [a, b, c, x] = [a, b, c, x].map(<[u32]>::as_ptr);
        Matrices(unsafe { library::bench_flint_new(2_147_483_647, rows, inner, columns, vectors, a, b, c, x) })
    }

    /// Whether C·X = A·(B·X).
    pub fn freivalds(&mut self) -> bool {
        unsafe { library::bench_flint_freivalds(self.0) != 0 }
    }

    /// A·B.
    pub fn product(&mut self) {
        unsafe { library::bench_flint_product(self.0) }
    }

    /// Whether the product made last is C.
    pub fn product_is_c(&mut self) -> bool {
        unsafe { library::bench_flint_equal(self.0) != 0 }
    }
}

impl Drop for Matrices {
    fn drop(&mut self) {
        unsafe { library::bench_flint_free(self.0) }
    }
}

pub fn version() -> &'static str {
    // SAFETY: the string is a constant.
    unsafe { CStr::from_ptr(library::bench_flint_version()) }
        .to_str()
        .unwrap_or("?")
}
