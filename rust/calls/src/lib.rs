//! The calls of the static library `feature_graph_c`, as safe functions from slices to slices.
//!
//! This is the only code of the workspace that isn't safe Rust. Each call is right for these reasons, the same for all:
//!
//! - The declarations in the block `extern "C"` have the parameters and the result of the library's exports, in their
//!   order: a slice crosses as a pointer and a length in bytes, and an allocator as nothing (docs/BINARY_FORM.md).
//! - A slice of Rust has a pointer that isn't null, also if it is empty, and is valid for its length. `rows` and
//!   `request` are shared and stay unchanged during the call. `out` is a `&mut` slice, so it overlaps neither of them,
//!   and all of its bytes are initialised.
//! - The contracts of the exports require nothing of the bytes.
//! - The library reads and writes only these slices and its own memory, which it frees before it returns. It keeps no
//!   pointer, has no state between calls and starts no thread, so calls from several threads are independent.
//! - It takes memory by `malloc`, `realloc` and `free` of the process. No block of memory crosses the call in either
//!   direction.
//! - It never unwinds: proved code has no panic.
//!
//! Two conditions are left to the program: `malloc`, `realloc` and `free` are those of one allocator, with the alignment
//! that C asks for, and no call is made in a signal handler or in the forked child of a process with threads.
#![deny(unsafe_op_in_unsafe_fn)]
#![warn(missing_docs)]

/// The exports of the library, by their names in it.
mod exports {
    unsafe extern "C" {
        pub fn feature_graph_describe(rows: *const u8, rows_len: usize, out: *mut u8, out_len: usize) -> usize;
        pub fn feature_graph_cycles(rows: *const u8, rows_len: usize, out: *mut u8, out_len: usize) -> usize;
    }

    /// The exports with a request.
    macro_rules! asked {
        ($($name:ident),*) => {
            unsafe extern "C" {
                $(pub fn $name(
                    rows: *const u8, rows_len: usize,
                    request: *const u8, request_len: usize,
                    out: *mut u8, out_len: usize,
                ) -> usize;)*
            }
        };
    }
    asked!(
        feature_graph_reach,
        feature_graph_resolve,
        feature_graph_order,
        feature_graph_roots,
        feature_graph_links,
        feature_graph_check
    );
}

/// Defines safe calls without a request.
macro_rules! plain_calls {
    ($($(#[$about:meta])* $name:ident = $export:ident;)*) => {
        $($(#[$about])*
        ///
        /// Returns the length of the answer; if `out` is shorter, nothing is written to it.
        pub fn $name(rows: &[u8], out: &mut [u8]) -> usize {
            // SAFETY: pointers and lengths are those of slices that live through the call (see the crate's page).
            unsafe { exports::$export(rows.as_ptr(), rows.len(), out.as_mut_ptr(), out.len()) }
        })*
    };
}

/// Defines safe calls with a request.
macro_rules! asked_calls {
    ($($(#[$about:meta])* $name:ident = $export:ident;)*) => {
        $($(#[$about])*
        ///
        /// Returns the length of the answer; if `out` is shorter, nothing is written to it.
        pub fn $name(rows: &[u8], request: &[u8], out: &mut [u8]) -> usize {
            // SAFETY: pointers and lengths are those of slices that live through the call (see the crate's page).
            unsafe {
                exports::$export(
                    rows.as_ptr(), rows.len(), request.as_ptr(), request.len(), out.as_mut_ptr(), out.len(),
                )
            }
        })*
    };
}

plain_calls! {
    /// Describes the graph of `rows`.
    describe = feature_graph_describe;
    /// Lists the cycles of the graph of `rows`.
    cycles = feature_graph_cycles;
}

asked_calls! {
    /// Resolves a query over all edges.
    reach = feature_graph_reach;
    /// Resolves a query by a table of answers, with the steps and the refused offers.
    resolve = feature_graph_resolve;
    /// Lists the features of a set in order.
    order = feature_graph_order;
    /// Lists the roots of a set.
    roots = feature_graph_roots;
    /// Lists the edges between the features of a set.
    links = feature_graph_links;
    /// Checks an explanation.
    check = feature_graph_check;
}
