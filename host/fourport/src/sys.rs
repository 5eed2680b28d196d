//! The archive's functions, and the only unsafe code of the crate: each is made safe by what Rust's references promise.
//!
//! A slice crosses as a pointer to its first byte and its length. What the desk asks of its caller: each pointer is valid for its length and stays so
//! during the call (for an empty slice it is not null); what is lent to be written is lent to nobody else, and nobody writes what is lent to be read;
//! there is stack enough ([`crate::STACK`]). The desk keeps no pointer, has no state of its own, and never unwinds. No contract has a condition on
//! the bytes or lengths.

use crate::Counts;

mod archive {
    use crate::Counts;

    extern "C" {
        pub fn fourport_canonical(clauses: *const u8, clauses_len: usize, out: *mut u8, out_len: usize) -> u32;
        pub fn fourport_read(
            text: *const u8,
            text_len: usize,
            names: *mut u8,
            names_len: usize,
            out: *mut u8,
            out_len: usize,
            named: *mut usize,
        ) -> u32;
        pub fn fourport_read_query(
            rules: *const u8,
            rules_len: usize,
            query: *const u8,
            query_len: usize,
            names: *mut u8,
            names_len: usize,
            out: *mut u8,
            out_len: usize,
            named: *mut usize,
        ) -> u32;
        pub fn fourport_first(query: *const u8, query_len: usize, out: *mut u8, out_len: usize) -> u32;
        pub fn fourport_forward(program: *const u8, program_len: usize, event: *const u8, event_len: usize, out: *mut u8, out_len: usize) -> u32;
        pub fn fourport_back(program: *const u8, program_len: usize, event: *const u8, event_len: usize, out: *mut u8, out_len: usize) -> u32;
        pub fn fourport_run(
            program: *const u8,
            program_len: usize,
            event: *const u8,
            event_len: usize,
            steps: u32,
            back: u8,
            out: *mut u8,
            out_len: usize,
            taken: *mut u32,
        ) -> u32;
        pub fn fourport_door(
            program: *const u8,
            program_len: usize,
            event: *const u8,
            event_len: usize,
            limit: u32,
            out: *mut u8,
            out_len: usize,
            taken: *mut u32,
        ) -> u32;
        pub fn fourport_answers(
            program: *const u8,
            program_len: usize,
            query: *const u8,
            query_len: usize,
            steps: u32,
            out: *mut u8,
            out_len: usize,
            written: *mut usize,
            taken: *mut u32,
        ) -> u32;
        pub fn fourport_value(event: *const u8, event_len: usize, v: u16, out: *mut u8, out_len: usize, written: *mut u32) -> u32;
        pub fn fourport_lookup(program: *const u8, program_len: usize, event: *const u8, event_len: usize, at: *mut usize) -> usize;
        pub fn fourport_greatest(event: *const u8, event_len: usize, part: *mut u32, greatest: *mut u32) -> u32;
        pub fn fourport_count(counts: *mut Counts, event: *const u8, event_len: usize) -> u32;
    }
}

pub fn canonical(clauses: &[u8], out: &mut [u8]) -> u32 {
    // SAFETY: both pointers and lengths are of live slices, never null; `out` is borrowed alone, so it overlaps nothing and nobody else reads or
    // writes it; `clauses` is borrowed shared, so nobody writes it. The desk reads and writes within the lengths and keeps neither pointer.
    unsafe { archive::fourport_canonical(clauses.as_ptr(), clauses.len(), out.as_mut_ptr(), out.len()) }
}

pub fn read(text: &[u8], names: &mut [u8], out: &mut [u8], named: &mut usize) -> u32 {
    let (n, o) = (names.as_mut_ptr(), out.as_mut_ptr());
    // SAFETY: as for `canonical`: live slices, `text` borrowed shared; `names` and `out` are each borrowed alone, so neither overlaps anything, and so
    // is `named`, an aligned, initialised number.
    unsafe { archive::fourport_read(text.as_ptr(), text.len(), n, names.len(), o, out.len(), named) }
}

pub fn read_query(rules: &[u8], query: &[u8], names: &mut [u8], out: &mut [u8], named: &mut usize) -> u32 {
    let (r, q, n, o) = (rules.as_ptr(), query.as_ptr(), names.as_mut_ptr(), out.as_mut_ptr());
    // SAFETY: as for `read`; `rules` and `query` are borrowed shared and may be one another's parts, since both are only read.
    unsafe { archive::fourport_read_query(r, rules.len(), q, query.len(), n, names.len(), o, out.len(), named) }
}

pub fn first(query: &[u8], out: &mut [u8]) -> u32 {
    // SAFETY: as for `canonical`: live slices, `out` borrowed alone, `query` borrowed shared.
    unsafe { archive::fourport_first(query.as_ptr(), query.len(), out.as_mut_ptr(), out.len()) }
}

pub fn forward(program: &[u8], event: &[u8], out: &mut [u8]) -> u32 {
    // SAFETY: as for `canonical`: live slices, `out` borrowed alone; `program` and `event` are borrowed shared and may be one another's parts, since
    // both are only read.
    unsafe { archive::fourport_forward(program.as_ptr(), program.len(), event.as_ptr(), event.len(), out.as_mut_ptr(), out.len()) }
}

pub fn back(program: &[u8], event: &[u8], out: &mut [u8]) -> u32 {
    // SAFETY: as for `forward`: live slices, `out` borrowed alone, `program` and `event` borrowed shared and only read.
    unsafe { archive::fourport_back(program.as_ptr(), program.len(), event.as_ptr(), event.len(), out.as_mut_ptr(), out.len()) }
}

pub fn run(program: &[u8], event: &[u8], steps: u32, back: u8, out: &mut [u8], taken: &mut u32) -> u32 {
    let (p, e, o) = (program.as_ptr(), event.as_ptr(), out.as_mut_ptr());
    // SAFETY: as for `forward`, and `taken` is an aligned, initialised number that is borrowed alone, apart from `out`.
    unsafe { archive::fourport_run(p, program.len(), e, event.len(), steps, back, o, out.len(), taken) }
}

pub fn door(program: &[u8], event: &[u8], limit: u32, out: &mut [u8], taken: &mut u32) -> u32 {
    let (p, e, o) = (program.as_ptr(), event.as_ptr(), out.as_mut_ptr());
    // SAFETY: as for `run`: live slices, `out` and `taken` each borrowed alone, `program` and `event` borrowed shared and only read.
    unsafe { archive::fourport_door(p, program.len(), e, event.len(), limit, o, out.len(), taken) }
}

pub fn answers(program: &[u8], query: &[u8], steps: u32, out: &mut [u8], written: &mut usize, taken: &mut u32) -> u32 {
    let (p, q, o) = (program.as_ptr(), query.as_ptr(), out.as_mut_ptr());
    // SAFETY: as for `forward`, and `written` and `taken` are aligned, initialised numbers, each borrowed alone, apart from `out`.
    unsafe { archive::fourport_answers(p, program.len(), q, query.len(), steps, o, out.len(), written, taken) }
}

pub fn value(event: &[u8], v: u16, out: &mut [u8], written: &mut u32) -> u32 {
    // SAFETY: as for `canonical`, and `written` is an aligned, initialised number that is borrowed alone, apart from `out`.
    unsafe { archive::fourport_value(event.as_ptr(), event.len(), v, out.as_mut_ptr(), out.len(), written) }
}

pub fn lookup(program: &[u8], event: &[u8], at: &mut usize) -> usize {
    // SAFETY: both slices are live and borrowed shared; `at` is an aligned, initialised number that is borrowed alone.
    unsafe { archive::fourport_lookup(program.as_ptr(), program.len(), event.as_ptr(), event.len(), at) }
}

pub fn greatest(event: &[u8], part: &mut u32, greatest: &mut u32) -> u32 {
    // SAFETY: the slice is live and borrowed shared; `part` and `greatest` are aligned, initialised numbers, each borrowed alone.
    unsafe { archive::fourport_greatest(event.as_ptr(), event.len(), part, greatest) }
}

pub fn count(counts: &mut Counts, event: &[u8]) -> u32 {
    // SAFETY: `counts` has the layout of C's struct of four 32-bit numbers (`repr(C)`), is initialised and borrowed alone; the slice is live and
    // borrowed shared.
    unsafe { archive::fourport_count(counts, event.as_ptr(), event.len()) }
}
