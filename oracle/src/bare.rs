//! One C function called as C would, by which the benchmark tells what the package adds to it.

use crate::call::{Answer, Columns, Lent};

unsafe extern "C" {
    fn guineatwirl_instant_multiway_full_join(
        combiner: u8,
        starts: *const i64,
        starts_len: usize,
        ends: *const i64,
        ends_len: usize,
        values: *const i32,
        values_len: usize,
        counts: *const u32,
        counts_len: usize,
        out_start: *mut i64,
        out_start_len: usize,
        out_end: *mut i64,
        out_end_len: usize,
        out_value: *mut i64,
        out_value_len: usize,
        number: *mut u64,
    ) -> u8;
}

/// The many-way full join of instants by the C function.
pub fn full_join(combiner: u8, lent: &Lent<i64>, columns: &mut Columns<i64>) -> Answer {
    let Columns::Priced { starts, ends, values } = columns else {
        panic!("the columns are another operation's");
    };
    let mut number = 0;
    // Sound: each pointer goes with the length of the vector that it points into.
    let code = unsafe {
        guineatwirl_instant_multiway_full_join(
            combiner,
            lent.starts.as_ptr(),
            lent.starts.len(),
            lent.ends.as_ptr(),
            lent.ends.len(),
            lent.values.as_ptr(),
            lent.values.len(),
            lent.counts.as_ptr(),
            lent.counts.len(),
            starts.as_mut_ptr(),
            starts.len(),
            ends.as_mut_ptr(),
            ends.len(),
            values.as_mut_ptr(),
            values.len(),
            &mut number,
        )
    };
    Answer { code, number }
}
