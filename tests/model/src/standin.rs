//! The model's order check under the C name of the real one, to try the C driver with where the archive is not built
//! (`run --self`). It is no part of the product.

mod orders;
mod rows;

/// # Safety
/// As for the real one: each pointer leads to as many readable bytes as its length says.
#[no_mangle]
pub unsafe extern "C" fn order_check(rows: *const u8, rows_len: usize, order: *const u8, order_len: usize) -> u32 {
    let list = |start: *const u8, length: usize| match length {
        0 => &[],
        _ => unsafe { std::slice::from_raw_parts(start, length) },
    };
    orders::c_call(list(rows, rows_len), list(order, order_len))
}
