//! serde_json's parse into a `Value`. The value is dropped outside the timed part.

use serde_json::Value;

/// # Safety
/// The text has `length` bytes.
#[no_mangle]
pub unsafe extern "C" fn side_parse(text: *const u8, length: usize) -> *mut Value {
    let bytes = std::slice::from_raw_parts(text, length);
    match serde_json::from_slice(bytes) {
        Ok(value) => Box::into_raw(Box::new(value)),
        Err(_) => std::ptr::null_mut(),
    }
}

/// # Safety
/// The value is one that `side_parse` gave.
#[no_mangle]
pub unsafe extern "C" fn side_release(value: *mut Value) {
    drop(Box::from_raw(value));
}
