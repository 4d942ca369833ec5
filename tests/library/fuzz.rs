//! The comparison under a coverage-guided fuzzer: libFuzzer hands over bytes, they make one call, and a difference or a changed guard value ends the run.
mod calls;
mod library;
mod makers;
mod random;
mod reference;

/// # Safety
/// `data` points to `size` bytes, as libFuzzer promises.
#[no_mangle]
pub unsafe extern "C" fn LLVMFuzzerTestOneInput(data: *const u8, size: usize) -> i32 {
    let bytes = if size == 0 { &[] } else { std::slice::from_raw_parts(data, size) };
    if let Err(error) = makers::from_bytes(bytes) {
        println!("FAILED: {error}");
        std::process::abort();
    }
    0
}
