//! Stands before a program's `malloc` and `realloc` and refuses one call: the one whose number the environment's REFUSED_CALL has,
//! from 1 on. It says so on standard error. It gives the program no random bytes, so that each run hashes with the same keys.
#![no_std]

use core::ffi::{c_char, c_int, c_long, c_void};
use core::ptr::null_mut;
use core::sync::atomic::{AtomicI64, Ordering};

unsafe extern "C" {
    fn __libc_malloc(size: usize) -> *mut c_void;
    fn __libc_realloc(old: *mut c_void, size: usize) -> *mut c_void;
    fn getenv(name: *const c_char) -> *const c_char;
    fn atol(text: *const c_char) -> c_long;
    fn write(file: c_int, bytes: *const c_void, count: usize) -> isize;
}

static CALLS: AtomicI64 = AtomicI64::new(0);

fn is_refused() -> bool {
    let number = unsafe { getenv(c"REFUSED_CALL".as_ptr()) };
    if number.is_null() || CALLS.fetch_add(1, Ordering::Relaxed) + 1 != unsafe { atol(number) } {
        return false;
    }
    let said = b"refused\n";
    unsafe { write(2, said.as_ptr().cast(), said.len()) };
    true
}

#[unsafe(no_mangle)]
unsafe extern "C" fn malloc(size: usize) -> *mut c_void {
    if is_refused() {
        return null_mut();
    }
    unsafe { __libc_malloc(size) }
}

#[unsafe(no_mangle)]
unsafe extern "C" fn realloc(old: *mut c_void, size: usize) -> *mut c_void {
    if is_refused() {
        return null_mut();
    }
    unsafe { __libc_realloc(old, size) }
}

/// Fails, so that the program takes the keys that everybody knows.
#[unsafe(no_mangle)]
unsafe extern "C" fn getentropy(_bytes: *mut c_void, _count: usize) -> c_int {
    -1
}

#[panic_handler]
fn panic(_: &core::panic::PanicInfo) -> ! {
    loop {}
}
