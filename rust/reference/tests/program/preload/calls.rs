//! Preloaded into a program under test: acts at one of its calls of the C library
//! that read, write, sync, rename or remove a file, or say whose it is and who
//! may use it.
//! `PRELOAD_CALL` is the call's name or `any`, and `PRELOAD_AT` its number, counted
//! from 1. `PRELOAD_ACT` is `end`; `fail`, or `fail-on` for the later calls too,
//! with the error `PRELOAD_ERROR` or EIO; `swap`, which gives the file `other` the
//! name `PRELOAD_FILE` before the call; or `cut`, which cuts that file's last byte
//! off. A file `acted` in the working directory then shows that the call was made.

use std::ffi::{c_char, c_int, c_void, CStr, CString};
use std::sync::atomic::{AtomicU32, Ordering};

extern "C" {
    fn getenv(name: *const c_char) -> *const c_char;
    fn dlsym(handle: *mut c_void, name: *const c_char) -> *mut c_void;
    fn creat(path: *const c_char, mode: u32) -> c_int;
    fn truncate(path: *const c_char, length: i64) -> c_int;
    fn renameat(from: c_int, old: *const c_char, to: c_int, new: *const c_char) -> c_int;
    fn _exit(status: c_int) -> !;
    fn __errno_location() -> *mut c_int;
}

/// "Input/output error"
const EIO: c_int = 5;
const RTLD_NEXT: *mut c_void = usize::MAX as *mut c_void;
/// The working directory.
const AT_FDCWD: c_int = -100;

fn variable(name: &CStr) -> &'static str {
    let value = unsafe { getenv(name.as_ptr()) };
    if value.is_null() {
        return "";
    }
    unsafe { CStr::from_ptr(value) }.to_str().unwrap_or("")
}

/// Whether this call has to fail.
fn fails(name: &CStr) -> bool {
    static COUNT: AtomicU32 = AtomicU32::new(0);
    let call = variable(c"PRELOAD_CALL");
    if call != "any" && call != name.to_str().unwrap_or("") {
        return false;
    }
    let act = variable(c"PRELOAD_ACT");
    let count = COUNT.fetch_add(1, Ordering::Relaxed) + 1;
    let at = variable(c"PRELOAD_AT").parse().unwrap_or(u32::MAX);
    if count != at && !(act == "fail-on" && count > at) {
        return false;
    }
    unsafe { creat(c"acted".as_ptr(), 0o644) };
    match act {
        "end" => unsafe { _exit(99) },
        "swap" | "cut" => change(act),
        _ => {
            let error = variable(c"PRELOAD_ERROR").parse().unwrap_or(EIO);
            unsafe { *__errno_location() = error };
        }
    }
    act.starts_with("fail")
}

/// Does to a file what another process could.
fn change(act: &str) {
    let Ok(file) = CString::new(variable(c"PRELOAD_FILE")) else {
        return;
    };
    let length = std::fs::metadata(variable(c"PRELOAD_FILE")).map_or(0, |file| file.len());
    unsafe {
        match act {
            "swap" => renameat(AT_FDCWD, c"other".as_ptr(), AT_FDCWD, file.as_ptr()),
            _ => truncate(file.as_ptr(), length as i64 - 1),
        };
    }
}

macro_rules! calls {
    ($($name:ident($($argument:ident: $kind:ty),*) -> $result:ty;)*) => {$(
        /// # Safety
        /// As the C library's.
        #[no_mangle]
        pub unsafe extern "C" fn $name($($argument: $kind),*) -> $result {
            let name = CStr::from_bytes_with_nul(concat!(stringify!($name), "\0").as_bytes()).unwrap();
            if fails(name) {
                return -1;
            }
            type Call = unsafe extern "C" fn($($kind),*) -> $result;
            let next: Call = std::mem::transmute(dlsym(RTLD_NEXT, name.as_ptr()));
            next($($argument),*)
        }
    )*};
}

calls! {
    read(file: c_int, bytes: *mut c_void, length: usize) -> isize;
    write(file: c_int, bytes: *const c_void, length: usize) -> isize;
    fchown(file: c_int, owner: u32, group: u32) -> c_int;
    fchmod(file: c_int, mode: u32) -> c_int;
    fsync(file: c_int) -> c_int;
    close(file: c_int) -> c_int;
    rename(from: *const c_char, to: *const c_char) -> c_int;
    unlink(path: *const c_char) -> c_int;
}
