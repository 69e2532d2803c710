// SPDX-License-Identifier: Apache-2.0
//! The calls of store.h.
//!
//! What C owes stands there: pointers are valid, and not null but with a length of 0. That is all that
//! the unsafe code here relies on.
#![allow(unsafe_code)]

use crate::error::Error;
use crate::store::{BatchOp, Options, Store, Tree};
use std::ffi::{c_char, c_int, c_void, CStr, OsStr};
use std::os::unix::ffi::OsStrExt;
use std::panic::{catch_unwind, AssertUnwindSafe};
use std::ptr::null_mut;
use std::slice;

const DONE: c_int = 0;
const NOT_FOUND: c_int = 1;
const WRONG_ARGUMENT: c_int = 2;
const FULL: c_int = 3;
const IN_USE: c_int = 4;
const FILE: c_int = 5;
const DAMAGED: c_int = 6;
const FAILED: c_int = 7;

/// How many entries a scan takes at once.
const AT_ONCE: usize = 256;

/// `store_options`.
#[repr(C)]
pub struct COptions {
    page_bytes: u32,
    leaves: u32,
    frames: u32,
    unused: u32,
    log_bytes: u64,
}

/// `store_change`.
#[repr(C)]
pub struct CChange {
    key: *const c_void,
    key_length: usize,
    value: *const c_void,
    value_length: usize,
    tree: u32,
    unused: u32,
}

/// `store_visit`.
type Visit = unsafe extern "C" fn(*mut c_void, *const c_void, usize, *const c_void, usize) -> c_int;

fn number_of(error: &Error) -> c_int {
    match error {
        Error::KeyTooLong | Error::ValueTooLong | Error::OutOfRange => WRONG_ARGUMENT,
        Error::Full => FULL,
        Error::InUse => IN_USE,
        Error::File(..) => FILE,
        Error::Damaged(_) => DAMAGED,
        _ => FAILED,
    }
}

/// Makes a call. A panic doesn't go on into C.
fn answer(call: impl FnOnce() -> Result<c_int, Error>) -> c_int {
    match catch_unwind(AssertUnwindSafe(call)) {
        Ok(Ok(number)) => number,
        Ok(Err(error)) => number_of(&error),
        Err(_) => FAILED,
    }
}

/// # Safety
///
/// So many bytes can be read there while the answer is used; the pointer may be null where it is none.
unsafe fn bytes<'a>(at: *const c_void, length: usize) -> &'a [u8] {
    match length {
        0 => &[],
        // SAFETY: as said above.
        _ => unsafe { slice::from_raw_parts(at.cast(), length) },
    }
}

fn tree_of(store: &Store, number: u32) -> Result<Tree, Error> {
    store.tree_of_number(number).ok_or(Error::OutOfRange)
}

/// # Safety
///
/// As store.h says; so in all calls below.
#[no_mangle]
pub unsafe extern "C" fn store_open(
    path: *const c_char,
    options: *const COptions,
    opened: *mut *mut Store,
) -> c_int {
    // SAFETY: here and below, pointers are as store.h says.
    unsafe { *opened = null_mut() };
    let (path, given) = unsafe { (CStr::from_ptr(path), options.as_ref()) };
    answer(|| {
        let mut options = Options::default();
        if let Some(given) = given {
            let or = |given: u32, otherwise: u32| if given == 0 { otherwise } else { given };
            options.page_bytes = or(given.page_bytes, options.page_bytes as u32) as usize;
            options.leaves = or(given.leaves, options.leaves);
            options.frames = or(given.frames, options.frames);
            options.log_bytes = if given.log_bytes == 0 {
                options.log_bytes
            } else {
                given.log_bytes
            };
        }
        let store = Store::open(OsStr::from_bytes(path.to_bytes()), &options)?;
        unsafe { *opened = Box::into_raw(Box::new(store)) };
        Ok(DONE)
    })
}

/// # Safety
///
/// As store.h says.
#[no_mangle]
pub unsafe extern "C" fn store_tree(
    store: *mut Store,
    name: *const c_char,
    tree: *mut u32,
) -> c_int {
    let (store, name) = unsafe { (&*store, CStr::from_ptr(name)) };
    answer(|| {
        let name = name.to_str().map_err(|_| Error::OutOfRange)?;
        let number = store.tree(name)?.number();
        unsafe { *tree = number };
        Ok(DONE)
    })
}

/// # Safety
///
/// As store.h says.
#[no_mangle]
pub unsafe extern "C" fn store_get(
    store: *mut Store,
    tree: u32,
    key: *const c_void,
    key_length: usize,
    value: *mut c_void,
    room: usize,
    length: *mut usize,
) -> c_int {
    let (store, key) = unsafe { (&*store, bytes(key, key_length)) };
    unsafe { *length = 0 };
    answer(|| {
        let Some(found) = store.get(tree_of(store, tree)?, key)? else {
            return Ok(NOT_FOUND);
        };
        let count = found.len().min(room);
        if count > 0 {
            unsafe { slice::from_raw_parts_mut(value.cast::<u8>(), count) }
                .copy_from_slice(&found[..count]);
        }
        unsafe { *length = found.len() };
        Ok(DONE)
    })
}

/// # Safety
///
/// As store.h says.
#[no_mangle]
pub unsafe extern "C" fn store_put(
    store: *mut Store,
    tree: u32,
    key: *const c_void,
    key_length: usize,
    value: *const c_void,
    value_length: usize,
) -> c_int {
    let (store, key, value) =
        unsafe { (&*store, bytes(key, key_length), bytes(value, value_length)) };
    answer(|| store.put(tree_of(store, tree)?, key, value).map(|()| DONE))
}

/// # Safety
///
/// As store.h says.
#[no_mangle]
pub unsafe extern "C" fn store_delete(
    store: *mut Store,
    tree: u32,
    key: *const c_void,
    key_length: usize,
) -> c_int {
    let (store, key) = unsafe { (&*store, bytes(key, key_length)) };
    answer(|| match store.delete(tree_of(store, tree)?, key)? {
        true => Ok(DONE),
        false => Ok(NOT_FOUND),
    })
}

/// # Safety
///
/// As store.h says.
#[no_mangle]
pub unsafe extern "C" fn store_scan(
    store: *mut Store,
    tree: u32,
    from: *const c_void,
    from_length: usize,
    to: *const c_void,
    to_length: usize,
    most: usize,
    visit: Visit,
    context: *mut c_void,
    count: *mut usize,
) -> c_int {
    let (store, from) = unsafe { (&*store, bytes(from, from_length)) };
    let to = (!to.is_null()).then(|| unsafe { bytes(to, to_length) });
    unsafe { *count = 0 };
    answer(|| {
        let (tree, mut from) = (tree_of(store, tree)?, from.to_vec());
        let mut shown = 0;
        while shown < most {
            let at_once = AT_ONCE.min(most - shown);
            let entries = store.scan(tree, &from, to, at_once)?;
            for (key, value) in &entries {
                shown += 1;
                unsafe { *count = shown };
                let (key, value) = (key.as_slice(), value.as_slice());
                let goes_on = unsafe {
                    visit(
                        context,
                        key.as_ptr().cast(),
                        key.len(),
                        value.as_ptr().cast(),
                        value.len(),
                    )
                };
                if goes_on == 0 {
                    return Ok(DONE);
                }
            }
            match entries.last() {
                Some((key, _)) if entries.len() == at_once => {
                    from.clone_from(key);
                    from.push(0); // the least key behind it
                }
                _ => break,
            }
        }
        Ok(DONE)
    })
}

/// # Safety
///
/// As store.h says.
#[no_mangle]
pub unsafe extern "C" fn store_batch(
    store: *mut Store,
    changes: *const CChange,
    count: usize,
) -> c_int {
    let store = unsafe { &*store };
    let changes = match count {
        0 => &[],
        _ => unsafe { slice::from_raw_parts(changes, count) },
    };
    answer(|| {
        let op = |change: &CChange| -> Result<BatchOp<'static>, Error> {
            let tree = tree_of(store, change.tree)?;
            let key = unsafe { bytes(change.key, change.key_length) };
            Ok(match change.value.is_null() && change.value_length == 0 {
                true => BatchOp::Delete(tree, key),
                false => BatchOp::Put(tree, key, unsafe {
                    bytes(change.value, change.value_length)
                }),
            })
        };
        let ops: Result<Vec<_>, Error> = changes.iter().map(op).collect();
        store.batch(&ops?).map(|()| DONE)
    })
}

/// # Safety
///
/// As store.h says.
#[no_mangle]
pub unsafe extern "C" fn store_checkpoint(store: *mut Store) -> c_int {
    let store = unsafe { &*store };
    answer(|| store.checkpoint().map(|()| DONE))
}

/// # Safety
///
/// As store.h says.
#[no_mangle]
pub unsafe extern "C" fn store_close(store: *mut Store) -> c_int {
    let store = unsafe { Box::from_raw(store) };
    answer(|| store.close().map(|()| DONE))
}
