// SPDX-License-Identifier: MIT OR Apache-2.0
//! How calls of the library give handles and fill buffers.

use std::borrow::{Borrow, Cow};
use std::fmt;
use std::mem::size_of;
use std::ptr::{self, NonNull};

use crate::fault::Fault;
use crate::{sys, Label};

/// A handle of the library, freed when it is dropped.
pub struct Handle<T: Free>(NonNull<T>);

/// A type of handles, with the function of the library that frees them.
pub trait Free {
    /// # Safety
    ///
    /// The library has made the handle, and nothing uses it any more.
    unsafe fn free(handle: *mut Self);
}

impl<T: Free> Handle<T> {
    /// The handle that a call of the library writes.
    ///
    /// # Safety
    ///
    /// Where `make` returns 0, it has written a new handle.
    pub unsafe fn new(make: impl FnOnce(*mut *mut T) -> i32) -> Result<Self, Fault> {
        let mut handle = ptr::null_mut();
        Fault::check(make(&mut handle))?;
        NonNull::new(handle).map(Self).ok_or(Fault::MEMORY)
    }

    /// The `count` handles that a call of the library writes.
    ///
    /// # Safety
    ///
    /// Where `make` returns 0, it has written this many new handles. It writes no others.
    pub unsafe fn many(
        count: usize,
        make: impl FnOnce(*mut *mut T) -> i32,
    ) -> Result<Vec<Self>, Fault> {
        let (mut places, mut handles) = (room(count)?, room(count)?);
        places.resize(count, ptr::null_mut());
        Fault::check(make(places.as_mut_ptr()))?;
        handles.extend(places.into_iter().filter_map(NonNull::new).map(Self));
        Ok(handles)
    }

    pub fn get(&self) -> *const T {
        self.0.as_ptr()
    }

    /// The handle for a call that changes it, which needs it alone.
    pub fn get_mut(&mut self) -> *mut T {
        self.0.as_ptr()
    }

    /// The handle as lists have it. Calls that take a list only read its handles.
    pub fn listed(&self) -> *mut T {
        self.0.as_ptr()
    }
}

impl<T: Free> Drop for Handle<T> {
    fn drop(&mut self) {
        // SAFETY: the handle is the library's, and this is its only owner.
        unsafe { T::free(self.0.as_ptr()) }
    }
}

// SAFETY: a handle belongs to no thread, and handles of one circuit can be used side by side.
unsafe impl<T: Free> Send for Handle<T> {}

// SAFETY: all calls by a shared reference only read a handle, and any number of them may use it at
// once. Those that change it, by `get_mut`, and the one that frees it have it alone.
unsafe impl<T: Free> Sync for Handle<T> {}

macro_rules! free {
    ($($handle:ident by $function:ident)*) => {
        $(
            impl Free for sys::$handle {
                unsafe fn free(handle: *mut Self) {
                    // SAFETY: the caller's.
                    unsafe { sys::$function(handle) }
                }
            }
        )*
    };
}

free! {
    halfgates_circuit by halfgates_circuit_free
    halfgates_garbling by halfgates_garbling_free
    halfgates_job by halfgates_job_free
    halfgates_garbler by halfgates_garbler_free
    halfgates_evaluator by halfgates_evaluator_free
}

/// An empty vector with room for `count` items.
pub fn room<T>(count: usize) -> Result<Vec<T>, Fault> {
    let mut items = Vec::new();
    items.try_reserve_exact(count).map_err(|_| Fault::MEMORY)?;
    Ok(items)
}

/// What each item lends, asked once: safe code may lend something else the next time.
pub fn borrowed<T: Borrow<U>, U>(items: &[T]) -> Result<Vec<&U>, Fault> {
    let mut list = room(items.len())?;
    list.extend(items.iter().map(Borrow::borrow));
    Ok(list)
}

/// The `count` items that a call of the library writes.
///
/// # Safety
///
/// Where `fill` returns 0, it has written `count` items from the pointer on. It writes no more than
/// these.
pub unsafe fn filled<T>(count: usize, fill: impl FnOnce(*mut T) -> i32) -> Result<Vec<T>, Fault> {
    let mut items = room(count)?;
    Fault::check(fill(items.as_mut_ptr()))?;
    // SAFETY: there is room for the items, and the caller has them written.
    unsafe { items.set_len(count) };
    Ok(items)
}

/// The zero label and the one label of each wire of a value of this width, which a call of the
/// library writes. It takes the zero labels, the one labels, and the size of each in bytes.
///
/// # Safety
///
/// Where `write` returns 0, it has written both sizes of bytes. It writes no more than these.
pub unsafe fn pairs(
    width: usize,
    write: impl FnOnce(*mut u8, *mut u8, usize) -> i32,
) -> Result<Vec<[Label; 2]>, Fault> {
    // SAFETY: there is room for `width` labels twice, and the caller has each half written.
    let labels = unsafe {
        filled(2 * width, |zero: *mut Label| {
            let one = zero.add(width);
            write(zero.cast(), one.cast(), width * size_of::<Label>())
        })?
    };
    let (zero, one) = labels.split_at(width);
    let mut pairs = room(width)?;
    pairs.extend(zero.iter().zip(one).map(|(&zero, &one)| [zero, one]));
    Ok(pairs)
}

/// Bits of bytes 0 and 1, in place.
pub fn bits_of(bytes: Vec<u8>) -> Vec<bool> {
    bytes.into_iter().map(|byte| byte != 0).collect()
}

impl fmt::Display for sys::halfgates_name {
    fn fmt(&self, f: &mut fmt::Formatter<'_>) -> fmt::Result {
        f.write_str(&text_of(&self.text))
    }
}

/// The text that a zero byte ends.
pub fn text_of(bytes: &[u8]) -> Cow<'_, str> {
    let text = bytes.split(|&byte| byte == 0).next().unwrap_or_default();
    String::from_utf8_lossy(text)
}
