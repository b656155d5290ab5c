//! References to the interfaces of a device.

use super::abi::{self, AddRef, QueryInterface, Release};
use std::ffi::c_void;
use std::ptr::{self, NonNull};

/// A reference to an interface of DirectX 12 (`ID3D12Device`, `ID3D12Resource` ..), counted: a clone takes a further reference, and each is
/// released when it is dropped.
#[derive(Debug, PartialEq, Eq)]
pub struct Interface(NonNull<c_void>);

// SAFETY: the interfaces of DirectX 12 may be called from any thread.
unsafe impl Send for Interface {}
// SAFETY: as above; also from several ones at once.
unsafe impl Sync for Interface {}

impl Interface {
    /// Takes over a reference of the caller's (windows: `into_raw`); `None` for null.
    ///
    /// # Safety
    ///
    /// The pointer is null, or to an interface of DirectX 12 by Windows' calling convention, and the reference is the caller's to give.
    pub unsafe fn from_raw(interface: *mut c_void) -> Option<Self> {
        NonNull::new(interface).map(Interface)
    }

    /// Takes a reference beside the caller's (windows: `as_raw`); `None` for null.
    ///
    /// # Safety
    ///
    /// The pointer is null, or to a live interface of DirectX 12 by Windows' calling convention.
    pub unsafe fn from_borrowed(interface: *mut c_void) -> Option<Self> {
        let it = std::mem::ManuallyDrop::new(Interface(NonNull::new(interface)?));
        Some(Interface::clone(&it))
    }

    /// The interface, as long as a reference to it lives.
    pub fn as_raw(&self) -> *mut c_void {
        self.0.as_ptr()
    }

    /// The interface, with the reference, which is the caller's to release now.
    pub fn into_raw(self) -> *mut c_void {
        std::mem::ManuallyDrop::new(self).as_raw()
    }

    /// Its function of this number.
    ///
    /// # Safety
    ///
    /// The interface has that many functions, and this one is of the type `F`.
    pub(super) unsafe fn function<F: Copy>(&self, number: usize) -> F {
        const { assert!(size_of::<F>() == size_of::<*const c_void>()) };
        // SAFETY: an interface begins with the address of its functions' addresses.
        unsafe {
            let functions = self.as_raw().cast::<*const *const c_void>().read();
            functions.add(number).cast::<F>().read()
        }
    }

    /// Another interface of the same object; `None` where it doesn't have it.
    pub(super) fn query(&self, id: &abi::Guid) -> Option<Interface> {
        let mut found = ptr::null_mut();
        // SAFETY: each interface has this function; what it writes is null or comes with a reference.
        unsafe {
            let query: QueryInterface = self.function(abi::QUERY_INTERFACE);
            let code = query(self.as_raw(), id, &mut found);
            Interface::from_raw(if code < 0 { ptr::null_mut() } else { found })
        }
    }
}

impl Clone for Interface {
    fn clone(&self) -> Self {
        // SAFETY: each interface has this function.
        unsafe { self.function::<AddRef>(abi::ADD_REF)(self.as_raw()) };
        Interface(self.0)
    }
}

impl Drop for Interface {
    fn drop(&mut self) {
        // SAFETY: each interface has this function, and the reference is this one's.
        unsafe { self.function::<Release>(abi::RELEASE)(self.as_raw()) };
    }
}
