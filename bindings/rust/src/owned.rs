//! What the library keeps for a program.

use crate::raw::{lh_raw_free, Handle, Opaque};
use crate::{checked, Refused};
use std::ptr::null_mut;

/// What the library made over something that it borrows. Both are freed with it.
pub(crate) struct Owned {
    made: Handle,
    lent: Handle,
}

impl Owned {
    /// Has the library make what is lent, and then what borrows it.
    pub(crate) fn new(
        lend: impl FnOnce(*mut *mut Opaque) -> u32,
        make: impl FnOnce(Handle, *mut *mut Opaque) -> u32,
    ) -> Result<Owned, Refused> {
        let lent = made_by(lend)?;
        match made_by(|out| make(lent, out)) {
            Ok(made) => Ok(Owned { made, lent }),
            Err(why) => {
                unsafe { lh_raw_free(lent) };
                Err(why)
            }
        }
    }

    /// A call of what was made, which comes back as it was.
    pub(crate) fn call(&mut self, call: impl FnOnce(Handle, *mut *mut Opaque) -> u32) -> Result<(), Refused> {
        checked(call(self.made, &mut self.made.at))
    }
}

impl Drop for Owned {
    fn drop(&mut self) {
        unsafe {
            lh_raw_free(self.made);
            lh_raw_free(self.lent);
        }
    }
}

/// What a call of the library makes.
fn made_by(make: impl FnOnce(*mut *mut Opaque) -> u32) -> Result<Handle, Refused> {
    let mut made = Handle { at: null_mut() };
    checked(make(&mut made.at))?;
    Ok(made)
}
