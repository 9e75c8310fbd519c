//! The shared region while guests run, and the calls that are lent it in this form.

use core::fmt;
use core::marker::PhantomData;
use core::ptr;

use crate::hub::{done, filled, id};
use crate::raw::{self, Delivery};
use crate::{Hub, PeerId, Refusal, Settings};

/// The shared region of a hub, also while guests that have mapped it read and change it.
///
/// A `&mut [u8]` says that nobody else reaches the bytes, and a `&[u8]` that nobody changes them; over memory that a guest may
/// change meanwhile, either is undefined behaviour, however short it lives. A `Region` is an address and a length instead, and
/// never makes such a reference. The methods of [`Hub`] that are lent the region have two forms:
///
/// - `set_up_at`, `disconnect_at`, `reset_at`, `register_write_at`, `load_at` and `store_at` take a `Region`, as
///   [`trap`](crate::trap) does. They are for hosts.
/// - `set_up`, `disconnect`, `reset`, `register_write`, `load` and `store` take a slice. They are for a region that no guest has
///   mapped: in tests, for a set-up before any guest runs, and where every access of a guest is emulated.
///
/// A region of either kind is made once:
///
/// ```
/// # use ivshmem::{Hub, PeerId, Refusal, Region, Settings, hub_words};
/// # fn main() -> Result<(), Refusal> {
/// # let settings = Settings { peers: 2, vectors: 1, read_write: 4096, ..Settings::default() };
/// # let mut words = [0; hub_words(2, 1)];
/// # let mapping = vec![0u8; 8192].leak();
/// # let (start, length) = (mapping.as_mut_ptr(), mapping.len());
/// // From the address where the host has mapped the memory that it gives to its guests,
/// // SAFETY: the mapping stays until the program ends, and the host makes no reference into it.
/// let mut region = unsafe { Region::new(start, length) };
/// let mut hub = Hub::set_up_at(&mut words, &settings, &mut region)?;
/// hub.connect(PeerId(0))?;
/// hub.store_at(&mut region, PeerId(0), 4096, b"hello")?;
///
/// // or safely, from memory that no guest has mapped.
/// let mut bytes = vec![0; 8192];
/// let mut region = Region::from_slice(&mut bytes);
/// hub.store_at(&mut region, PeerId(0), 4096, b"hello")?;
/// assert_eq!(&bytes[4096..4101], b"hello");
/// # Ok(())
/// # }
/// ```
///
/// It may be sent to another thread, and loads through a shared reference may run at the same time.
pub struct Region<'a> {
    bytes: *mut [u8],
    lent: PhantomData<&'a mut [u8]>,
}

// SAFETY: it is used as a `&mut [u8]` would be, to change bytes where it is lent exclusively and to read them where it is shared.
// Who makes several over the same bytes, or lets guests change them, does so under the terms of `Region::new`.
unsafe impl Send for Region<'_> {}
// SAFETY: as above.
unsafe impl Sync for Region<'_> {}

impl<'a> Region<'a> {
    /// The region of so many bytes from an address on.
    ///
    /// # Safety
    /// For the whole of `'a`:
    /// - `start` is not null, also where the length is 0, and so many bytes from it on can be read and written by this program;
    ///   the length is at most `isize::MAX`.
    /// - No Rust reference to any of these bytes is in use, and none is made; what is lent to a call beside the region (words,
    ///   table, buffer) lies elsewhere.
    ///
    /// Guests may read and change the bytes at any time, and so may calls through other regions over the same bytes. No answer
    /// of the library rests on them. What a load gives of bytes that are changed at the same time is not determined, nor is what
    /// such bytes hold after a store.
    #[must_use]
    pub const unsafe fn new(start: *mut u8, length: usize) -> Region<'a> {
        Region { bytes: ptr::slice_from_raw_parts_mut(start, length), lent: PhantomData }
    }

    /// The region in a slice, which nobody else reaches for the whole of `'a`.
    #[must_use]
    pub const fn from_slice(bytes: &'a mut [u8]) -> Region<'a> {
        Region { bytes, lent: PhantomData }
    }

    /// The same region for a shorter time, for what takes one by value.
    #[must_use]
    pub const fn reborrow(&mut self) -> Region<'_> {
        Region { bytes: self.bytes, lent: PhantomData }
    }

    /// The address of the first byte.
    #[must_use]
    pub const fn start(&self) -> *mut u8 {
        self.bytes.cast()
    }

    /// How many bytes there are.
    #[must_use]
    pub const fn length(&self) -> usize {
        self.bytes.len()
    }
}

impl<'a> From<&'a mut [u8]> for Region<'a> {
    fn from(bytes: &'a mut [u8]) -> Region<'a> {
        Region::from_slice(bytes)
    }
}

// What the bytes are is not for whoever prints a host.
impl fmt::Debug for Region<'_> {
    fn fmt(&self, f: &mut fmt::Formatter<'_>) -> fmt::Result {
        f.debug_struct("Region").field("length", &self.length()).finish_non_exhaustive()
    }
}

/// The calls that are lent the region, as a [`Region`]: also while guests run.
impl<'a> Hub<'a> {
    /// [`set_up`](Hub::set_up) of a [`Region`]: where it is accepted it writes every byte.
    ///
    /// # Errors
    /// As for [`set_up`](Hub::set_up).
    pub fn set_up_at(words: &'a mut [u32], settings: &Settings, region: &mut Region<'_>) -> Result<Hub<'a>, Refusal> {
        // SAFETY: the region was made under the terms of `Region::new`, or from a slice that is lent while it lives.
        done(unsafe { raw::set_up_at(words, region.bytes, settings) })?;
        Ok(Hub::from_words(words))
    }

    /// [`disconnect`](Hub::disconnect) with a [`Region`]: of its bytes it writes the four of the peer's State Table entry.
    ///
    /// # Errors
    /// As for [`disconnect`](Hub::disconnect).
    #[must_use = "the deliveries are interrupts to inject"]
    pub fn disconnect_at<'t>(
        &mut self,
        region: &mut Region<'_>,
        table: &'t mut [Delivery],
        peer: PeerId,
    ) -> Result<&'t [Delivery], Refusal> {
        // SAFETY: as for `set_up_at`.
        let counted = unsafe { raw::disconnect_at(self.words_mut(), region.bytes, table, id(peer)) };
        filled(counted, table)
    }

    /// [`reset`](Hub::reset) with a [`Region`]: of its bytes it writes the four of the peer's State Table entry.
    ///
    /// # Errors
    /// As for [`disconnect`](Hub::disconnect).
    #[must_use = "the deliveries are interrupts to inject"]
    pub fn reset_at<'t>(
        &mut self,
        region: &mut Region<'_>,
        table: &'t mut [Delivery],
        peer: PeerId,
    ) -> Result<&'t [Delivery], Refusal> {
        // SAFETY: as for `set_up_at`.
        let counted = unsafe { raw::reset_at(self.words_mut(), region.bytes, table, id(peer)) };
        filled(counted, table)
    }

    /// [`register_write`](Hub::register_write) with a [`Region`]: of its bytes it writes the four of the peer's State Table entry
    /// where it stores State, and else none.
    ///
    /// # Errors
    /// As for [`register_write`](Hub::register_write).
    #[must_use = "the deliveries are interrupts to inject"]
    pub fn register_write_at<'t>(
        &mut self,
        region: &mut Region<'_>,
        table: &'t mut [Delivery],
        peer: PeerId,
        offset: u64,
        width: u64,
        value: u32,
    ) -> Result<&'t [Delivery], Refusal> {
        let (words, bytes) = (self.words_mut(), region.bytes);
        // SAFETY: as for `set_up_at`.
        let counted = unsafe { raw::register_write_at(words, bytes, table, id(peer), offset, width, value) };
        filled(counted, table)
    }

    /// [`load`](Hub::load) from a [`Region`]: of its bytes it reads those of the range.
    ///
    /// # Errors
    /// As for [`load`](Hub::load).
    pub fn load_at(&self, region: &Region<'_>, peer: PeerId, offset: u64, buffer: &mut [u8]) -> Result<(), Refusal> {
        // SAFETY: as for `set_up_at`.
        done(unsafe { raw::load_at(self.words(), region.bytes, id(peer), offset, buffer) })
    }

    /// [`store`](Hub::store) to a [`Region`]: of its bytes it writes those of the range.
    ///
    /// # Errors
    /// As for [`store`](Hub::store).
    pub fn store_at(&self, region: &mut Region<'_>, peer: PeerId, offset: u64, bytes: &[u8]) -> Result<(), Refusal> {
        // SAFETY: as for `set_up_at`.
        done(unsafe { raw::store_at(self.words(), region.bytes, id(peer), offset, bytes) })
    }
}
