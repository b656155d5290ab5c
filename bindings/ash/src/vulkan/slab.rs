//! The bytes of a mapped allocation, for the crate `presser`.

/// The bytes of a mapped allocation, borrowed. With the feature `presser` it is a `presser::Slab`.
#[derive(Debug)]
pub struct MappedAllocationSlab<'a> {
    bytes: &'a mut [u8],
}

impl<'a> MappedAllocationSlab<'a> {
    pub(super) fn new(bytes: &'a mut [u8]) -> Self {
        MappedAllocationSlab { bytes }
    }

    /// How many bytes there are.
    pub fn size(&self) -> usize {
        self.bytes.len()
    }

    /// The bytes.
    pub fn as_slice(&self) -> &[u8] {
        self.bytes
    }

    /// The bytes, to be written.
    pub fn as_mut_slice(&mut self) -> &mut [u8] {
        self.bytes
    }
}

#[cfg(feature = "presser")]
// SAFETY: the bytes are one slice, borrowed mutably as long as the slab lives.
unsafe impl presser::Slab for MappedAllocationSlab<'_> {
    fn base_ptr(&self) -> *const u8 {
        self.bytes.as_ptr()
    }

    fn base_ptr_mut(&mut self) -> *mut u8 {
        self.bytes.as_mut_ptr()
    }

    fn size(&self) -> usize {
        self.bytes.len()
    }
}
