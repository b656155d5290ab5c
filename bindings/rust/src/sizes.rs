//! The sizes of the blocks that pieces share.

const MB: u64 = 1 << 20;

/// Block sizes are multiples of this, and at least as large.
const STEP: u64 = 4 * MB;

/// No block size is larger.
const LARGEST: u64 = 256 * MB;

/// A block size doubles at most so many times.
const DOUBLINGS: usize = 7;

/// The sizes in bytes of the blocks that pieces share: one range for memory of the device alone, one for memory that the host can see.
///
/// The next shared block of a memory type has the range's first size, doubled for each of its shared blocks that is live, at most seven
/// times and up to the range's largest. All four are multiples of 4 MB, from 4 MB to 256 MB: other sizes are brought into these limits
/// and rounded up. A request above the next shared block's size gets a block of its own.
///
/// ```
/// use pilhangko::AllocationSizes;
/// const MB: u64 = 1 << 20;
/// let growing = AllocationSizes::new(8 * MB, 8 * MB).with_max_device_memblock_size(256 * MB);
/// assert_eq!(growing.memblock_size(false, 2), 32 * MB); // beside two live blocks
/// assert_eq!(growing.memblock_size(true, 2), 8 * MB); // the host's don't double
/// ```
#[derive(Clone, Copy, Debug, PartialEq, Eq)]
pub struct AllocationSizes {
    device: BlockSizes,
    host: BlockSizes,
}

#[derive(Clone, Copy, Debug, PartialEq, Eq)]
struct BlockSizes {
    first: u64,
    largest: u64,
}

impl BlockSizes {
    fn fixed(size: u64) -> Self {
        let first = block_size_near(size);
        BlockSizes { first, largest: first }
    }

    fn up_to(self, size: u64) -> Self {
        BlockSizes { largest: block_size_near(size).max(self.first), ..self }
    }

    fn next(self, live: usize) -> u64 {
        (self.first << live.min(DOUBLINGS)).min(self.largest)
    }
}

/// A size between the limits, and a whole number of steps.
fn block_size_near(size: u64) -> u64 {
    size.clamp(STEP, LARGEST).next_multiple_of(STEP)
}

impl AllocationSizes {
    /// One size in bytes for all shared blocks of the device's memory, and one for all that the host can see. They don't double.
    pub fn new(device_memblock_size: u64, host_memblock_size: u64) -> Self {
        AllocationSizes { device: BlockSizes::fixed(device_memblock_size), host: BlockSizes::fixed(host_memblock_size) }
    }

    /// The same with blocks of the device's memory that double up to this size in bytes, or stay as they are where it is smaller.
    #[must_use]
    pub fn with_max_device_memblock_size(self, size: u64) -> Self {
        AllocationSizes { device: self.device.up_to(size), ..self }
    }

    /// The same with blocks of memory that the host can see that double up to this size in bytes, or stay as they are where it is
    /// smaller.
    #[must_use]
    pub fn with_max_host_memblock_size(self, size: u64) -> Self {
        AllocationSizes { host: self.host.up_to(size), ..self }
    }

    /// The size in bytes of the next shared block of a memory type with `count` live ones; `is_host` says whether the host can see it.
    pub fn memblock_size(&self, is_host: bool, count: usize) -> u64 {
        if is_host { self.host } else { self.device }.next(count)
    }

    /// First and largest size of the device's blocks, and of those that the host can see: what the archive and traces are told.
    pub(crate) fn parts(&self) -> SizeParts {
        SizeParts {
            device: self.device.first,
            largest_device: self.device.largest,
            host: self.host.first,
            largest_host: self.host.largest,
        }
    }
}

/// The four sizes, in bytes.
#[derive(Clone, Copy, Debug)]
pub(crate) struct SizeParts {
    pub(crate) device: u64,
    pub(crate) largest_device: u64,
    pub(crate) host: u64,
    pub(crate) largest_host: u64,
}

/// Blocks of 256 MB on the device, and of 64 MB where the host can see them.
impl Default for AllocationSizes {
    fn default() -> Self {
        AllocationSizes::new(256 * MB, 64 * MB)
    }
}

#[cfg(test)]
mod tests {
    use super::*;

    #[test]
    fn sizes_are_brought_into_the_limits_and_rounded_up() {
        for (asked, is) in
            [(0, 4), (1, 4), (4 * MB, 4), (4 * MB + 1, 8), (7 * MB, 8), (256 * MB - 1, 256), (u64::MAX, 256)]
        {
            assert_eq!(AllocationSizes::new(asked, 64 * MB).memblock_size(false, 0), is * MB);
            assert_eq!(AllocationSizes::new(64 * MB, asked).memblock_size(true, 0), is * MB);
        }
    }

    #[test]
    fn sizes_double_up_to_the_largest_and_seven_times() {
        let sizes = AllocationSizes::new(4 * MB, 4 * MB)
            .with_max_device_memblock_size(20 * MB)
            .with_max_host_memblock_size(1000 * MB);
        let device: Vec<u64> = (0..5).map(|count| sizes.memblock_size(false, count) / MB).collect();
        assert_eq!(device, [4, 8, 16, 20, 20]);
        assert_eq!(sizes.memblock_size(true, 6), 256 * MB);
        assert_eq!(sizes.memblock_size(true, usize::MAX), 256 * MB);
        let smaller = AllocationSizes::new(64 * MB, 64 * MB).with_max_device_memblock_size(8 * MB);
        assert_eq!(smaller.memblock_size(false, 3), 64 * MB);
    }

    #[test]
    fn defaults_are_256_and_64_megabytes() {
        let sizes = AllocationSizes::default();
        assert_eq!((sizes.memblock_size(false, 9), sizes.memblock_size(true, 9)), (256 * MB, 64 * MB));
    }
}
