// A virtual block from Rust: the archive's symbols, declared, and a guard that owns the handle. A handle may not be copied, and is given to
// one call at a time, on any thread: the guard is `Send` and not `Sync`.
use std::ffi::c_void;

#[repr(C)]
struct Handle {
    opaque: *mut c_void,
}

#[repr(C)]
struct Request {
    size: u64,
    alignment: u64,
    kind: u32,
}

#[repr(C)]
#[derive(Clone, Copy, Debug, Default, PartialEq)]
struct Piece {
    offset: u64,
    number: u64,
}

const OK: u32 = 0;
const NOT_LIVE: u32 = 6;
const KIND_LINEAR: u32 = 1;

extern "C" {
    fn pilhangko_raw_virtual_block_create(block: *mut Handle, size: u64, page_size: u64) -> u32;
    fn pilhangko_raw_virtual_block_allocate(
        block: *mut Handle,
        request: *const Request,
        name: *const u8,
        name_length: usize,
        piece: *mut Piece,
    ) -> u32;
    fn pilhangko_raw_virtual_block_free(block: *mut Handle, piece: *const Piece) -> u32;
    fn pilhangko_raw_virtual_block_destroy(block: *mut Handle) -> u32;
}

struct VirtualBlock(Handle);

// SAFETY: what lies behind a handle may go to another thread, and the guard owns its handle alone.
unsafe impl Send for VirtualBlock {}

impl VirtualBlock {
    fn new(size: u64, page_size: u64) -> Result<VirtualBlock, u32> {
        let mut block = VirtualBlock(Handle { opaque: std::ptr::null_mut() });
        match unsafe { pilhangko_raw_virtual_block_create(&mut block.0, size, page_size) } {
            OK => Ok(block),
            status => Err(status),
        }
    }

    fn allocate(&mut self, size: u64, alignment: u64, name: &str) -> Result<Piece, u32> {
        let request = Request { size, alignment, kind: KIND_LINEAR };
        let mut piece = Piece::default();
        let status = unsafe {
            pilhangko_raw_virtual_block_allocate(&mut self.0, &request, name.as_ptr(), name.len(), &mut piece)
        };
        if status == OK { Ok(piece) } else { Err(status) }
    }

    fn free(&mut self, piece: Piece) -> Result<(), u32> {
        match unsafe { pilhangko_raw_virtual_block_free(&mut self.0, &piece) } {
            OK => Ok(()),
            status => Err(status),
        }
    }
}

impl Drop for VirtualBlock {
    fn drop(&mut self) {
        unsafe { pilhangko_raw_virtual_block_destroy(&mut self.0) };
    }
}

fn main() -> Result<(), u32> {
    let mut block = VirtualBlock::new(1000, 1)?;
    let first = block.allocate(100, 1, "first")?;
    let second = block.allocate(100, 64, "")?;
    println!("first at {}, second at {}", first.offset, second.offset);
    // the guard goes to another thread, which frees the first piece, and comes back
    let worker = std::thread::spawn(move || {
        let mut block = block;
        block.free(first).map(|()| block)
    });
    let mut block = worker.join().expect("the worker doesn't panic")?;
    assert_eq!(block.free(first), Err(NOT_LIVE));
    Ok(())
}
