//! A Vulkan driver for tests, by functions over a state that tests look at, and random numbers that are the same on each run.
#![allow(dead_code, missing_docs)]

use pilhangko::vulkan::{
    Buffer, Device, DeviceFunctions, DeviceLimits, DeviceMemory, Image, MappedMemoryRange, MemoryAllocateFlagsInfo,
    MemoryAllocateInfo, MemoryDedicatedAllocateInfo, MemoryHeap, MemoryPropertyFlags, MemoryType,
    PhysicalDeviceMemoryProperties,
};
use std::alloc::{alloc_zeroed, dealloc, Layout};
use std::collections::{BTreeMap, HashMap};
use std::ffi::c_void;
use std::ptr;
use std::sync::{Mutex, MutexGuard, PoisonError};

pub mod account;
pub mod requests;
pub mod resources;
pub mod script;

pub const MB: u64 = 1 << 20;

/// How the driver refuses a question: by a code, or by success and null.
#[derive(Clone, Copy, Debug, PartialEq, Eq)]
pub enum Refusal {
    Code(i32),
    Null,
}

/// A question is for memory, for its mapping, to make its bytes visible, for a buffer or an image, or to bind one.
#[derive(Clone, Copy, Debug, PartialEq, Eq)]
pub enum Question {
    Memory,
    Mapping,
    Visible,
    Create,
    Bind,
}

/// What memory was asked for.
#[derive(Clone, Copy, Debug, Default, PartialEq, Eq)]
pub struct Asked {
    pub size: u64,
    pub memory_type: u32,
    pub buffer: Buffer,
    pub image: Image,
    pub device_address: bool,
    /// What a request's own chain says: a priority in hundredths, handle types for export.
    pub priority: u32,
    pub handle_types: u32,
}

/// Memory that the driver holds.
#[derive(Clone, Copy, Debug)]
pub struct Held {
    pub asked: Asked,
    pub mapped: Option<*mut u8>,
}

/// What was made visible, to the device or, where it was invalidated, to the host.
#[derive(Clone, Copy, Debug, PartialEq, Eq)]
pub struct Visible {
    pub invalidated: bool,
    pub memory: u64,
    pub offset: u64,
    pub size: u64,
}

#[derive(Debug, Default)]
pub struct State {
    /// How many questions came.
    pub questions: u64,
    /// Which questions are refused, by number from 1.
    pub refusals: HashMap<u64, Refusal>,
    /// The memory that is held, by handle.
    pub held: BTreeMap<u64, Held>,
    /// The most memories that were held at once.
    pub most_held: usize,
    /// The questions that were refused since a test last emptied the list.
    pub refused: Vec<(Question, Refusal)>,
    /// What was made visible, in order.
    pub visible: Vec<Visible>,
    /// What the driver was misused for.
    pub faults: Vec<String>,
    /// The buffers and images that there are, by handle, and what the next one needs.
    pub resources: BTreeMap<u64, resources::Made>,
    pub needs: resources::Needs,
    /// What the driver tells of heap 0: usage and budget; one byte more of each heap behind it.
    pub told: (u64, u64),
    last_handle: u64,
}

// SAFETY: the addresses of mapped bytes are used by the driver alone, to free them.
unsafe impl Send for State {}

impl State {
    /// Counts a question, and says whether it is refused.
    fn meets(&mut self, question: Question) -> Result<(), Refusal> {
        self.questions += 1;
        match self.refusals.get(&self.questions) {
            None => Ok(()),
            Some(&refusal) => {
                self.refused.push((question, refusal));
                Err(refusal)
            }
        }
    }

    fn allocate(&mut self, asked: Asked) -> Result<DeviceMemory, Refusal> {
        self.meets(Question::Memory)?;
        self.last_handle += 16;
        self.held.insert(self.last_handle, Held { asked, mapped: None });
        self.most_held = self.most_held.max(self.held.len());
        Ok(DeviceMemory(self.last_handle))
    }

    fn map(&mut self, memory: DeviceMemory) -> Result<*mut u8, Refusal> {
        self.meets(Question::Mapping)?;
        let Some(held) = self.held.get_mut(&memory.0).filter(|held| held.mapped.is_none()) else {
            self.faults.push(format!("mapping {memory:?}, which isn't held or is mapped"));
            return Err(Refusal::Null);
        };
        // SAFETY: no memory is of 0 bytes.
        let bytes = unsafe { alloc_zeroed(layout(held.asked.size)) };
        held.mapped = Some(bytes);
        Ok(bytes)
    }

    fn unmap(&mut self, memory: DeviceMemory) {
        match self.held.get_mut(&memory.0).and_then(|held| Some((held.mapped.take()?, held.asked.size))) {
            // SAFETY: the bytes are those that `map` allocated.
            Some((bytes, size)) => unsafe { dealloc(bytes, layout(size)) },
            None => self.faults.push(format!("unmapping {memory:?}, which isn't mapped")),
        }
    }

    fn free(&mut self, memory: DeviceMemory) {
        match self.held.remove(&memory.0) {
            Some(Held { mapped: None, .. }) => {}
            other => self.faults.push(format!("freeing {memory:?}, which isn't held or is mapped: {other:?}")),
        }
    }

    fn make_visible(&mut self, it: Visible, atom: u64) -> Result<(), Refusal> {
        self.meets(Question::Visible)?;
        let size = self.held.get(&it.memory).filter(|held| held.mapped.is_some()).map_or(0, |held| held.asked.size);
        let end = it.offset + it.size;
        if it.size == 0 || end > size || it.offset % atom != 0 || (it.size % atom != 0 && end != size) {
            self.faults.push(format!("{it:?} of {size} bytes, in atoms of {atom}"));
        }
        self.visible.push(it);
        Ok(())
    }

    /// The sizes of the memory that is held, summed up.
    pub fn bytes(&self) -> u64 {
        self.held.values().map(|held| held.asked.size).sum()
    }
}

fn layout(size: u64) -> Layout {
    Layout::from_size_align(size as usize, 64).expect("a size of memory is below 2^63")
}

/// A driver. Its address is the handle of its device.
#[derive(Debug)]
pub struct FakeDriver {
    state: Mutex<State>,
    properties: PhysicalDeviceMemoryProperties,
    limits: DeviceLimits,
}

impl FakeDriver {
    /// A driver with these memory types (flags and heap) and heaps (size), whose atoms are single bytes.
    pub fn new(types: &[(u32, u32)], heaps: &[u64], granularity: u64) -> Box<Self> {
        let mut properties = PhysicalDeviceMemoryProperties {
            memory_type_count: types.len() as u32,
            memory_heap_count: heaps.len() as u32,
            ..Default::default()
        };
        for (place, &(flags, heap_index)) in properties.memory_types.iter_mut().zip(types) {
            *place = MemoryType { property_flags: MemoryPropertyFlags(flags), heap_index };
        }
        for (place, &size) in properties.memory_heaps.iter_mut().zip(heaps) {
            *place = MemoryHeap { size, flags: 0 };
        }
        let limits = DeviceLimits {
            buffer_image_granularity: granularity,
            non_coherent_atom_size: 1,
            max_memory_allocation_count: 0,
        };
        Box::new(FakeDriver { state: Mutex::default(), properties, limits })
    }

    /// The driver with atoms of this size.
    pub fn with_atoms(mut self: Box<Self>, size: u64) -> Box<Self> {
        self.limits.non_coherent_atom_size = size;
        self
    }

    /// The driver, which grants so many memories at once.
    pub fn with_most_memories(mut self: Box<Self>, count: u32) -> Box<Self> {
        self.limits.max_memory_allocation_count = count;
        self
    }

    /// The driver, which says that it has so many heaps.
    pub fn with_heap_count(mut self: Box<Self>, count: u32) -> Box<Self> {
        self.properties.memory_heap_count = count;
        self
    }

    pub fn device(&self) -> Device {
        let functions = DeviceFunctions {
            allocate_memory,
            free_memory,
            map_memory,
            unmap_memory,
            flush_mapped_memory_ranges,
            invalidate_mapped_memory_ranges,
        };
        // SAFETY: tests keep a driver as long as its allocators.
        unsafe { Device::new(ptr::from_ref(self) as u64, functions, self.properties, self.limits) }
    }

    /// Where a test has failed while it looked, its allocator still gives its memory back.
    pub fn state(&self) -> MutexGuard<'_, State> {
        self.state.lock().unwrap_or_else(PoisonError::into_inner)
    }

    /// Refuses a question, by number from 1.
    pub fn refuse(&self, question: u64, refusal: Refusal) {
        self.state().refusals.insert(question, refusal);
    }

    /// Nothing is held, and nothing was misused.
    pub fn assert_left_empty(&self) {
        let state = self.state();
        assert!(state.resources.is_empty(), "{:?}", state.resources);
        assert!(state.held.is_empty(), "{:?}", state.held);
        assert_eq!(state.faults, [""; 0]);
    }
}

/// The driver behind a device's handle.
///
/// # Safety
///
/// The handle is the address of a driver that lives.
unsafe fn driver<'a>(device: *mut c_void) -> &'a FakeDriver {
    // SAFETY: as the caller promises.
    unsafe { &*device.cast::<FakeDriver>() }
}

/// `VkMemoryPriorityAllocateInfoEXT` and `VkExportMemoryAllocateInfo`.
#[repr(C)]
#[derive(Debug)]
pub struct Chained<T> {
    pub s_type: i32,
    pub next: *const c_void,
    pub value: T,
}

pub const PRIORITY: i32 = 1_000_238_001;
pub const EXPORT: i32 = 1_000_072_002;

/// What is asked for, and what is chained to it, each struct once.
///
/// # Safety
///
/// The chain is one of Vulkan's structs.
unsafe fn asked(info: &MemoryAllocateInfo) -> Asked {
    let mut asked = Asked { size: info.allocation_size, memory_type: info.memory_type_index, ..Asked::default() };
    assert_eq!(info.s_type, MemoryAllocateInfo::STRUCTURE_TYPE);
    let (mut next, mut read) = (info.next, Vec::new());
    while !next.is_null() {
        // SAFETY: each struct of a chain begins with its type.
        let s_type = unsafe { *next.cast::<i32>() };
        assert!(!read.contains(&s_type), "{s_type} is chained twice");
        read.push(s_type);
        match s_type {
            PRIORITY => {
                // SAFETY: the type says which struct it is.
                let info = unsafe { &*next.cast::<Chained<f32>>() };
                asked.priority = (info.value * 100.0) as u32;
                next = info.next;
            }
            EXPORT => {
                // SAFETY: the type says which struct it is.
                let info = unsafe { &*next.cast::<Chained<u32>>() };
                asked.handle_types = info.value;
                next = info.next;
            }
            MemoryAllocateFlagsInfo::STRUCTURE_TYPE => {
                // SAFETY: the type says which struct it is.
                let info = unsafe { &*next.cast::<MemoryAllocateFlagsInfo>() };
                asked.device_address = info.flags & MemoryAllocateFlagsInfo::DEVICE_ADDRESS != 0;
                next = info.next;
            }
            MemoryDedicatedAllocateInfo::STRUCTURE_TYPE => {
                // SAFETY: the type says which struct it is.
                let info = unsafe { &*next.cast::<MemoryDedicatedAllocateInfo>() };
                assert_ne!((info.buffer, info.image), (Buffer(0), Image(0)));
                (asked.buffer, asked.image) = (info.buffer, info.image);
                next = info.next;
            }
            other => panic!("a struct of type {other} is chained"),
        }
    }
    asked
}

unsafe extern "system" fn allocate_memory(
    device: *mut c_void,
    info: *const MemoryAllocateInfo,
    _: *const c_void,
    memory: *mut DeviceMemory,
) -> i32 {
    // SAFETY: the allocator hands in the device's handle and a description.
    let (driver, asked) = unsafe { (driver(device), asked(&*info)) };
    let (code, handle) = match driver.state().allocate(asked) {
        Ok(handle) => (0, handle),
        Err(Refusal::Code(code)) => (code, DeviceMemory(77)), // what is written beside a code isn't read
        Err(Refusal::Null) => (0, DeviceMemory(0)),
    };
    // SAFETY: the allocator hands in where to write.
    unsafe { *memory = handle };
    code
}

unsafe extern "system" fn free_memory(device: *mut c_void, memory: DeviceMemory, _: *const c_void) {
    // SAFETY: the allocator hands in the device's handle.
    unsafe { driver(device) }.state().free(memory);
}

unsafe extern "system" fn map_memory(
    device: *mut c_void,
    memory: DeviceMemory,
    offset: u64,
    size: u64,
    flags: u32,
    address: *mut *mut c_void,
) -> i32 {
    assert_eq!((offset, size, flags), (0, u64::MAX, 0));
    // SAFETY: the allocator hands in the device's handle.
    let (code, bytes) = match unsafe { driver(device) }.state().map(memory) {
        Ok(bytes) => (0, bytes),
        Err(Refusal::Code(code)) => (code, ptr::NonNull::dangling().as_ptr()),
        Err(Refusal::Null) => (0, ptr::null_mut()),
    };
    // SAFETY: the allocator hands in where to write.
    unsafe { *address = bytes.cast() };
    code
}

unsafe extern "system" fn unmap_memory(device: *mut c_void, memory: DeviceMemory) {
    // SAFETY: the allocator hands in the device's handle.
    unsafe { driver(device) }.state().unmap(memory);
}

/// Makes one range visible.
///
/// # Safety
///
/// The device is a driver's handle, and there is one range.
unsafe fn make_visible(device: *mut c_void, count: u32, ranges: *const MappedMemoryRange, invalidated: bool) -> i32 {
    // SAFETY: as the caller promises.
    let (driver, range) = unsafe { (driver(device), &*ranges) };
    assert_eq!((count, range.s_type, range.next), (1, MappedMemoryRange::STRUCTURE_TYPE, ptr::null()));
    let it = Visible { invalidated, memory: range.memory.0, offset: range.offset, size: range.size };
    let answer = driver.state().make_visible(it, driver.limits.non_coherent_atom_size);
    match answer {
        Err(Refusal::Code(code)) => code,
        _ => 0,
    }
}

unsafe extern "system" fn flush_mapped_memory_ranges(
    device: *mut c_void,
    count: u32,
    ranges: *const MappedMemoryRange,
) -> i32 {
    // SAFETY: the allocator hands in the device's handle and a range.
    unsafe { make_visible(device, count, ranges, false) }
}

unsafe extern "system" fn invalidate_mapped_memory_ranges(
    device: *mut c_void,
    count: u32,
    ranges: *const MappedMemoryRange,
) -> i32 {
    // SAFETY: the allocator hands in the device's handle and a range.
    unsafe { make_visible(device, count, ranges, true) }
}

/// splitmix64.
#[derive(Debug)]
pub struct Random(pub u64);

impl Random {
    pub fn next(&mut self) -> u64 {
        self.0 = self.0.wrapping_add(0x9E37_79B9_7F4A_7C15);
        let mut z = self.0;
        z = (z ^ (z >> 30)).wrapping_mul(0xBF58_476D_1CE4_E5B9);
        z = (z ^ (z >> 27)).wrapping_mul(0x94D0_49BB_1331_11EB);
        z ^ (z >> 31)
    }

    pub fn below(&mut self, bound: u64) -> u64 {
        self.next() % bound
    }

    pub fn one_in(&mut self, chance: u64) -> bool {
        self.below(chance) == 0
    }

    pub fn of<T: Copy>(&mut self, all: &[T]) -> T {
        all[self.below(all.len() as u64) as usize]
    }
}
