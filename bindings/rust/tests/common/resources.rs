//! Buffers and images of the driver for tests, and what it tells of its heaps.
#![allow(dead_code, missing_docs)]

use super::{driver, FakeDriver, Held, Question, Refusal, State};
use pilhangko::vulkan::{
    Buffer, BufferCreateInfo, Device, DeviceMemory, FunctionsOf, Image, ImageCreateInfo, MemoryBudgetProperties,
    MemoryDedicatedRequirements, MemoryRequirements, MemoryRequirements2, PhysicalDeviceMemoryProperties2,
    ResourceFunctions, ResourceMemoryRequirementsInfo2,
};
use std::ffi::c_void;
use std::ptr;

/// Whether the driver wants memory for a resource alone.
#[derive(Clone, Copy, Debug, Default, PartialEq, Eq)]
pub enum Alone {
    #[default]
    No,
    Prefers,
    Requires,
}

/// What resources need: an alignment, memory types, memory of their own. Their size is what is asked for, in whole units of 16 bytes.
#[derive(Clone, Copy, Debug, Default)]
pub struct Needs {
    pub alignment: u64,
    pub memory_type_bits: u32,
    pub alone: Alone,
}

/// A buffer or an image.
#[derive(Clone, Copy, Debug)]
pub struct Made {
    pub is_image: bool,
    pub size: u64,
    pub needs: Needs,
    /// The memory and the offset that it is bound to.
    pub bound: Option<(u64, u64)>,
}

impl Made {
    fn requirements(&self) -> MemoryRequirements {
        let Needs { alignment, memory_type_bits, .. } = self.needs;
        MemoryRequirements { size: self.size, alignment, memory_type_bits }
    }
}

impl State {
    fn make(&mut self, is_image: bool, bytes: u64) -> Result<u64, Refusal> {
        self.meets(Question::Create)?;
        self.last_handle += 16;
        let made = Made { is_image, size: bytes.next_multiple_of(16), needs: self.needs, bound: None };
        self.resources.insert(self.last_handle, made);
        Ok(self.last_handle)
    }

    fn unmake(&mut self, is_image: bool, handle: u64) {
        match self.resources.remove(&handle) {
            Some(made) if made.is_image == is_image => {}
            other => self.faults.push(format!("destroying {handle}: {other:?}")),
        }
    }

    fn bind(&mut self, handle: u64, memory: DeviceMemory, offset: u64) -> Result<(), Refusal> {
        self.meets(Question::Bind)?;
        let made = self.resources.get_mut(&handle).expect("a resource that there is");
        let Some(Held { asked, .. }) = self.held.get(&memory.0) else { panic!("{memory:?} isn't held") };
        let needs = made.needs;
        let is_alone = asked.buffer != Buffer(0) || asked.image != Image(0);
        let fits = offset % needs.alignment == 0
            && needs.memory_type_bits >> asked.memory_type & 1 == 1
            && offset + made.size <= asked.size
            && (!is_alone || (asked.buffer.0.max(asked.image.0) == handle && offset == 0 && asked.size == made.size))
            && (is_alone || needs.alone != Alone::Requires);
        if !fits || made.bound.is_some() {
            self.faults.push(format!("binding {made:?} at {offset} of {asked:?}"));
        }
        made.bound = Some((memory.0, offset));
        Ok(())
    }
}

impl FakeDriver {
    /// The device, with functions for buffers and images, and budgets.
    pub fn whole_device(&self) -> Device {
        let buffers = FunctionsOf {
            create: create_buffer,
            destroy: destroy_buffer,
            get_memory_requirements: needs_of,
            bind_memory: bind_buffer,
            get_memory_requirements2: Some(needs_of_2),
        };
        let images = FunctionsOf {
            create: create_image,
            destroy: destroy_image,
            get_memory_requirements: needs_of,
            bind_memory: bind_image,
            get_memory_requirements2: Some(needs_of_2),
        };
        // SAFETY: the functions are this driver's, for which its own handle is the physical device too.
        unsafe {
            let device = self.device().with_resources(ResourceFunctions { buffers, images });
            device.with_memory_budget(ptr::from_ref(self) as u64, tell_budgets)
        }
    }

    /// The same before Vulkan 1.1, and without budgets.
    pub fn old_device(&self) -> Device {
        let buffers = FunctionsOf {
            create: create_buffer,
            destroy: destroy_buffer,
            get_memory_requirements: needs_of,
            bind_memory: bind_buffer,
            get_memory_requirements2: None,
        };
        let images = FunctionsOf {
            create: create_image,
            destroy: destroy_image,
            get_memory_requirements: needs_of,
            bind_memory: bind_image,
            get_memory_requirements2: None,
        };
        // SAFETY: the functions are this driver's.
        unsafe { self.device().with_resources(ResourceFunctions { buffers, images }) }
    }
}

/// A handle, or how it is refused: beside a code what is written isn't read.
fn answer(result: Result<u64, Refusal>) -> (i32, u64) {
    match result {
        Ok(handle) => (0, handle),
        Err(Refusal::Code(code)) => (code, 77),
        Err(Refusal::Null) => (0, 0),
    }
}

unsafe extern "system" fn create_buffer(
    device: *mut c_void,
    info: *const BufferCreateInfo,
    _: *const c_void,
    buffer: *mut Buffer,
) -> i32 {
    // SAFETY: the allocator hands in the device's handle, a description, and where to write.
    unsafe {
        assert_eq!((*info).s_type, BufferCreateInfo::STRUCTURE_TYPE);
        let (code, handle) = answer(driver(device).state().make(false, (*info).size));
        *buffer = Buffer(handle);
        code
    }
}

unsafe extern "system" fn create_image(
    device: *mut c_void,
    info: *const ImageCreateInfo,
    _: *const c_void,
    image: *mut Image,
) -> i32 {
    // SAFETY: the allocator hands in the device's handle, a description, and where to write.
    unsafe {
        assert_eq!((*info).s_type, ImageCreateInfo::STRUCTURE_TYPE);
        let (code, handle) = answer(driver(device).state().make(true, u64::from((*info).extent[0])));
        *image = Image(handle);
        code
    }
}

unsafe extern "system" fn destroy_buffer(device: *mut c_void, buffer: Buffer, _: *const c_void) {
    // SAFETY: the allocator hands in the device's handle.
    unsafe { driver(device) }.state().unmake(false, buffer.0);
}

unsafe extern "system" fn destroy_image(device: *mut c_void, image: Image, _: *const c_void) {
    // SAFETY: the allocator hands in the device's handle.
    unsafe { driver(device) }.state().unmake(true, image.0);
}

fn bound(result: Result<(), Refusal>) -> i32 {
    match result {
        Ok(()) => 0,
        Err(Refusal::Code(code)) => code,
        Err(Refusal::Null) => -1,
    }
}

unsafe extern "system" fn bind_buffer(device: *mut c_void, buffer: Buffer, memory: DeviceMemory, offset: u64) -> i32 {
    // SAFETY: the allocator hands in the device's handle.
    bound(unsafe { driver(device) }.state().bind(buffer.0, memory, offset))
}

unsafe extern "system" fn bind_image(device: *mut c_void, image: Image, memory: DeviceMemory, offset: u64) -> i32 {
    // SAFETY: the allocator hands in the device's handle.
    bound(unsafe { driver(device) }.state().bind(image.0, memory, offset))
}

/// A resource by its handle.
trait Handle: Copy {
    fn number(self) -> u64;
}

impl Handle for Buffer {
    fn number(self) -> u64 {
        self.0
    }
}

impl Handle for Image {
    fn number(self) -> u64 {
        self.0
    }
}

unsafe extern "system" fn needs_of<R: Handle>(device: *mut c_void, resource: R, told: *mut MemoryRequirements) {
    // SAFETY: the allocator hands in the device's handle, and where to write.
    unsafe { *told = driver(device).state().resources[&resource.number()].requirements() };
}

unsafe extern "system" fn needs_of_2<R: Handle>(
    device: *mut c_void,
    info: *const ResourceMemoryRequirementsInfo2<R>,
    told: *mut MemoryRequirements2,
) {
    // SAFETY: the allocator hands in the device's handle, which resource, and where to write.
    unsafe {
        assert_eq!((*told).s_type, MemoryRequirements2::STRUCTURE_TYPE);
        let made = driver(device).state().resources[&(*info).resource.number()];
        assert_eq!((*info).s_type, if made.is_image { 1_000_146_001 } else { 1_000_146_000 });
        (*told).memory_requirements = made.requirements();
        let alone = (*told).next.cast::<MemoryDedicatedRequirements>();
        assert_eq!((*alone).s_type, MemoryDedicatedRequirements::STRUCTURE_TYPE);
        (*alone).prefers_dedicated_allocation = u32::from(made.needs.alone == Alone::Prefers);
        (*alone).requires_dedicated_allocation = u32::from(made.needs.alone == Alone::Requires);
    }
}

unsafe extern "system" fn tell_budgets(device: *mut c_void, told: *mut PhysicalDeviceMemoryProperties2) {
    // SAFETY: the allocator hands in the device's handle, and where to write.
    unsafe {
        assert_eq!((*told).s_type, PhysicalDeviceMemoryProperties2::STRUCTURE_TYPE);
        let budgets = (*told).next.cast::<MemoryBudgetProperties>();
        assert_eq!((*budgets).s_type, MemoryBudgetProperties::STRUCTURE_TYPE);
        let (usage, budget) = driver(device).state().told;
        for heap in 0..16 {
            (*budgets).heap_usage[heap] = usage + heap as u64;
            (*budgets).heap_budget[heap] = budget + heap as u64;
        }
    }
}
