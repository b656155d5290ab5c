//! The device that an allocator asks for heaps and resources.

use super::abi::{
    self, Aligned, CheckFeatureSupport, ClearValue, CreateCommittedResource, CreateCommittedResource3, CreateHeap,
    CreatePlacedResource, CreatePlacedResource2, GetDeviceRemovedReason, GetResourceAllocationInfo,
    GetResourceAllocationInfo3, HeapDesc, HeapGetDesc, HeapProperties, ResourceAllocationInfo, ResourceDesc,
    ResourceDesc1,
};
use super::Interface;
use crate::error::internal;
use crate::raw::HeapsQuestion;
use crate::{raw, AllocationError, Fault, Result};
use std::ptr;

/// A device by the newest of its interfaces that counts.
#[derive(Clone, Debug)]
pub enum ID3D12DeviceVersion {
    /// `ID3D12Device`: resources begin in a state.
    Device(Interface),
    /// `ID3D12Device10`: they may begin in a barrier layout.
    Device10(Interface),
    /// `ID3D12Device12`: and then have castable formats.
    Device12(Interface),
}

impl ID3D12DeviceVersion {
    /// The newest interface that a device answers.
    pub fn newest(device: &Interface) -> Self {
        if let Some(device) = device.query(&abi::DEVICE12) {
            return ID3D12DeviceVersion::Device12(device);
        }
        match device.query(&abi::DEVICE10) {
            Some(device) => ID3D12DeviceVersion::Device10(device),
            None => ID3D12DeviceVersion::Device(device.clone()),
        }
    }

    /// The device, which each version is.
    pub fn device(&self) -> &Interface {
        match self {
            ID3D12DeviceVersion::Device(device)
            | ID3D12DeviceVersion::Device10(device)
            | ID3D12DeviceVersion::Device12(device) => device,
        }
    }

    /// Its number for the library.
    pub(super) fn number(&self) -> u32 {
        match self {
            ID3D12DeviceVersion::Device(_) => raw::DEVICE,
            ID3D12DeviceVersion::Device10(_) => raw::DEVICE10,
            ID3D12DeviceVersion::Device12(_) => raw::DEVICE12,
        }
    }
}

/// What the driver made, or why not: its code, or none where it gave null.
pub(super) type Made = std::result::Result<Interface, Option<i32>>;

/// A resource that is to be made.
#[derive(Clone, Copy, Debug)]
pub(super) struct Wanted<'a> {
    pub(super) desc: &'a ResourceDesc,
    pub(super) castable_formats: &'a [u32],
    pub(super) clear_value: Option<&'a ClearValue>,
    /// The number of the state or the layout in which it begins.
    pub(super) begins: u32,
    /// By which call, as the library chose it.
    pub(super) call: u32,
}

impl Wanted<'_> {
    fn clear_value(&self) -> *const ClearValue {
        self.clear_value.map_or(ptr::null(), ptr::from_ref)
    }

    /// The formats that are handed on.
    fn formats(&self) -> (u32, *const u32) {
        match self.castable_formats {
            formats @ [_, ..] if self.call == raw::CALL_IN_LAYOUT_WITH_FORMATS => {
                (formats.len() as u32, formats.as_ptr())
            }
            _ => (0, ptr::null()),
        }
    }
}

/// Where a resource goes.
#[derive(Clone, Copy, Debug)]
pub(super) enum Place<'a> {
    /// Into a heap, at an offset.
    In(&'a Interface, u64),
    /// Into memory of its own.
    Committed(&'a HeapProperties, u32),
}

impl ID3D12DeviceVersion {
    /// The device's resource heap tier.
    pub(super) fn heap_tier(&self) -> Result<u32> {
        const OPTIONS: u32 = 0;
        const TIER: usize = 14; // the words before ResourceHeapTier in D3D12_FEATURE_DATA_D3D12_OPTIONS, which has 15
        let mut options = [0_u32; TIER + 1];
        let device = self.device();
        // SAFETY: a device has this function; it writes as many bytes as is said.
        let code = unsafe {
            let check: CheckFeatureSupport = device.function(abi::CHECK_FEATURE_SUPPORT);
            check(device.as_raw(), OPTIONS, options.as_mut_ptr().cast(), size_of_val(&options) as u32)
        };
        match code {
            0.. => Ok(options[TIER]),
            _ => Err(fault("ID3D12Device::CheckFeatureSupport failed", code)),
        }
    }

    /// What the device says that a resource needs.
    pub(super) fn allocation_info(&self, desc: &ResourceDesc, castable_formats: &[u32]) -> ResourceAllocationInfo {
        let mut info = ResourceAllocationInfo::default();
        let device = self.device();
        if let ID3D12DeviceVersion::Device12(_) = self {
            let Aligned(desc1) = &Aligned::<ResourceDesc1>::from(desc);
            let (count, formats) = (castable_formats.len() as u32, castable_formats.as_ptr());
            // SAFETY: an ID3D12Device12 has this function; there is one description, with as many formats as is said.
            unsafe {
                let tells: GetResourceAllocationInfo3 = device.function(abi::GET_RESOURCE_ALLOCATION_INFO_3);
                tells(device.as_raw(), &mut info, 0, 1, desc1, &count, &formats, ptr::null_mut());
            }
        } else {
            // SAFETY: a device has this function; there is one description.
            unsafe {
                let tells: GetResourceAllocationInfo = device.function(abi::GET_RESOURCE_ALLOCATION_INFO);
                tells(device.as_raw(), &mut info, 0, 1, desc);
            }
        }
        info
    }

    /// Asks for the heap of a question.
    pub(super) fn create_heap(&self, question: &HeapsQuestion) -> Made {
        let properties = HeapProperties {
            heap_type: question.heap_type,
            cpu_page_property: question.cpu_page_property,
            memory_pool_preference: question.memory_pool,
            creation_node_mask: 0,
            visible_node_mask: 0,
        };
        let desc = HeapDesc { size: question.size, properties, alignment: question.alignment, flags: question.flags };
        let (device, mut heap) = (self.device(), ptr::null_mut());
        // SAFETY: a device has this function; what it writes where it succeeds is null or comes with a reference.
        unsafe {
            let create: CreateHeap = device.function(abi::CREATE_HEAP);
            let code = create(device.as_raw(), &desc, &abi::HEAP, &mut heap);
            made(code, heap)
        }
    }

    /// Asks for a resource.
    pub(super) fn create_resource(&self, wanted: &Wanted<'_>, place: Place<'_>) -> Made {
        if wanted.call == raw::CALL_IN_STATE {
            self.create_in_state(wanted, place)
        } else {
            self.create_in_layout(wanted, place)
        }
    }

    fn create_in_state(&self, wanted: &Wanted<'_>, place: Place<'_>) -> Made {
        let Wanted { desc, begins, .. } = *wanted;
        let (device, clear, mut resource) = (self.device(), wanted.clear_value(), ptr::null_mut());
        // SAFETY: a device has these functions; what they write where they succeed is null or comes with a reference.
        unsafe {
            let code = match place {
                Place::In(heap, offset) => {
                    let create: CreatePlacedResource = device.function(abi::CREATE_PLACED_RESOURCE);
                    let heap = heap.as_raw();
                    create(device.as_raw(), heap, offset, desc, begins, clear, &abi::RESOURCE, &mut resource)
                }
                Place::Committed(properties, flags) => {
                    let create: CreateCommittedResource = device.function(abi::CREATE_COMMITTED_RESOURCE);
                    create(device.as_raw(), properties, flags, desc, begins, clear, &abi::RESOURCE, &mut resource)
                }
            };
            made(code, resource)
        }
    }

    fn create_in_layout(&self, wanted: &Wanted<'_>, place: Place<'_>) -> Made {
        let (device, clear, mut resource) = (self.device(), wanted.clear_value(), ptr::null_mut());
        let (Aligned(desc), begins) = (&Aligned::<ResourceDesc1>::from(wanted.desc), wanted.begins);
        let (count, formats) = wanted.formats();
        let (id, out) = (&abi::RESOURCE, &mut resource);
        // SAFETY: an ID3D12Device10, which the library asks for here, has these functions; what they write where they succeed is null or
        // comes with a reference. There are as many formats as is said.
        unsafe {
            let code = match place {
                Place::In(heap, offset) => {
                    let create: CreatePlacedResource2 = device.function(abi::CREATE_PLACED_RESOURCE_2);
                    create(device.as_raw(), heap.as_raw(), offset, desc, begins, clear, count, formats, id, out)
                }
                Place::Committed(properties, flags) => {
                    let create: CreateCommittedResource3 = device.function(abi::CREATE_COMMITTED_RESOURCE_3);
                    let session = ptr::null_mut();
                    create(device.as_raw(), properties, flags, desc, begins, clear, session, count, formats, id, out)
                }
            };
            made(code, resource)
        }
    }

    /// How a refused resource is told: a device that was removed tells why.
    pub(super) fn resource_refused(&self, is_placed: bool, code: Option<i32>) -> AllocationError {
        let (removed, failed) = if is_placed {
            ("ID3D12Device::CreatePlacedResource DEVICE_REMOVED", "ID3D12Device::CreatePlacedResource failed")
        } else {
            ("ID3D12Device::CreateCommittedResource DEVICE_REMOVED", "ID3D12Device::CreateCommittedResource failed")
        };
        match code {
            Some(abi::DEVICE_REMOVED) => fault(removed, self.removed_reason()),
            Some(code) => fault(failed, code),
            None => internal("ID3D12Resource pointer is null, but should not be."),
        }
    }

    fn removed_reason(&self) -> i32 {
        let device = self.device();
        // SAFETY: a device has this function.
        unsafe { device.function::<GetDeviceRemovedReason>(abi::GET_DEVICE_REMOVED_REASON)(device.as_raw()) }
    }
}

/// A fault with the driver's code.
pub(super) fn fault(text: &'static str, code: i32) -> AllocationError {
    AllocationError::Internal(Fault { text, code: Some(i64::from(code)) })
}

/// What a call of the driver made.
///
/// # Safety
///
/// Where the code says that it succeeded, the pointer is null or to an interface that comes with a reference.
unsafe fn made(code: i32, interface: *mut std::ffi::c_void) -> Made {
    if code < 0 {
        return Err(Some(code));
    }
    // SAFETY: as the caller says.
    unsafe { Interface::from_raw(interface) }.ok_or(None)
}

/// The size of a heap in bytes.
///
/// # Safety
///
/// The interface is an `ID3D12Heap`.
pub(super) unsafe fn heap_size(heap: &Interface) -> u64 {
    let mut desc = HeapDesc::default();
    // SAFETY: a heap has this function.
    unsafe { heap.function::<HeapGetDesc>(abi::HEAP_GET_DESC)(heap.as_raw(), &mut desc) };
    desc.size
}
