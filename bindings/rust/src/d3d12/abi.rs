//! The part of DirectX 12's ABI that the allocator calls: structs as d3d12.h lays them out, and functions by their numbers in an interface,
//! which never change.

use super::ResourceCategory;
use std::ffi::c_void;

/// `D3D12_RESOURCE_DESC`. Another binding's type of that name can be transmuted to it. Its enums are numbers here.
#[repr(C)]
#[derive(Clone, Copy, Debug, Default, PartialEq, Eq)]
pub struct ResourceDesc {
    /// `D3D12_RESOURCE_DIMENSION`: 1 is a buffer.
    pub dimension: u32,
    /// What the resource is to be aligned to, or 0 for what is usual.
    pub alignment: u64,
    /// Of a buffer the number of bytes.
    pub width: u64,
    /// Of a buffer 1.
    pub height: u32,
    /// Of a buffer 1.
    pub depth_or_array_size: u16,
    /// Of a buffer 1.
    pub mip_levels: u16,
    /// `DXGI_FORMAT`; of a buffer 0.
    pub format: u32,
    /// `DXGI_SAMPLE_DESC`: the number of samples, and their quality.
    pub sample_desc: [u32; 2],
    /// `D3D12_TEXTURE_LAYOUT`; of a buffer 1.
    pub layout: u32,
    /// `D3D12_RESOURCE_FLAGS`.
    pub flags: u32,
}

impl ResourceDesc {
    /// A buffer of so many bytes, without flags.
    pub fn buffer(bytes: u64) -> Self {
        ResourceDesc {
            dimension: 1,
            width: bytes,
            height: 1,
            depth_or_array_size: 1,
            mip_levels: 1,
            sample_desc: [1, 0],
            layout: 1,
            ..ResourceDesc::default()
        }
    }
}

impl From<&ResourceDesc> for ResourceCategory {
    fn from(desc: &ResourceDesc) -> Self {
        const RENDER_TARGET_OR_DEPTH_STENCIL: u32 = 3;
        match (desc.dimension, desc.flags & RENDER_TARGET_OR_DEPTH_STENCIL) {
            (1, _) => ResourceCategory::Buffer,
            (_, 0) => ResourceCategory::OtherTexture,
            _ => ResourceCategory::RtvDsvTexture,
        }
    }
}

/// `D3D12_RESOURCE_DESC1`, whose region of sampler feedback is all zeros.
#[repr(C)]
#[derive(Debug)]
pub(super) struct ResourceDesc1 {
    desc: ResourceDesc1Part,
    mip_region: [u32; 3],
}

/// The fields of `ResourceDesc` without the padding behind them.
#[repr(C, packed(4))]
#[derive(Clone, Copy, Debug)]
struct ResourceDesc1Part {
    dimension: u32,
    padding: u32,
    alignment: u64,
    width: u64,
    height: u32,
    depth_or_array_size: u16,
    mip_levels: u16,
    format: u32,
    sample_desc: [u32; 2],
    layout: u32,
    flags: u32,
}

impl From<&ResourceDesc> for Aligned<ResourceDesc1> {
    fn from(it: &ResourceDesc) -> Self {
        let desc = ResourceDesc1Part {
            dimension: it.dimension,
            padding: 0,
            alignment: it.alignment,
            width: it.width,
            height: it.height,
            depth_or_array_size: it.depth_or_array_size,
            mip_levels: it.mip_levels,
            format: it.format,
            sample_desc: it.sample_desc,
            layout: it.layout,
            flags: it.flags,
        };
        Aligned(ResourceDesc1 { desc, mip_region: [0; 3] })
    }
}

/// A value at a multiple of 8 bytes.
#[repr(C, align(8))]
#[derive(Debug)]
pub(super) struct Aligned<T>(pub(super) T);

/// `D3D12_HEAP_PROPERTIES`. Another binding's type of that name can be transmuted to it.
#[repr(C)]
#[derive(Clone, Copy, Debug, Default, PartialEq, Eq)]
pub struct HeapProperties {
    /// `D3D12_HEAP_TYPE`: 1 default, 2 upload, 3 readback, 4 custom.
    pub heap_type: u32,
    /// `D3D12_CPU_PAGE_PROPERTY`: 0 where the type isn't custom.
    pub cpu_page_property: u32,
    /// `D3D12_MEMORY_POOL`: 0 where the type isn't custom.
    pub memory_pool_preference: u32,
    /// Which nodes make it; 0 with one adapter.
    pub creation_node_mask: u32,
    /// Which nodes see it; 0 with one adapter.
    pub visible_node_mask: u32,
}

/// `D3D12_HEAP_DESC`.
#[repr(C)]
#[derive(Clone, Copy, Debug, Default)]
pub(super) struct HeapDesc {
    pub(super) size: u64,
    pub(super) properties: HeapProperties,
    pub(super) alignment: u64,
    pub(super) flags: u32,
}

/// `D3D12_CLEAR_VALUE`. Another binding's type of that name can be transmuted to it.
#[repr(C)]
#[derive(Clone, Copy, Debug, Default, PartialEq)]
pub struct ClearValue {
    /// `DXGI_FORMAT`.
    pub format: u32,
    /// The color; of a depth stencil the depth, and in the bits of the next number the stencil.
    pub color: [f32; 4],
}

impl ClearValue {
    /// What a depth stencil is cleared to.
    pub fn depth_stencil(format: u32, depth: f32, stencil: u8) -> Self {
        ClearValue { format, color: [depth, f32::from_bits(u32::from(stencil).to_le()), 0.0, 0.0] }
    }
}

/// `D3D12_RESOURCE_ALLOCATION_INFO`.
#[repr(C)]
#[derive(Clone, Copy, Debug, Default)]
pub(super) struct ResourceAllocationInfo {
    pub(super) size: u64,
    pub(super) alignment: u64,
}

/// `GUID`.
#[repr(C)]
#[derive(Clone, Copy, Debug, PartialEq, Eq)]
pub(super) struct Guid(pub(super) u32, pub(super) u16, pub(super) u16, pub(super) [u8; 8]);

pub(super) const HEAP: Guid = Guid(0x6b3b2502, 0x6e51, 0x45b3, [0x90, 0xee, 0x98, 0x84, 0x26, 0x5e, 0x8d, 0xf3]);
pub(super) const RESOURCE: Guid = Guid(0x696442be, 0xa72e, 0x4059, [0xbc, 0x79, 0x5b, 0x5c, 0x98, 0x04, 0x0f, 0xad]);
pub(super) const DEVICE10: Guid = Guid(0x517f8718, 0xaa66, 0x49f9, [0xb0, 0x2b, 0xa7, 0xab, 0x89, 0xc0, 0x60, 0x31]);
pub(super) const DEVICE12: Guid = Guid(0x5af5c532, 0x4c91, 0x4cd0, [0xb5, 0x41, 0x15, 0xa4, 0x05, 0x39, 0x5f, 0xc5]);

/// The numbers of the functions that are called.
pub(super) const QUERY_INTERFACE: usize = 0;
pub(super) const ADD_REF: usize = 1;
pub(super) const RELEASE: usize = 2;
pub(super) const HEAP_GET_DESC: usize = 8;
pub(super) const CHECK_FEATURE_SUPPORT: usize = 13;
pub(super) const GET_RESOURCE_ALLOCATION_INFO: usize = 25;
pub(super) const CREATE_COMMITTED_RESOURCE: usize = 27;
pub(super) const CREATE_HEAP: usize = 28;
pub(super) const CREATE_PLACED_RESOURCE: usize = 29;
pub(super) const GET_DEVICE_REMOVED_REASON: usize = 37;
pub(super) const CREATE_COMMITTED_RESOURCE_3: usize = 76;
pub(super) const CREATE_PLACED_RESOURCE_2: usize = 77;
pub(super) const GET_RESOURCE_ALLOCATION_INFO_3: usize = 80;

/// `DXGI_ERROR_DEVICE_REMOVED`.
pub(super) const DEVICE_REMOVED: i32 = 0x887a_0005_u32 as i32;

/// A function of an interface: by Windows' convention, also in vkd3d on other systems.
macro_rules! method {
    ($(#[$about:meta])* $name:ident($($argument:ty),* $(,)?) -> $result:ty) => {
        $(#[$about])*
        #[cfg(target_arch = "x86_64")]
        pub(super) type $name = unsafe extern "win64" fn($($argument),*) -> $result;
        $(#[$about])*
        #[cfg(not(target_arch = "x86_64"))]
        pub(super) type $name = unsafe extern "system" fn($($argument),*) -> $result;
    };
}

type This = *mut c_void;
type Out = *mut *mut c_void;

method!(QueryInterface(This, *const Guid, Out) -> i32);
method!(AddRef(This) -> u32);
method!(Release(This) -> u32);
method!(
    /// A struct is returned through its address, as second argument.
    HeapGetDesc(This, *mut HeapDesc) -> *mut HeapDesc
);
method!(CheckFeatureSupport(This, u32, *mut c_void, u32) -> i32);
method!(
    /// So is this one.
    GetResourceAllocationInfo(This, *mut ResourceAllocationInfo, u32, u32, *const ResourceDesc) -> *mut ResourceAllocationInfo
);
method!(
    /// And this one.
    GetResourceAllocationInfo3(
        This, *mut ResourceAllocationInfo, u32, u32, *const ResourceDesc1, *const u32, *const *const u32, *mut c_void
    ) -> *mut ResourceAllocationInfo
);
method!(CreateHeap(This, *const HeapDesc, *const Guid, Out) -> i32);
method!(CreatePlacedResource(This, This, u64, *const ResourceDesc, u32, *const ClearValue, *const Guid, Out) -> i32);
method!(
    CreateCommittedResource(
        This,
        *const HeapProperties,
        u32,
        *const ResourceDesc,
        u32,
        *const ClearValue,
        *const Guid,
        Out,
    ) -> i32
);
method!(
    CreatePlacedResource2(
        This,
        This,
        u64,
        *const ResourceDesc1,
        u32,
        *const ClearValue,
        u32,
        *const u32,
        *const Guid,
        Out,
    ) -> i32
);
method!(
    CreateCommittedResource3(
        This,
        *const HeapProperties,
        u32,
        *const ResourceDesc1,
        u32,
        *const ClearValue,
        *mut c_void,
        u32,
        *const u32,
        *const Guid,
        Out,
    ) -> i32
);
method!(GetDeviceRemovedReason(This) -> i32);

#[cfg(test)]
mod tests {
    use super::*;
    use std::mem::{align_of, offset_of, size_of};

    /// Sizes and offsets that a C compiler gives d3d12.h's structs on 64-bit systems.
    #[test]
    fn structs_are_laid_out_as_in_d3d12_h() {
        assert_eq!(size_of::<ResourceDesc>(), 56);
        assert_eq!(offset_of!(ResourceDesc, alignment), 8);
        assert_eq!(offset_of!(ResourceDesc, format), 32);
        assert_eq!(offset_of!(ResourceDesc, flags), 48);
        assert_eq!((size_of::<Aligned<ResourceDesc1>>(), align_of::<Aligned<ResourceDesc1>>()), (64, 8));
        assert_eq!(offset_of!(ResourceDesc1, mip_region), 52);
        assert_eq!(offset_of!(ResourceDesc1Part, flags), 48);
        assert_eq!(size_of::<HeapDesc>(), 48);
        assert_eq!(offset_of!(HeapDesc, alignment), 32);
        assert_eq!(size_of::<ClearValue>(), 20);
        assert_eq!(size_of::<Guid>(), 16);
    }

    #[test]
    fn descriptions_are_of_a_category() {
        let texture = |flags| ResourceDesc { dimension: 3, flags, ..ResourceDesc::default() };
        assert_eq!(ResourceCategory::from(&ResourceDesc::buffer(1)), ResourceCategory::Buffer);
        assert_eq!(ResourceCategory::from(&texture(0)), ResourceCategory::OtherTexture);
        assert_eq!(ResourceCategory::from(&texture(4)), ResourceCategory::OtherTexture);
        assert_eq!(ResourceCategory::from(&texture(1)), ResourceCategory::RtvDsvTexture);
        assert_eq!(ResourceCategory::from(&texture(2)), ResourceCategory::RtvDsvTexture);
    }

    #[test]
    fn a_stencil_is_the_first_byte_behind_the_depth() {
        let value = ClearValue::depth_stencil(45, 0.5, 0xa7);
        assert_eq!((value.format, value.color[0], value.color[1].to_ne_bytes()[0]), (45, 0.5, 0xa7));
    }
}
