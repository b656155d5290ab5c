//! Buffers and images with memory.

use super::abi::{Buffer, Image, MemoryRequirements, SUCCESS};
use super::allocation::Allocation;
use super::allocator::{AllocationCreateDesc, AllocationScheme, Allocator};
use super::options::AllocationOptions;
use super::resource_abi::{
    BufferCreateInfo, FunctionsOf, ImageCreateInfo, MemoryDedicatedRequirements, MemoryRequirements2,
    ResourceFunctions, ResourceMemoryRequirementsInfo2,
};
use crate::error::{check, internal, Fault};
use crate::raw::NOT_LIVE;
use crate::{AllocationError, MemoryLocation, Result};
use std::ffi::c_void;
use std::ptr;

/// Where a buffer or an image goes.
#[derive(Clone, Copy, Debug)]
pub struct Placement<'a> {
    /// A name for reports and leaks.
    pub name: &'a str,
    /// Who reads and writes it.
    pub location: MemoryLocation,
    /// Whether it shall have memory of its own.
    pub dedicated: bool,
    /// What else is asked of its memory.
    pub options: AllocationOptions<'a>,
}

impl<'a> Placement<'a> {
    /// Memory that may be shared, with nothing else asked of it.
    pub fn new(name: &'a str, location: MemoryLocation) -> Self {
        Placement { name, location, dedicated: false, options: AllocationOptions::default() }
    }

    /// For staging: see [`AllocationOptions::staging`].
    pub fn staging(name: &'a str) -> Self {
        Placement { options: AllocationOptions::staging(), ..Placement::new(name, MemoryLocation::Unknown) }
    }

    /// For a transient attachment: memory of its own, by [`AllocationOptions::transient`].
    pub fn transient(name: &'a str) -> Self {
        let options = AllocationOptions::transient();
        Placement { dedicated: true, options, ..Placement::new(name, MemoryLocation::Unknown) }
    }
}

impl Allocator {
    /// Makes a buffer with memory and binds it. It has memory of its own where the placement says so or has a chain, or the driver requires it;
    /// where the driver prefers it, it has if there is such memory, and else shares. What was made is undone where something fails. A device
    /// has the functions for it by [`Device::with_resources`](super::Device::with_resources).
    ///
    /// The errors: `Internal` where the device has no such functions; `InvalidAllocationCreateDesc` for a sparse buffer, which is bound by
    /// hand; `Internal` where `vkCreateBuffer` fails; those of [`Allocator::allocate_with`]; `Internal` where `vkBindBufferMemory` fails.
    ///
    /// # Safety
    ///
    /// The device may be asked for a buffer by this description.
    pub unsafe fn create_buffer(
        &mut self,
        info: &BufferCreateInfo,
        placement: &Placement<'_>,
    ) -> Result<(Buffer, Allocation)> {
        self.create(info, placement)
    }

    /// Makes an image with memory and binds it, as [`Allocator::create_buffer`] does. One that is sparse or disjoint is bound by hand.
    ///
    /// # Safety
    ///
    /// The device may be asked for an image by this description.
    pub unsafe fn create_image(
        &mut self,
        info: &ImageCreateInfo,
        placement: &Placement<'_>,
    ) -> Result<(Image, Allocation)> {
        self.create(info, placement)
    }

    /// Destroys a buffer and frees its allocation.
    ///
    /// The error, with the allocation, and then neither happens: `Internal` where it isn't this allocator's, or the device has no function
    /// for it.
    ///
    /// # Safety
    ///
    /// The buffer is a live one of the device and bound to this allocation, and the device has finished with it.
    #[allow(clippy::result_large_err, reason = "what is refused comes back")]
    pub unsafe fn destroy_buffer(
        &mut self,
        buffer: Buffer,
        allocation: Allocation,
    ) -> Result<(), (AllocationError, Allocation)> {
        self.destroy_resource(buffer, allocation)
    }

    /// Destroys an image and frees its allocation, as [`Allocator::destroy_buffer`] does.
    ///
    /// # Safety
    ///
    /// The image is a live one of the device and bound to this allocation, and the device has finished with it.
    #[allow(clippy::result_large_err, reason = "what is refused comes back")]
    pub unsafe fn destroy_image(
        &mut self,
        image: Image,
        allocation: Allocation,
    ) -> Result<(), (AllocationError, Allocation)> {
        self.destroy_resource(image, allocation)
    }

    fn create<R: Resource>(&mut self, info: &R::Info, placement: &Placement<'_>) -> Result<(R, Allocation)> {
        let maker = self.maker::<R>()?;
        if !R::is_bindable(info) {
            return Err(AllocationError::InvalidAllocationCreateDesc);
        }
        let made = maker.make(info)?;
        match self.place_resource(&maker, made, R::is_linear(info), placement) {
            Ok(allocation) => Ok((made, allocation)),
            Err(error) => {
                maker.destroy(made);
                Err(error)
            }
        }
    }

    fn place_resource<R: Resource>(
        &mut self,
        maker: &Maker<R>,
        made: R,
        linear: bool,
        placement: &Placement<'_>,
    ) -> Result<Allocation> {
        let allocation = self.allocate_for(made, linear, &maker.needs_of(made), placement)?;
        if let Err(error) = maker.bind(made, &allocation) {
            self.free(allocation)?;
            return Err(error);
        }
        Ok(allocation)
    }

    fn allocate_for<R: Resource>(
        &mut self,
        made: R,
        linear: bool,
        needs: &Needs,
        placement: &Placement<'_>,
    ) -> Result<Allocation> {
        let Placement { name, location, dedicated, options } = placement;
        let (requirements, location) = (needs.requirements, *location);
        let shared = AllocationScheme::GpuAllocatorManaged;
        let shared = AllocationCreateDesc { name, requirements, location, linear, allocation_scheme: shared };
        let own = AllocationCreateDesc { allocation_scheme: made.alone(), ..shared };
        if *dedicated || options.next.is_some() || needs.requires_own {
            return self.allocate_with(&own, options);
        }
        if !needs.prefers_own {
            return self.allocate_with(&shared, options);
        }
        match self.allocate_with(&own, options) {
            Err(error) if error != AllocationError::HostOutOfMemory => self.allocate_with(&shared, options),
            result => result,
        }
    }

    #[allow(clippy::result_large_err, reason = "what is refused comes back")]
    fn destroy_resource<R: Resource>(
        &mut self,
        gone: R,
        allocation: Allocation,
    ) -> Result<(), (AllocationError, Allocation)> {
        let maker = match self.maker::<R>() {
            Ok(maker) if self.is_live(&allocation) => maker,
            Ok(_) => return Err((check(NOT_LIVE).expect_err("a piece that isn't live"), allocation)),
            Err(error) => return Err((error, allocation)),
        };
        maker.destroy(gone);
        self.free(allocation)
    }

    fn maker<R: Resource>(&self) -> Result<Maker<R>> {
        let device = self.device();
        let functions = device.resources.as_ref().map(R::functions);
        let functions = *functions.ok_or(internal("The device has no functions for buffers and images."))?;
        Ok(Maker { device: device.as_ptr(), functions })
    }
}

/// A sort of resource, by its handle.
trait Resource: Copy {
    /// How one is described.
    type Info: Copy;
    /// The type of the struct that asks what one needs.
    const NEEDS_TYPE: i32;
    const CREATE_FAILED: &'static str;
    const BIND_FAILED: &'static str;

    fn functions(all: &ResourceFunctions) -> &FunctionsOf<Self::Info, Self>;

    /// Whether it is bound to one piece of memory.
    fn is_bindable(info: &Self::Info) -> bool;

    /// Whether it isn't in the device's own layout.
    fn is_linear(info: &Self::Info) -> bool;

    /// Memory for it alone.
    fn alone(self) -> AllocationScheme;

    fn is_null(self) -> bool;

    const NULL: Self;
}

/// `VK_BUFFER_CREATE_SPARSE_BINDING_BIT` and `VK_IMAGE_CREATE_SPARSE_BINDING_BIT`.
const SPARSE_BINDING: u32 = 1;

/// `VK_IMAGE_CREATE_DISJOINT_BIT`.
const DISJOINT: u32 = 0x200;

impl Resource for Buffer {
    type Info = BufferCreateInfo;
    const NEEDS_TYPE: i32 = ResourceMemoryRequirementsInfo2::<Buffer>::STRUCTURE_TYPE;
    const CREATE_FAILED: &'static str = "vkCreateBuffer failed";
    const BIND_FAILED: &'static str = "vkBindBufferMemory failed";
    const NULL: Self = Buffer(0);

    fn functions(all: &ResourceFunctions) -> &FunctionsOf<BufferCreateInfo, Buffer> {
        &all.buffers
    }

    fn is_bindable(info: &BufferCreateInfo) -> bool {
        info.flags & SPARSE_BINDING == 0
    }

    fn is_linear(_: &BufferCreateInfo) -> bool {
        true
    }

    fn alone(self) -> AllocationScheme {
        AllocationScheme::DedicatedBuffer(self)
    }

    fn is_null(self) -> bool {
        self == Self::NULL
    }
}

impl Resource for Image {
    type Info = ImageCreateInfo;
    const NEEDS_TYPE: i32 = ResourceMemoryRequirementsInfo2::<Image>::STRUCTURE_TYPE;
    const CREATE_FAILED: &'static str = "vkCreateImage failed";
    const BIND_FAILED: &'static str = "vkBindImageMemory failed";
    const NULL: Self = Image(0);

    fn functions(all: &ResourceFunctions) -> &FunctionsOf<ImageCreateInfo, Image> {
        &all.images
    }

    fn is_bindable(info: &ImageCreateInfo) -> bool {
        info.flags & (SPARSE_BINDING | DISJOINT) == 0
    }

    fn is_linear(info: &ImageCreateInfo) -> bool {
        info.tiling == ImageCreateInfo::LINEAR
    }

    fn alone(self) -> AllocationScheme {
        AllocationScheme::DedicatedImage(self)
    }

    fn is_null(self) -> bool {
        self == Self::NULL
    }
}

/// What a resource needs, and whether the driver wants memory for it alone.
#[derive(Clone, Copy, Debug)]
struct Needs {
    requirements: MemoryRequirements,
    requires_own: bool,
    prefers_own: bool,
}

/// A live device and its functions for a sort of resource.
#[derive(Clone, Copy, Debug)]
struct Maker<R: Resource> {
    device: *mut c_void,
    functions: FunctionsOf<R::Info, R>,
}

impl<R: Resource> Maker<R> {
    /// A driver that makes a null resource has made none.
    fn make(&self, info: &R::Info) -> Result<R> {
        let mut made = R::NULL;
        // SAFETY: the device is live and the function its own (`Device::with_resources`), and the device may be asked so (`create_buffer`).
        let code = unsafe { (self.functions.create)(self.device, info, ptr::null(), &mut made) };
        match code {
            SUCCESS if made.is_null() => Err(failed(R::CREATE_FAILED, None)),
            SUCCESS => Ok(made),
            code => Err(failed(R::CREATE_FAILED, Some(code))),
        }
    }

    fn destroy(&self, gone: R) {
        // SAFETY: the device is live and the function its own; the resource is one of it, and isn't used again.
        unsafe { (self.functions.destroy)(self.device, gone, ptr::null()) };
    }

    fn needs_of(&self, made: R) -> Needs {
        let mut alone = MemoryDedicatedRequirements {
            s_type: MemoryDedicatedRequirements::STRUCTURE_TYPE,
            next: ptr::null_mut(),
            prefers_dedicated_allocation: 0,
            requires_dedicated_allocation: 0,
        };
        let mut told = MemoryRequirements2 {
            s_type: MemoryRequirements2::STRUCTURE_TYPE,
            next: (&raw mut alone).cast(),
            memory_requirements: MemoryRequirements::default(),
        };
        let info = ResourceMemoryRequirementsInfo2 { s_type: R::NEEDS_TYPE, next: ptr::null(), resource: made };
        // SAFETY: the device is live and the functions its own; what they write to outlives the calls.
        unsafe {
            match self.functions.get_memory_requirements2 {
                Some(tell) => tell(self.device, &info, &mut told),
                None => (self.functions.get_memory_requirements)(self.device, made, &mut told.memory_requirements),
            }
        }
        Needs {
            requirements: told.memory_requirements,
            requires_own: alone.requires_dedicated_allocation != 0,
            prefers_own: alone.prefers_dedicated_allocation != 0,
        }
    }

    fn bind(&self, made: R, allocation: &Allocation) -> Result<()> {
        // SAFETY: the device is live and the function its own; the place was allocated by what the resource needs.
        let code = unsafe { (self.functions.bind_memory)(self.device, made, allocation.memory(), allocation.offset()) };
        if code == SUCCESS {
            Ok(())
        } else {
            Err(failed(R::BIND_FAILED, Some(code)))
        }
    }
}

fn failed(text: &'static str, code: Option<i32>) -> AllocationError {
    AllocationError::Internal(Fault { text, code: code.map(i64::from) })
}
