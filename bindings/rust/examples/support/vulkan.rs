//! A Vulkan device for examples and tests, by Vulkan's loader: instance with the validation layer where it is installed, a
//! messenger that counts what it says, a device, buffers and images. A program of yours has a binding for all of this.
#![allow(dead_code, missing_docs)]

use pilhangko::vulkan::{
    Allocation, Buffer, BufferCreateInfo, Device, DeviceFunctions, DeviceLimits, DeviceMemory,
    GetPhysicalDeviceMemoryProperties2, Image, ImageCreateInfo, MemoryRequirements, PhysicalDeviceMemoryProperties,
    ResourceFunctions, VoidFunction,
};
use std::ffi::{c_char, c_void, CStr};
use std::mem::{transmute, transmute_copy};
use std::ptr::{null, null_mut};
use std::sync::atomic::{AtomicUsize, Ordering};

const VALIDATION_LAYER: &CStr = c"VK_LAYER_KHRONOS_validation";

/// The loader's function of that name; null where there is no loader.
#[cfg(unix)]
fn loader_function(name: &CStr) -> *mut c_void {
    unsafe extern "C" {
        fn dlopen(name: *const c_char, flags: i32) -> *mut c_void;
        fn dlsym(library: *mut c_void, name: *const c_char) -> *mut c_void;
    }
    const LOADER: &CStr = if cfg!(target_os = "macos") {
        c"libvulkan.1.dylib"
    } else if cfg!(target_os = "android") {
        c"libvulkan.so"
    } else {
        c"libvulkan.so.1"
    };
    // SAFETY: the loader may be opened.
    unsafe {
        let library = dlopen(LOADER.as_ptr(), 2);
        if library.is_null() {
            null_mut()
        } else {
            dlsym(library, name.as_ptr())
        }
    }
}

/// The loader's function of that name; null where there is no loader.
#[cfg(windows)]
fn loader_function(name: &CStr) -> *mut c_void {
    unsafe extern "system" {
        fn LoadLibraryA(name: *const c_char) -> *mut c_void;
        fn GetProcAddress(library: *mut c_void, name: *const c_char) -> *mut c_void;
    }
    // SAFETY: the loader may be opened.
    unsafe {
        let library = LoadLibraryA(c"vulkan-1.dll".as_ptr());
        if library.is_null() {
            null_mut()
        } else {
            GetProcAddress(library, name.as_ptr())
        }
    }
}

type Handle = *mut c_void;
type GetProcAddr = unsafe extern "system" fn(Handle, *const c_char) -> Option<VoidFunction>;

#[repr(C)]
struct ApplicationInfo {
    s_type: i32,
    next: *const c_void,
    application_name: *const c_char,
    application_version: u32,
    engine_name: *const c_char,
    engine_version: u32,
    api_version: u32,
}

#[repr(C)]
struct InstanceCreateInfo {
    s_type: i32,
    next: *const c_void,
    flags: u32,
    application_info: *const ApplicationInfo,
    layer_count: u32,
    layers: *const *const c_char,
    extension_count: u32,
    extensions: *const *const c_char,
}

#[repr(C)]
struct LayerProperties {
    name: [c_char; 256],
    versions: [u32; 2],
    description: [c_char; 256],
}

#[repr(C)]
struct MessengerCreateInfo {
    s_type: i32,
    next: *const c_void,
    flags: u32,
    severity: u32,
    kinds: u32,
    callback: unsafe extern "system" fn(u32, u32, *const Message, *mut c_void) -> u32,
    user: *mut c_void,
}

/// The beginning of `VkDebugUtilsMessengerCallbackDataEXT`.
#[repr(C)]
struct Message {
    s_type: i32,
    next: *const c_void,
    flags: u32,
    id_name: *const c_char,
    id_number: i32,
    text: *const c_char,
}

/// `VkPhysicalDeviceProperties`, of which the name and three limits are read.
#[repr(C)]
struct PhysicalDeviceProperties {
    numbers: [u32; 5],
    name: [c_char; 256],
    uuid: [u8; 16],
    padding: u32,
    first_limits: [u32; 11],
    buffer_image_granularity: u64,
    more_limits: [u64; 55],
    non_coherent_atom_size: u64,
    rest: [u64; 3],
}

#[repr(C)]
struct QueueCreateInfo {
    s_type: i32,
    next: *const c_void,
    flags: u32,
    family: u32,
    count: u32,
    priorities: *const f32,
}

#[repr(C)]
struct DeviceCreateInfo {
    s_type: i32,
    next: *const c_void,
    flags: u32,
    queue_count: u32,
    queues: *const QueueCreateInfo,
    layer_count: u32,
    layers: *const *const c_char,
    extension_count: u32,
    extensions: *const *const c_char,
    features: *const c_void,
}

#[repr(C)]
struct ExtensionProperties {
    name: [c_char; 256],
    version: u32,
}

const MEMORY_BUDGET: &CStr = c"VK_EXT_memory_budget";

/// Counts a message of the validation layer.
unsafe extern "system" fn reported(_: u32, _: u32, message: *const Message, user: *mut c_void) -> u32 {
    // SAFETY: the layer hands in a message with a text that ends in a 0, and the counter that the messenger was made with.
    let (text, count) = unsafe { (CStr::from_ptr((*message).text), &*user.cast::<AtomicUsize>()) };
    eprintln!("validation: {}", text.to_string_lossy());
    count.fetch_add(1, Ordering::SeqCst);
    0
}

/// An image of so many texels of four bytes.
pub fn image_info(width: u32, height: u32, is_linear: bool, usage: u32) -> ImageCreateInfo {
    ImageCreateInfo {
        s_type: ImageCreateInfo::STRUCTURE_TYPE,
        next: null(),
        flags: 0,
        image_type: 1,
        format: 37, // R8G8B8A8_UNORM
        extent: [width, height, 1],
        mip_levels: 1,
        array_layers: 1,
        samples: 1,
        tiling: i32::from(is_linear),
        usage,
        sharing_mode: 0,
        queue_family_index_count: 0,
        queue_family_indices: null(),
        initial_layout: 0,
    }
}

/// A buffer or an image.
#[derive(Clone, Copy, Debug)]
pub enum Resource {
    Buffer(Buffer),
    Image(Image),
}

/// An instance and a device.
#[derive(Debug)]
pub struct Vulkan {
    pub device_name: String,
    pub validates: bool,
    /// Whether VK_EXT_memory_budget is enabled.
    pub has_budgets: bool,
    find: GetProcAddr,
    instance: Handle,
    messenger: u64,
    physical_device: Handle,
    device: Handle,
    limits: DeviceLimits,
    messages: Box<AtomicUsize>,
}

#[track_caller]
fn succeeded(code: i32) {
    assert_eq!(code, 0, "a call of Vulkan failed");
}

impl Vulkan {
    /// An instance and the first device; `None` where there is no loader, no driver or no device.
    pub fn open() -> Option<Self> {
        let function = loader_function(c"vkGetInstanceProcAddr");
        // SAFETY: the loader's function of this name has this type.
        let find = unsafe { transmute::<*mut c_void, Option<GetProcAddr>>(function)? };
        let mut vulkan = Vulkan {
            device_name: String::new(),
            validates: false,
            has_budgets: false,
            find,
            instance: null_mut(),
            messenger: 0,
            physical_device: null_mut(),
            device: null_mut(),
            limits: DeviceLimits {
                buffer_image_granularity: 1,
                non_coherent_atom_size: 1,
                max_memory_allocation_count: 0,
            },
            messages: Box::default(),
        };
        vulkan.validates = vulkan.has_validation();
        vulkan.create_instance()?;
        vulkan.find_physical_device()?;
        vulkan.create_device();
        Some(vulkan)
    }

    /// The function of a name.
    ///
    /// # Safety
    ///
    /// `F` is the type of that function.
    unsafe fn function<F>(&self, name: &CStr) -> F {
        // SAFETY: the instance is live or null.
        let function = unsafe { (self.find)(self.instance, name.as_ptr()) }.expect("Vulkan has the function");
        // SAFETY: the caller says what its type is.
        unsafe { transmute_copy(&function) }
    }

    fn has_validation(&self) -> bool {
        type Enumerate = unsafe extern "system" fn(*mut u32, *mut LayerProperties) -> i32;
        let mut count = 0;
        let mut layers: Vec<LayerProperties> = Vec::new();
        // SAFETY: the type is the function's; there is room for as many layers as are counted, and so many are written.
        unsafe {
            let enumerate: Enumerate = self.function(c"vkEnumerateInstanceLayerProperties");
            succeeded(enumerate(&mut count, null_mut()));
            layers.reserve(count as usize);
            succeeded(enumerate(&mut count, layers.as_mut_ptr()));
            layers.set_len(count as usize);
            layers.iter().any(|layer| CStr::from_ptr(layer.name.as_ptr()) == VALIDATION_LAYER)
        }
    }

    fn create_instance(&mut self) -> Option<()> {
        type Create = unsafe extern "system" fn(*const InstanceCreateInfo, *const c_void, *mut Handle) -> i32;
        type Listen = unsafe extern "system" fn(Handle, *const MessengerCreateInfo, *const c_void, *mut u64) -> i32;
        let listens = MessengerCreateInfo {
            s_type: 1_000_128_004,
            next: null(),
            flags: 0,
            severity: 0x1100, // warnings and errors
            kinds: 2,         // of validation
            callback: reported,
            user: (&raw const *self.messages).cast_mut().cast(),
        };
        let application = ApplicationInfo {
            s_type: 0,
            next: null(),
            application_name: null(),
            application_version: 0,
            engine_name: null(),
            engine_version: 0,
            api_version: 1 << 22 | 1 << 12, // 1.1
        };
        let (layer, extension) = (VALIDATION_LAYER.as_ptr(), c"VK_EXT_debug_utils".as_ptr());
        let count = u32::from(self.validates);
        let info = InstanceCreateInfo {
            s_type: 1,
            next: if self.validates { (&raw const listens).cast() } else { null() },
            flags: 0,
            application_info: &application,
            layer_count: count,
            layers: &layer,
            extension_count: count,
            extensions: &extension,
        };
        // SAFETY: the types are the functions', and the descriptions outlive the calls.
        unsafe {
            let create: Create = self.function(c"vkCreateInstance");
            if create(&info, null(), &mut self.instance) != 0 {
                self.instance = null_mut();
                return None;
            }
            if self.validates {
                let listen: Listen = self.function(c"vkCreateDebugUtilsMessengerEXT");
                succeeded(listen(self.instance, &listens, null(), &mut self.messenger));
            }
        }
        Some(())
    }

    fn find_physical_device(&mut self) -> Option<()> {
        type Enumerate = unsafe extern "system" fn(Handle, *mut u32, *mut Handle) -> i32;
        type Properties = unsafe extern "system" fn(Handle, *mut PhysicalDeviceProperties);
        let mut count = 1;
        // SAFETY: the types are the functions'; there is room for one device, and for the properties, for which zeros are values.
        unsafe {
            let enumerate: Enumerate = self.function(c"vkEnumeratePhysicalDevices");
            enumerate(self.instance, &mut count, &mut self.physical_device);
            if count == 0 {
                return None;
            }
            let tell: Properties = self.function(c"vkGetPhysicalDeviceProperties");
            let mut properties: PhysicalDeviceProperties = std::mem::zeroed();
            tell(self.physical_device, &mut properties);
            self.device_name = CStr::from_ptr(properties.name.as_ptr()).to_string_lossy().into_owned();
            let PhysicalDeviceProperties { buffer_image_granularity, non_coherent_atom_size, .. } = properties;
            let max_memory_allocation_count = properties.first_limits[9];
            self.limits =
                DeviceLimits { buffer_image_granularity, non_coherent_atom_size, max_memory_allocation_count };
        }
        Some(())
    }

    fn create_device(&mut self) {
        type Create = unsafe extern "system" fn(Handle, *const DeviceCreateInfo, *const c_void, *mut Handle) -> i32;
        let queue = QueueCreateInfo { s_type: 2, next: null(), flags: 0, family: 0, count: 1, priorities: &1.0 };
        self.has_budgets = self.has_extension(MEMORY_BUDGET);
        let info = DeviceCreateInfo {
            s_type: 3,
            next: null(),
            flags: 0,
            queue_count: 1,
            queues: &queue,
            layer_count: 0,
            layers: null(),
            extension_count: u32::from(self.has_budgets),
            extensions: &MEMORY_BUDGET.as_ptr(),
            features: null(),
        };
        // SAFETY: the type is the function's, and the description outlives the call.
        unsafe {
            let create: Create = self.function(c"vkCreateDevice");
            succeeded(create(self.physical_device, &info, null(), &mut self.device));
        }
    }

    /// What an allocator needs of the device. It has to be gone before this is dropped.
    pub fn device(&self) -> Device {
        type Properties = unsafe extern "system" fn(Handle, *mut PhysicalDeviceMemoryProperties);
        let mut properties = PhysicalDeviceMemoryProperties::default();
        // SAFETY: the types are the functions', and all of it is of the same live device.
        unsafe {
            let tell: Properties = self.function(c"vkGetPhysicalDeviceMemoryProperties");
            tell(self.physical_device, &mut properties);
            let find: GetProcAddr = self.function(c"vkGetDeviceProcAddr");
            let functions = DeviceFunctions::load(|name| find(self.device, name.as_ptr()));
            Device::new(self.device as u64, functions.expect("Vulkan 1.0 has them"), properties, self.limits)
        }
    }

    /// The same with functions for buffers and images, and with budgets where the driver tells of them.
    pub fn whole_device(&self) -> Device {
        // SAFETY: the types are the functions', and all of it is of the same live device.
        unsafe {
            let find: GetProcAddr = self.function(c"vkGetDeviceProcAddr");
            let functions = ResourceFunctions::load(true, |name| find(self.device, name.as_ptr()));
            let device = self.device().with_resources(functions.expect("Vulkan 1.0 has them"));
            if !self.has_budgets {
                return device;
            }
            let tell: GetPhysicalDeviceMemoryProperties2 = self.function(c"vkGetPhysicalDeviceMemoryProperties2");
            device.with_memory_budget(self.physical_device as u64, tell)
        }
    }

    fn has_extension(&self, name: &CStr) -> bool {
        type Enumerate = unsafe extern "system" fn(Handle, *const c_char, *mut u32, *mut ExtensionProperties) -> i32;
        let mut count = 0;
        // SAFETY: the type is the function's; there is room for as many as it counted, for which zeros are values.
        unsafe {
            let enumerate: Enumerate = self.function(c"vkEnumerateDeviceExtensionProperties");
            succeeded(enumerate(self.physical_device, null(), &mut count, null_mut()));
            let mut all: Vec<ExtensionProperties> = (0..count).map(|_| std::mem::zeroed()).collect();
            succeeded(enumerate(self.physical_device, null(), &mut count, all.as_mut_ptr()));
            all.iter().any(|it| CStr::from_ptr(it.name.as_ptr()) == name)
        }
    }

    /// How often the validation layer had something to say.
    pub fn messages(&self) -> usize {
        self.messages.load(Ordering::SeqCst)
    }

    /// A buffer of so many bytes, and what it needs.
    pub fn create_buffer(&self, size: u64) -> (Resource, MemoryRequirements) {
        let info = BufferCreateInfo::new(size, 1 | 0x10); // to copy from, uniform buffer
        let (buffer, needs) = self.create(c"vkCreateBuffer", &info, c"vkGetBufferMemoryRequirements");
        (Resource::Buffer(Buffer(buffer)), needs)
    }

    /// An image of so many texels of four bytes, and what it needs.
    pub fn create_image(&self, width: u32, height: u32, is_linear: bool) -> (Resource, MemoryRequirements) {
        let info = image_info(width, height, is_linear, 1 | 2); // to copy from and to
        let (image, needs) = self.create(c"vkCreateImage", &info, c"vkGetImageMemoryRequirements");
        (Resource::Image(Image(image)), needs)
    }

    /// `name` and `needs_name` are Vulkan's functions for the object that `info` describes.
    fn create<I>(&self, name: &CStr, info: &I, needs_name: &CStr) -> (u64, MemoryRequirements) {
        type Needs = unsafe extern "system" fn(Handle, u64, *mut MemoryRequirements);
        let (mut object, mut needs) = (0, MemoryRequirements::default());
        // SAFETY: functions that make an object of a description and tell what it needs have these types.
        unsafe {
            let create: unsafe extern "system" fn(Handle, *const I, *const c_void, *mut u64) -> i32 =
                self.function(name);
            succeeded(create(self.device, info, null(), &mut object));
            let tell: Needs = self.function(needs_name);
            tell(self.device, object, &mut needs);
        }
        (object, needs)
    }

    /// Binds a resource to the place that was allocated for it.
    pub fn bind(&self, resource: Resource, allocation: &Allocation) {
        type Bind = unsafe extern "system" fn(Handle, u64, DeviceMemory, u64) -> i32;
        let (name, object) = match resource {
            Resource::Buffer(buffer) => (c"vkBindBufferMemory", buffer.0),
            Resource::Image(image) => (c"vkBindImageMemory", image.0),
        };
        // SAFETY: the types are the functions'; the place is the allocation's, which was made by what the resource needs.
        unsafe {
            let bind: Bind = self.function(name);
            succeeded(bind(self.device, object, allocation.memory(), allocation.offset()));
        }
    }

    /// Destroys a resource.
    pub fn destroy(&self, resource: Resource) {
        match resource {
            Resource::Buffer(buffer) => self.destroy_object(c"vkDestroyBuffer", self.device, buffer.0),
            Resource::Image(image) => self.destroy_object(c"vkDestroyImage", self.device, image.0),
        }
    }

    fn destroy_object(&self, name: &CStr, parent: Handle, object: u64) {
        // SAFETY: functions that destroy an object of a parent have this type; the object isn't used again.
        unsafe {
            let destroy: unsafe extern "system" fn(Handle, u64, *const c_void) = self.function(name);
            destroy(parent, object, null());
        }
    }

    fn destroy_parent(&self, name: &CStr, parent: Handle) {
        // SAFETY: functions that destroy an instance or a device have this type; it isn't used again.
        unsafe {
            let destroy: unsafe extern "system" fn(Handle, *const c_void) = self.function(name);
            destroy(parent, null());
        }
    }
}

impl Drop for Vulkan {
    fn drop(&mut self) {
        if !self.device.is_null() {
            self.destroy_parent(c"vkDestroyDevice", self.device);
        }
        if self.messenger != 0 {
            self.destroy_object(c"vkDestroyDebugUtilsMessengerEXT", self.instance, self.messenger);
        }
        if !self.instance.is_null() {
            self.destroy_parent(c"vkDestroyInstance", self.instance);
        }
    }
}
