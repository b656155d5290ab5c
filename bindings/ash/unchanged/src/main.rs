//! A program that was written for gpu-allocator 0.28 over ash 0.38: a buffer that the host fills, an image on the device, a copy into it and
//! back into a readback buffer, whose bytes are compared. Then a report, and an end without leaks. What it uses of the allocator is in
//! gpu-allocator's own paths; where there is no validation layer, NO_VALIDATION leaves it out.
use ash::vk;
use gpu_allocator::vulkan::*;
use gpu_allocator::MemoryLocation;
use std::error::Error;
use std::ffi::CStr;
use std::sync::{Arc, Mutex};

struct Gpu {
    _entry: ash::Entry,
    instance: ash::Instance,
    physical_device: vk::PhysicalDevice,
    device: ash::Device,
    queue: vk::Queue,
    family: u32,
}

fn open_gpu() -> Result<Gpu, Box<dyn Error>> {
    let entry = unsafe { ash::Entry::load() }?;
    let app = vk::ApplicationInfo::default().api_version(vk::API_VERSION_1_2);
    let layers: Vec<*const i8> = if std::env::var_os("NO_VALIDATION").is_some() {
        vec![]
    } else {
        vec![c"VK_LAYER_KHRONOS_validation".as_ptr()]
    };
    let instance = unsafe {
        entry.create_instance(
            &vk::InstanceCreateInfo::default().application_info(&app).enabled_layer_names(&layers),
            None,
        )
    }?;
    let physical_device = unsafe { instance.enumerate_physical_devices() }?[0];
    let name = unsafe { instance.get_physical_device_properties(physical_device) }.device_name;
    println!("device: {}", unsafe { CStr::from_ptr(name.as_ptr()) }.to_string_lossy());
    let family = 0;
    let priorities = [1.0];
    let queues = [vk::DeviceQueueCreateInfo::default().queue_family_index(family).queue_priorities(&priorities)];
    let mut addresses = vk::PhysicalDeviceBufferDeviceAddressFeatures::default().buffer_device_address(true);
    let device = unsafe {
        instance.create_device(
            physical_device,
            &vk::DeviceCreateInfo::default().queue_create_infos(&queues).push_next(&mut addresses),
            None,
        )
    }?;
    let queue = unsafe { device.get_device_queue(family, 0) };
    Ok(Gpu { _entry: entry, instance, physical_device, device, queue, family })
}

struct Buffer {
    buffer: vk::Buffer,
    allocation: Allocation,
}

fn make_buffer(
    device: &ash::Device,
    allocator: &Mutex<Allocator>,
    name: &str,
    size: u64,
    usage: vk::BufferUsageFlags,
    location: MemoryLocation,
) -> Result<Buffer, Box<dyn Error>> {
    let vk_info = vk::BufferCreateInfo::default().size(size).usage(usage);
    let buffer = unsafe { device.create_buffer(&vk_info, None) }?;
    let requirements = unsafe { device.get_buffer_memory_requirements(buffer) };
    let allocation = allocator.lock().unwrap().allocate(&AllocationCreateDesc {
        name,
        requirements,
        location,
        linear: true, // Buffers are always linear
        allocation_scheme: AllocationScheme::GpuAllocatorManaged,
    })?;
    unsafe { device.bind_buffer_memory(buffer, allocation.memory(), allocation.offset()) }?;
    Ok(Buffer { buffer, allocation })
}

fn make_image(
    device: &ash::Device,
    allocator: &Mutex<Allocator>,
    side: u32,
) -> Result<(vk::Image, Allocation), Box<dyn Error>> {
    let vk_info = vk::ImageCreateInfo::default()
        .image_type(vk::ImageType::TYPE_2D)
        .format(vk::Format::R8G8B8A8_UNORM)
        .extent(vk::Extent3D { width: side, height: side, depth: 1 })
        .mip_levels(1)
        .array_layers(1)
        .samples(vk::SampleCountFlags::TYPE_1)
        .tiling(vk::ImageTiling::OPTIMAL)
        .usage(vk::ImageUsageFlags::TRANSFER_DST | vk::ImageUsageFlags::TRANSFER_SRC);
    let image = unsafe { device.create_image(&vk_info, None) }?;
    let requirements = unsafe { device.get_image_memory_requirements(image) };
    let allocation = allocator.lock().unwrap().allocate(&AllocationCreateDesc {
        name: "render target",
        requirements,
        location: MemoryLocation::GpuOnly,
        linear: false,
        allocation_scheme: AllocationScheme::DedicatedImage(image),
    })?;
    unsafe { device.bind_image_memory(image, allocation.memory(), allocation.offset()) }?;
    Ok((image, allocation))
}

fn barrier(
    image: vk::Image,
    (old, new): (vk::ImageLayout, vk::ImageLayout),
    (src, dst): (vk::AccessFlags, vk::AccessFlags),
) -> [vk::ImageMemoryBarrier<'static>; 1] {
    let range =
        vk::ImageSubresourceRange::default().aspect_mask(vk::ImageAspectFlags::COLOR).level_count(1).layer_count(1);
    [vk::ImageMemoryBarrier::default()
        .old_layout(old)
        .new_layout(new)
        .src_access_mask(src)
        .dst_access_mask(dst)
        .src_queue_family_index(vk::QUEUE_FAMILY_IGNORED)
        .dst_queue_family_index(vk::QUEUE_FAMILY_IGNORED)
        .image(image)
        .subresource_range(range)]
}

/// Records the copies of upload to image to readback.
fn record(d: &ash::Device, c: vk::CommandBuffer, from: vk::Buffer, image: vk::Image, to: vk::Buffer, side: u32) {
    use vk::{AccessFlags as Access, DependencyFlags, ImageLayout as Layout, PipelineStageFlags as Stage};
    let layers = vk::ImageSubresourceLayers::default().aspect_mask(vk::ImageAspectFlags::COLOR).layer_count(1);
    let whole = [vk::BufferImageCopy::default().image_subresource(layers).image_extent(vk::Extent3D {
        width: side,
        height: side,
        depth: 1,
    })];
    let none = DependencyFlags::empty();
    let (dst, src) = (Layout::TRANSFER_DST_OPTIMAL, Layout::TRANSFER_SRC_OPTIMAL);
    let write = barrier(image, (Layout::UNDEFINED, dst), (Access::empty(), Access::TRANSFER_WRITE));
    let read = barrier(image, (dst, src), (Access::TRANSFER_WRITE, Access::TRANSFER_READ));
    let seen =
        [vk::MemoryBarrier::default().src_access_mask(Access::TRANSFER_WRITE).dst_access_mask(Access::HOST_READ)];
    unsafe {
        d.cmd_pipeline_barrier(c, Stage::TOP_OF_PIPE, Stage::TRANSFER, none, &[], &[], &write);
        d.cmd_copy_buffer_to_image(c, from, image, dst, &whole);
        d.cmd_pipeline_barrier(c, Stage::TRANSFER, Stage::TRANSFER, none, &[], &[], &read);
        d.cmd_copy_image_to_buffer(c, image, src, to, &whole);
        d.cmd_pipeline_barrier(c, Stage::TRANSFER, Stage::HOST, none, &seen, &[], &[]);
    }
}

/// Copies upload to image to readback on the queue, and waits.
fn copy_through(
    gpu: &Gpu,
    from: vk::Buffer,
    image: vk::Image,
    to: vk::Buffer,
    side: u32,
) -> Result<(), Box<dyn Error>> {
    let d = &gpu.device;
    let once = vk::CommandBufferBeginInfo::default().flags(vk::CommandBufferUsageFlags::ONE_TIME_SUBMIT);
    unsafe {
        let pool = d.create_command_pool(&vk::CommandPoolCreateInfo::default().queue_family_index(gpu.family), None)?;
        let c = d.allocate_command_buffers(
            &vk::CommandBufferAllocateInfo::default().command_pool(pool).command_buffer_count(1),
        )?[0];
        d.begin_command_buffer(c, &once)?;
        record(d, c, from, image, to, side);
        d.end_command_buffer(c)?;
        d.queue_submit(gpu.queue, &[vk::SubmitInfo::default().command_buffers(&[c])], vk::Fence::null())?;
        d.queue_wait_idle(gpu.queue)?;
        d.destroy_command_pool(pool, None);
    }
    Ok(())
}

/// Fills a buffer, copies it through an image, and compares what comes back.
fn copies(gpu: &Gpu, allocator: &Mutex<Allocator>) -> Result<(), Box<dyn Error>> {
    const SIDE: u32 = 256;
    let size = u64::from(SIDE * SIDE * 4);
    let (send, receive) = (
        vk::BufferUsageFlags::TRANSFER_SRC | vk::BufferUsageFlags::SHADER_DEVICE_ADDRESS,
        vk::BufferUsageFlags::TRANSFER_DST,
    );
    let mut upload = make_buffer(&gpu.device, allocator, "upload", size, send, MemoryLocation::CpuToGpu)?;
    let readback = make_buffer(&gpu.device, allocator, "readback", size, receive, MemoryLocation::GpuToCpu)?;
    let (image, target) = make_image(&gpu.device, allocator, SIDE)?;
    for (at, byte) in upload.allocation.mapped_slice_mut().ok_or("not mapped")?.iter_mut().enumerate() {
        *byte = (at * 31 % 251) as u8;
    }
    copy_through(gpu, upload.buffer, image, readback.buffer, SIDE)?;
    let (sent, got) = (
        &upload.allocation.mapped_slice().unwrap()[..size as usize],
        &readback.allocation.mapped_slice().unwrap()[..size as usize],
    );
    println!("the image came back whole: {}", sent == got);
    let report = allocator.lock().unwrap().generate_report();
    println!("{}", report.allocations.iter().map(|it| it.name.clone()).collect::<Vec<_>>().join(", "));
    println!("{:?} dedicated {} null {}", target.memory_properties(), target.is_dedicated(), target.is_null());
    unsafe { gpu.device.destroy_image(image, None) };
    allocator.lock().unwrap().free(target)?;
    for it in [upload, readback] {
        unsafe { gpu.device.destroy_buffer(it.buffer, None) };
        allocator.lock().unwrap().free(it.allocation)?;
    }
    Ok(())
}

fn main() -> Result<(), Box<dyn Error>> {
    let gpu = open_gpu()?;
    let (instance, device, physical_device) = (gpu.instance.clone(), gpu.device.clone(), gpu.physical_device);
    let allocator = Allocator::new(&AllocatorCreateDesc {
        instance,
        device,
        physical_device,
        debug_settings: Default::default(),
        buffer_device_address: true, // Ideally, check the BufferDeviceAddressFeatures struct.
        allocation_sizes: Default::default(),
    })?;
    // an engine shares it between threads
    let allocator = Arc::new(Mutex::new(allocator));
    copies(&gpu, &allocator)?;
    drop(allocator);
    unsafe {
        gpu.device.destroy_device(None);
        gpu.instance.destroy_instance(None);
    }
    Ok(())
}
