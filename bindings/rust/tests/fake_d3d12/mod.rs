//! A DirectX 12 device made of numbers. It makes heaps and resources, checks what Direct3D wants of its caller, and refuses the question that
//! it is told to. A question is a call for a heap or a resource.
#![allow(dead_code, missing_docs, clippy::undocumented_unsafe_blocks, reason = "each test uses a part of it")]

use pilhangko::d3d12::{ClearValue, HeapProperties, ID3D12DeviceVersion, Interface, ResourceDesc};
use std::cell::{Cell, RefCell};
use std::ffi::c_void;
use std::ptr;

pub const MB: u64 = 1 << 20;
pub const UNIT: u64 = 65_536;
pub const NO_MEMORY: i32 = 0x8007_000e_u32 as i32;
pub const WRONG: i32 = 0x8007_0057_u32 as i32;
pub const REMOVED: i32 = 0x887a_0005_u32 as i32;
pub const HUNG: i32 = 0x887a_0006_u32 as i32;
const NO_INTERFACE: i32 = 0x8000_4002_u32 as i32;

/// `D3D12_HEAP_DESC`.
#[repr(C)]
#[derive(Clone, Copy, Debug, Default)]
pub struct HeapDesc {
    pub size: u64,
    pub properties: HeapProperties,
    pub alignment: u64,
    pub flags: u32,
}

#[repr(C)]
pub struct AllocationInfo {
    size: u64,
    alignment: u64,
}

type Functions = [*const c_void; 81];

/// Objects begin with the address of their functions, as interfaces do.
#[repr(C)]
struct Device {
    functions: *const Functions,
    references: Cell<u32>,
    pub state: RefCell<State>,
}

#[repr(C)]
pub struct Heap {
    functions: *const Functions,
    references: Cell<u32>,
    device: *const Device,
    pub number: u64,
    pub desc: HeapDesc,
}

#[repr(C)]
pub struct Resource {
    functions: *const Functions,
    references: Cell<u32>,
    device: *const Device,
    pub number: u64,       // 0 of a placed one
    pub heap: *const Heap, // null of a committed one
    pub offset: u64,
    pub size: u64,
    pub properties: HeapProperties,
    pub flags: u32,
    pub begins: u32,
    pub in_layout: bool,
    pub formats: Vec<u32>,
    pub clear_value: Option<ClearValue>,
}

/// What the device is told, and what it holds.
#[derive(Debug, Default)]
pub struct State {
    pub tier: u32,
    pub tier_code: i32,
    pub version: u32,
    pub questions: u64,
    /// The question that is refused, from 1, and its code; none for null.
    pub refused: Option<(u64, Option<i32>)>,
    pub heaps: u32,
    pub last_heap: HeapDesc,
    /// How many heaps and committed resources it made: they are numbered in one row.
    numbered: u64,
    resources: Vec<*const Resource>,
}

/// A fake device, whose reference is the test's.
pub struct FakeDevice(*mut Device);

impl FakeDevice {
    pub fn new(tier: u32, version: u32) -> Self {
        let state = RefCell::new(State { tier, version, ..State::default() });
        FakeDevice(Box::into_raw(Box::new(Device { functions: &DEVICE.0, references: Cell::new(1), state })))
    }

    fn device(&self) -> &Device {
        unsafe { &*self.0 }
    }

    /// Its newest interface, with a reference of its own.
    pub fn version(&self) -> ID3D12DeviceVersion {
        let device = unsafe { Interface::from_borrowed(self.0.cast()) }.expect("it isn't null");
        ID3D12DeviceVersion::newest(&device)
    }

    pub fn state(&self) -> std::cell::RefMut<'_, State> {
        self.device().state.borrow_mut()
    }

    pub fn resource_count(&self) -> usize {
        self.state().resources.len()
    }

    /// The next question but so many is refused: by a code, or by null.
    pub fn refuse(&self, which: u64, code: Option<i32>) {
        let mut state = self.state();
        state.refused = Some((state.questions + which, code));
    }

    /// Nothing is held, and the test's reference alone is left.
    pub fn assert_left_empty(&self) {
        let state = self.state();
        assert_eq!((state.heaps, state.resources.len(), self.device().references.get()), (0, 0, 1));
    }
}

impl Drop for FakeDevice {
    fn drop(&mut self) {
        drop(unsafe { Box::from_raw(self.0) });
    }
}

/// A resource as the device has it.
pub fn made(resource: &Interface) -> &Resource {
    unsafe { &*resource.as_raw().cast::<Resource>() }
}

pub fn heap_at(heap: *mut c_void) -> &'static Heap {
    unsafe { &*heap.cast::<Heap>() }
}

/// Tables of functions by their numbers.
struct Table(Functions);
unsafe impl Sync for Table {}

const NONE: *const c_void = ptr::null();

static DEVICE: Table = Table({
    let mut it = [NONE; 81];
    it[0] = device_query as *const c_void;
    it[1] = device_add_ref as *const c_void;
    it[2] = device_release as *const c_void;
    it[13] = check_feature as *const c_void;
    it[25] = allocation_info as *const c_void;
    it[27] = create_committed as *const c_void;
    it[28] = create_heap as *const c_void;
    it[29] = create_placed as *const c_void;
    it[37] = removed_reason as *const c_void;
    it[76] = create_committed_3 as *const c_void;
    it[77] = create_placed_2 as *const c_void;
    it[80] = allocation_info_3 as *const c_void;
    it
});

static HEAP: Table = Table({
    let mut it = [NONE; 81];
    it[1] = heap_add_ref as *const c_void;
    it[2] = heap_release as *const c_void;
    it[8] = heap_get_desc as *const c_void;
    it
});

static RESOURCE: Table = Table({
    let mut it = [NONE; 81];
    it[1] = resource_add_ref as *const c_void;
    it[2] = resource_release as *const c_void;
    it
});

fn counted(references: &Cell<u32>, change: i32) -> u32 {
    assert!(references.get() > 0);
    references.set(references.get().checked_add_signed(change).expect("no more is released than taken"));
    references.get()
}

unsafe extern "win64" fn device_query(this: *const Device, id: *const [u8; 16], out: *mut *const c_void) -> i32 {
    let device = unsafe { &*this };
    let asked = match unsafe { *id }[0] {
        0x18 => 10, // 517f8718
        0x32 => 12, // 5af5c532
        _ => panic!("another interface is asked for"),
    };
    let has_it = device.state.borrow().version >= asked;
    if has_it {
        counted(&device.references, 1);
    }
    unsafe { *out = if has_it { this.cast() } else { NONE } };
    if has_it {
        0
    } else {
        NO_INTERFACE
    }
}

unsafe extern "win64" fn device_add_ref(this: *const Device) -> u32 {
    counted(unsafe { &(*this).references }, 1)
}

unsafe extern "win64" fn device_release(this: *const Device) -> u32 {
    let left = counted(unsafe { &(*this).references }, -1);
    assert!(left > 0, "the test's reference stays");
    left
}

unsafe extern "win64" fn check_feature(this: *const Device, feature: u32, data: *mut u32, size: u32) -> i32 {
    let state = unsafe { (*this).state.borrow() };
    assert_eq!((feature, size), (0, 60));
    unsafe { *data.add(14) = state.tier };
    state.tier_code
}

/// Whole units; of a texture 4 bytes for each texel; of no width none at all.
pub fn size_by_rule(desc: &ResourceDesc) -> u64 {
    let bytes = if desc.dimension == 1 { desc.width } else { desc.width * u64::from(desc.height) * 4 };
    bytes.div_ceil(UNIT) * UNIT
}

pub fn alignment_by_rule(desc: &ResourceDesc) -> u64 {
    if desc.sample_desc[0] > 1 {
        4 * MB
    } else {
        UNIT
    }
}

unsafe extern "win64" fn allocation_info(
    this: *const Device,
    info: *mut AllocationInfo,
    mask: u32,
    count: u32,
    desc: *const ResourceDesc,
) -> *mut AllocationInfo {
    assert_eq!((mask, count), (0, 1));
    assert!(unsafe { (*this).state.borrow().version } < 12);
    let desc = unsafe { &*desc };
    unsafe { *info = AllocationInfo { size: size_by_rule(desc), alignment: alignment_by_rule(desc) } };
    info
}

/// `D3D12_RESOURCE_DESC1` has the same first 52 bytes, and then a region, which is zeros.
unsafe fn desc_of(desc1: *const u8) -> ResourceDesc {
    let mut desc = ResourceDesc::default();
    unsafe {
        ptr::copy_nonoverlapping(desc1, (&raw mut desc).cast::<u8>(), 52);
        assert_eq!(*desc1.add(52).cast::<[u8; 12]>(), [0; 12]);
    }
    desc
}

unsafe extern "win64" fn allocation_info_3(
    this: *const Device,
    info: *mut AllocationInfo,
    mask: u32,
    count: u32,
    desc1: *const u8,
    format_counts: *const u32,
    formats: *const *const u32,
    infos: *mut c_void,
) -> *mut AllocationInfo {
    assert_eq!((mask, count), (0, 1));
    assert!(infos.is_null() && unsafe { (*this).state.borrow().version } == 12);
    let desc = unsafe { desc_of(desc1) };
    assert!(unsafe { *format_counts == 0 || !(*formats).is_null() });
    unsafe { *info = AllocationInfo { size: size_by_rule(&desc), alignment: alignment_by_rule(&desc) } };
    info
}

/// Whether the next question is answered by something; else its code.
fn asked(device: &Device) -> Result<(), i32> {
    let mut state = device.state.borrow_mut();
    state.questions += 1;
    match state.refused {
        Some((question, code)) if question == state.questions => Err(code.unwrap_or(0)),
        _ => Ok(()),
    }
}

fn next_number(device: &Device) -> u64 {
    let mut state = device.state.borrow_mut();
    state.numbered += 1;
    state.numbered
}

unsafe extern "win64" fn create_heap(
    this: *const Device,
    desc: *const HeapDesc,
    id: *const [u8; 16],
    out: *mut *const c_void,
) -> i32 {
    let (device, desc) = unsafe { (&*this, *desc) };
    assert_eq!(unsafe { *id }[..4], [0x02, 0x25, 0x3b, 0x6b]);
    assert!(desc.size > 0 && desc.alignment == 4 * MB);
    let denied = desc.flags & 0xc4;
    assert!(if device.state.borrow().tier == 1 { [0xc0, 0x84, 0x44].contains(&denied) } else { denied == 0 });
    unsafe { *out = NONE };
    device.state.borrow_mut().last_heap = desc;
    if let Err(code) = asked(device) {
        return code;
    }
    device.state.borrow_mut().heaps += 1;
    let heap = Heap { functions: &HEAP.0, references: Cell::new(1), device: this, number: next_number(device), desc };
    unsafe { *out = Box::into_raw(Box::new(heap)).cast() };
    0
}

unsafe extern "win64" fn heap_add_ref(this: *const Heap) -> u32 {
    counted(unsafe { &(*this).references }, 1)
}

unsafe extern "win64" fn heap_release(this: *mut Heap) -> u32 {
    let left = counted(unsafe { &(*this).references }, -1);
    if left == 0 {
        let heap = unsafe { Box::from_raw(this) };
        let mut state = unsafe { (*heap.device).state.borrow_mut() };
        assert!(state.resources.iter().all(|&it| !ptr::eq(unsafe { (*it).heap }, &*heap)), "a resource lies there");
        state.heaps -= 1;
    }
    left
}

unsafe extern "win64" fn heap_get_desc(this: *const Heap, desc: *mut HeapDesc) -> *mut HeapDesc {
    unsafe { *desc = (*this).desc };
    desc
}

/// Within its heap, aligned, of its category, and apart from each other resource there.
fn look_at_place(state: &State, it: &Resource, desc: &ResourceDesc) {
    let heap = unsafe { &*it.heap };
    let denied = heap.desc.flags & 0xc4;
    assert!(it.offset % alignment_by_rule(desc) == 0 && it.offset + it.size <= heap.desc.size);
    let category = match (desc.dimension, desc.flags & 3) {
        (1, _) => 0xc0,
        (_, 0) => 0x44,
        _ => 0x84,
    };
    assert!(denied == 0 || denied == category);
    for other in state.resources.iter().map(|&it| unsafe { &*it }).filter(|other| ptr::eq(other.heap, it.heap)) {
        assert!(other.offset + other.size <= it.offset || it.offset + it.size <= other.offset);
    }
}

/// Makes a resource, but for what a question refuses.
fn make(device: &Device, desc: &ResourceDesc, id: *const [u8; 16], out: *mut *const c_void, mut it: Resource) -> i32 {
    assert_eq!(unsafe { *id }[..4], [0xbe, 0x42, 0x64, 0x69]);
    it.size = size_by_rule(desc);
    if !it.heap.is_null() {
        look_at_place(&device.state.borrow(), &it, desc);
    }
    unsafe { *out = NONE };
    if let Err(code) = asked(device) {
        return code;
    }
    if it.heap.is_null() {
        it.number = next_number(device);
    }
    let resource = Box::into_raw(Box::new(it)).cast_const();
    device.state.borrow_mut().resources.push(resource);
    unsafe { *out = resource.cast() };
    0
}

fn blank(device: *const Device, begins: u32, clear_value: *const ClearValue) -> Resource {
    Resource {
        functions: &RESOURCE.0,
        references: Cell::new(1),
        device,
        number: 0,
        heap: ptr::null(),
        offset: 0,
        size: 0,
        properties: HeapProperties::default(),
        flags: 0,
        begins,
        in_layout: false,
        formats: Vec::new(),
        clear_value: unsafe { clear_value.as_ref() }.copied(),
    }
}

unsafe extern "win64" fn create_placed(
    this: *const Device,
    heap: *const Heap,
    offset: u64,
    desc: *const ResourceDesc,
    state: u32,
    clear_value: *const ClearValue,
    id: *const [u8; 16],
    out: *mut *const c_void,
) -> i32 {
    let it = Resource { heap, offset, ..blank(this, state, clear_value) };
    make(unsafe { &*this }, unsafe { &*desc }, id, out, it)
}

unsafe extern "win64" fn create_committed(
    this: *const Device,
    properties: *const HeapProperties,
    flags: u32,
    desc: *const ResourceDesc,
    state: u32,
    clear_value: *const ClearValue,
    id: *const [u8; 16],
    out: *mut *const c_void,
) -> i32 {
    let it = Resource { properties: unsafe { *properties }, flags, ..blank(this, state, clear_value) };
    make(unsafe { &*this }, unsafe { &*desc }, id, out, it)
}

unsafe fn formats_of(device: *const Device, count: u32, formats: *const u32) -> Vec<u32> {
    let version = unsafe { (*device).state.borrow().version };
    assert!(version >= 10 && (count == 0 || version >= 12) && (count > 0) != formats.is_null());
    (0..count as usize).map(|index| unsafe { *formats.add(index) }).collect()
}

#[allow(clippy::too_many_arguments, reason = "the interface has as many")]
unsafe extern "win64" fn create_placed_2(
    this: *const Device,
    heap: *const Heap,
    offset: u64,
    desc1: *const u8,
    layout: u32,
    clear_value: *const ClearValue,
    count: u32,
    formats: *const u32,
    id: *const [u8; 16],
    out: *mut *const c_void,
) -> i32 {
    let formats = unsafe { formats_of(this, count, formats) };
    let it = Resource { heap, offset, in_layout: true, formats, ..blank(this, layout, clear_value) };
    make(unsafe { &*this }, &unsafe { desc_of(desc1) }, id, out, it)
}

#[allow(clippy::too_many_arguments, reason = "the interface has as many")]
unsafe extern "win64" fn create_committed_3(
    this: *const Device,
    properties: *const HeapProperties,
    flags: u32,
    desc1: *const u8,
    layout: u32,
    clear_value: *const ClearValue,
    session: *mut c_void,
    count: u32,
    formats: *const u32,
    id: *const [u8; 16],
    out: *mut *const c_void,
) -> i32 {
    assert!(session.is_null());
    let (properties, formats) = unsafe { (*properties, formats_of(this, count, formats)) };
    let it = Resource { properties, flags, in_layout: true, formats, ..blank(this, layout, clear_value) };
    make(unsafe { &*this }, &unsafe { desc_of(desc1) }, id, out, it)
}

unsafe extern "win64" fn resource_add_ref(this: *const Resource) -> u32 {
    counted(unsafe { &(*this).references }, 1)
}

unsafe extern "win64" fn resource_release(this: *mut Resource) -> u32 {
    let left = counted(unsafe { &(*this).references }, -1);
    if left == 0 {
        let resource = unsafe { Box::from_raw(this) };
        let mut state = unsafe { (*resource.device).state.borrow_mut() };
        state.resources.retain(|&it| !ptr::eq(it, this));
    }
    left
}

unsafe extern "win64" fn removed_reason(_this: *const Device) -> i32 {
    HUNG
}
