//! The stack that a call needs: it runs in a thread whose stack was painted, and the deepest byte that lost its paint
//! tells. What a function takes and doesn't write isn't seen, if no call stands below it.
use crate::cases::Case;
use std::ffi::c_void;
use std::ptr;
use std::sync::atomic::{AtomicUsize, Ordering};
use testing::c_calls::{Functions, Library};

const SIZE: usize = 1 << 20;
const PAINT: u8 = 0xA7;

/// Memory for a stack, which begins as it must.
#[repr(C, align(4096))]
struct Stack([u8; SIZE]);

/// pthread_attr_t of Linux, which is smaller.
#[repr(C, align(16))]
struct Attributes([u8; 128]);

extern "C" {
    fn pthread_attr_init(attributes: *mut Attributes) -> i32;
    fn pthread_attr_setstack(attributes: *mut Attributes, stack: *mut c_void, size: usize) -> i32;
    fn pthread_create(
        thread: *mut usize,
        attributes: *const Attributes,
        start: extern "C" fn(*mut c_void) -> *mut c_void,
        argument: *mut c_void,
    ) -> i32;
    fn pthread_join(thread: usize, value: *mut *mut c_void) -> i32;
}

struct Task<'a> {
    store: &'a Library,
    img: Vec<u8>,
    case: &'a Case,
}

/// The thread: one call.
extern "C" fn make_call(task: *mut c_void) -> *mut c_void {
    // Safety: `deepest` hands over a Task, which it doesn't touch until the thread has ended.
    let task = unsafe { &mut *task.cast::<Task>() };
    task.store.lend(&mut task.img, &task.case.call);
    ptr::null_mut()
}

/// The address of the deepest byte that the call wrote on its thread's stack.
fn deepest(stack: &mut Stack, store: &Library, case: &Case) -> usize {
    stack.0.fill(PAINT);
    let mut task = Task { store, img: case.img.clone(), case };
    let mut attributes = Attributes([0; 128]);
    let mut thread = 0;
    let base: *mut c_void = stack.0.as_mut_ptr().cast();
    // Safety: stack and task outlive the thread, which is joined here; nothing else uses them meanwhile.
    unsafe {
        assert_eq!(pthread_attr_init(&mut attributes), 0);
        assert_eq!(pthread_attr_setstack(&mut attributes, base, SIZE), 0);
        assert_eq!(pthread_create(&mut thread, &attributes, make_call, ptr::from_mut(&mut task).cast()), 0);
        assert_eq!(pthread_join(thread, ptr::null_mut()), 0);
    }
    let written = stack.0.iter().position(|&byte| byte != PAINT).expect("a thread writes its stack");
    base as usize + written
}

/// Where the stack stood when a call began.
static ENTRY: AtomicUsize = AtomicUsize::new(0);

/// Notes where its own stack begins, in the place of a call.
fn note() -> u32 {
    let here = 0u8;
    ENTRY.store(ptr::from_ref(&here) as usize, Ordering::Relaxed);
    0
}

type Number = *mut usize;
type Reason = *mut u32;

unsafe extern "C" fn format(_: *mut u8, _: usize, _: usize, _: Number) -> u32 {
    note()
}

unsafe extern "C" fn mount(
    _: *mut u8,
    _: usize,
    _: usize,
    _: Number,
    _: Number,
    _: Number,
    _: Number,
    _: Number,
    _: Number,
    _: Number,
    _: Number,
) -> u32 {
    note()
}

unsafe extern "C" fn put(
    _: *mut u8,
    _: usize,
    _: *const u8,
    _: usize,
    _: *const u8,
    _: usize,
    _: usize,
    _: Reason,
    _: Number,
    _: Number,
    _: Number,
    _: Number,
    _: Number,
    _: Number,
) -> u32 {
    note()
}

unsafe extern "C" fn get(
    _: *const u8,
    _: usize,
    _: *const u8,
    _: usize,
    _: Reason,
    _: Number,
    _: Number,
    _: Number,
) -> u32 {
    note()
}

unsafe extern "C" fn list(_: *const u8, _: usize, _: usize, _: Number, _: Number, _: Number) -> u32 {
    note()
}

unsafe extern "C" fn remove(
    _: *mut u8,
    _: usize,
    _: *const u8,
    _: usize,
    _: usize,
    _: Reason,
    _: Number,
    _: Number,
) -> u32 {
    note()
}

unsafe extern "C" fn sweep(
    _: *mut u8,
    _: usize,
    _: usize,
    _: Number,
    _: Number,
    _: Number,
    _: Number,
    _: Number,
    _: Number,
) -> u32 {
    note()
}

/// Measures on one stack.
pub struct Gauge {
    stack: Box<Stack>,
    noting: Library,
}

impl Gauge {
    pub fn new() -> Gauge {
        let noting = Functions { format, mount, put, get, list, remove, sweep };
        Gauge { stack: Box::new(Stack([0; SIZE])), noting: Library::new(noting) }
    }

    /// The bytes of stack that the call needs, to 16 bytes.
    pub fn bytes(&mut self, store: &Library, case: &Case) -> usize {
        deepest(&mut self.stack, &self.noting, case);
        let entry = ENTRY.load(Ordering::Relaxed);
        (entry - deepest(&mut self.stack, store, case)).next_multiple_of(16)
    }
}

#[cfg(test)]
mod tests {
    use super::*;
    use crate::cases::{case, Kind};
    use crate::images::{settled, Fill};
    use std::hint::black_box;

    /// Needs 5,000 bytes.
    unsafe extern "C" fn deep(
        _: *mut u8,
        _: usize,
        _: usize,
        _: Number,
        _: Number,
        _: Number,
        _: Number,
        _: Number,
        _: Number,
        _: Number,
        _: Number,
    ) -> u32 {
        black_box(&mut [0u8; 5000]);
        0
    }

    #[test]
    fn a_known_depth() {
        let mut gauge = Gauge::new();
        let store = Library::new(Functions { mount: deep, ..baseline::functions() });
        let img = settled(64 * 1024, 1, Fill::Empty, 0).expect("it fits");
        let bytes = gauge.bytes(&store, &case(Kind::Mount, &img).expect("a mount is done"));
        assert!((4980..5100).contains(&bytes), "{bytes}");
    }
}
