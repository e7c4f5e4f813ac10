//! How much of the stack a piece of work uses: it runs on a thread whose stack is painted before and looked at after.
use std::alloc::{alloc, dealloc, Layout};
use std::ffi::c_void;
use std::ptr::{null, null_mut};

/// More than any call may use, by far: without a guard page a deeper one would write elsewhere.
const SIZE: usize = 4 << 20;
const PAINT: u8 = 0xA5;

/// As large as glibc's pthread_attr_t on x86-64.
#[repr(C, align(8))]
struct Attributes([u8; 56]);

unsafe extern "C" {
    fn pthread_attr_init(attributes: *mut Attributes) -> i32;
    fn pthread_attr_setstack(attributes: *mut Attributes, stack: *mut c_void, size: usize) -> i32;
    fn pthread_attr_destroy(attributes: *mut Attributes) -> i32;
    fn pthread_create(thread: *mut usize, attributes: *const Attributes, start: extern "C" fn(*mut c_void) -> *mut c_void, given: *mut c_void) -> i32;
    fn pthread_join(thread: usize, result: *mut *mut c_void) -> i32;
}

extern "C" fn start(given: *mut c_void) -> *mut c_void {
    // SAFETY: `deepest` lends it the pointer to its work and waits.
    let work = unsafe { &mut *given.cast::<&mut dyn FnMut()>() };
    work();
    null_mut()
}

/// Bytes from the top of the stack to the deepest that was written, the thread's own among them.
pub fn deepest(mut work: &mut dyn FnMut()) -> usize {
    let layout = Layout::from_size_align(SIZE, 4096).expect("a layout");
    let mut attributes = Attributes([0; 56]);
    let mut thread = 0;
    // SAFETY: the stack outlives the thread, which is waited for.
    unsafe {
        let stack = alloc(layout);
        stack.write_bytes(PAINT, SIZE);
        let given = (&raw mut work).cast::<c_void>();
        let made = pthread_attr_init(&mut attributes) == 0
            && pthread_attr_setstack(&mut attributes, stack.cast(), SIZE) == 0
            && pthread_create(&mut thread, &attributes, start, given) == 0;
        assert!(made && pthread_join(thread, null::<()>().cast_mut().cast()) == 0, "a thread with a stack of its own");
        pthread_attr_destroy(&mut attributes);
        let untouched = (0..SIZE).take_while(|k| *stack.add(*k) == PAINT).count();
        dealloc(stack, layout);
        SIZE - untouched
    }
}
