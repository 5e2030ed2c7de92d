//! A thread on a stack of our own memory, which shows afterwards how much of it was written to.

use std::ffi::c_void;
use std::ptr::null_mut;

/// 8 MiB: more than any call here takes.
const PAGES: usize = 2_048;

/// What a page holds that nobody wrote to.
const PAINT: u64 = 0xA5A5_5A5A_1234_9876;

#[derive(Clone)]
#[repr(C, align(4096))]
struct Page([u64; 512]);

/// Room for a `pthread_attr_t`.
type Attributes = [u64; 16];

type Start = extern "C" fn(*mut c_void) -> *mut c_void;

extern "C" {
    fn pthread_attr_init(attributes: *mut Attributes) -> i32;
    fn pthread_attr_setstack(attributes: *mut Attributes, stack: *mut Page, bytes: usize) -> i32;
    fn pthread_attr_destroy(attributes: *mut Attributes) -> i32;
    fn pthread_create(
        thread: *mut usize,
        attributes: *const Attributes,
        start: Start,
        argument: *mut c_void,
    ) -> i32;
    fn pthread_join(thread: usize, result: *mut *mut c_void) -> i32;
}

/// Does `work` in such a thread and gives the bytes of its stack that were written to.
pub fn bytes_written<W: FnOnce() + Send>(work: W) -> usize {
    let mut stack = vec![Page([PAINT; 512]); PAGES];
    let bytes = size_of_val(stack.as_slice());
    let mut work = Some(work);
    let mut attributes: Attributes = [0; 16];
    let mut thread = 0;
    // SAFETY: the stack and the work outlive the thread, which is waited for here. The stack has no guard page;
    // it is five times as large as what a listing of nesting 4,096 takes. A `pthread_attr_t` has at most
    // 64 bytes, and a `pthread_t` is a word.
    unsafe {
        assert_eq!(pthread_attr_init(&mut attributes), 0);
        let set = pthread_attr_setstack(&mut attributes, stack.as_mut_ptr(), bytes);
        assert_eq!(set, 0);
        let argument = (&raw mut work).cast();
        let created = pthread_create(&mut thread, &attributes, run::<W>, argument);
        assert_eq!(created, 0);
        assert_eq!(pthread_join(thread, null_mut()), 0);
        assert_eq!(pthread_attr_destroy(&mut attributes), 0);
    }
    // A stack grows down: what was not written to lies at the front.
    let words = stack.iter().flat_map(|page| page.0);
    bytes - words.take_while(|&word| word == PAINT).count() * 8
}

extern "C" fn run<W: FnOnce()>(argument: *mut c_void) -> *mut c_void {
    // SAFETY: the argument is the `Option<W>` that `bytes_written` lends; nobody else uses it meanwhile.
    let work = unsafe { &mut *argument.cast::<Option<W>>() };
    if let Some(work) = work.take() {
        work();
    }
    null_mut()
}
