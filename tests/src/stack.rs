//! How much stack a call takes: it runs on a thread whose stack was painted before, and what is no longer painted is counted after it.

use std::ffi::{c_int, c_ulong, c_void};
use std::ptr;

/// The attributes of a thread, with room for what they take on any machine.
#[repr(C, align(16))]
struct Attributes([u8; 256]);

type Start = extern "C" fn(*mut c_void) -> *mut c_void;

extern "C" {
    fn pthread_attr_init(attributes: *mut Attributes) -> c_int;
    fn pthread_attr_setstack(attributes: *mut Attributes, stack: *mut c_void, size: usize) -> c_int;
    fn pthread_attr_destroy(attributes: *mut Attributes) -> c_int;
    fn pthread_create(
        thread: *mut c_ulong,
        attributes: *const Attributes,
        start: Start,
        argument: *mut c_void,
    ) -> c_int;
    fn pthread_join(thread: c_ulong, value: *mut *mut c_void) -> c_int;
}

/// What unused stack holds. A call that leaves just this number at its deepest place is counted some bytes short.
const PAINT: u64 = 0x9d3c_51e7_a20b_68f4;

/// A page of stack.
#[repr(align(4096))]
#[derive(Clone)]
struct Page([u64; 512]);

/// A stack for one thread after another, all of it painted in between.
pub struct Stack {
    pages: Vec<Page>,
}

/// What the thread is to call; it notes where its stack begins.
struct Task<'a> {
    call: &'a mut dyn FnMut(),
    begin: usize,
}

/// What the thread runs.
extern "C" fn start(task: *mut c_void) -> *mut c_void {
    // `Stack::taken_by` gives a task, and waits for the thread.
    let task = unsafe { &mut *task.cast::<Task>() };
    let here = 0u8;
    task.begin = ptr::from_ref(&here) as usize;
    (task.call)();
    ptr::null_mut()
}

impl Stack {
    /// A stack of so many bytes, rounded up to whole pages.
    pub fn new(bytes: usize) -> Stack {
        Stack { pages: vec![Page([PAINT; 512]); bytes.div_ceil(4096)] }
    }

    /// The bytes of stack that a call takes.
    pub fn taken_by(&mut self, call: &mut dyn FnMut()) -> usize {
        let mut task = Task { call, begin: 0 };
        self.run(&mut task);
        let cells = self.pages.iter().flat_map(|page| &page.0);
        let unused = 8 * cells.take_while(|&&cell| cell == PAINT).count();
        assert!(unused > 4096, "the stack has run out");
        self.pages[unused / 4096..].fill(Page([PAINT; 512]));
        task.begin - (self.pages.as_ptr() as usize + unused)
    }

    /// Runs a task on a thread with this stack.
    fn run(&mut self, task: &mut Task) {
        let mut attributes = Attributes([0; 256]);
        let (mut thread, stack) = (0, self.pages.as_mut_ptr().cast::<c_void>());
        // The stack and the task are there until the thread has ended.
        unsafe {
            assert_eq!(pthread_attr_init(&mut attributes), 0);
            assert_eq!(pthread_attr_setstack(&mut attributes, stack, 4096 * self.pages.len()), 0);
            assert_eq!(pthread_create(&mut thread, &attributes, start, ptr::from_mut(task).cast()), 0);
            assert_eq!(pthread_join(thread, ptr::null_mut()), 0);
            pthread_attr_destroy(&mut attributes);
        }
    }
}
