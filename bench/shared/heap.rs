// Memory of the proved calls and of plain Rust, counted.
use std::alloc::{GlobalAlloc, Layout, System, alloc, dealloc, realloc};
use std::ptr::NonNull;
use std::sync::atomic::{AtomicUsize, Ordering::Relaxed};

// Bytes that are held, and the most that were held at once, by either reader.
static HELD: AtomicUsize = AtomicUsize::new(0);
static MOST: AtomicUsize = AtomicUsize::new(0);

fn took(size: usize) {
    let held = HELD.fetch_add(size, Relaxed) + size;
    MOST.fetch_max(held, Relaxed);
}

fn gave(size: usize) {
    HELD.fetch_sub(size, Relaxed);
}

struct Counting;

unsafe impl GlobalAlloc for Counting {
    unsafe fn alloc(&self, layout: Layout) -> *mut u8 {
        took(layout.size());
        unsafe { System.alloc(layout) }
    }

    unsafe fn dealloc(&self, block: *mut u8, layout: Layout) {
        gave(layout.size());
        unsafe { System.dealloc(block, layout) }
    }

    unsafe fn realloc(&self, block: *mut u8, layout: Layout, size: usize) -> *mut u8 {
        took(size);
        gave(layout.size());
        unsafe { System.realloc(block, layout, size) }
    }
}

#[global_allocator]
static COUNTING: Counting = Counting;

// The most bytes held at once, beyond those that are held before.
pub fn most_bytes(work: impl FnOnce()) -> usize {
    let before = HELD.load(Relaxed);
    MOST.store(before, Relaxed);
    work();
    MOST.load(Relaxed) - before
}

// What the proved calls ask of C. Each block has its size in front.
const FRONT: usize = 16;

#[repr(C)]
pub struct Tried {
    ok: bool,
    block: *mut u8,
}

fn layout(size: usize) -> Layout {
    Layout::from_size_align(size + FRONT, FRONT).unwrap()
}

// The block behind its size, which is written.
unsafe fn tried(front: *mut u8, size: usize) -> Tried {
    if front.is_null() {
        let block = NonNull::dangling().as_ptr();
        return Tried { ok: false, block };
    }
    unsafe {
        front.cast::<usize>().write(size);
        let block = front.add(FRONT);
        Tried { ok: true, block }
    }
}

#[unsafe(no_mangle)]
unsafe extern "C" fn rattle_alloc(size: usize, _align: usize) -> Tried {
    unsafe { tried(alloc(layout(size)), size) }
}

#[unsafe(no_mangle)]
unsafe extern "C" fn rattle_realloc(
    block: *mut u8,
    _kept: usize,
    size: usize,
    _align: usize,
) -> Tried {
    unsafe {
        let front = block.sub(FRONT);
        let old = front.cast::<usize>().read();
        tried(realloc(front, layout(old), size + FRONT), size)
    }
}

#[unsafe(no_mangle)]
unsafe extern "C" fn rattle_dealloc(block: *mut u8) {
    unsafe {
        let front = block.sub(FRONT);
        let size = front.cast::<usize>().read();
        dealloc(front, layout(size));
    }
}
