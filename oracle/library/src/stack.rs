//! How much stack a call of the entry takes: it runs on a thread whose stack is a block that was
//! filled before, and the lowest byte that has changed afterwards shows how far the call went.
use crate::deep;
use crate::entry::{WORKSPACE, hulmbax_resolve};
use oracle::frame::MAX_FRAME;
use oracle::generate::cases;
use std::collections::BTreeMap;
use std::ffi::c_void;
use std::ptr::null_mut;

/// The bytes of the thread's stack, far more than any call takes.
const STACK: usize = 1 << 20;
const FILL: u8 = 0xa5;

/// An attribute of the C library, whose layout is not ours.
#[repr(C, align(16))]
struct Attributes([u8; 256]);

unsafe extern "C" {
    fn aligned_alloc(align: usize, len: usize) -> *mut u8;
    fn pthread_attr_init(attr: *mut Attributes) -> i32;
    fn pthread_attr_setstack(attr: *mut Attributes, at: *mut u8, len: usize) -> i32;
    fn pthread_create(
        thread: *mut usize,
        attr: *const Attributes,
        run: extern "C" fn(*mut c_void) -> *mut c_void,
        given: *mut c_void,
    ) -> i32;
    fn pthread_join(thread: usize, answer: *mut *mut c_void) -> i32;
}

struct Call<'a> {
    schema: &'a [u8],
    record: &'a [u8],
    result: &'a mut [u8],
    workspace: &'a mut [u8],
    /// Where the caller's frame is.
    top: usize,
    given: i32,
}

extern "C" fn run(given: *mut c_void) -> *mut c_void {
    let call = unsafe { &mut *given.cast::<Call>() };
    let here = 0u8;
    call.top = std::hint::black_box(&here) as *const u8 as usize;
    call.given = unsafe {
        hulmbax_resolve(
            call.schema.as_ptr(),
            call.schema.len(),
            call.record.as_ptr(),
            call.record.len(),
            call.result.as_mut_ptr(),
            call.result.len(),
            call.workspace.as_mut_ptr(),
            call.workspace.len(),
        )
    };
    null_mut()
}

struct Meter {
    stack: *mut u8,
    result: Vec<u8>,
    workspace: Vec<u8>,
}

impl Meter {
    fn new() -> Self {
        let stack = unsafe { aligned_alloc(1 << 16, STACK) };
        assert!(!stack.is_null());
        Meter { stack, result: vec![0; MAX_FRAME], workspace: vec![0; WORKSPACE] }
    }

    /// The bytes between the caller's frame and the lowest byte that the call changed, those of the
    /// whole thread, and the entry's answer.
    fn measure(&mut self, schema: &[u8], record: &[u8]) -> (usize, usize, i32) {
        let (result, workspace) = (&mut self.result[..], &mut self.workspace[..]);
        let mut call = Call { schema, record, result, workspace, top: 0, given: 0 };
        let mut attr = Attributes([0; 256]);
        let mut thread = 0usize;
        unsafe {
            self.stack.write_bytes(FILL, STACK);
            assert_eq!(pthread_attr_init(&mut attr), 0);
            assert_eq!(pthread_attr_setstack(&mut attr, self.stack, STACK), 0);
            assert_eq!(pthread_create(&mut thread, &attr, run, (&raw mut call).cast()), 0);
            assert_eq!(pthread_join(thread, null_mut()), 0);
        }
        let bytes = unsafe { std::slice::from_raw_parts(self.stack, STACK) };
        let lowest = bytes.iter().position(|b| *b != FILL).unwrap();
        (call.top - (self.stack as usize + lowest), STACK - lowest, call.given)
    }
}

/// Frames made to go deep, one row each, and n values of the generator, a row for each family.
/// Fails where a call takes more than `bound` bytes.
pub fn stack(n: usize, seed: u64, bound: usize) -> bool {
    let mut meter = Meter::new();
    let mut most = 0;
    println!("| Frames | Answer | The call, bytes | The thread, bytes |\n|---|---|---|---|");
    for (name, schema, record) in deep::frames() {
        let (used, thread, given) = meter.measure(&schema, &record);
        println!("| {name} | {} | {used} | {thread} |", answer(given));
        most = most.max(used);
    }
    let mut families: BTreeMap<&str, (usize, usize)> = BTreeMap::new();
    let mut take = |family, schema: &[u8], record: &[u8]| {
        let (used, ..) = meter.measure(schema, record);
        let (count, highest) = families.entry(family).or_default();
        *count += 1;
        *highest = used.max(*highest);
        most = most.max(used);
    };
    deep::mixed().iter().for_each(|(schema, record)| take("mixed levels", schema, record));
    for given in cases(seed, n) {
        let (schema, values) = &given.case;
        values.iter().for_each(|value| take(given.family, schema, value));
    }
    println!("\n| Family | Values | Most, bytes |\n|---|---|---|");
    for (name, (count, highest)) in &families {
        println!("| {name} | {count} | {highest} |");
    }
    println!("\nat most {most} bytes a call; the bound is {bound}");
    most <= bound
}

fn answer(given: i32) -> String {
    if given > 0 { format!("{given} bytes") } else { format!("refused, {}", -given) }
}
