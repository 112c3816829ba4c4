//! The sides that are compared: the compiled library and the fast Rust, behind pointers of the same types, and the names of all.

use fast::calls;

/// Who makes a call.
#[derive(Clone, Copy, PartialEq, Eq, Debug)]
pub enum Side {
    Library,
    /// The fast Rust, which judges the plan at each call as the library does.
    Fast,
    /// The fast Rust by a plan that was judged beforehand.
    Inner,
    /// GnuCOBOL, its numbers in binary.
    Binary,
    /// GnuCOBOL, its numbers as decimal characters.
    Display,
}

/// A call: what is timed.
#[derive(Clone, Copy, PartialEq, Eq, Debug)]
pub enum Call {
    Compile,
    PlanRead,
    PlanEdit,
}

pub const CALLS: [Call; 3] = [Call::Compile, Call::PlanRead, Call::PlanEdit];

impl Call {
    pub fn name(self) -> &'static str {
        match self {
            Call::Compile => "compile",
            Call::PlanRead => "plan read",
            Call::PlanEdit => "plan edit",
        }
    }

    /// The sides that can make this call: only a plan can be judged beforehand, and COBOL compiles no layouts while it runs.
    pub fn sides(self) -> &'static [Side] {
        match self {
            Call::Compile => &[Side::Library, Side::Fast],
            _ if cfg!(cobol) => &[Side::Library, Side::Fast, Side::Inner, Side::Binary, Side::Display],
            _ => &[Side::Library, Side::Fast, Side::Inner],
        }
    }
}

type Compile = unsafe extern "C" fn(*const u8, usize, *mut u8, usize) -> u64;
type Run = unsafe extern "C" fn(*const u8, usize, *const u8, usize, *mut u8, usize) -> u64;

/// The calls of the library or of the fast Rust.
#[derive(Clone, Copy)]
pub struct Calls {
    compile: Compile,
    plan_read: Run,
    plan_edit: Run,
}

/// The library's calls, as include/morvenka.h declares them.
mod header {
    extern "C" {
        pub fn morvenka_compile(layout: *const u8, layout_len: usize, plan: *mut u8, plan_len: usize) -> u64;
        pub fn morvenka_plan_read(
            plan: *const u8,
            plan_len: usize,
            record: *const u8,
            record_len: usize,
            row: *mut u8,
            row_len: usize,
        ) -> u64;
        pub fn morvenka_plan_edit(
            plan: *const u8,
            plan_len: usize,
            row: *const u8,
            row_len: usize,
            record: *mut u8,
            record_len: usize,
        ) -> u64;
    }
}

pub const LIBRARY: Calls = Calls {
    compile: header::morvenka_compile,
    plan_read: header::morvenka_plan_read,
    plan_edit: header::morvenka_plan_edit,
};

pub const FAST: Calls = Calls { compile: calls::compile, plan_read: calls::plan_read, plan_edit: calls::plan_edit };

// Each run below is a slice, so it is memory of its length, and the lent one overlaps no other: all that the header asks.
impl Calls {
    #[inline(always)]
    pub fn compile(&self, layout: &[u8], plan: &mut [u8]) -> u64 {
        unsafe { (self.compile)(layout.as_ptr(), layout.len(), plan.as_mut_ptr(), plan.len()) }
    }

    #[inline(always)]
    pub fn plan_read(&self, plan: &[u8], record: &[u8], row: &mut [u8]) -> u64 {
        let (from, into) = ((record.as_ptr(), record.len()), (row.as_mut_ptr(), row.len()));
        unsafe { (self.plan_read)(plan.as_ptr(), plan.len(), from.0, from.1, into.0, into.1) }
    }

    #[inline(always)]
    pub fn plan_edit(&self, plan: &[u8], row: &[u8], record: &mut [u8]) -> u64 {
        let (from, into) = ((row.as_ptr(), row.len()), (record.as_mut_ptr(), record.len()));
        unsafe { (self.plan_edit)(plan.as_ptr(), plan.len(), from.0, from.1, into.0, into.1) }
    }
}
