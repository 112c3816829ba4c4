//! What a plan's head says: how many fields it has, and of each field its length, V and kind.

use crate::FIELDS;
use std::ptr;

/// A role is low, below this; those from 18 on break every shape.
pub const ROLES: usize = 32;

/// A plan whose lengths fit each other and whose roles are all low.
#[derive(Clone, Copy)]
pub struct Plan {
    pub fields: usize,
    /// The characters of the record.
    pub total: usize,
    heads: *const u8,
    roles: *const u8,
}

/// One field: n positions, of which v stand before V, and its kind.
#[derive(Clone, Copy)]
pub struct Field {
    pub n: usize,
    pub v: usize,
    pub kind: usize,
    pub roles: *const u8,
}

impl Plan {
    #[inline(always)]
    pub fn of(bytes: &[u8]) -> Option<Plan> {
        let fields = *bytes.first()? as usize;
        if fields.wrapping_sub(1) >= FIELDS || bytes.len() < 3 + 3 * fields {
            return None;
        }
        let total = (bytes[1 + 3 * fields] as usize) << 8 | bytes[2 + 3 * fields] as usize;
        if bytes.len() != 3 + 3 * fields + total {
            return None;
        }
        // In bounds: the bytes are 1, the heads, 2 and the roles, just as many.
        let (heads, roles) = unsafe { (bytes.as_ptr().add(1), bytes.as_ptr().add(3 + 3 * fields)) };
        // In bounds: the roles are the last `total` bytes.
        let low = unsafe { all_low(roles, total) };
        low.then_some(Plan { fields, total, heads, roles })
    }

    /// The field whose characters begin at `at`, if its head can stand: with a V inside, which is a symbol too, it has 63 positions
    /// at most.
    ///
    /// # Safety
    /// There are more than k fields, the plan's bytes are still there, and `at` is not past the total.
    #[inline(always)]
    pub unsafe fn field(&self, k: usize, at: usize) -> Option<Field> {
        let head = self.heads.add(3 * k);
        let (n, v, kind) = (*head as usize, *head.add(1) as usize, *head.add(2) as usize);
        let stands = (n != 0) & (n <= self.total - at) & (n <= 64) & (kind <= 6) & ((v == n) | (v < n) & (n < 64));
        stands.then_some(Field { n, v, kind, roles: self.roles.add(at) })
    }
}

/// Whether all of n bytes are below ROLES, by words, the last of which may go over some bytes again.
///
/// # Safety
/// There are n bytes.
#[inline(always)]
unsafe fn all_low(bytes: *const u8, n: usize) -> bool {
    let word = |at: usize| ptr::read_unaligned(bytes.add(at) as *const u64);
    let mut all = 0u64;
    if n >= 16 {
        let mut at = 0;
        while at + 16 <= n {
            all |= word(at) | word(at + 8);
            at += 16;
        }
        all |= word(n - 16) | word(n - 8);
    } else if n >= 8 {
        all = word(0) | word(n - 8);
    } else {
        for at in 0..n {
            all |= *bytes.add(at) as u64;
        }
    }
    all & 0xe0e0_e0e0_e0e0_e0e0 == 0
}
