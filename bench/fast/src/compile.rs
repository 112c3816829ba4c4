//! Compiling a layout's text to its plan: all pictures first, into a room, and the plan's bytes when nothing is refused.

use crate::picture::picture;
use crate::{refusal, success, COUNT, FIELDS, RECORD, ROOM};
use std::mem::MaybeUninit;
use std::slice;

const MOST_TEXT: usize = 4128;
const MOST_HEADS: usize = 3 + 3 * FIELDS;

/// Compiles a layout. Refusals in order: COUNT, the first bad picture, ROOM; only then is the plan written.
pub fn compile(layout: &[u8], plan: &mut [u8]) -> u64 {
    if layout.is_empty() || layout.len() > MOST_TEXT || layout[layout.len() - 1] != b';' {
        return refusal(COUNT, 0);
    }
    let fields = layout.iter().filter(|&&byte| byte == b';').count();
    if fields > FIELDS {
        return refusal(COUNT, 0);
    }
    let mut heads = [0u8; MOST_HEADS];
    let mut room = [MaybeUninit::<u8>::uninit(); RECORD];
    let roles = room.as_mut_ptr() as *mut u8;
    let mut total = 0;
    let mut rest = layout;
    for k in 0..fields {
        let end = rest.iter().position(|&byte| byte == b';').unwrap_or(rest.len());
        // In bounds: each picture before has put 64 roles at most, so that 64 are left.
        match unsafe { picture(&rest[..end], roles.add(total)) } {
            Ok([n, v, kind]) => {
                heads[1 + 3 * k] = n as u8;
                heads[2 + 3 * k] = v as u8;
                heads[3 + 3 * k] = kind as u8;
                total += n;
            }
            Err(number) => return refusal(number, k + 1),
        }
        rest = &rest[end + 1..];
    }
    heads[0] = fields as u8;
    heads[1 + 3 * fields] = (total >> 8) as u8;
    heads[2 + 3 * fields] = total as u8;
    let head = 3 + 3 * fields;
    if plan.len() < head + total {
        return refusal(ROOM, 0);
    }
    plan[..head].copy_from_slice(&heads[..head]);
    // In bounds: the pictures have put all these roles.
    plan[head..head + total].copy_from_slice(unsafe { slice::from_raw_parts(roles, total) });
    success(head + total)
}
