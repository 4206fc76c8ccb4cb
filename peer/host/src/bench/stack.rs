//! The stack that a call needs: it runs on a painted stack, and the paint shows how far it went.

use crate::sides::{Settable, Side};
use crate::workloads::{make, Call, Workload};
use std::arch::asm;
use std::hint::black_box;

const SIZE: usize = 256 * 1024;
const PAINT: u8 = 0xA5;

/// The most bytes that any call of the workload touched below its caller's frame; what the
/// way to the call uses is measured by an empty call, and subtracted.
pub fn of<A: Settable>(workload: &Workload, side: &mut Side<A>) -> usize {
    workload.set(side);
    let nothing = touched(|| {});
    let calls = workload.calls();
    let most = calls
        .iter()
        .map(|call: &Call| {
            touched(|| {
                black_box(make(side, call));
            })
        })
        .max();
    most.unwrap_or(0).saturating_sub(nothing)
}

fn touched(work: impl FnMut()) -> usize {
    let mut stack = vec![PAINT; SIZE];
    let top = (stack.as_mut_ptr() as usize + SIZE) & !15;
    on_stack(top, work);
    let untouched = stack.iter().take_while(|&&byte| byte == PAINT).count();
    SIZE - untouched
}

fn on_stack<F: FnMut()>(top: usize, mut work: F) {
    extern "C" fn enter<F: FnMut()>(work: *mut F) {
        unsafe { (*work)() }
    }
    let enter: extern "C" fn(*mut F) = enter::<F>;
    unsafe {
        asm!(
            "xchg rsp, r12",
            "call {enter}",
            "mov rsp, r12",
            enter = in(reg) enter,
            in("rdi") &raw mut work,
            inout("r12") top => _,
            clobber_abi("C"),
        );
    }
}
