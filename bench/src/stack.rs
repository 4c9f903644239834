//! How much stack a call takes: it runs on a painted stack of its own, of which the changed part is then measured.
use crate::Entry;

const PAINT: u8 = 0xA5;

/// A stack, 16 bytes aligned, far larger than is needed.
#[repr(align(16))]
struct Area([u8; 1 << 20]);

pub struct Stack(Box<Area>);

impl Stack {
    pub fn new() -> Self {
        Self(Box::new(Area([PAINT; 1 << 20])))
    }

    /// On x86-64, where the bench runs.
    pub fn call(&mut self, entry: Entry, records: &[u8], out: &mut [u8]) -> i32 {
        let top = self.0 .0.as_mut_ptr_range().end;
        let result: i32;
        // The callee keeps r12, so it brings the stack pointer back.
        unsafe {
            std::arch::asm!(
                "xchg rsp, r12",
                "call {entry}",
                "mov rsp, r12",
                entry = in(reg) entry,
                inout("r12") top => _,
                in("rdi") records.as_ptr(),
                in("rsi") records.len(),
                in("rdx") out.as_mut_ptr(),
                in("rcx") out.len(),
                lateout("eax") result,
                clobber_abi("C"),
            );
        }
        result
    }

    /// From the top to the deepest byte that a call has changed, the return address included.
    pub fn deepest(&self) -> usize {
        let area = &self.0 .0;
        let untouched = area.iter().take_while(|&&byte| byte == PAINT).count();
        area.len() - untouched
    }
}
