//! The stack that a call takes: it runs on a stack of its own, painted, and is charged with
//! everything from the deepest byte that is no longer paint to its arguments.

use std::arch::asm;

const PAINT: u8 = 0xA5;
const BLOCKS: usize = 1 << 16;
/// As many arguments go by registers.
const REGISTERS: usize = 6;

/// The bytes of stack that the call takes with these arguments, its return address included.
///
/// # Safety
///
/// `call` is a C function whose arguments take a register each, or a word of the stack from the
/// seventh on, and may be called with these.
pub unsafe fn taken(call: *const (), arguments: &[usize]) -> usize {
    let mut stack = vec![u128::from_ne_bytes([PAINT; 16]); BLOCKS];
    let mut registers = [0; REGISTERS];
    let by_register = arguments.len().min(REGISTERS);
    registers[..by_register].copy_from_slice(&arguments[..by_register]);
    let words = arguments[by_register..].chunks(2);
    let top = BLOCKS - words.len();
    for (block, pair) in stack[top..].iter_mut().zip(words) {
        let second = pair.get(1).copied().unwrap_or(0);
        *block = pair[0] as u128 | (second as u128) << 64;
    }
    let [first, second, third, fourth, fifth, sixth] = registers;
    // SAFETY: the top is aligned as the call wants it, and nothing else uses the painted stack.
    unsafe {
        asm!(
            "mov r12, rsp",
            "mov rsp, {top}",
            "call {call}",
            "mov rsp, r12",
            top = in(reg) stack.as_mut_ptr().add(top),
            call = in(reg) call,
            in("rdi") first,
            in("rsi") second,
            in("rdx") third,
            in("rcx") fourth,
            in("r8") fifth,
            in("r9") sixth,
            out("r12") _,
            clobber_abi("C"),
        );
    }
    let painted = stack.iter().flat_map(|block| block.to_ne_bytes());
    16 * top - painted.take_while(|&byte| byte == PAINT).count()
}
