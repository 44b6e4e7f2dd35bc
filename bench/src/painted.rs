//! A stack for one call alone, painted before it, so that what the call wrote on it can be counted afterwards.

use std::arch::asm;

/// Far more than a call takes.
const OCTETS: usize = 1 << 16;

/// A stack at the address that C asks for where a call is made.
#[repr(C, align(16))]
struct Stack([u8; OCTETS]);

/// A function of C, what it is given in the registers for numbers and addresses, and the number that it is to answer.
#[derive(Clone, Copy)]
pub struct Call {
    pub function: *const (),
    pub arguments: [usize; 5],
    pub number: u32,
    pub answer: Answered,
}

/// Where a function of C puts its answer, which begins with the number.
#[derive(Clone, Copy)]
pub enum Answered {
    InRegisters,
    /// One of more than 16 octets goes to an address, which is the first argument.
    At(*const u32),
}

impl Call {
    /// How many octets of stack the call takes, from its return address to the deepest octet that it writes. It is made
    /// twice, with another paint each time, so that an octet that it writes is not taken for paint.
    ///
    /// # Safety
    ///
    /// The function may be called with the arguments, and needs no more stack than there is. It answers a number, and what
    /// goes with it, as is said.
    pub unsafe fn stack(self) -> usize {
        self.stack_beside(0, &[])
    }

    /// The same of a function that is given a sixth number too, and a struct by value, which stands on the stack and is not
    /// counted.
    ///
    /// # Safety
    ///
    /// As above.
    pub unsafe fn stack_beside(self, sixth: usize, by_value: &[u8]) -> usize {
        self.painted(0x55, sixth, by_value).max(self.painted(0xaa, sixth, by_value))
    }

    unsafe fn painted(self, paint: u8, sixth: usize, by_value: &[u8]) -> usize {
        let mut stack = Box::new(Stack([paint; OCTETS]));
        // Where the stack pointer is when the call is made, at an address that C asks for.
        let top = OCTETS - (by_value.len() + 15) / 16 * 16;
        stack.0[top..top + by_value.len()].copy_from_slice(by_value);
        let register = self.on(&mut stack.0[..top], sixth);
        let number = match self.answer {
            Answered::InRegisters => register,
            Answered::At(address) => address.read_volatile(),
        };
        assert_eq!(number, self.number, "another answer would take another way");
        let clean = stack.0[..top].iter().take_while(|octet| **octet == paint).count();
        assert!(clean > 0, "a stack that is too short");
        top - clean
    }

    /// Makes the call with the stack pointer at the end of the given stack, and answers what it leaves in the register.
    unsafe fn on(self, stack: &mut [u8], sixth: usize) -> u32 {
        let number: u64;
        let [first, second, third, fourth, fifth] = self.arguments;
        // A call keeps r12, so the stack that was left stands there.
        asm!(
            "mov r12, rsp",
            "mov rsp, {end}",
            "call {function}",
            "mov rsp, r12",
            end = in(reg) stack.as_mut_ptr_range().end,
            function = in(reg) self.function,
            in("rdi") first,
            in("rsi") second,
            in("rdx") third,
            in("rcx") fourth,
            in("r8") fifth,
            in("r9") sixth,
            out("r12") _,
            lateout("rax") number,
            clobber_abi("C"),
        );
        number as u32
    }
}

#[cfg(test)]
mod tests {
    use super::*;
    use crate::whole::whole;

    extern "C" fn nothing() -> u64 {
        0
    }

    extern "C" fn filled(octet: usize) -> u64 {
        whole(&[octet as u8; 4_096]);
        0
    }

    fn stack(function: *const (), octet: usize) -> usize {
        // Both are functions of C that answer 0.
        unsafe { Call { function, arguments: [octet; 5], number: 0, answer: Answered::InRegisters }.stack() }
    }

    #[test]
    fn the_return_address_alone() {
        assert_eq!(stack(nothing as *const (), 0), 8);
    }

    /// A thousand octets.
    #[repr(C)]
    struct Large([u64; 125]);

    extern "C" fn given(one: usize, _: usize, _: usize, _: usize, _: usize, six: usize, large: Large) -> u64 {
        u64::from(one != 7 || six != 9 || large.0.iter().any(|number| *number != 0x0303_0303_0303_0303))
    }

    #[test]
    fn a_struct_by_value_arrives_and_is_not_counted() {
        let call = Call { function: given as *const (), arguments: [7; 5], number: 0, answer: Answered::InRegisters };
        // A function of C that is given these.
        assert!(unsafe { call.stack_beside(9, &[3; 1_000]) } < 256);
    }

    #[test]
    fn an_octet_like_paint_is_counted() {
        let taken = [0x00, 0x55, 0xaa].map(|octet| stack(filled as *const (), octet));
        assert!((4_096..4_352).contains(&taken[0]));
        assert_eq!(taken, [taken[0]; 3]);
    }
}
