//! The processor on which the times were measured.

use std::arch::x86_64::__cpuid;

/// Returns the name that the processor gives in its identification leaves 80000002 to 80000004.
pub fn processor() -> String {
    let name: Vec<u8> = (0x8000_0002..=0x8000_0004).flat_map(leaf).filter(|byte| *byte > 0).collect();
    String::from_utf8_lossy(&name).trim().to_string()
}

// Every x86-64 processor answers these leaves; newer compilers know that and ask for no 'unsafe'.
#[allow(unused_unsafe)]
fn leaf(number: u32) -> Vec<u8> {
    let words = unsafe { __cpuid(number) };
    [words.eax, words.ebx, words.ecx, words.edx].iter().flat_map(|word| word.to_le_bytes()).collect()
}

/// Returns whether the processor is Debian's emulator, which names itself.
pub fn is_emulated() -> bool {
    processor().contains("QEMU")
}
