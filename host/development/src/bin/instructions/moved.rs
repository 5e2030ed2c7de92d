//! memcpy and memset, for x86-64 as the library is, of one instruction for each byte, which this program has in the place of the C library's.
//!
//! They are all that the proved library calls. The C library chooses its own by the processor, so that their counts differ from one
//! machine to the next; these take an instruction for each byte, and no more than six for each call.

std::arch::global_asm!(
    ".globl memcpy",
    ".type memcpy, @function",
    "memcpy:",
    "mov rax, rdi",
    "mov rcx, rdx",
    "rep movsb",
    "ret",
    ".size memcpy, . - memcpy",
    ".globl memset",
    ".type memset, @function",
    "memset:",
    "mov r8, rdi",
    "mov eax, esi",
    "mov rcx, rdx",
    "rep stosb",
    "mov rax, r8",
    "ret",
    ".size memset, . - memset",
);

/// The functions above.
pub const FUNCTIONS: [&str; 2] = ["memcpy", "memset"];
