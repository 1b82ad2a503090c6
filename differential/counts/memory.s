# memcpy and memset for the program whose instructions are counted, at one a byte. The system's choose their
# instructions by the processor, and the counts would depend on it.

        .text

        .globl  memcpy
        .type   memcpy, @function
memcpy:
        mov     %rdi, %rax
        mov     %rdx, %rcx
        rep movsb
        ret
        .size   memcpy, . - memcpy

        .globl  memset
        .type   memset, @function
memset:
        mov     %rdi, %r8
        mov     %esi, %eax
        mov     %rdx, %rcx
        rep stosb
        mov     %r8, %rax
        ret
        .size   memset, . - memset

# Does nothing: where it is called, the counter writes what it has and starts anew.
        .globl  next_kind
        .type   next_kind, @function
next_kind:
        ret
        .size   next_kind, . - next_kind

        .section .note.GNU-stack, "", @progbits
