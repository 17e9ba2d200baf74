# The start routine: the thread-local block, the constructors, then the program.
#
# A static program without a library sets up its own thread-local block. The program headers say where
# the initial bytes stand (PT_TLS); the file header, from which they are found, stands at `__ehdr_start`.

        .section .text.start, "ax", @progbits
        .globl  _start
        .type   _start, @function
_start:
        .cfi_startproc
        .cfi_undefined rip
        xorl    %ebp, %ebp
        andq    $-16, %rsp

        # The thread pointer is the end of the block; the kernel keeps it (arch_prctl, ARCH_SET_FS).
        leaq    __ehdr_start(%rip), %rdi
        call    set_up_threads@PLT
        movq    %rax, %rsi
        movl    $0x1002, %edi
        movl    $158, %eax
        syscall

        # The constructors, from the first address of the array to its end.
        leaq    __init_array_start(%rip), %rbx
        leaq    __init_array_end(%rip), %r12
.Lnext: cmpq    %r12, %rbx
        jae     .Ldone
        call    *(%rbx)
        addq    $8, %rbx
        jmp     .Lnext
.Ldone:
        call    program@PLT
        movl    %eax, %edi
        movl    $60, %eax
        syscall
        .cfi_endproc
        .size   _start, . - _start

        .section .note.GNU-stack, "", @progbits
