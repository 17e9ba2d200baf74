# A program that goes through each of the three relocation types and ends with a status made of all
# three: 40 by the address in `pointer`, 1 by the PC-relative address, 1 by the 64-bit distance. A type
# that is applied wrongly gives another status, or no running program.

        .text
        .globl  _start
        .type   _start, @function
_start:
        # R_X86_64_64: the address of `forty`, as a word of eight bytes in `.text`.
        movq    pointer(%rip), %rax
        call    *%rax
        movl    %eax, %ebx

        # R_X86_64_PC32: the address of `one`, from the place of the field.
        leaq    one(%rip), %rax
        call    *%rax
        addl    %eax, %ebx

        # R_X86_64_PC64: the distance from `distance` to `also_one`, in eight bytes.
        leaq    distance(%rip), %rcx
        movq    (%rcx), %rax
        addq    %rcx, %rax
        call    *%rax
        addl    %eax, %ebx

        # exit(ebx)
        movl    $60, %eax
        movl    %ebx, %edi
        syscall

        .globl  forty
        .type   forty, @function
forty:  movl    $40, %eax
        ret

        .globl  one
        .type   one, @function
one:    movl    $1, %eax
        ret

        .globl  also_one
        .type   also_one, @function
also_one:
        movl    $1, %eax
        ret

        .balign 8
pointer:
        .quad   forty
distance:
        .reloc  ., R_X86_64_PC64, also_one
        .quad   0
