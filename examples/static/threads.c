/* The thread-local block of the one thread (psABI x86-64, "Thread-Local Storage"): the initial bytes are
   copied in front of the thread pointer, the rest of the block is zeros. */

#include <elf.h>

static _Alignas(64) unsigned char block[4096];

/* Copies what the PT_TLS header shows; the thread pointer, at which its own address stands. */
void *set_up_threads(const Elf64_Ehdr *header)
{
    const unsigned char *image = (const unsigned char *)header;
    const Elf64_Phdr *headers = (const Elf64_Phdr *)(image + header->e_phoff);
    unsigned char *end = block + 2048;
    for (int i = 0; i < header->e_phnum; i++) {
        const Elf64_Phdr *h = &headers[i];
        if (h->p_type != PT_TLS)
            continue;
        unsigned long size = (h->p_memsz + h->p_align - 1) & -h->p_align;
        const unsigned char *from = image + (h->p_vaddr - (unsigned long)image);
        for (unsigned long k = 0; k < h->p_filesz; k++)
            end[k - size] = from[k];
    }
    *(void **)end = end;
    return end;
}
