/* Each way to name the operand of a flush, and fences: flushes POOL. The lines come one after another, from the third on. */
#define _GNU_SOURCE
#include <cpuid.h>
#include <fcntl.h>
#include <stdint.h>
#include <stdio.h>
#include <sys/mman.h>
#include <unistd.h>

static char outside[256];

#define FLUSH(text, ...) __asm__ volatile(text : : __VA_ARGS__ : "rax", "rcx", "rbx", "r8", "r9", "r12", "r13", "memory")

int main(int count, char **words) {
    unsigned int a, b, c, d;
    int file = open(words[count - 1], O_RDWR | O_CREAT | O_TRUNC, 0666);
    if (file < 0 || ftruncate(file, 8192) != 0)
        return 1;
    char *pool = mmap(NULL, 8192, PROT_READ | PROT_WRITE, MAP_SHARED | MAP_32BIT, file, 0);
    if (pool == MAP_FAILED)
        return 1;
    __cpuid_count(7, 0, a, b, c, d);
    printf("clflushopt %d clwb %d\n", b >> 23 & 1, b >> 24 & 1);
    char *p = pool + 128;
    uintptr_t segment;
    __asm__ volatile("mov %%fs:0, %0" : "=r"(segment));
    FLUSH("mov %0, %%rax\n clwb (%%rax)\n clflushopt 64(%%rax)\n clflush 128(%%rax)\n clwb 0xc0(%%rax)", "r"(p));
    FLUSH("mov %0, %%r8\n clwb 0x100(%%r8)\n clflushopt 0x140(%%r8)\n clflush 0x180(%%r8)", "r"(p));
    FLUSH("mov %0, %%r12\n clwb 0x1c0(%%r12)\n mov %0, %%r13\n clwb 0x200(%%r13)\n mov %0, %%r9\n add $0x240, %%r9\n mov %%r9, %%r13\n clwb (%%r13)", "r"(p));
    FLUSH("mov %0, %%rax\n mov $0x50, %%ecx\n clwb (%%rax,%%rcx,8)\n clflushopt 0x40(%%rax,%%rcx,8)\n clflush 0x80(%%rax,%%rcx,8)", "r"(p));
    FLUSH("mov %0, %%rax\n mov $0xd0, %%r9d\n clwb (%%rax,%%r9,4)\n mov $0x1c0, %%r9d\n clwb (%%rax,%%r9,2)\n mov %0, %%r12\n mov $0x3c0, %%r9d\n clwb (%%r12,%%r9,1)", "r"(p));
    FLUSH("mov %0, %%rax\n sub %%rax, %%rax\n mov %0, %%r8\n clwb 0x400(,%%r8,1)", "r"(p));
    FLUSH("mov %0, %%rax\n clflush %%fs:(%%rax)\n clwb %%fs:64(%%rax)", "r"(p + 0x440 - segment));
    FLUSH("mov %%rsp, %%rbx\n mov %0, %%rsp\n clwb 0x4c0(%%rsp)\n mov %%rbx, %%rsp", "r"(p));
    FLUSH("clwb %0\n clflushopt %0\n clflush %0", "m"(outside[64]));
    FLUSH("sfence\n mfence\n lfence", "r"(p));
    FLUSH("mov %0, %%rax\n clwb 0x53f(%%rax)", "r"(p));
    FLUSH("lock incl %0\n lock incl %0", "m"(outside[0]));
    /* of the address its low half counts */
    FLUSH("mov %0, %%rax\n bts $40, %%rax\n .byte 0x67\n clwb 0x580(%%rax)", "r"(p));
    FLUSH("mov %0, %%rax\n clflushopt 0x540(%%rax)\n mfence", "r"(p));
    return 0;
}
