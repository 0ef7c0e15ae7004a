/* Every kind of store, each by each thread into a slot of its own: stores POOL THREADS. Each slot ends up with bytes that are not
 * zero; a store that is not recorded is a slot that differs. */
#define _GNU_SOURCE
#include <fcntl.h>
#include <linux/futex.h>
#include <pthread.h>
#include <stdint.h>
#include <stdio.h>
#include <stdlib.h>
#include <string.h>
#include <sys/mman.h>
#include <sys/sendfile.h>
#include <sys/socket.h>
#include <sys/syscall.h>
#include <sys/uio.h>
#include <unistd.h>

enum { SLOT = 1024, MOST_THREADS = 8, HEAD = 4096 };

static char *pool, *other_mapping;
static int pool_file, threads;

static const unsigned char pattern[64] = {
    0xa1, 0xb2, 0xc3, 0xd4, 0xe5, 0xf6, 0x17, 0x28, 0x39, 0x4a, 0x5b, 0x6c, 0x7d, 0x8e, 0x9f, 0xa0, 0xb1, 0xc2, 0xd3, 0xe4, 0xf5, 0x16,
    0x27, 0x38, 0x49, 0x5a, 0x6b, 0x7c, 0x8d, 0x9e, 0xaf, 0xb0, 0xc1, 0xd2, 0xe3, 0xf4, 0x15, 0x26, 0x37, 0x48, 0x59, 0x6a, 0x7b, 0x8c,
    0x9d, 0xae, 0xbf, 0xc0, 0xd1, 0xe2, 0xf3, 0x14, 0x25, 0x36, 0x47, 0x58, 0x69, 0x7a, 0x8b, 0x9c, 0xad, 0xbe, 0xcf, 0xd0};
/* The highest bits say which bytes or elements are stored: every second byte, every second element. */
static const unsigned char byte_mask[16] = {0x80, 0, 0x80, 0, 0x80, 0, 0x80, 0, 0, 0xff, 0, 0xff, 0, 0xff, 0, 0xff};
static const uint32_t words_mask[8] = {0x80000000, 0, 0xffffffff, 0, 0, 0x80000000, 0, 0xffffffff};
static const uint64_t longs_mask[4] = {0, 0x8000000000000000, 0xffffffffffffffff, 0};

#define STORE(name, ...)                                                                                                             \
    static void name(char *slot) {                                                                                                   \
        __asm__ volatile(__VA_ARGS__                                                                                                 \
                         :                                                                                                           \
                         : "D"(slot), "S"(pattern), "b"(byte_mask), "r"(words_mask), "r"(longs_mask)                                 \
                         : "rax", "rcx", "rdx", "r8", "r9", "cc", "memory", "xmm0", "xmm1", "xmm2", "st", "st(1)", "mm0", "mm1");   \
    }

#define VALUE "mov (%%rsi), %%rax\n mov 8(%%rsi), %%rdx\n"
STORE(moves, VALUE "mov %%al, (%%rdi)\n mov %%ax, 3(%%rdi)\n mov %%eax, 7(%%rdi)\n mov %%rax, 13(%%rdi)\n mov %%rax, 61(%%rdi)\n"
             "movb $1, 100(%%rdi)\n movw $0x203, 103(%%rdi)\n movl $0x4050607, 111(%%rdi)\n movq $0x8090a0b, 125(%%rdi)\n"
             "mov %%ah, 140(%%rdi)\n movbe %%ax, 150(%%rdi)\n movbe %%edx, 157(%%rdi)\n movbe %%rax, 165(%%rdi)\n")
STORE(arithmetic, VALUE "mov %%rax, 64(%%rdi)\n add %%rax, (%%rdi)\n or %%edx, 8(%%rdi)\n subw $5, 14(%%rdi)\n incb 17(%%rdi)\n decq 19(%%rdi)\n"
                  "notl 29(%%rdi)\n xor %%dl, 35(%%rdi)\n negq 64(%%rdi)\n stc\n adcq $7, 72(%%rdi)\n stc\n sbbl $9, 83(%%rdi)\n"
                  "and %%eax, 64(%%rdi)\n rolq $3, 64(%%rdi)\n shll $1, 83(%%rdi)\n sarb $1, 66(%%rdi)\n shld $4, %%rdx, 72(%%rdi)\n"
                  "btsl $3, 100(%%rdi)\n btcq $9, 108(%%rdi)\n cmp %%rax, %%rax\n sete 120(%%rdi)\n xadd %%rdx, 130(%%rdi)\n"
                  "xor %%eax, %%eax\n mov $77, %%ecx\n cmpxchg %%ecx, 141(%%rdi)\n")
STORE(locked, VALUE "lock add %%rax, (%%rdi)\n lock orl $6, 8(%%rdi)\n lock incb 17(%%rdi)\n lock decw 20(%%rdi)\n lock notq 24(%%rdi)\n"
              "lock xor %%dl, 35(%%rdi)\n lock xadd %%rdx, 40(%%rdi)\n lock btsq $7, 48(%%rdi)\n lock negl 24(%%rdi)\n"
              "xchg %%rax, 61(%%rdi)\n mov $3, %%eax\n xchg %%al, 80(%%rdi)\n xor %%eax, %%eax\n mov $77, %%ecx\n"
              "lock cmpxchg %%cl, 90(%%rdi)\n xor %%eax, %%eax\n lock cmpxchg %%rcx, 104(%%rdi)\n")
STORE(wide_swaps, "mov %%rbx, %%r8\n xor %%eax, %%eax\n xor %%edx, %%edx\n mov $5, %%ebx\n mov $6, %%ecx\n lock cmpxchg8b (%%rdi)\n"
                  "xor %%eax, %%eax\n xor %%edx, %%edx\n lock cmpxchg16b 16(%%rdi)\n lock cmpxchg16b 16(%%rdi)\n mov %%r8, %%rbx\n")
/* A swap that finds something else stores nothing: the bytes stay what they were. */
STORE(failed_swap, "movq $9, (%%rdi)\n mov $8, %%eax\n mov $7, %%ecx\n lock cmpxchg %%rcx, (%%rdi)\n")
STORE(steps, "mov %%rsi, %%r8\n mov %%rdi, %%r9\n cld\n mov $0x5a, %%eax\n"
             "lea 3(%%r9), %%rdi\n mov $21, %%ecx\n rep stosb\n lea 64(%%r9), %%rdi\n mov $3, %%ecx\n rep stosw\n"
             "lea 77(%%r9), %%rdi\n mov $3, %%ecx\n rep stosl\n lea 99(%%r9), %%rdi\n mov $3, %%ecx\n mov (%%r8), %%rax\n rep stosq\n"
             "lea 130(%%r9), %%rdi\n mov %%r8, %%rsi\n mov $33, %%ecx\n rep movsb\n"
             "lea 170(%%r9), %%rdi\n mov %%r8, %%rsi\n mov $5, %%ecx\n rep movsq\n"
             "lea 219(%%r9), %%rdi\n mov %%r8, %%rsi\n movsb\n movsw\n movsl\n movsq\n stosb\n stosw\n stosl\n stosq\n"
             "std\n lea 290(%%r9), %%rdi\n lea 20(%%r8), %%rsi\n mov $19, %%ecx\n rep movsb\n"
             "lea 330(%%r9), %%rdi\n mov $0x77, %%eax\n mov $13, %%ecx\n rep stosb\n cld\n mov %%r9, %%rdi\n mov %%r8, %%rsi\n")
STORE(x87, "fldpi\n fsts (%%rdi)\n fstl 8(%%rdi)\n fstps 17(%%rdi)\n fldpi\n fstpl 29(%%rdi)\n fldpi\n fstpt 43(%%rdi)\n fldpi\n"
           "fists 64(%%rdi)\n fistl 70(%%rdi)\n fistpll 80(%%rdi)\n fldpi\n fistps 93(%%rdi)\n fldpi\n fistpl 101(%%rdi)\n"
           "fldpi\n fisttps 111(%%rdi)\n fldpi\n fisttpl 119(%%rdi)\n fldpi\n fisttpll 129(%%rdi)\n"
           "fnstcw 140(%%rdi)\n fld1\n fldpi\n fcomi\n fnstsw 145(%%rdi)\n fstp %%st\n fstp %%st\n fnstenv 160(%%rdi)\n fldenv 160(%%rdi)\n")
STORE(x87_state, "fninit\n fldpi\n fnsave 5(%%rdi)\n")
STORE(fx_state, "fninit\n fldpi\n movdqu (%%rsi), %%xmm0\n fxsave (%%rdi)\n fstp %%st\n")
STORE(fx_state_64, "fninit\n fldpi\n movdqu (%%rsi), %%xmm0\n fxsave64 (%%rdi)\n fstp %%st\n")
STORE(x_state, "fninit\n fldpi\n vmovdqu (%%rsi), %%ymm0\n mov $7, %%eax\n xor %%edx, %%edx\n xsave64 (%%rdi)\n fstp %%st\n vzeroupper\n")
STORE(mmx, "movq (%%rsi), %%mm0\n movq %%mm0, (%%rdi)\n movd %%mm0, 11(%%rdi)\n movntq %%mm0, 24(%%rdi)\n"
           "movq (%%rbx), %%mm1\n lea 45(%%rdi), %%rdi\n maskmovq %%mm1, %%mm0\n lea -45(%%rdi), %%rdi\n emms\n")
STORE(sse, "movdqu (%%rsi), %%xmm0\n movss %%xmm0, (%%rdi)\n movsd %%xmm0, 5(%%rdi)\n movups %%xmm0, 15(%%rdi)\n movaps %%xmm0, 32(%%rdi)\n"
           "movupd %%xmm0, 50(%%rdi)\n movapd %%xmm0, 80(%%rdi)\n movdqu %%xmm0, 97(%%rdi)\n movdqa %%xmm0, 128(%%rdi)\n"
           "movhps %%xmm0, 145(%%rdi)\n movlps %%xmm0, 155(%%rdi)\n movhpd %%xmm0, 165(%%rdi)\n movlpd %%xmm0, 175(%%rdi)\n"
           "movd %%xmm0, 185(%%rdi)\n movq %%xmm0, 190(%%rdi)\n pextrb $3, %%xmm0, 200(%%rdi)\n pextrw $2, %%xmm0, 203(%%rdi)\n"
           "pextrd $1, %%xmm0, 207(%%rdi)\n pextrq $1, %%xmm0, 213(%%rdi)\n extractps $2, %%xmm0, 223(%%rdi)\n stmxcsr 229(%%rdi)\n")
STORE(streamed, VALUE "movdqu (%%rsi), %%xmm0\n movntps %%xmm0, (%%rdi)\n movntpd %%xmm0, 16(%%rdi)\n movntdq %%xmm0, 48(%%rdi)\n"
                "movnti %%eax, 68(%%rdi)\n movnti %%rax, 72(%%rdi)\n movnti %%rdx, 125(%%rdi)\n")
STORE(masked, "movdqu (%%rsi), %%xmm0\n movdqu (%%rbx), %%xmm1\n lea 58(%%rdi), %%rdi\n maskmovdqu %%xmm1, %%xmm0\n"
              "pxor %%xmm2, %%xmm2\n maskmovdqu %%xmm2, %%xmm0\n lea 60(%%rdi), %%rdi\n vmaskmovdqu %%xmm1, %%xmm0\n lea -118(%%rdi), %%rdi\n"
              "movdqa %%xmm2, %%xmm1\n")
STORE(avx, "vmovdqu (%%rsi), %%ymm0\n vmovups %%ymm0, 3(%%rdi)\n vmovaps %%ymm0, 64(%%rdi)\n vmovupd %%ymm0, 97(%%rdi)\n vmovapd %%ymm0, 160(%%rdi)\n"
           "vmovdqu %%ymm0, 195(%%rdi)\n vmovdqa %%ymm0, 256(%%rdi)\n vmovdqu %%xmm0, 290(%%rdi)\n vmovss %%xmm0, 310(%%rdi)\n vmovsd %%xmm0, 318(%%rdi)\n"
           "vextractf128 $1, %%ymm0, 330(%%rdi)\n vextracti128 $0, %%ymm0, 350(%%rdi)\n vpextrb $1, %%xmm0, 370(%%rdi)\n vpextrq $1, %%xmm0, 373(%%rdi)\n"
           "vmovhps %%xmm0, 385(%%rdi)\n vmovlpd %%xmm0, 395(%%rdi)\n vmovd %%xmm0, 405(%%rdi)\n vmovq %%xmm0, 411(%%rdi)\n vstmxcsr 421(%%rdi)\n"
           "vcvtps2ph $0, %%xmm0, 430(%%rdi)\n vcvtps2ph $0, %%ymm0, 440(%%rdi)\n vzeroupper\n")
STORE(avx_streamed, "vmovdqu (%%rsi), %%ymm0\n vmovntps %%ymm0, (%%rdi)\n vmovntpd %%ymm0, 32(%%rdi)\n vmovntdq %%ymm0, 96(%%rdi)\n vmovntdq %%xmm0, 144(%%rdi)\n vzeroupper\n")
STORE(avx_masked, "vmovdqu (%%rsi), %%ymm0\n vmovdqu (%3), %%ymm1\n vmovdqu (%4), %%ymm2\n vmaskmovps %%ymm0, %%ymm1, 2(%%rdi)\n"
                  "vmaskmovpd %%ymm0, %%ymm2, 49(%%rdi)\n vpmaskmovd %%ymm0, %%ymm1, 100(%%rdi)\n vpmaskmovq %%ymm0, %%ymm2, 141(%%rdi)\n"
                  "vmaskmovps %%xmm0, %%xmm1, 190(%%rdi)\n vpmaskmovq %%xmm0, %%xmm2, 213(%%rdi)\n vzeroupper\n")
STORE(pushes, "mov %%rsp, %%r8\n lea 256(%%rdi), %%rsp\n push %%rsi\n pushq $7\n pushf\n pushq (%%rsi)\n pushw $3\n call 1f\n 1: enter $16, $0\n"
              "leave\n mov %%r8, %%rsp\n mov $9, %%eax\n mov %%rax, 256(%%rdi)\n popq %%rcx\n pushq %%rcx\n pushq $11\n popq 264(%%rdi)\n")

static void must(int right, const char *what) {
    if (!right) {
        perror(what);
        exit(1);
    }
}

static off_t place(const char *slot) {
    return slot - pool;
}

/* The system stores into the slot. */
static void by_system(char *slot) {
    int pipes[2], sockets[2];
    struct iovec parts[2] = {{slot + 64, 11}, {slot + 77, 9}};
    struct msghdr message = {.msg_iov = parts, .msg_iovlen = 2};
    must(pipe(pipes) == 0 && socketpair(AF_UNIX, SOCK_STREAM, 0, sockets) == 0, "pipe");
    must(write(pipes[1], pattern, 64) == 64 && read(pipes[0], slot + 1, 33) == 33 && readv(pipes[0], parts, 2) == 20, "read");
    parts[0].iov_base = slot + 100;
    parts[1].iov_base = slot + 120;
    must(write(sockets[1], pattern, 64) == 64 && recvmsg(sockets[0], &message, 0) == 20 && recv(sockets[0], slot + 140, 13, 0) == 13, "recv");
    must(pread(pool_file, slot + 160, 17, place(slot) + 1) == 17, "pread");
    must(syscall(SYS_futex, slot + 192, FUTEX_WAKE_OP, 1, NULL, slot + 200, FUTEX_OP(FUTEX_OP_SET, 0x77, FUTEX_OP_CMP_EQ, 0)) == 0, "futex");
    for (int end = 0; end < 2; end++)
        must(close(pipes[end]) == 0 && close(sockets[end]) == 0, "close");
}

/* The system stores into the file of the slot. */
static void by_descriptor(char *slot) {
    char name[64];
    int pipes[2], file, source = memfd_create("source", 0);
    struct iovec parts[2] = {{(void *)pattern, 11}, {(void *)(pattern + 20), 9}};
    off_t at = place(slot), from = 0, to = at + 200;
    snprintf(name, sizeof name, "/proc/self/fd/%d", pool_file);
    file = open(name, O_RDWR);
    must(file >= 0 && source >= 0 && write(source, pattern, 64) == 64 && pipe(pipes) == 0, "open");
    must(pwrite(file, pattern, 21, at + 3) == 21 && pwritev(file, parts, 2, at + 30) == 20, "pwrite");
    must(pwritev2(file, parts, 2, at + 60, 0) == 20, "pwritev2");
    must(lseek(file, at + 90, SEEK_SET) >= 0 && write(file, pattern, 13) == 13 && writev(file, parts, 2) == 20, "write");
    must(lseek(file, at + 150, SEEK_SET) >= 0 && sendfile(file, source, &from, 31) == 31, "sendfile");
    from = at + 3;
    must(copy_file_range(file, &from, file, &to, 17, 0) == 17, "copy_file_range");
    to = at + 230;
    must(write(pipes[1], pattern, 19) == 19 && splice(pipes[0], NULL, file, &to, 19, 0) == 19, "splice");
    must(close(file) == 0 && close(source) == 0 && close(pipes[0]) == 0 && close(pipes[1]) == 0, "close");
}

/* By another mapping of the same file. */
static void by_other_mapping(char *slot) {
    memcpy(other_mapping + place(slot), pattern, 63);
}

typedef void (*kind)(char *slot);
static const kind kinds[] = {moves,    arithmetic, locked, wide_swaps, failed_swap, steps,      x87,     x87_state, fx_state,  fx_state_64,   x_state,         mmx,
                             sse,      streamed,   masked, avx,        avx_streamed, avx_masked, pushes, by_system, by_descriptor, by_other_mapping};
enum { KINDS = sizeof kinds / sizeof *kinds };

static void flush(const char *slot) {
    __asm__ volatile("clwb (%0)\n clflushopt 64(%0)\n clflush 128(%0)\n sfence\n" : : "r"(slot) : "memory");
}

static void *work(void *number) {
    char *slots = pool + HEAD + (uintptr_t)number * KINDS * SLOT;
    for (int round = 0; round < 3; round++)
        for (int at = 0; at < KINDS; at++) {
            kinds[at](slots + at * SLOT);
            flush(slots + at * SLOT);
            __atomic_fetch_add((uint64_t *)pool, 3, __ATOMIC_SEQ_CST);
            ((volatile uint32_t *)pool)[16 + at] = (uint32_t)(uintptr_t)number;
        }
    return NULL;
}

int main(int count, char **words) {
    pthread_t started[MOST_THREADS];
    threads = count > 2 ? atoi(words[2]) : 1;
    size_t length = HEAD + (size_t)threads * KINDS * SLOT;
    length = (length + 4095) & ~(size_t)4095;
    pool_file = open(words[1], O_RDWR | O_CREAT | O_TRUNC, 0666);
    must(pool_file >= 0 && ftruncate(pool_file, (off_t)length) == 0, words[1]);
    pool = mmap(NULL, length, PROT_READ | PROT_WRITE, MAP_SHARED, pool_file, 0);
    other_mapping = mmap(NULL, length, PROT_READ | PROT_WRITE, MAP_SHARED, pool_file, 0);
    must(pool != MAP_FAILED && other_mapping != MAP_FAILED, "mmap");
    if (threads == 1)
        work(NULL);
    for (uintptr_t number = 0; threads > 1 && number < (uintptr_t)threads; number++)
        must(pthread_create(&started[number], NULL, work, (void *)number) == 0, "pthread_create");
    for (int number = 0; threads > 1 && number < threads; number++)
        must(pthread_join(started[number], NULL) == 0, "pthread_join");
    printf("%d kinds of %d bytes from %d on\n", (int)KINDS, SLOT, HEAD);
    return 0;
}
