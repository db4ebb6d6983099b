/* Makes instructions in user mode on QEMU's machine `virt`, each under the protection registers of a process, and
 * writes what it left: a program for machine mode, without an operating system. judges.py builds and runs it.
 *
 * A process's flash and RAM stand where they do on Tock's board: a table of pages leads from those addresses to memory
 * that is there, and from all others to none. Flash is filled with EBREAK, so the next instruction comes back here, and
 * so does a fetch that is denied; one that jumps to itself is interrupted. The last parcel is the first half of a NOP
 * where flash ends with a page: of fetches within a page that follow one another QEMU looks at the first alone.
 *
 * In: how many sets of registers, layouts and trials there are, and then each of them. Out: for each trial pc, x1 to
 * x31, mcause, mtval, how many words of RAM changed, and of the last of them its address and what it is.
 */
typedef unsigned u32;
typedef unsigned short u16;

enum { FLASH = 0x20000000, RAM = 0x80000000, PAGE = 4096, REGISTERS = 31 };

struct layout { u32 flash_start, flash_end, start, brk; };
struct trial { u32 at, code, set, layout; };
struct frame { u32 pc, x[REGISTERS], sp; };
struct left { u32 pc, x[REGISTERS], cause, value, changes, address, word; };

static char *const flash = (void *)0x80400000, *const ram = (void *)0x80800000;
static const u32 *const input = (void *)0x81000000;
static struct left *const output = (void *)0x88000000;
static u32 pages[1024] __attribute__((aligned(4096)));

#define WRITE(csr, value) __asm__ volatile("csrw " #csr ", %0" ::"r"(value) : "memory")
#define READ(csr) ({ u32 value_; __asm__ volatile("csrr %0, " #csr : "=r"(value_)); value_; })

/* To user mode with the registers of a frame, and back by the next trap with those that it found. */
void enter(struct frame *frame);
__asm__(".globl _start\n"
        "_start: la sp, 0x80300000\n"
        "  la t0, trap\n  csrw mtvec, t0\n  j main\n"
        ".macro each_but_a0 does\n"
        "  .irp n, 1, 2, 3, 4, 5, 6, 7, 8, 9, 11, 12, 13, 14, 15, 16, 17, 18, 19, 20, 21, 22, 23, 24, 25, 26, 27, 28, "
        "29, 30, 31\n  \\does x\\n, 4 * \\n(a0)\n  .endr\n"
        ".endm\n"
        ".macro each_kept does\n"
        "  \\does ra, 0(sp)\n  \\does gp, 4(sp)\n  \\does tp, 8(sp)\n"
        "  .irp n, 0, 1, 2, 3, 4, 5, 6, 7, 8, 9, 10, 11\n  \\does s\\n, 12 + 4 * \\n(sp)\n  .endr\n"
        ".endm\n"
        "enter: addi sp, sp, -64\n  each_kept sw\n"
        "  csrw mscratch, a0\n  sw sp, 128(a0)\n  lw t0, 0(a0)\n  csrw mepc, t0\n"
        "  each_but_a0 lw\n  lw a0, 40(a0)\n  mret\n"
        ".balign 4\n"
        "trap: csrrw a0, mscratch, a0\n  each_but_a0 sw\n"
        "  csrr t0, mscratch\n  sw t0, 40(a0)\n  csrr t0, mepc\n  sw t0, 0(a0)\n"
        "  lw sp, 128(a0)\n  each_kept lw\n  addi sp, sp, 64\n  ret\n");

/* What QEMU does for the program that it runs. */
static u32 host(u32 what, const void *with)
{
    register u32 a0 __asm__("a0") = what;
    register const void *a1 __asm__("a1") = with;
    __asm__ volatile(".option push\n.option norvc\n.balign 16\nslli zero, zero, 0x1f\nebreak\nsrai zero, zero, 7\n"
                     ".option pop" : "+r"(a0) : "r"(a1) : "memory");
    return a0;
}

/* The word that RAM has at a place before each trial. */
static u32 pattern(u32 at)
{
    return at / 4 * 0x9E3779B1u;
}

/* The protection registers of a process, as the board sets them: flash may be fetched and loaded, RAM loaded and
 * stored. One more lets the table of pages be read. */
static void protect(const struct layout *l)
{
    u32 to_flash = (u32)flash - FLASH, to_ram = (u32)ram - RAM;
    WRITE(pmpaddr0, (l->flash_start + to_flash) >> 2);
    WRITE(pmpaddr1, (l->flash_end + to_flash) >> 2);
    WRITE(pmpaddr2, (l->start + to_ram) >> 2);
    WRITE(pmpaddr3, (l->brk + to_ram) >> 2);
    WRITE(pmpaddr4, ((u32)pages + 2047) >> 2);
    WRITE(pmpcfg0, 0x0B000D00);
    WRITE(pmpcfg1, 0x19);
    for (u32 at = l->flash_start; at < l->flash_end; at += 2)
        *(u16 *)(at + to_flash) = at + 2 == l->flash_end && l->flash_end % PAGE == 0 ? 0x0013 : 0x9002;
    for (u32 at = l->start; at < l->brk; at += 4)
        *(u32 *)(at + to_ram) = pattern(at - l->start);
}

/* Counts the words of RAM that changed, and sets them back. */
static void compare(const struct layout *l, struct left *left)
{
    for (u32 at = l->start; at < l->brk; at += 4) {
        u32 *word = (void *)(ram + (at - RAM));
        if (*word != pattern(at - l->start)) {
            left->changes++;
            left->address = at;
            left->word = *word;
            *word = pattern(at - l->start);
        }
    }
}

static void make(const struct trial *trial, const u32 *set, struct left *left)
{
    struct frame frame;
    u16 *code = (void *)(flash + (trial->at - FLASH)), kept[2] = {code[0], code[1]};
    frame.pc = trial->at;
    for (int n = 0; n < REGISTERS; n++)
        frame.x[n] = set[n];
    code[0] = trial->code;
    if (trial->code % 4 == 3)
        code[1] = trial->code >> 16;
    *(volatile u32 *)0x02004000 = *(volatile u32 *)0x0200bff8 + 20;
    *(volatile u32 *)0x02004004 = 0;
    enter(&frame);
    code[0] = kept[0];
    code[1] = kept[1];
    left->pc = frame.pc;
    for (int n = 0; n < REGISTERS; n++)
        left->x[n] = frame.x[n];
    left->cause = READ(mcause);
    left->value = READ(mtval);
}

int main(void)
{
    const u32 *sets = input + 3;
    const struct layout *layouts = (void *)(sets + REGISTERS * input[0]);
    const struct trial *trials = (void *)(layouts + input[1]);
    for (u32 n = 0; n < 1024; n++)
        pages[n] = 0xC0000000 >> 2 | 0xDF;
    pages[FLASH >> 22] = (u32)flash >> 2 | 0xDF;
    pages[(u32)RAM >> 22] = (u32)ram >> 2 | 0xDF;
    WRITE(satp, 1u << 31 | (u32)pages >> 12);
    WRITE(mstatus, 0);
    WRITE(mie, 1 << 7);
    WRITE(mcounteren, 0);
    for (u32 n = 0, last = -1; n < input[2]; n++) {
        if (trials[n].layout != last)
            protect(layouts + (last = trials[n].layout));
        make(trials + n, sets + REGISTERS * trials[n].set, output + n);
        compare(layouts + last, output + n);
    }
    static const u32 to_write_to[3] = {(u32) ":tt", 4, 3};
    static u32 written[3];
    written[0] = host(1, to_write_to);
    written[1] = (u32)output;
    written[2] = input[2] * sizeof *output;
    host(5, written);
    host(0x18, (void *)0x20026);
    return 0;
}
