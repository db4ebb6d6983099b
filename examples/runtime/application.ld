/* An application is one segment of flash: the start code, the other code, the constants, and the first values of the
   static variables, which the start code copies to RAM. In RAM the stack lies lowest, the variables behind it, and room
   for malloc, where it is asked for, behind these. */

ENTRY(_start)

PHDRS
{
    flash PT_LOAD FLAGS(5);     /* readable and executable */
    ram PT_LOAD FLAGS(6);       /* readable and writable */
    tls PT_TLS;
}

SECTIONS
{
    /* Where it lies is not known before it is placed, so nothing may rest on this address, unless it is linked for one
       place. For elf2tab it says that the code is position independent. */
    _code = DEFINED(flash_start) ? flash_start : 0x80000000;
    . = _code;

    .text :
    {
        KEEP(*(.start))
        *(.text .text.*)
        *(.rodata .rodata.* .srodata .srodata.*)
    } :flash

    _initial_values = ALIGN(4);

    /* Nor is it known where its RAM lies. The linker makes each access to a variable one from gp, as far as 2,047 bytes
       from there; it wants a variable to end before that, and some room for alignment. */
    . = (DEFINED(ram_start) ? ram_start : 0x00010000) + stack_size;
    _variables = .;
    __global_pointer$ = .;

    .data : AT(_initial_values)
    {
        *(.sdata .sdata.* .data .data.*)
        . = ALIGN(4);
    } :ram

    /* Variables of a thread, of which there is one: picolibc's errno is such a variable. The linker gives those that
       begin as 0 no room of their own. */
    .tdata : AT(_initial_values + ADDR(.tdata) - _variables)
    {
        *(.tdata .tdata.*)
        . = ALIGN(4);
    } :ram :tls
    _data_end = .;
    .tbss (NOLOAD) :
    {
        *(.tbss .tbss.*)
    } :ram :tls
    _thread_variables = SIZEOF(.tdata) > 0 ? ADDR(.tdata) : ADDR(.tbss);
    .tbss_room (NOLOAD) :
    {
        . = ADDR(.tbss) + SIZEOF(.tbss);
    } :ram

    .bss (NOLOAD) :
    {
        *(.sbss .sbss.* .bss .bss.* COMMON)
        . = ALIGN(4);
    } :ram
    _bss_end = .;
    _data_size = _data_end - _variables;
    _variables_size = _bss_end - _variables;
    _heap_end = _bss_end + (DEFINED(heap_size) ? heap_size : 0);

    /* How many bytes the process needs at first. */
    _ram_size = stack_size + (_heap_end - _variables);

    .got : { *(.got .got.*) } :flash
    ASSERT(SIZEOF(.got) == 0, "a table of addresses is not supported: nothing relocates it; FIXED=1 links for a place")
    ASSERT(ADDR(.text) == _code, "a constant wants to lie at a multiple of more than 16")
    ASSERT(SIZEOF(.data) == 0 || ADDR(.data) == _variables, "a variable wants to lie at a multiple that STACK is not")
    ASSERT(DEFINED(has_any_size) || SIZEOF(.tdata) + SIZEOF(.tbss) == 0, "a variable of a thread needs FIXED=1")
    ASSERT(DEFINED(has_any_size) || _bss_end - _variables <= 2000,
        "static variables may have 2,000 bytes in all: FIXED=1 has no such limit, nor a buffer in main, by STACK=..")

    /DISCARD/ : { *(.eh_frame .eh_frame.*) }
}
