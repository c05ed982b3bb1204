/* Where things lie in pump's RAM, of 65,536 bytes: code from 0 on, then data, then the machine's heap, and the stack at the
   end. What compartments 1 to 3 own lies in sections of their own (pump.h), at multiples of 4; all else is compartment 0's.
   `edges` reads the sections' names and the symbols heap_start, heap_end and stack_top. */

ENTRY(_start)

MEMORY
{
  ram (rwx) : ORIGIN = 0, LENGTH = 64K
}

PHDRS
{
  code PT_LOAD FLAGS(5);                /* read and execute: `pump elf` makes a code range of it */
  data PT_LOAD FLAGS(6);                /* read and write */
}

SECTIONS
{
  .text : { KEEP(*(.text.start)) *(.text .text.*) . = ALIGN(4); } > ram : code
  .compartment1.text : ALIGN(4) { *(.compartment1.text) } > ram : code
  .compartment2.text : ALIGN(4) { *(.compartment2.text) } > ram : code
  .compartment3.text : ALIGN(4) { *(.compartment3.text) } > ram : code
  .data : ALIGN(4)
  {
    *(.rodata .rodata.* .srodata .srodata.*)
    *(.data .data.* .sdata .sdata.*)
    . = ALIGN(4);
  } > ram : data
  .compartment1.data : ALIGN(4) { *(.compartment1.data) } > ram : data
  .compartment2.data : ALIGN(4) { *(.compartment2.data) } > ram : data
  .compartment3.data : ALIGN(4) { *(.compartment3.data) } > ram : data
  .bss : ALIGN(4) { *(.bss .bss.* .sbss .sbss.* COMMON) . = ALIGN(4); } > ram : data

  heap_start = ALIGN(4);
  heap_end = heap_start + 4K;
  stack_top = ORIGIN(ram) + LENGTH(ram);
  ASSERT(stack_top - heap_end >= 4K, "less than 4 KiB are left for the stack")

  /DISCARD/ : { *(.comment) *(.note .note.*) *(.riscv.attributes) *(.eh_frame) }
}
