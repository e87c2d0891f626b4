/* The places of a program's parts in the memory of a KeyNIX process: the text from 0x10000 on, the data in pages of their
   own behind it, and the heap, which brk moves, behind these. The stack lies below 0x80000000 and takes no part. */
ENTRY(_start)

PHDRS
{
  text PT_LOAD FLAGS(5);
  data PT_LOAD FLAGS(6);
}

SECTIONS
{
  . = 0x10000;
  .text : { *(.text .text.*) } :text
  .rodata : { *(.rodata .rodata.* .srodata .srodata.*) } :text

  . = ALIGN(4096);
  .data : { *(.data .data.*) __global_pointer$ = . + 0x800; *(.sdata .sdata.*) } :data
  /* what each thread has of its own: there is one thread, so it has the first and only copy */
  .tdata : { __thread_data = .; *(.tdata .tdata.*) } :data
  .tbss : { *(.tbss .tbss.*) } :data
  .bss : { . += SIZEOF(.tbss); *(.sbss .sbss.* .bss .bss.* COMMON) . = ALIGN(8); } :data
  __heap_start = .;

  /DISCARD/ : { *(.comment .note .note.* .eh_frame .riscv.attributes) }
}
