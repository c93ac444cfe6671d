/* The memory of Arm's MPS2 board with a Cortex-M3, as QEMU has it; the program is loaded there whole, so nothing is copied at the start. */
MEMORY
{
  code (rx) : ORIGIN = 0x00000000, LENGTH = 4M
  data (rw) : ORIGIN = 0x20000000, LENGTH = 4M
}
SECTIONS
{
  .vectors : { KEEP(*(.vectors)) } >code
  .text : { *(.text* .rodata*) } >code
  .ARM.exidx : { *(.ARM.exidx*) } >code
  .data : { *(.data*) } >data
  .bss : { *(.bss* COMMON) } >data
  end = .;
}
