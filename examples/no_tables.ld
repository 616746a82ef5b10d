/* Added to the linker's own script: no unwind tables. */
SECTIONS {
  /DISCARD/ : { *(.eh_frame .eh_frame.*) *(.note .note.*) }
}
INSERT AFTER .comment;
