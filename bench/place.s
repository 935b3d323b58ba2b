# Linked right in front of the archive, so that its code stands at the same place within 64 bytes whatever else the
# program has: 48 bytes after a multiple of 64, the slowest of the four places for some lists (docs/PERFORMANCE.md).
.section .text.place, "ax"
.balign 64
.skip 48, 0x90
.section .note.GNU-stack, "", @progbits
