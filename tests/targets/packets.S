/* The published packets, as library.c hands them to the tests. */
    .section .rodata.packets, "a"
    .global packets, packets_end, packets_v1, packets_v1_end
packets:
    .incbin "tests/vectors/packets.txt"
packets_end:
packets_v1:
    .incbin "tests/vectors/packets_v1.txt"
packets_v1_end:
    .byte 0
