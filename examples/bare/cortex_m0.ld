MEMORY { FLASH (rx) : ORIGIN = 0, LENGTH = 256K  RAM (rwx) : ORIGIN = 0x20000000, LENGTH = DEFINED(ram_size) ? ram_size : 16K }
INCLUDE bare.ld
