/* Names for the numbers of the header: registers, instructions and the errors of a status. */
#ifndef REGISTERS_H
#define REGISTERS_H

#include <stddef.h>
#include <stdint.h>

struct table_register {
    uint16_t address;
    uint8_t size;
    const char *name;
};

/* All registers, addresses rising; tests/show_test.py holds them to the header. */
extern const struct table_register registers[];
extern const size_t n_registers;

/* The register that covers an address, or null. */
const struct table_register *register_at(unsigned address);

/* By its name, in capitals or not, with spaces, hyphens or underscores between the words; or null. */
const struct table_register *register_named(const char *name);

/* Null for an instruction that is not defined. */
const char *instruction_name(uint8_t instruction);

/* What the error number of a status means, which is not 0, without the alert. */
const char *error_words(uint8_t error);

#endif
