#include "registers.h"

#include "mednukals.h"

#define REGISTER(name, words) {DXL_REG_##name, DXL_SIZE_##name, words}

const struct table_register registers[] = {
    REGISTER(MODEL_NUMBER, "model number"),
    REGISTER(FIRMWARE_VERSION, "firmware version"),
    REGISTER(ID, "ID"),
    REGISTER(BAUD_CODE, "baud code"),
    REGISTER(HOMING_OFFSET, "homing offset"),
    REGISTER(MAX_POSITION, "max position"),
    REGISTER(MIN_POSITION, "min position"),
    REGISTER(TORQUE_ENABLE, "torque enable"),
    REGISTER(LAMP, "lamp"),
    REGISTER(STATUS_RETURN_LEVEL, "status return level"),
    REGISTER(REGISTERED_INSTRUCTION, "registered instruction"),
    REGISTER(HARDWARE_ERROR, "hardware error"),
    REGISTER(GOAL_VELOCITY, "goal velocity"),
    REGISTER(GOAL_POSITION, "goal position"),
    REGISTER(PRESENT_POSITION, "present position"),
};

const size_t n_registers = sizeof registers / sizeof *registers;

const struct table_register *register_at(unsigned address)
{
    for (size_t i = 0; i < n_registers; i++)
        if (address >= registers[i].address && address < (unsigned)registers[i].address + registers[i].size)
            return &registers[i];
    return NULL;
}

/* Spaces, hyphens and underscores are the same, and so are capitals and others. */
static int same_letter(char a, char b)
{
    if (a >= 'A' && a <= 'Z')
        a = (char)(a - 'A' + 'a');
    if (b >= 'A' && b <= 'Z')
        b = (char)(b - 'A' + 'a');
    return a == b || (b == ' ' && (a == '-' || a == '_'));
}

static int same_name(const char *word, const char *name)
{
    while (*word != 0 && same_letter(*word, *name)) {
        word++;
        name++;
    }
    return *word == 0 && *name == 0;
}

const struct table_register *register_named(const char *name)
{
    for (size_t i = 0; i < n_registers; i++)
        if (same_name(name, registers[i].name))
            return &registers[i];
    return NULL;
}

const char *instruction_name(uint8_t instruction)
{
    switch (instruction) {
    case DXL_INST_PING:
        return "Ping";
    case DXL_INST_READ:
        return "Read";
    case DXL_INST_WRITE:
        return "Write";
    case DXL_INST_REG_WRITE:
        return "Reg Write";
    case DXL_INST_ACTION:
        return "Action";
    case DXL_INST_FACTORY_RESET:
        return "Factory Reset";
    case DXL_INST_REBOOT:
        return "Reboot";
    case DXL_INST_STATUS:
        return "Status";
    case DXL_INST_SYNC_READ:
        return "Sync Read";
    case DXL_INST_SYNC_WRITE:
        return "Sync Write";
    case DXL_INST_BULK_READ:
        return "Bulk Read";
    case DXL_INST_BULK_WRITE:
        return "Bulk Write";
    default:
        return NULL;
    }
}

const char *error_words(uint8_t error)
{
    switch (error) {
    case DXL_ERROR_INSTRUCTION:
        return "undefined instruction, or Action with nothing registered";
    case DXL_ERROR_CHECKSUM:
        return "wrong checksum";
    case DXL_ERROR_DATA_RANGE:
        return "a value outside its range";
    case DXL_ERROR_DATA_LENGTH:
        return "a wrong length, or a register in part";
    case DXL_ERROR_DATA_LIMIT:
        return "the goal position would lie outside the limits, or these have changed";
    case DXL_ERROR_ACCESS:
        return "no register there, read only, or locked while torque is on";
    default:
        return "not a defined error";
    }
}
