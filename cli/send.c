#include "send.h"

#include <stdio.h>
#include <string.h>

#include "files.h"
#include "goals.h"
#include "master.h"
#include "plan.h"
#include "registers.h"
#include "say.h"

#define USE_SCAN "dxl send LINE scan                                 find all devices, by a Ping to each ID\n"
#define USE_PING "dxl send LINE ping ID                              ask for model number and firmware version\n"
#define USE_READ "dxl send LINE read ID REGISTER [COUNT]             read a register, or COUNT bytes from its address on\n"
#define USE_WRITE "dxl send LINE write ID REGISTER VALUE              write a register\n"
#define USE_REG_WRITE "dxl send LINE reg-write ID REGISTER VALUE          register a write, which waits for an action\n"
#define USE_ACTION "dxl send LINE action ID                            carry out the registered write\n"
#define USE_REBOOT "dxl send LINE reboot ID                            restart the device: its RAM becomes fresh\n"
#define USE_RESET "dxl send LINE reset ID all|but-id|but-id-and-baud  make its ROM fresh too: all of it, or all but these\n"
#define USE_SYNC_READ "dxl send LINE sync read REGISTER ID...             read one register of several devices\n"
#define USE_SYNC_WRITE "dxl send LINE sync write REGISTER ID VALUE...      write it, for each device its own value\n"
#define USE_BULK_READ "dxl send LINE bulk read ID REGISTER...             read for each of several devices its own register\n"
#define USE_BULK_WRITE "dxl send LINE bulk write ID REGISTER VALUE...      write these\n"
#define USE_PLAN "dxl send LINE plan PLAN                            send a plan of goals, which is tested first\n"
#define ALSO "       "

const char HELP_SEND[] =
    "usage: dxl send [--baud N] [--timeout MS] [--retries N] [--hex] LINE COMMAND ...\n" ALSO USE_SCAN ALSO USE_PING ALSO USE_READ ALSO USE_WRITE ALSO USE_REG_WRITE ALSO USE_ACTION ALSO USE_REBOOT ALSO USE_RESET
    ALSO USE_SYNC_READ ALSO USE_SYNC_WRITE ALSO USE_BULK_READ ALSO USE_BULK_WRITE ALSO USE_PLAN
    "\n"
    "Sends an instruction of Protocol 2.0 and prints a line for each status that answers it, in the words of 'dxl show'. LINE is a serial\n"
    "line, such as /dev/ttyUSB0, or a pseudo-terminal. Whatever else comes is told on standard error: bad checksums and noise, statuses of\n"
    "devices that were not asked, instructions of another master. An echo of what was sent is passed over.\n"
    "\n"
    "  dxl send /dev/ttyUSB0 scan\n"
    "  dxl send /dev/ttyUSB0 write 1 goal-position 512\n"
    "  dxl send /dev/ttyUSB0 read 1 present-position\n"
    "  dxl send --baud 1000000 --timeout 20 /dev/ttyUSB0 sync read goal-position 1 2 3\n"
    "  dxl plan make row.txt | dxl send /dev/ttyUSB0 plan -\n"
    "\n"
    "ID is 0 to 252, or 254 for all devices, which answer nothing but a Ping. All numbers are decimal.\n"
    "REGISTER is a name, an address at which a register begins, or ADDRESS:COUNT for any bytes. In a name - and _ are spaces:\n"
    "  model-number  firmware-version  id  baud-code  homing-offset  max-position  min-position  torque-enable  lamp\n"
    "  status-return-level  registered-instruction  hardware-error  goal-velocity  goal-position  present-position\n"
    "VALUE has to fit its bytes: a register of four bytes has a sign, a shorter one has none. Its range is left to the device.\n"
    "PLAN is a file as 'dxl plan make' writes it, or the hex that it prints; - is standard input. It is sent if the library accepts it as\n"
    "a plan of the goals in it. No device answers it: 'sync read goal-position' shows what has become of it.\n"
    "\n"
    "  --baud N         bits per second (57600)\n"
    "  --timeout MS     how long a device may take until it answers, without the time of the bytes (100; in a scan 30). Those in a list\n"
    "                   have as long each, one after the other\n"
    "  --retries N      how often to send again where no answer came, or a damaged one (2; in a scan only after a damaged one). Only what\n"
    "                   does the same twice is sent again: Ping, Read, Write to one device, and for those still missing Sync Read and\n"
    "                   Bulk Read. Anything else is sent once, and may have been carried out if no answer comes\n"
    "  --hex            print what is sent too, and the bytes of each packet\n"
    "\n"
    "It ends with 0 where everyone asked has answered, or nobody had to; 1 where a device answers with an error or with more or less data\n"
    "than was asked for, or a plan is not accepted; 2 where it does not know the words; and 3 where a device does not answer, even if\n"
    "another one has an error, and where the line or a file fails. A device whose status return level is 1 answers no Write, and one with\n"
    "level 0 only Ping.\n";

/* ---- operands */

/* Each of these takes what a word says; where that is not good, it says why and returns 0. */

/* An empty word stands in quotes. */
static int say_word(const char *word, const char *why)
{
    return say_failure(*word == 0 ? "''" : word, why);
}

static int take_id(const char *word, uint8_t *id)
{
    const char *why = parse_id(word, id);
    if (why == NULL && (*id == 253 || *id == 255))
        why = "not an ID: 0 to 252, or 254 for all devices";
    return why == NULL ? 1 : say_word(word, why);
}

/* The ID of one device. */
static int take_device(const char *word, uint8_t *id)
{
    if (!take_id(word, id))
        return 0;
    return *id != DXL_BROADCAST_ID ? 1 : say_word(word, "this is asked of one device: 0 to 252");
}

static int is_digit(char character)
{
    return character >= '0' && character <= '9';
}

/* Bytes of a control table. */
struct place {
    uint32_t address, count;
    const struct table_register *reg; /* that they are, or null */
};

static int take_number(const char *word, uint32_t least, uint32_t most, const char *why, uint32_t *number)
{
    const char *fault = parse_number(word, number);
    if (fault == NULL && (*number < least || *number > most))
        fault = why;
    return fault == NULL ? 1 : say_word(word, fault);
}

static int take_count(const char *word, uint32_t *count)
{
    return take_number(word, 1, 1000, "1 to 1000 bytes can be read", count);
}

static int take_address(const char *word, uint32_t *address)
{
    return take_number(word, 0, 65535, "an address is 0 to 65535", address);
}

/* ADDRESS or ADDRESS:COUNT */
static int take_bytes(const char *word, struct place *place)
{
    char address[16];
    size_t n = strcspn(word, ":");
    if (n >= sizeof address)
        return say_word(word, "an address is 0 to 65535");
    snprintf(address, sizeof address, "%.*s", (int)n, word);
    if (!take_address(address, &place->address))
        return 0;
    if (word[n] == ':')
        return take_count(word + n + 1, &place->count);
    place->reg = register_at(place->address);
    if (place->reg == NULL || place->reg->address != place->address)
        return say_word(word, "no register begins there; ADDRESS:COUNT takes any bytes");
    place->count = place->reg->size;
    return 1;
}

static int take_register(const char *word, struct place *place)
{
    memset(place, 0, sizeof *place);
    if (is_digit(word[0]))
        return take_bytes(word, place);
    place->reg = register_named(word);
    if (place->reg == NULL)
        return say_word(word, "no register has this name; 'dxl send --help' lists them");
    place->address = place->reg->address;
    place->count = place->reg->size;
    return 1;
}

/* What a value may be: a register of four bytes has a sign, a shorter one none, and other bytes are taken either way. */
static void find_range(const struct place *place, int64_t *least, int64_t *most)
{
    int64_t whole = INT64_C(1) << (8 * place->count);
    int with_sign = place->reg == NULL || place->count == 4, without = place->reg == NULL || place->count < 4;
    *least = with_sign ? -(whole / 2) : 0;
    *most = without ? whole - 1 : whole / 2 - 1;
}

/* Appends the bytes of a value. */
static int take_value(const char *word, const struct place *place, struct request *request)
{
    char why[80];
    uint32_t size;
    int minus = word[0] == '-';
    const char *fault = parse_number(word + minus, &size);
    int64_t value = minus ? -(int64_t)size : (int64_t)size, least, most;
    if (fault != NULL)
        return say_word(word, fault);
    if (place->count != 1 && place->count != 2 && place->count != 4)
        return say_word(word, "a value has 1, 2 or 4 bytes");
    find_range(place, &least, &most);
    snprintf(why, sizeof why, "it does not fit into %u byte%s: %lld to %lld", (unsigned)place->count, place->count == 1 ? "" : "s",
             (long long)least, (long long)most);
    if (value < least || value > most)
        return say_word(word, why);
    for (uint32_t i = 0; i < place->count; i++)
        request->params[request->n++] = (uint8_t)((uint64_t)value >> (8 * i));
    return 1;
}

static void add_byte(struct request *request, uint32_t byte)
{
    request->params[request->n++] = (uint8_t)byte;
}

static void add_word(struct request *request, uint32_t word)
{
    add_byte(request, word & 0xFF);
    add_byte(request, word >> 8);
}

static void add_place(struct request *request, const struct place *place)
{
    add_word(request, place->address);
    add_word(request, place->count);
}

/* ---- requests for one device */

static int make_ping(int n, char **words, struct request *request)
{
    (void)n;
    return take_id(words[0], &request->id);
}

/* Where a count is given, no register has to begin at the address. */
static int make_read(int n, char **words, struct request *request)
{
    struct place place;
    if (!take_device(words[0], &request->id))
        return 0;
    if (n == 3 && is_digit(words[1][0]) ? !take_address(words[1], &place.address) : !take_register(words[1], &place))
        return 0;
    if (n == 3 && !take_count(words[2], &place.count))
        return 0;
    add_place(request, &place);
    return 1;
}

/* Reg Write too. */
static int make_write(int n, char **words, struct request *request)
{
    (void)n;
    struct place place;
    if (!take_id(words[0], &request->id) || !take_register(words[1], &place))
        return 0;
    add_word(request, place.address);
    return take_value(words[2], &place, request);
}

static int make_reset(int n, char **words, struct request *request)
{
    static const struct {
        const char *word;
        uint8_t option;
    } whats[] = {{"all", 0xFF}, {"but-id", 0x01}, {"but-id-and-baud", 0x02}};
    (void)n;
    if (!take_id(words[0], &request->id))
        return 0;
    for (size_t i = 0; i < sizeof whats / sizeof *whats; i++)
        if (strcmp(words[1], whats[i].word) == 0)
            add_byte(request, whats[i].option);
    if (request->n == 0)
        return say_word(words[1], "all, but-id or but-id-and-baud is wanted");
    if (request->id == DXL_BROADCAST_ID && request->params[0] == 0xFF)
        return say_word(words[1], "no device does that for all devices: they would have one ID");
    return 1;
}

/* ---- requests for several devices */

/* How many words an entry of the list has, and whether the words are whole entries. */
static int are_entries(int n, char **words, int each, const char *last)
{
    char why[80];
    if (n % each == 0)
        return 1;
    snprintf(why, sizeof why, "behind it %s is missing", last);
    return say_word(words[n - 1], why);
}

/* The ID of an entry; a list has it once. */
static int take_entry(const char *word, uint8_t seen[256], struct request *request)
{
    uint8_t id;
    if (!take_device(word, &id))
        return 0;
    if (seen[id]++)
        return say_word(word, "this ID stands in the list already");
    add_byte(request, id);
    return 1;
}

/* The longest entry has nine bytes; whether a packet has room for all of it, the encoder says. */
static int has_room(const char *word, const struct request *request)
{
    return request->n <= DXL_MAX_BODY ? 1 : say_word(word, "the list is too long for one packet");
}

static int make_sync_read(int n, char **words, struct request *request)
{
    struct place place;
    uint8_t seen[256] = {0};
    if (!take_register(words[0], &place))
        return 0;
    add_place(request, &place);
    for (int i = 1; i < n; i++)
        if (!has_room(words[i], request) || !take_entry(words[i], seen, request))
            return 0;
    request->id = DXL_BROADCAST_ID;
    return 1;
}

static int make_sync_write(int n, char **words, struct request *request)
{
    struct place place;
    uint8_t seen[256] = {0};
    if (!take_register(words[0], &place) || !are_entries(n - 1, words + 1, 2, "VALUE"))
        return 0;
    add_place(request, &place);
    for (int i = 1; i < n; i += 2)
        if (!has_room(words[i], request) || !take_entry(words[i], seen, request) || !take_value(words[i + 1], &place, request))
            return 0;
    request->id = DXL_BROADCAST_ID;
    return 1;
}

static int make_bulk_read(int n, char **words, struct request *request)
{
    struct place place;
    uint8_t seen[256] = {0};
    if (!are_entries(n, words, 2, "REGISTER"))
        return 0;
    for (int i = 0; i < n; i += 2) {
        if (!has_room(words[i], request) || !take_entry(words[i], seen, request) || !take_register(words[i + 1], &place))
            return 0;
        add_place(request, &place);
    }
    request->id = DXL_BROADCAST_ID;
    return 1;
}

static int make_bulk_write(int n, char **words, struct request *request)
{
    struct place place;
    uint8_t seen[256] = {0};
    if (!are_entries(n, words, 3, n % 3 == 1 ? "REGISTER" : "VALUE"))
        return 0;
    for (int i = 0; i < n; i += 3) {
        if (!has_room(words[i], request) || !take_entry(words[i], seen, request) || !take_register(words[i + 1], &place))
            return 0;
        add_place(request, &place);
        if (!take_value(words[i + 2], &place, request))
            return 0;
    }
    request->id = DXL_BROADCAST_ID;
    return 1;
}

/* ---- commands */

/* What a command makes of its words; scan and plan have a run of their own. */
struct sender {
    struct command command;
    uint8_t instruction;
    int (*make)(int n, char **words, struct request *request);
};

static struct master master;

/* The instruction is tried first, so that a line is opened only for one that can be sent. */
static int run_request(const struct sender *sender, const char *line, const struct options *options, int n, char **words)
{
    struct request request = {.instruction = sender->instruction};
    uint8_t packet[DXL_MAX_PACKET];
    if (!sender->make(n, words, &request))
        return usage(sender->command.help);
    if (dxl_encode(request.id, request.instruction, request.params, request.n, packet, sizeof packet, 0) < 0) {
        say_word(words[n - 1], "the list is too long for one packet");
        return usage(sender->command.help);
    }
    if (!begin_master(line, options, &master))
        return FAILED;
    int status = exchange(&master, &request);
    end_master(&master);
    return status;
}

static int run_scan(const char *line, const struct options *options)
{
    if (!begin_master(line, options, &master))
        return FAILED;
    int status = scan(&master);
    end_master(&master);
    return status;
}

static int run_plan(const char *line, const struct options *options, const char *name)
{
    struct mapped plan;
    struct goals goals;
    size_t packets;
    int status = read_tested_plan(name, &plan, &goals, &packets);
    if (status != DONE)
        return status;
    if (!begin_master(line, options, &master))
        return FAILED;
    status = send_plan(&master, plan.bytes, plan.count);
    end_master(&master);
    if (status != DONE)
        return status;
    put_name(stdout, file_name(name));
    if (packets == 0)
        puts(": no goals in it, and nothing sent");
    else
        printf(": sent, %zu goal%s in %zu packet%s\n", goals.wanted, goals.wanted == 1 ? "" : "s", packets, packets == 1 ? "" : "s");
    return DONE;
}

static const struct sender senders[] = {
    {{"scan", "usage: " USE_SCAN, "", 0, 0, "", NULL}, 0, NULL},
    {{"ping", "usage: " USE_PING, "ID", 1, 1, "", NULL}, DXL_INST_PING, make_ping},
    {{"read", "usage: " USE_READ, "ID REGISTER", 2, 3, "", NULL}, DXL_INST_READ, make_read},
    {{"write", "usage: " USE_WRITE, "ID REGISTER VALUE", 3, 3, "", NULL}, DXL_INST_WRITE, make_write},
    {{"reg-write", "usage: " USE_REG_WRITE, "ID REGISTER VALUE", 3, 3, "", NULL}, DXL_INST_REG_WRITE, make_write},
    {{"action", "usage: " USE_ACTION, "ID", 1, 1, "", NULL}, DXL_INST_ACTION, make_ping},
    {{"reboot", "usage: " USE_REBOOT, "ID", 1, 1, "", NULL}, DXL_INST_REBOOT, make_ping},
    {{"reset", "usage: " USE_RESET, "ID all|but-id|but-id-and-baud", 2, 2, "", NULL}, DXL_INST_FACTORY_RESET, make_reset},
    {{"sync read", "usage: " USE_SYNC_READ, "REGISTER ID", 2, ANY, "", NULL}, DXL_INST_SYNC_READ, make_sync_read},
    {{"sync write", "usage: " USE_SYNC_WRITE, "REGISTER ID VALUE", 3, ANY, "", NULL}, DXL_INST_SYNC_WRITE, make_sync_write},
    {{"bulk read", "usage: " USE_BULK_READ, "ID REGISTER", 2, ANY, "", NULL}, DXL_INST_BULK_READ, make_bulk_read},
    {{"bulk write", "usage: " USE_BULK_WRITE, "ID REGISTER VALUE", 3, ANY, "", NULL}, DXL_INST_BULK_WRITE, make_bulk_write},
    {{"plan", "usage: " USE_PLAN, "PLAN", 1, 1, "", NULL}, 0, NULL},
};

/* How many of the words the name of a command is: 1 or 2, or 0 if it is not theirs. */
static int names(const struct command *command, int n, char **words)
{
    size_t first = strcspn(command->name, " ");
    if (n < 1 || strlen(words[0]) != first || strncmp(words[0], command->name, first) != 0)
        return 0;
    if (command->name[first] == 0)
        return 1;
    return n >= 2 && strcmp(words[1], command->name + first + 1) == 0 ? 2 : 0;
}

static const struct sender *find_sender(int n, char **words)
{
    for (size_t i = 0; i < sizeof senders / sizeof *senders; i++)
        if (names(&senders[i].command, n, words))
            return &senders[i];
    return NULL;
}

/* What is wrong with words that name no command. */
static int say_unknown(int n, char **words)
{
    int list = strcmp(words[1], "sync") == 0 || strcmp(words[1], "bulk") == 0;
    if (list && n == 2)
        say_word(words[1], "read or write is missing");
    else if (list)
        say_word(words[2], "read or write comes here");
    else
        say_word(words[1], "no such command");
    return usage(HELP_SEND);
}

int send_command(const struct options *options, int n, char **words)
{
    const struct sender *sender = find_sender(n - 1, words + 1);
    if (find_sender(n, words) != NULL) {
        say_word(words[0], "the line comes before the command; one of this name is given with ./ before it");
        return usage(HELP_SEND);
    }
    if (sender == NULL)
        return say_unknown(n, words);
    const struct command *command = &sender->command;
    int skipped = 1 + names(command, n - 1, words + 1);
    if (!operands_fit(command, "send", n - skipped, words + skipped))
        return usage(command->help);
    int status;
    if (sender->make != NULL)
        status = run_request(sender, words[0], options, n - skipped, words + skipped);
    else
        status = command->most == 0 ? run_scan(words[0], options) : run_plan(words[0], options, words[skipped]);
    return status == USAGE ? status : printed(status);
}
