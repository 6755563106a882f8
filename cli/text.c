#include "text.h"

#include <inttypes.h>
#include <string.h>

void put_bytes(FILE *to, const uint8_t *bytes, size_t n)
{
    for (size_t i = 0; i < n; i++)
        fprintf(to, "%s%02X", i == 0 ? "" : " ", bytes[i]);
}

void put_who(FILE *to, int id)
{
    char who[16] = "";
    if (id == DXL_BROADCAST_ID)
        snprintf(who, sizeof who, "all");
    else if (id >= 0)
        snprintf(who, sizeof who, "ID %d", id);
    fprintf(to, "%-6s  ", who);
}

char sign_of(const struct event *event)
{
    if (event->item == NULL)
        return '?';
    if (event->item->kind == PACKET)
        return event->meaning->status ? '<' : '>';
    return event->item->kind == NOISE ? '~' : '!';
}

const char *kind_word(const struct event *event)
{
    switch (sign_of(event)) {
    case '>':
        return "instruction";
    case '<':
        return "status";
    case '!':
        return "bad checksum";
    case '~':
        return "noise";
    default:
        return "missing status";
    }
}

const char *reason_word(enum reason why)
{
    static const char *const words[] = {"none", "header", "ID", "length", "stuffing", "cut off"};
    return words[why];
}

/* ---- registers */

/* goal position = 512, or what of it is there. */
static void put_field(FILE *to, const struct protocol *protocol, const struct field *field)
{
    int64_t number;
    uint32_t last = field->address + (field->count > 0 ? field->count - 1 : 0);
    if (field->reg == NULL)
        fprintf(to, "%s %" PRIu32, is_second(protocol) ? "no register at" : field->count == 1 ? "byte" : "bytes", field->address);
    if (field->reg == NULL && last > field->address)
        fprintf(to, " to %" PRIu32, last);
    if (field->reg != NULL)
        fputs(field->reg->name, to);
    if (field->reg != NULL && field->count == 1 && field->reg->size > 1)
        fprintf(to, " (only byte %" PRIu32 ")", field->address);
    else if (field->reg != NULL && field->count != field->reg->size)
        fprintf(to, " (only bytes %" PRIu32 " to %" PRIu32 ")", field->address, last);
    if (field_number(field, &number)) {
        fprintf(to, " = %" PRId64, number);
    } else if (field->bytes != NULL) {
        fputs(" = ", to);
        put_bytes(to, field->bytes, field->count);
    }
}

/* An ID stands before the first of its fields. */
static void put_fields(FILE *to, const struct protocol *protocol, const struct meaning *meaning)
{
    for (size_t i = 0; i < meaning->n_fields; i++) {
        const struct field *field = &meaning->fields[i];
        int begins = field->id >= 0 && (i == 0 || field->id != field[-1].id || field->address <= field[-1].address);
        fputs(i == 0 ? "" : begins ? "; " : ", ", to);
        if (begins)
            fprintf(to, "ID %d ", field->id);
        put_field(to, protocol, field);
    }
}

/* Parameters that are in no register, the list of a Sync Read, what is odd, and stuffing. */
static void put_rest(FILE *to, const struct meaning *meaning)
{
    if (meaning->n_data > 0) {
        fprintf(to, "%s", meaning->n_fields > 0 ? ", and " : "");
        put_bytes(to, meaning->data, meaning->n_data);
    }
    for (size_t i = 0; i < meaning->n_ids; i++)
        fprintf(to, "%s%u", i == 0 ? meaning->n_ids == 1 ? " from ID " : " from IDs " : ", ", (unsigned)meaning->ids[i]);
    if (meaning->note != NULL)
        fprintf(to, "%s(%s)", meaning->n_data + meaning->n_fields + meaning->n_ids > 0 ? " " : "", meaning->note);
}

static void put_stuffing(FILE *to, const struct meaning *meaning)
{
    if (meaning->stuffed > 0)
        fprintf(to, " [stuffed: %zu FD]", meaning->stuffed);
}

static int says_more(const struct meaning *meaning)
{
    return meaning->n_fields + meaning->n_data + meaning->n_ids > 0 || meaning->note != NULL;
}

/* ---- packets */

static void put_instruction(FILE *to, const struct protocol *protocol, const struct meaning *meaning)
{
    if (meaning->name != NULL)
        fputs(meaning->name, to);
    else
        fprintf(to, "undefined instruction %02X", meaning->code);
    if (meaning->n_fields > 0 && meaning->fields[0].id < 0)
        fputc(' ', to);
    else if (says_more(meaning) && meaning->n_ids == 0)
        fputs(": ", to);
    put_fields(to, protocol, meaning);
    put_rest(to, meaning);
}

/* What a status answers, and how long after it. */
static void put_answer(FILE *to, const struct event *event)
{
    if (event->answers == NO_ANSWER) {
        fputs(" [to nothing before it]", to);
        return;
    }
    fprintf(to, " [to the %s at %" PRIu64, event->asked_name, event->asked);
    if (event->item->timed)
        fprintf(to, ", %.3f ms later", (double)event->delay / 1e6);
    fputc(']', to);
}

/* In Protocol 1.0 and Mercury the bits of the error byte are the device's own. */
static void put_error(FILE *to, const struct protocol *protocol, const struct meaning *meaning)
{
    unsigned error = is_second(protocol) ? meaning->code & 0x7Fu : meaning->code;
    if (!meaning->coded)
        return;
    if (error != 0)
        fprintf(to, "error %02X", error);
    if (error != 0 && is_second(protocol))
        fprintf(to, " (%s)", error_words((uint8_t)error));
    if (error == 0)
        fputs("ok", to);
    if (is_second(protocol) && (meaning->code & DXL_ERROR_ALERT))
        fputs(", alert (hardware error is not 0)", to);
}

void put_status(FILE *to, const struct protocol *protocol, const struct event *event)
{
    const struct meaning *meaning = event->meaning;
    fputs("Status: ", to);
    put_error(to, protocol, meaning);
    if (says_more(meaning) && meaning->coded)
        fputs(meaning->n_fields + meaning->n_data > 0 ? "; " : " ", to);
    put_fields(to, protocol, meaning);
    put_rest(to, meaning);
}

/* ---- what is no packet */

/* The checksum that would be right, in the order of the line. */
static void put_right_checksum(FILE *to, const struct protocol *protocol, const struct item *item)
{
    uint8_t packet[DXL_MAX_PACKET];
    size_t n = item->n - protocol->checksum;
    const uint8_t *body = item->bytes + protocol->front;
    if (is_second(protocol)) {
        uint16_t crc = dxl_crc16(0, item->bytes, n);
        packet[n] = (uint8_t)crc;
        packet[n + 1] = (uint8_t)(crc >> 8);
    } else {
        dxl_p1_encode(item->id, body[0], body + 1, n - protocol->front - 1, packet, sizeof packet, 0);
    }
    put_bytes(to, packet + n, protocol->checksum);
}

static void put_bad_checksum(FILE *to, const struct protocol *protocol, const struct event *event)
{
    const struct item *item = event->item;
    fprintf(to, "bad checksum ");
    put_bytes(to, item->bytes + item->n - protocol->checksum, protocol->checksum);
    fputs(" where ", to);
    put_right_checksum(to, protocol, item);
    fprintf(to, " would be right, of %zu bytes", item->n);
    if (!is_second(protocol)) {
        fputs(" with the body ", to);
        put_bytes(to, item->bytes + protocol->front, item->n - protocol->front - protocol->checksum);
    } else if (event->meaning == NULL) {
        fputs(", not well stuffed", to);
    } else if (event->meaning->status) {
        fputs(" that say: Status: ", to);
        put_error(to, protocol, event->meaning);
        fputs(event->meaning->n_data > 0 ? ", " : "", to);
        put_rest(to, event->meaning);
    } else {
        fputs(" that say: ", to);
        put_instruction(to, protocol, event->meaning);
    }
}

static void put_reason(FILE *to, const struct protocol *protocol, const struct beginning *longest)
{
    const uint8_t *front = longest->front;
    switch (longest->why) {
    case NO_BEGINNING:
        fputs("nothing in it begins a packet", to);
        return;
    case WRONG_HEADER:
        fprintf(to, "header: %zu of its %zu bytes stand at %" PRIu64 ", and then %02X", longest->agreed, protocol->header,
                longest->offset, front[longest->agreed]);
        return;
    case WRONG_ID:
        fprintf(to, "ID: the header at %" PRIu64 " is followed by %u, which is no ID", longest->offset, front[protocol->header]);
        return;
    case WRONG_LENGTH:
        fprintf(to, "length: header and ID %u at %" PRIu64 " are followed by %" PRIu32 ", which is no length", front[protocol->header],
                longest->offset, is_second(protocol) ? word_at(front + 5) : front[3]);
        return;
    case WRONG_STUFFING:
        fprintf(to, "stuffing: %zu bytes at %" PRIu64 " for ID %u have a right checksum, and their body is not well stuffed",
                longest->announced, longest->offset, front[protocol->header]);
        return;
    case CUT_OFF:
        fprintf(to, "cut off: %zu", longest->agreed);
        if (longest->announced > 0)
            fprintf(to, " of %zu", longest->announced);
        fprintf(to, longest->agreed == 1 ? " byte of a packet stands at %" PRIu64 : " bytes of a packet stand at %" PRIu64, longest->offset);
        return;
    }
}

static void put_missing(FILE *to, const struct event *event)
{
    fprintf(to, "no status to the %s at %" PRIu64 " in %.3f ms", event->asked_name, event->asked, (double)event->delay / 1e6);
    if (event->damaged)
        fprintf(to, "; the bad checksum at %" PRIu64 " may have been it", event->damaged_at);
}

void put_event(FILE *to, const struct protocol *protocol, const struct event *event)
{
    const struct item *item = event->item;
    if (item == NULL) {
        put_missing(to, event);
        return;
    }
    if (item->kind == NOISE) {
        fprintf(to, "noise, %" PRIu64 " byte%s: ", item->length, item->length == 1 ? "" : "s");
        put_reason(to, protocol, &item->longest);
        return;
    }
    if (item->kind == BAD_CHECKSUM)
        put_bad_checksum(to, protocol, event);
    else if (event->meaning->status)
        put_status(to, protocol, event);
    else
        put_instruction(to, protocol, event->meaning);
    if (item->kind == PACKET && event->meaning->status)
        put_answer(to, event);
    if (event->meaning != NULL)
        put_stuffing(to, event->meaning);
    if (item->inside)
        fprintf(to, " [inside the bad checksum at %" PRIu64 "]", item->outer);
}

/* ---- all of a capture */

static void put_count(FILE *to, uint64_t n, const char *one, const char *more)
{
    fprintf(to, "%" PRIu64 " %s", n, n == 1 ? one : more);
}

void put_totals(FILE *to, const struct totals *totals)
{
    put_count(to, totals->bytes, "byte", "bytes");
    if (totals->timed)
        fprintf(to, " in %.6f s", (double)(totals->last - totals->first) / 1e9);
    fputs(": ", to);
    put_count(to, totals->packets, "packet", "packets");
    fprintf(to, ", %" PRIu64 " with an error or the alert; ", totals->errors);
    put_count(to, totals->bad, "bad checksum; ", "bad checksums; ");
    if (totals->timed)
        put_count(to, totals->missing, "missing status; ", "missing statuses; ");
    put_count(to, totals->noise, "byte of noise", "bytes of noise");
}
