#include "json.h"

#include <inttypes.h>

#include "say.h"
#include "text.h"

/* put_name, with quotes and backslashes escaped once more. < is escaped too, so that no name ends the script of a page. */
void put_json_name(FILE *to, const char *name)
{
    fputc('"', to);
    while (*name != 0) {
        size_t n = printable(name);
        if (n == 0)
            fprintf(to, "\\\\x%02X", (unsigned)(unsigned char)*name);
        else if (*name == '"' || *name == '\\')
            fprintf(to, "\\%c", *name);
        else if (*name == '<')
            fputs("\\u003C", to);
        else
            fwrite(name, 1, n, to);
        name += n > 0 ? n : 1;
    }
    fputc('"', to);
}

static void put_hex(FILE *to, const char *key, const uint8_t *bytes, size_t n)
{
    fprintf(to, ",\"%s\":\"", key);
    put_bytes(to, bytes, n);
    fputc('"', to);
}

static void put_time(FILE *to, const char *key, int64_t nanoseconds)
{
    uint64_t size = nanoseconds < 0 ? (uint64_t)-nanoseconds : (uint64_t)nanoseconds;
    fprintf(to, ",\"%s\":%s%" PRIu64 ".%09" PRIu64, key, nanoseconds < 0 ? "-" : "", size / 1000000000, size % 1000000000);
}

static void put_register(FILE *to, const struct field *field)
{
    int64_t number;
    fprintf(to, "{\"address\":%" PRIu32 ",\"count\":%" PRIu32, field->address, field->count);
    if (field->id >= 0)
        fprintf(to, ",\"id\":%d", field->id);
    if (field->reg != NULL)
        fprintf(to, ",\"name\":\"%s\"", field->reg->name);
    if (field_number(field, &number))
        fprintf(to, ",\"value\":%" PRId64, number);
    if (field->bytes != NULL)
        put_hex(to, "bytes", field->bytes, field->count);
    fputc('}', to);
}

static void put_registers(FILE *to, const struct meaning *meaning)
{
    if (meaning->n_fields == 0)
        return;
    fputs(",\"registers\":[", to);
    for (size_t i = 0; i < meaning->n_fields; i++) {
        fputs(i == 0 ? "" : ",", to);
        put_register(to, &meaning->fields[i]);
    }
    fputc(']', to);
}

static void put_meaning(FILE *to, const struct protocol *protocol, const struct meaning *meaning)
{
    int alert = is_second(protocol) && (meaning->code & DXL_ERROR_ALERT) != 0;
    if (!meaning->status)
        fprintf(to, ",\"code\":%u", meaning->code);
    if (!meaning->status && meaning->name != NULL)
        fprintf(to, ",\"instruction\":\"%s\"", meaning->name);
    if (meaning->status && meaning->coded)
        fprintf(to, ",\"error\":%u,\"alert\":%s", meaning->code & (is_second(protocol) ? 0x7Fu : 0xFFu), alert ? "true" : "false");
    put_registers(to, meaning);
    for (size_t i = 0; i < meaning->n_ids; i++)
        fprintf(to, "%s%u", i == 0 ? ",\"ids\":[" : ",", meaning->ids[i]);
    if (meaning->n_ids > 0)
        fputc(']', to);
    if (meaning->n_data > 0)
        put_hex(to, "data", meaning->data, meaning->n_data);
    if (meaning->stuffed > 0)
        fprintf(to, ",\"stuffed\":%zu", meaning->stuffed);
}

static void put_item(FILE *to, const struct options *options, const struct event *event)
{
    const struct item *item = event->item;
    fprintf(to, ",\"segment\":%" PRIu64 ",\"offset\":%" PRIu64 ",\"length\":%" PRIu64, item->segment, item->offset, item->length);
    if (item->timed)
        put_time(to, "time", item->first);
    if (event->meaning != NULL)
        put_meaning(to, options->protocol, event->meaning);
    if (item->kind == NOISE)
        fprintf(to, ",\"reason\":\"%s\",\"at\":%" PRIu64 ",\"agreed\":%zu", reason_word(item->longest.why), item->longest.offset,
                item->longest.agreed);
    if (item->inside)
        fprintf(to, ",\"inside\":%" PRIu64, item->outer);
    if (event->answers != NO_ANSWER)
        fprintf(to, ",\"answers\":%" PRIu64, event->asked);
    if (event->answers != NO_ANSWER && item->timed)
        put_time(to, "delay", event->delay);
    if (options->hex)
        put_hex(to, "bytes", item->bytes, item->n);
}

void put_json(FILE *to, const char *file, const struct options *options, const struct event *event)
{
    fputs("{\"file\":", to);
    put_json_name(to, file);
    fprintf(to, ",\"kind\":\"%s\"", kind_word(event));
    if (event->id >= 0)
        fprintf(to, ",\"id\":%d", event->id);
    if (event->item != NULL) {
        put_item(to, options, event);
    } else {
        fprintf(to, ",\"offset\":%" PRIu64 ",\"unanswered\":%" PRIu64, event->offset, event->asked);
        put_time(to, "time", event->time);
        put_time(to, "waited", event->delay);
    }
    fputs(",\"text\":\"", to);
    put_event(to, options->protocol, event);
    fputs("\"}\n", to);
}
