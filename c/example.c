/* A port task: writes a frame into the port's buffer, reads it back, and shows each refusal. */
#include <stdio.h>
#include <string.h>

#include "medzvoka.h"

#define NONE 9999 /* what stands in `place` until a refusal names one */
#define AT 16     /* where the frame begins in the port's buffer */

static const uint8_t vendor[HELLO_VENDOR] = "Medzvoka";
static const uint8_t uuid[HELLO_UUID] = {0, 0, 0, 0, 0, 0, 0, 0, 0, 0, 0, 0, 0, 0, 0, 0x0A};

static struct hello_fields fields(void)
{
    struct hello_fields f = {
        .source = 0x11,
        .remote = 0x020000000022,
        .life_sign = 7,
        .counter = 0x17F144A7,
        .checksum = 0xBEEF,
        .statuses = {HELLO_RECEIVED, HELLO_NOT_RECEIVED, HELLO_NOT_AVAILABLE, HELLO_NOT_AVAILABLE},
        .timeout = HELLO_FAST,
        .port = 4,
        .line = 'A',
        .direction = HELLO_DIRECTION_1,
        .inhibition = HELLO_ALLOWED,
    };
    return f;
}

static void answer(const char *what, uint32_t number, size_t place)
{
    if (place == NONE)
        printf("%s: %u\n", what, (unsigned)number);
    else
        printf("%s: %u %zu\n", what, (unsigned)number, place);
}

/* Writes into a buffer of 150 bytes, and says whether a refusal left it as it was. */
static void write_one(const char *what, const struct hello_fields *f, size_t vendor_length, size_t uuid_length, size_t at)
{
    uint8_t buffer[150], before[150];
    size_t place = NONE;
    uint32_t number;

    memset(buffer, 0xEE, sizeof buffer);
    memcpy(before, buffer, sizeof buffer);
    number = hello_write(f, vendor, vendor_length, uuid, uuid_length, 20, buffer, sizeof buffer, at, &place);
    answer(what, number, place);
    if (memcmp(buffer, before, sizeof buffer) != 0)
        printf("  the buffer has changed\n");
}

/* Reads a frame, and says whether a refusal left the output as it was. */
static void read_one(const char *what, const uint8_t *frame, size_t length)
{
    struct read_hello hello, before;
    size_t place = NONE;
    uint32_t number;

    memset(&hello, 0xEE, sizeof hello);
    memcpy(&before, &hello, sizeof hello);
    number = hello_read(frame, length, &hello, &place);
    answer(what, number, place);
    if (memcmp(&hello, &before, sizeof hello) != 0)
        printf("  read: source %012llx, vendor at %zu, UUID at %zu\n", (unsigned long long)hello.fields.source,
               hello.vendor_at, hello.uuid_at);
}

static void show(const uint8_t *frame, const struct read_hello *h)
{
    const struct hello_fields *f = &h->fields;

    printf("source %012llx remote %012llx\n", (unsigned long long)f->source, (unsigned long long)f->remote);
    printf("life sign %u counter %08x checksum %04x\n", (unsigned)f->life_sign, (unsigned)f->counter, (unsigned)f->checksum);
    printf("statuses %u %u %u %u timeout %u port %u line %c direction %u inhibition %u\n", f->statuses[0], f->statuses[1],
           f->statuses[2], f->statuses[3], f->timeout, f->port, f->line, f->direction, f->inhibition);
    printf("vendor at %zu: %s\n", h->vendor_at, (const char *)frame + h->vendor_at);
    printf("UUID at %zu ends %02x\n", h->uuid_at, frame[h->uuid_at + HELLO_UUID - 1]);
}

/* Reads the frame with one byte changed. */
static void changed(const char *what, const uint8_t *frame, size_t at, uint8_t byte)
{
    uint8_t copy[HELLO_FRAME];

    memcpy(copy, frame, sizeof copy);
    copy[at] = byte;
    read_one(what, copy, sizeof copy);
}

static void refused_frames(const uint8_t *frame)
{
    uint8_t longer[HELLO_FRAME_LONGEST + 1] = {0};

    read_one("17 bytes", frame, HELLO_FRAME_SHORTEST - 1);
    memcpy(longer, frame, HELLO_FRAME);
    read_one("1519 bytes", longer, sizeof longer);
    changed("another destination", frame, 0, 0x00);
    changed("first TLV of type 2", frame, 18, 0x04);
    changed("a TLV past the frame", frame, 36, 0xFF);
    changed("an end with contents", frame, 35, 0x00);
    changed("a HELLO of 85 bytes", frame, 36, 0x55);
    memcpy(longer + 123, frame + 35, 88);
    read_one("two HELLOs", longer, HELLO_FRAME_LONGEST);
    changed("no end", frame, 123, 0x12);
    changed("no HELLO", frame, 37, 0x21);
    changed("version", frame, 43, 0x02);
    changed("timeout", frame, 88, 0x03);
    changed("source", frame, 94, 0x00);
    changed("line", frame, 96, 'E');
    changed("direction", frame, 97, 0x00);
}

static void refused_hellos(void)
{
    struct hello_fields f = fields();

    write_one("vendor", &f, HELLO_VENDOR - 1, HELLO_UUID, 0);
    write_one("UUID", &f, HELLO_VENDOR, HELLO_UUID - 1, 0);
    write_one("no room", &f, HELLO_VENDOR, HELLO_UUID, 26);
    write_one("past the buffer", &f, HELLO_VENDOR, HELLO_UUID, SIZE_MAX);
    f.statuses[2] = 4;
    write_one("statuses", &f, HELLO_VENDOR, HELLO_UUID, 0);
    f = fields(), f.timeout = 0;
    write_one("timeout", &f, HELLO_VENDOR, HELLO_UUID, 0);
    f = fields(), f.source = 0;
    write_one("source", &f, HELLO_VENDOR, HELLO_UUID, 0);
    f = fields(), f.line = 'a';
    write_one("line", &f, HELLO_VENDOR, HELLO_UUID, 0);
    f = fields(), f.direction = 3;
    write_one("direction", &f, HELLO_VENDOR, HELLO_UUID, 0);
    f = fields(), f.inhibition = 4;
    write_one("inhibition", &f, HELLO_VENDOR, HELLO_UUID, 0);
    f = fields(), f.remote = (uint64_t)1 << 48;
    write_one("remote", &f, HELLO_VENDOR, HELLO_UUID, 0);
}

/* With an argument, the frame goes to this file. */
int main(int count, char **words)
{
    uint8_t buffer[AT + HELLO_FRAME + 8];
    const uint8_t *frame = buffer + AT;
    struct hello_fields f = fields();
    struct read_hello hello;
    size_t place = NONE;
    uint32_t number;

    memset(buffer, 0xEE, sizeof buffer);
    number = hello_write(&f, vendor, sizeof vendor, uuid, sizeof uuid, 20, buffer, sizeof buffer, AT, &place);
    answer("write", number, place);
    printf("around it %02x %02x\n", buffer[AT - 1], buffer[AT + HELLO_FRAME]);
    number = hello_read(frame, HELLO_FRAME, &hello, &place);
    answer("read", number, place);
    show(frame, &hello);
    refused_frames(frame);
    refused_hellos();
    if (count > 1) {
        FILE *file = fopen(words[1], "wb");
        if (file == NULL || fwrite(frame, 1, HELLO_FRAME, file) != HELLO_FRAME || fclose(file) != 0)
            return 1;
    }
    return 0;
}
