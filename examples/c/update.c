/*
 * An update from C: an engine over a NOR of 32,768 bytes with the partition `app` at 8,192. A host's bytes
 * come in odd pieces; the replies are read, the checksum and the burn result asked for, and the flash is
 * compared. `update time` also tells what a call costs.
 */
#include "lamjhotu.h"

#include <stdio.h>
#include <stdlib.h>
#include <string.h>
#include <time.h>

enum { FLASH = 32768, APP = 8192, PAYLOAD = 6000 };

/* What the engine works on. It is all ours: the library has no memory of its own. */
static uint8_t record[LAMJHOTU_RECORD_LEN];
static uint8_t request[LAMJHOTU_REQUEST_LEN];
static uint8_t reply[LAMJHOTU_REPLY_LEN];
static uint8_t flash[FLASH];
static uint8_t buffer[LAMJHOTU_BUFFER_LEN];
static uint8_t scratch[4096];
static uint8_t none[1];

static const uint64_t offsets[] = {APP}, sizes[] = {8192}, lens[] = {3};
static const uint8_t names[] = {'a', 'p', 'p'};
static const uint32_t base = 0x40000000;

static void must(int ok, const char *what)
{
    if (!ok) {
        printf("FAILED: %s\n", what);
        exit(1);
    }
}

static uint8_t open_flash(void)
{
    memset(flash, 0xFF, sizeof flash);
    return lamjhotu_open_nor(record, sizeof record, request, sizeof request, reply, sizeof reply, flash, sizeof flash,
                             buffer, sizeof buffer, offsets, 1, sizes, 1, lens, 1, names, sizeof names, base,
                             scratch, sizeof scratch, 0, 0);
}

static uint8_t put(const uint8_t *bytes, size_t n)
{
    return lamjhotu_write(record, sizeof record, request, sizeof request, none, 0, none, 0, offsets, 1, sizes, 1,
                          lens, 1, names, sizeof names, none, 0, flash, sizeof flash, buffer, sizeof buffer,
                          scratch, sizeof scratch, reply, sizeof reply, bytes, n);
}

static uint32_t get(uint8_t *room, size_t n)
{
    return lamjhotu_read(record, sizeof record, request, sizeof request, reply, sizeof reply, flash, sizeof flash,
                         buffer, sizeof buffer, scratch, sizeof scratch, none, 0, offsets, 1, sizes, 1, lens, 1,
                         names, sizeof names, room, n);
}

static void word(uint8_t *at, uint32_t v)
{
    for (int i = 0; i < 4; i++)
        at[i] = (uint8_t)(v >> 8 * i);
}

static uint32_t word_at(const uint8_t *at)
{
    return at[0] | (uint32_t)at[1] << 8 | (uint32_t)at[2] << 16 | (uint32_t)at[3] << 24;
}

/* The 16 bytes of a request's header. */
static void header(uint8_t *to, uint8_t command, uint32_t length)
{
    word(to, 0x43475055);
    word(to + 4, 0x0101 + ((uint32_t)command << 16));
    word(to + 8, length);
    word(to + 12, 0x43475055 + 0x0101 + ((uint32_t)command << 16) + length);
}

/* CRC-32 bit by bit, to compare. */
static uint32_t crc32(const uint8_t *s, size_t n)
{
    uint32_t r = 0xFFFFFFFF;
    for (size_t i = 0; i < n; i++) {
        r ^= s[i];
        for (int k = 0; k < 8; k++)
            r = r >> 1 ^ (r & 1 ? 0xEDB88320 : 0);
    }
    return ~r;
}

/* A command with no data is sent, and the word of its reply returned. */
static uint32_t ask(uint8_t command)
{
    uint8_t h[16], room[64];
    header(h, command, 0);
    must(put(h, sizeof h) == LAMJHOTU_DONE, "a command is taken");
    must(get(room, sizeof room) == 20, "its reply has a word");
    must(word_at(room) == 0x52475055 && room[6] == command && room[7] == 0, "the reply's header");
    return word_at(room + 16);
}

/* A frame that names the partition `app`. */
static const uint8_t *metadata(void)
{
    static uint8_t frame[16 + 512];
    header(frame, 0x10, 512);
    memcpy(frame + 16, "META", 4);
    memcpy(frame + 16 + 0x48, "app", 3);
    return frame;
}

static void announce(void)
{
    const uint8_t *frame = metadata();
    uint8_t room[64];
    must(put(frame, 100) == LAMJHOTU_DONE, "a part of the metadata");
    must(get(room, sizeof room) == 0, "no reply yet");
    must(put(frame + 100, 428) == LAMJHOTU_DONE, "the rest of the metadata");
    must(get(room, sizeof room) == 16 && room[7] == 0, "the metadata's reply");
    must(lamjhotu_host_upgrading(record, sizeof record) == 1, "an upgrade has started");
    printf("metadata     sent in 2 pieces, reply OK, an upgrade has started\n");
}

static void update(const uint8_t *payload)
{
    static const size_t pieces[] = {1, 14, 3, 511, 64, 1000, 7, 2048};
    static uint8_t sent[16 + PAYLOAD];
    uint8_t room[64];
    size_t at = 0, n = 0;
    header(sent, 0x12, PAYLOAD);
    memcpy(sent + 16, payload, PAYLOAD);
    while (at < sizeof sent) {
        size_t k = pieces[n++ % (sizeof pieces / sizeof pieces[0])];
        if (sizeof sent - at < k)
            k = sizeof sent - at;
        must(put(sent + at, k) == LAMJHOTU_DONE, "a piece of the update");
        at += k;
    }
    must(get(room, sizeof room) == 16 && room[7] == 0, "the update's reply");
    printf("update       %d bytes sent in %zu pieces, reply OK\n", PAYLOAD, n);
}

static double now(void)
{
    struct timespec t;
    timespec_get(&t, TIME_UTC);
    return (double)t.tv_sec + (double)t.tv_nsec * 1e-9;
}

/* What a call costs: a reset only unpacks and packs the record; a write of no bytes tests its bounds besides. */
static void measure(const uint8_t *payload)
{
    enum { TIMES = 200000, UPDATES = 4000, PIECE = 500 };
    uint8_t h[16];
    double began, spent = 0;
    header(h, 0x12, PAYLOAD);
    must(open_flash() == LAMJHOTU_DONE, "opened again");
    began = now();
    for (int i = 0; i < TIMES; i++)
        lamjhotu_reset(record, sizeof record);
    printf("time         a reset %.0f ns\n", (now() - began) / TIMES * 1e9);
    began = now();
    for (int i = 0; i < TIMES; i++)
        put(none, 0);
    printf("time         a write of no bytes %.0f ns\n", (now() - began) / TIMES * 1e9);
    for (int i = 0; i < UPDATES; i++) {
        must(put(metadata(), 528) == LAMJHOTU_DONE && put(h, sizeof h) == LAMJHOTU_DONE, "an update begins");
        began = now();
        for (int at = 0; at < PAYLOAD; at += PIECE)
            must(put(payload + at, PIECE) == LAMJHOTU_DONE, "a piece of an update");
        spent += now() - began;
    }
    must(memcmp(flash + APP, payload, PAYLOAD) == 0, "the flash holds the payload again");
    printf("time         a write of %d bytes of an update %.0f ns\n", PIECE, spent / UPDATES / (PAYLOAD / PIECE) * 1e9);
}

int main(int argc, char **argv)
{
    static uint8_t payload[PAYLOAD];
    for (int i = 0; i < PAYLOAD; i++)
        payload[i] = (uint8_t)(i * 7 + i / 256);

    must(lamjhotu_record_len() == LAMJHOTU_RECORD_LEN, "the header is of this library");
    must(lamjhotu_open_nor(record, 10, none, 0, none, 0, none, 0, none, 0, offsets, 1, sizes, 1, lens, 1, names, 3,
                           base, none, 0, 0, 0) == LAMJHOTU_REFUSED, "a record of 10 bytes is refused");
    must(get(none, 1) == LAMJHOTU_NO_COUNT, "a record that nobody opened is refused");
    must(open_flash() == LAMJHOTU_DONE, "opened");
    must(lamjhotu_host_upgrading(record, sizeof record) == 0, "no upgrade yet");
    printf("opened       NOR of %d bytes, app at %d\n", FLASH, APP);
    announce();
    update(payload);

    uint32_t crc = ask(0x13);
    must(crc == crc32(payload, PAYLOAD), "the checksum");
    printf("checksum     %08x\n", crc);
    uint32_t burn = ask(0x14);
    must(burn == 0, "the burn result");
    printf("burn         %u\n", burn);

    must(memcmp(flash + APP, payload, PAYLOAD) == 0, "the flash holds the payload");
    for (int i = 0; i < FLASH; i++)
        must((APP <= i && i < APP + PAYLOAD) || flash[i] == 0xFF, "no other byte of the flash");
    printf("flash        holds the payload at %d, every other byte is FF\n", APP);

    must(lamjhotu_reset(record, sizeof record) == LAMJHOTU_DONE, "reset");
    must(lamjhotu_host_upgrading(record, sizeof record) == 1, "a reset keeps the flag");
    must(lamjhotu_reset_requested(record, sizeof record) == 0, "nobody asked for a reset of the device");
    must(lamjhotu_reset(record, LAMJHOTU_RECORD_LEN - 1) == LAMJHOTU_REFUSED, "a record that is a byte short is refused");
    printf("reset        done, the flags stay\n");
    if (argc == 2 && strcmp(argv[1], "time") == 0)
        measure(payload);
    return 0;
}
