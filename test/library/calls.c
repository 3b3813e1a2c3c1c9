/* Calls of the library from C, good ones and bad ones: what each answers is looked at here. With C++ it is compiled, too.
 * Usage: calls SETUP, a setup of the demo's. It prints what is wrong, and at the end 'N passed, M failed'. */
#include "uds_unit.h"
#include <stdio.h>
#include <stdlib.h>
#include <string.h>

static int passed, failed;

static void told(bool good, const char *what) {
    good ? passed++ : failed++;
    if (!good) printf("LIBRARY WRONG: %s\n", what);
}

static const uint8_t *bytes_of(const char *text) { return (const uint8_t *)text; }

static struct uds_unit opened(const uint8_t *config, size_t len, bool with_journal) {
    struct uds_unit unit = UDS_UNIT_INIT;
    uint8_t text[256];
    uint32_t status = with_journal ? uds_unit_open_with_journal(&unit, config, len, text, sizeof text)
                                   : uds_unit_open(&unit, config, len, text, sizeof text);
    told(status == UDS_DONE, "the setup opens");
    return unit;
}

/* the next frame is this one, of this kind */
static bool is_next_of(struct uds_unit *unit, uint64_t at_us, uint32_t id, uint8_t tester, const char *bytes, uint8_t len, uint8_t fd) {
    struct uds_reply reply;
    static const uint8_t zeros[64] = {0};
    memset(&reply, 0xFF, sizeof reply);
    return uds_unit_next(unit, &reply) == UDS_DONE && reply.at_us == at_us && reply.id == id && reply.tester == tester && reply.fd == fd
           && reply.len == len && memcmp(reply.bytes, bytes, len) == 0 && memcmp(reply.bytes + len, zeros, 64 - len) == 0;
}

/* the next frame is this classic one */
static bool is_next(struct uds_unit *unit, uint64_t at_us, uint32_t id, uint8_t tester, const char *bytes, uint8_t len) {
    return is_next_of(unit, at_us, id, tester, bytes, len, 0);
}

static bool is_drained(struct uds_unit *unit) {
    struct uds_reply reply;
    return uds_unit_next(unit, &reply) == UDS_NONE;
}

static void test_faults(void) {
    static const struct { const char *config, *line; } faults[] = {
        {"s3_ms = 1", "uds_play: config: empty\n"},
        {"[[did]]\nid = 1\n", "uds_play: config: missing did.value\n"},
        {"s3_ms = ", "uds_play: config: syntax\n"},
        {"s3_ms = true\ntester = []", "uds_play: config: bad value s3_ms\n"},
        {"\xFF", "uds_play: config: syntax\n"},
        {"", "uds_play: config: empty\n"},
    };
    for (size_t i = 0; i < sizeof faults / sizeof *faults; i++) {
        struct uds_unit unit = UDS_UNIT_INIT;
        uint8_t text[256];
        memset(text, 'x', sizeof text);
        size_t len = strlen(faults[i].config);
        told(uds_unit_open(&unit, bytes_of(faults[i].config), len, text, sizeof text) == UDS_SETUP, faults[i].config);
        told(strcmp((const char *)text, faults[i].line) == 0, (const char *)text);
        told(uds_unit_pass(&unit, 0) == UDS_CLOSED, "a setup at fault opens nothing");
        /* with less room as much as fits, and what is behind it stays */
        uint8_t few[8] = "1234567";
        told(uds_unit_open(&unit, bytes_of(faults[i].config), len, few, 4) == UDS_SETUP, "a setup at fault, little room");
        told(memcmp(few, "uds_567", 8) == 0, "as much of the line as fits");
        told(uds_unit_open(&unit, bytes_of(faults[i].config), len, few, 0) == UDS_SETUP, "a setup at fault, no room");
    }
}

static void test_closed(void) {
    struct uds_unit unit = UDS_UNIT_INIT;
    struct uds_reply reply;
    struct uds_state state;
    struct uds_code code;
    uint64_t at;
    uint16_t id;
    uint8_t room[4];
    size_t len;
    for (int twice = 0; twice < 2; twice++) {
        told(uds_unit_frame(&unit, 0, 0x7E0, bytes_of("\x02\x10\x03"), 3) == UDS_CLOSED, "frame, closed");
        told(uds_unit_frame(&unit, 0, 0x800, bytes_of("\x02\x10\x03"), 3) == UDS_CLOSED, "what is no frame, closed");
        told(uds_unit_pass(&unit, 0) == UDS_CLOSED, "pass, closed");
        told(uds_unit_next(&unit, &reply) == UDS_CLOSED, "next, closed");
        told(uds_unit_due(&unit, &at) == UDS_CLOSED, "due, closed");
        told(uds_unit_state(&unit, &state) == UDS_CLOSED, "state, closed");
        told(uds_unit_code(&unit, 0, &code) == UDS_CLOSED, "code, closed");
        told(uds_unit_identifier(&unit, 0, &id) == UDS_CLOSED, "identifier, closed");
        told(uds_unit_value(&unit, 0xF190, room, sizeof room, &len) == UDS_CLOSED, "value, closed");
        told(uds_unit_set_value(&unit, 0xF190, room, sizeof room) == UDS_CLOSED, "set_value, closed");
        told(uds_unit_set_code(&unit, 0x056200, 0) == UDS_CLOSED, "set_code, closed");
        told(uds_unit_journal(&unit, room, sizeof room, &len) == UDS_CLOSED, "journal, closed");
        told(uds_unit_close(&unit) == UDS_CLOSED, "close, closed");
    }
}

static void test_frames(const uint8_t *config, size_t len) {
    struct uds_unit unit = opened(config, len, false);
    struct uds_state state;
    uint64_t at;
    told(uds_unit_due(&unit, &at) == UDS_DONE && at == UINT64_MAX, "nothing is waited for before the first moment");
    told(is_drained(&unit), "nothing is due before the first frame");
    told(uds_unit_frame(&unit, 1000500, 0x7E0, bytes_of("\x02\x10\x03"), 3) == UDS_DONE, "a frame");
    told(is_next(&unit, 1000000, 0x7E8, 1, "\x06\x50\x03\x00\x32\x01\xF4\xCC", 8), "the session's reply");
    told(is_drained(&unit), "one reply");
    told(uds_unit_state(&unit, &state) == UDS_DONE && state.session == 3 && state.holder == 1, "the first tester holds it");
    told(uds_unit_frame(&unit, 1100000, 0x7A0, bytes_of("\x02\x10\x03"), 3) == UDS_DONE, "another tester's");
    told(is_next(&unit, 1100000, 0x7A8, 2, "\x03\x7F\x10\x21\xCC\xCC\xCC\xCC", 8), "busy");
    /* frames that are none, and frames of nobody */
    told(uds_unit_frame(&unit, 9000000, 0x7E0, bytes_of("\0\0\0\0\0\0\0\0\0"), 9) == UDS_NO_FRAME, "nine bytes");
    static const uint8_t many[255] = {2, 0x10, 1};
    for (size_t count = 9; count <= sizeof many; count++) {
        const bool is_length = count == 12 || count == 16 || count == 20 || count == 24 || count == 32 || count == 48 || count == 64;
        const uint64_t at_us = is_length ? 1100000 : 9000000;
        told(uds_unit_frame(&unit, at_us, 0x7E0, many, count) == (is_length ? UDS_DONE : UDS_NO_FRAME), "more than eight bytes");
    }
    told(is_drained(&unit), "to a classic tester they are nothing");
    told(uds_unit_frame(&unit, 9000000, 0x800, bytes_of("\x02\x10\x03"), 3) == UDS_NO_FRAME, "12 bits");
    told(uds_unit_frame(&unit, 9000000, 0xFFFFFFFF, bytes_of("\x02\x10\x03"), 3) == UDS_NO_FRAME, "more than 29 bits");
    told(uds_unit_state(&unit, &state) == UDS_DONE && state.session == 3, "what is no frame takes no time");
    told(uds_unit_frame(&unit, 1200000, UDS_29_BITS | 0x18DB33F1, bytes_of("\x02\x10\x03"), 3) == UDS_DONE, "29 bits");
    told(uds_unit_frame(&unit, 1200000, UDS_29_BITS | 0x7E0, bytes_of("\x02\x10\x01"), 3) == UDS_DONE, "29 bits, a low number");
    told(uds_unit_frame(&unit, 1200000, 0x123, bytes_of(""), 0) == UDS_DONE, "nobody's, empty");
    told(uds_unit_frame(&unit, 1200000, 0x7E0, bytes_of(""), 0) == UDS_DONE, "empty");
    told(is_drained(&unit), "they draw nothing");
    /* a moment that goes back is the latest so far */
    told(uds_unit_frame(&unit, 0, 0x7E0, bytes_of("\x03\x22\xF1\x95"), 4) == UDS_DONE, "a moment that goes back");
    told(is_next(&unit, 1200000, 0x7E8, 1, "\x05\x62\xF1\x95\x02\x03\xCC\xCC", 8), "its reply, at the latest moment");
    told(uds_unit_pass(&unit, 5) == UDS_DONE, "time that goes back");
    /* S3 has 5 s from the holder's last request on */
    told(uds_unit_pass(&unit, 6199999) == UDS_DONE, "nearly five seconds");
    told(uds_unit_state(&unit, &state) == UDS_DONE && state.session == 3 && state.holder == 1, "the session holds");
    told(uds_unit_pass(&unit, 6200000) == UDS_DONE, "five seconds");
    told(uds_unit_state(&unit, &state) == UDS_DONE && state.session == 1 && state.holder == 0, "the session is over");
    told(uds_unit_pass(&unit, UINT64_C(315360000000000)) == UDS_DONE, "ten years pass");
    told(uds_unit_due(&unit, &at) == UDS_DONE && at == UINT64_MAX, "nothing is waited for");
    told(uds_unit_close(&unit) == UDS_DONE, "close");
    told(uds_unit_close(&unit) == UDS_CLOSED, "close again");
}

/* the greatest moment there is: a reply then has it, taken down to its millisecond, and later ones have no greater one */
static void test_greatest(const uint8_t *config, size_t len) {
    struct uds_unit unit = opened(config, len, false);
    uint64_t at;
    told(uds_unit_frame(&unit, UINT64_MAX, 0x7E0, bytes_of("\x02\x3E\x00"), 3) == UDS_DONE, "a frame at the greatest moment");
    told(is_next(&unit, UINT64_MAX - UINT64_MAX % 1000, 0x7E8, 1, "\x02\x7E\x00\xCC\xCC\xCC\xCC\xCC", 8), "its reply");
    told(uds_unit_frame(&unit, UINT64_MAX, 0x7E0, bytes_of("\x10\x14\x22\xF1\x90\xF1\x90\xF1"), 8) == UDS_DONE, "a First then");
    told(is_next(&unit, UINT64_MAX - UINT64_MAX % 1000, 0x7E8, 1, "\x30\x00\x00\xCC\xCC\xCC\xCC\xCC", 8), "flow control");
    told(uds_unit_due(&unit, &at) == UDS_DONE && at == UINT64_MAX, "what is waited for then is at no greater moment");
    uds_unit_close(&unit);
}

/* a reply of several frames: the First, and once there is flow control the others, a separation time apart */
static void test_due(const uint8_t *config, size_t len) {
    struct uds_unit unit = opened(config, len, false);
    uint64_t at;
    told(uds_unit_frame(&unit, 0, 0x7E0, bytes_of("\x03\x22\xF1\x90"), 4) == UDS_DONE, "a long value is asked for");
    told(is_next(&unit, 0, 0x7E8, 1, "\x10\x14\x62\xF1\x90\x30\x30\x30", 8), "the First");
    told(is_drained(&unit), "it waits for flow control");
    told(uds_unit_frame(&unit, 2000, 0x7E0, bytes_of("\x30\x00\x0A"), 3) == UDS_DONE, "flow control, 10 ms apart");
    told(is_next(&unit, 2000, 0x7E8, 1, "\x21\x30\x30\x30\x30\x30\x30\x30", 8), "the first Consecutive");
    told(is_drained(&unit), "the next one is not due");
    told(uds_unit_due(&unit, &at) == UDS_DONE && at == 12000, "it is due 10 ms later");
    told(uds_unit_pass(&unit, 11999) == UDS_DONE && is_drained(&unit), "not before");
    told(uds_unit_pass(&unit, at) == UDS_DONE, "time passes to it");
    told(is_next(&unit, 12000, 0x7E8, 1, "\x22\x30\x30\x30\x30\x30\x30\x30", 8), "the second Consecutive");
    told(is_drained(&unit), "there is no more");
    uds_unit_close(&unit);
}

static void test_values(const uint8_t *config, size_t len) {
    struct uds_unit unit = opened(config, len, false);
    uint8_t value[255], version[2] = {4, 5};
    uint16_t id;
    size_t many = 0;
    struct uds_code code;
    told(uds_unit_identifier(&unit, 0, &id) == UDS_DONE && id == 0xF190, "the first identifier");
    told(uds_unit_identifier(&unit, 1, &id) == UDS_DONE && id == 0xF195, "the second identifier");
    told(uds_unit_identifier(&unit, 2, &id) == UDS_NONE, "there is no third");
    told(uds_unit_identifier(&unit, SIZE_MAX, &id) == UDS_NONE, "nor a last");
    told(uds_unit_value(&unit, 0xF195, value, sizeof value, &many) == UDS_DONE && many == 2 && value[1] == 3, "a value");
    told(uds_unit_value(&unit, 0xF195, value, 2, &many) == UDS_DONE && many == 2, "a value that just fits");
    memset(value, 'x', sizeof value);
    told(uds_unit_value(&unit, 0xF190, value, 16, &many) == UDS_ROOM && many == 17, "a value that doesn't fit");
    told(value[0] == 'x', "then none of it is written");
    told(uds_unit_value(&unit, 0xF191, value, sizeof value, &many) == UDS_UNKNOWN, "no such identifier");
    told(uds_unit_set_value(&unit, 0xF191, version, 2) == UDS_UNKNOWN, "none to be set");
    told(uds_unit_set_value(&unit, 0xF195, version, 1) == UDS_LENGTH, "a value of another length");
    told(uds_unit_set_value(&unit, 0xF195, version, 2) == UDS_DONE, "a value is set");
    told(uds_unit_frame(&unit, 0, 0x7A0, bytes_of("\x03\x22\xF1\x95"), 4) == UDS_DONE, "and read by a tester");
    told(is_next(&unit, 0, 0x7A8, 2, "\x05\x62\xF1\x95\x04\x05\xCC\xCC", 8), "as it was set");
    told(uds_unit_code(&unit, 0, &code) == UDS_DONE && code.code == 0x056200 && code.status == 0x2F, "the first code");
    told(uds_unit_code(&unit, 2, &code) == UDS_NONE, "there are two codes");
    told(uds_unit_set_code(&unit, 0x056201, 1) == UDS_UNKNOWN, "no such code");
    told(uds_unit_set_code(&unit, 0xC10000, 0x2F) == UDS_DONE, "a status is set");
    told(uds_unit_code(&unit, 1, &code) == UDS_DONE && code.code == 0xC10000 && code.status == 0x2F, "and kept");
    told(uds_unit_frame(&unit, 0, 0x7E0, bytes_of("\x03\x19\x01\x20"), 4) == UDS_DONE, "codes are counted by a tester");
    told(is_next(&unit, 0, 0x7E8, 1, "\x06\x59\x01\xFF\x01\x00\x02\xCC", 8), "two of that status");
    uds_unit_close(&unit);
}

static void test_journal(const uint8_t *config, size_t len) {
    static const char header[] = "diag-journal 2\n", lines[] = "0 1 P 1003 5003003201F4\n0 2 P 1003 7F1021\n";
    uint8_t text[256];
    size_t many = 7;
    struct uds_unit unit = opened(config, len, false);
    told(uds_unit_frame(&unit, 0, 0x7E0, bytes_of("\x02\x10\x03"), 3) == UDS_DONE, "a frame without a journal");
    told(uds_unit_journal(&unit, text, 0, &many) == UDS_DONE && many == 0, "no journal is kept");
    uds_unit_close(&unit);
    unit = opened(config, len, true);
    told(uds_unit_journal(&unit, text, sizeof text, &many) == UDS_DONE && many == strlen(header), "the header");
    told(memcmp(text, header, many) == 0, "the header's text");
    told(uds_unit_journal(&unit, text, sizeof text, &many) == UDS_DONE && many == 0, "no line more");
    told(uds_unit_frame(&unit, 0, 0x7E0, bytes_of("\x02\x10\x03"), 3) == UDS_DONE, "a request");
    told(uds_unit_frame(&unit, 0, 0x7A0, bytes_of("\x02\x10\x03"), 3) == UDS_DONE, "another");
    memset(text, 'x', sizeof text);
    told(uds_unit_journal(&unit, text, strlen(lines) - 1, &many) == UDS_ROOM && many == strlen(lines), "one byte too little");
    told(text[0] == 'x', "then none is written");
    told(uds_unit_journal(&unit, text, strlen(lines), &many) == UDS_DONE && many == strlen(lines), "just enough");
    told(memcmp(text, lines, many) == 0, "the lines");
    told(uds_unit_journal(&unit, text, sizeof text, &many) == UDS_DONE && many == 0, "each once");
    /* a unit that is opened again begins anew */
    told(uds_unit_open(&unit, config, len, text, sizeof text) == UDS_DONE, "open again");
    told(is_drained(&unit), "nothing of the one before is due");
    uds_unit_close(&unit);
}

/* identifiers of 29 bits, in and out */
static void test_29_bits(void) {
    static const char config[] = "pad = false\ntester = [{ name = \"A\", request = 0x18DA10F1, response = 0x18DAF110, extended = true },\n"
                                 "{ name = \"B\", request = 0x7E0, response = 0x7E8 }]\n";
    struct uds_unit unit = opened(bytes_of(config), strlen(config), false);
    told(uds_unit_frame(&unit, 0, UDS_29_BITS | 0x18DA10F1, bytes_of("\x02\x10\x03"), 3) == UDS_DONE, "a request of 29 bits");
    told(is_next(&unit, 0, UDS_29_BITS | 0x18DAF110, 1, "\x06\x50\x03\x00\x32\x01\xF4", 7), "its reply of 29 bits");
    told(uds_unit_frame(&unit, 0, UDS_29_BITS | 0x7E0, bytes_of("\x02\x3E\x00"), 3) == UDS_DONE, "another's number, of 29 bits");
    told(is_drained(&unit), "is nobody's");
    told(uds_unit_frame(&unit, 0, 0x7E0, bytes_of("\x02\x3E\x00"), 3) == UDS_DONE, "of 11 bits");
    told(is_next(&unit, 0, 0x7E8, 2, "\x02\x7E\x00", 3), "it is that tester's");
    told(uds_unit_frame(&unit, 0, 0x18DA10F1, bytes_of("\x02\x3E\x00"), 3) == UDS_NO_FRAME, "29 bits without bit 31");
    told(uds_unit_frame(&unit, 0, UDS_29_BITS | 0x20000000, bytes_of(""), 0) == UDS_NO_FRAME, "30 bits");
    told(uds_unit_frame(&unit, 0, UDS_29_BITS | 0x1FFFFFFF, bytes_of(""), 0) == UDS_DONE, "the greatest of 29 bits");
    uds_unit_close(&unit);
}

/* a tester that talks by CAN FD, and one that doesn't */
static void test_fd(void) {
    static const char config[] = "[[did]]\nid = 0xF190\nvalue = \"3031323334353637383930313233343536\"\n"
                                 "[[tester]]\nname = \"A\"\nrequest = 0x7E0\nresponse = 0x7E8\nfd = true\nfunctional = 0x7D0\n"
                                 "[[tester]]\nname = \"B\"\nrequest = 0x7A0\nresponse = 0x7A8\n";
    static const char value[] = "\x00\x14\x62\xF1\x90" "01234567890123456\xCC\xCC", asked[] = "\x03\x22\xF1\x90";
    /* the same identifier, and three that there aren't */
    static const char more[] = "\x00\x09\x22\xF1\x90\x00\x01\x00\x02\x00\x03\xCC";
    struct uds_unit unit = opened(bytes_of(config), strlen(config), false);
    told(uds_unit_frame(&unit, 0, 0x7E0, bytes_of(asked), 4) == UDS_DONE, "a frame of four bytes, whichever kind it is of");
    told(is_next_of(&unit, 0, 0x7E8, 1, value, 24, 1), "its reply in one frame of CAN FD");
    told(uds_unit_frame(&unit, 1000, 0x7E0, bytes_of(more), 12) == UDS_DONE, "twelve bytes");
    told(is_next_of(&unit, 1000, 0x7E8, 1, value, 24, 1), "the same reply");
    told(uds_unit_frame(&unit, 2000, 0x7E0, bytes_of("\x02\x3E\x00"), 3) == UDS_DONE, "a request with a short reply");
    told(is_next_of(&unit, 2000, 0x7E8, 1, "\x02\x7E\x00\xCC\xCC\xCC\xCC\xCC", 8, 1), "it is one of CAN FD, too");
    told(uds_unit_frame(&unit, 3000, 0x7A0, bytes_of(more), 12) == UDS_DONE, "twelve bytes to a classic tester");
    told(uds_unit_frame(&unit, 3000, 0x7DF, bytes_of(more), 12) == UDS_DONE, "and functional");
    told(uds_unit_frame(&unit, 3000, 0x123, bytes_of(more), 12) == UDS_DONE, "and nobody's");
    told(is_drained(&unit), "are nothing");
    told(uds_unit_frame(&unit, 4000, 0x7A0, bytes_of("\x02\x3E\x00"), 3) == UDS_DONE, "a classic tester's");
    told(is_next(&unit, 4000, 0x7A8, 2, "\x02\x7E\x00\xCC\xCC\xCC\xCC\xCC", 8), "has a classic reply");
    uds_unit_close(&unit);
}

/* two units know nothing of each other */
static void test_two(const uint8_t *config, size_t len) {
    struct uds_unit one = opened(config, len, false), other = opened(config, len, false);
    struct uds_state state;
    told(uds_unit_frame(&one, 0, 0x7E0, bytes_of("\x02\x10\x03"), 3) == UDS_DONE, "one unit");
    told(uds_unit_state(&other, &state) == UDS_DONE && state.session == 1 && is_drained(&other), "and the other");
    uds_unit_close(&one);
    told(uds_unit_frame(&other, 0, 0x7A0, bytes_of("\x02\x10\x03"), 3) == UDS_DONE, "goes on");
    uds_unit_close(&other);
}

int main(int argc, char **argv) {
    static uint8_t config[1 << 16];
    FILE *file = argc > 1 ? fopen(argv[1], "rb") : NULL;
    size_t len = file ? fread(config, 1, sizeof config, file) : 0;
    if (file) fclose(file);
    test_faults();
    test_closed();
    test_frames(config, len);
    test_greatest(config, len);
    test_due(config, len);
    test_values(config, len);
    test_journal(config, len);
    test_29_bits();
    test_fd();
    test_two(config, len);
    printf("%d passed, %d failed\n", passed, failed);
    return failed != 0 || passed == 0;
}
