#include "uds_unit.h"
#include <stdio.h>

static const char setup[] =
    "tester = [{ name = \"A\", request = 0x7E0, response = 0x7E8 }, { name = \"B\", request = 0x7A0, response = 0x7A8 }]\n"
    "did = [{ id = 0xF195, value = \"0203\" }]\n";

/* Gives the unit a frame, and prints those that it sends. */
static void give(struct uds_unit *unit, uint64_t at_us, uint32_t id, const void *bytes, size_t len) {
    struct uds_reply reply;
    uds_unit_frame(unit, at_us, id, (const uint8_t *)bytes, len);
    while (uds_unit_next(unit, &reply) == UDS_DONE) {
        printf("%.3f s, tester %u: %03X#", (double)reply.at_us / 1e6, reply.tester, (unsigned)reply.id);
        for (int i = 0; i < reply.len; i++) printf("%02X", reply.bytes[i]);
        printf("\n");
    }
}

int main(void) {
    struct uds_unit unit = UDS_UNIT_INIT;
    uint8_t text[256];
    if (uds_unit_open(&unit, (const uint8_t *)setup, sizeof setup - 1, text, sizeof text) != UDS_DONE) {
        fputs((const char *)text, stderr);
        return 1;
    }
    give(&unit, 100000, 0x7E0, "\x02\x10\x03", 3);
    give(&unit, 200000, 0x7A0, "\x02\x10\x03", 3);
    give(&unit, 300000, 0x7A0, "\x03\x22\xF1\x95", 4);
    uds_unit_close(&unit);
    return 0;
}
