/* Gives a unit the frames of standard input, a line each with the microseconds, the identifier and the bytes as hex, and
 * prints those that it sends: microseconds, tester, identifier, 1 where it is of CAN FD, bytes. A line without an identifier
 * lets time pass.
 * Usage: capture SETUP [rounds] < LINES. With rounds they are given so often, each time to a new unit, and nothing is
 * printed but the frames a second. */
#define _POSIX_C_SOURCE 200809L
#include "uds_unit.h"
#include <inttypes.h>
#include <stdio.h>
#include <stdlib.h>
#include <string.h>
#include <time.h>

struct heard {
    uint64_t at_us;
    uint32_t id;
    uint8_t len;
    bool is_frame;
    uint8_t bytes[64];
};

static struct heard *heard;
static size_t count;

static void read_lines(void) {
    char line[256];
    size_t room = 0;
    while (fgets(line, sizeof line, stdin)) {
        if (count == room) {
            room = room ? 2 * room : 1024;
            heard = (struct heard *)realloc(heard, room * sizeof *heard);
            if (!heard) exit(2);
        }
        struct heard *h = &heard[count++];
        char hex[132] = "";
        memset(h, 0, sizeof *h);
        int read = sscanf(line, "%" SCNu64 " %" SCNx32 " %131s", &h->at_us, &h->id, hex);
        h->is_frame = read >= 2;
        h->len = (uint8_t)(strlen(hex) / 2);
        for (int i = 0; i < h->len && i < 64; i++) {
            unsigned byte = 0;
            sscanf(hex + 2 * i, "%2x", &byte);
            h->bytes[i] = (uint8_t)byte;
        }
    }
}

static uint64_t play(const uint8_t *config, size_t len, bool is_told) {
    struct uds_unit unit = UDS_UNIT_INIT;
    struct uds_reply r;
    uint8_t text[256];
    uint64_t sent = 0;
    if (uds_unit_open(&unit, config, len, text, sizeof text) != UDS_DONE) {
        fputs((const char *)text, stderr);
        exit(2);
    }
    for (size_t i = 0; i < count; i++) {
        const struct heard *h = &heard[i];
        uint32_t status = h->is_frame ? uds_unit_frame(&unit, h->at_us, h->id, h->bytes, h->len) : uds_unit_pass(&unit, h->at_us);
        if (status != UDS_DONE) exit(3);
        while (uds_unit_next(&unit, &r) == UDS_DONE) {
            sent++;
            if (!is_told) continue;
            printf("%" PRIu64 " %u %03" PRIX32 " %u ", r.at_us, r.tester, r.id, r.fd);
            for (int k = 0; k < r.len; k++) printf("%02X", r.bytes[k]);
            printf("\n");
        }
    }
    uds_unit_close(&unit);
    return sent;
}

int main(int argc, char **argv) {
    static uint8_t config[1 << 20];
    FILE *file = argc > 1 ? fopen(argv[1], "rb") : NULL;
    if (!file) return 2;
    size_t len = fread(config, 1, sizeof config, file);
    fclose(file);
    read_lines();
    if (argc < 3) {
        play(config, len, true);
        return 0;
    }
    struct timespec begun, ended;
    uint64_t sent = 0;
    const int rounds = atoi(argv[2]);
    clock_gettime(CLOCK_PROCESS_CPUTIME_ID, &begun);
    for (int i = 0; i < rounds; i++) sent += play(config, len, false);
    clock_gettime(CLOCK_PROCESS_CPUTIME_ID, &ended);
    double took = (double)(ended.tv_sec - begun.tv_sec) + (double)(ended.tv_nsec - begun.tv_nsec) * 1e-9;
    printf("%.0f %" PRIu64 "\n", rounds * (double)count / took, sent);
    return 0;
}
