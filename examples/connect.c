/* The smallest use of the library: opens a slave by a layout file, as a tool connects to it, and prints what it answers.
 *
 *   cc connect.c $(pkg-config --cflags --libs billhookyew) -o connect && ./connect engine.toml
 */
#include <billhookyew.h>
#include <stdio.h>

int main(int argc, char **argv) {
    static uint8_t text[65536];
    static const uint8_t connect[] = {0xFF, 0x00};
    FILE *file = argc > 1 ? fopen(argv[1], "rb") : NULL;
    if (!file) {
        fprintf(stderr, "usage: %s LAYOUT\n", argv[0]);
        return 2;
    }
    size_t length = fread(text, 1, sizeof text, file);
    fclose(file);

    xcp_slave slave = XCP_CLOSED;
    uint8_t fault = xcp_open(text, length, &slave);
    if (fault != XCP_OPENED) {
        fprintf(stderr, "the slave isn't opened: fault %d\n", fault);
        return 1;
    }
    xcp_answer answer = XCP_ANSWER_INIT;
    xcp_one_packet packet = {0, {0}};
    bool done = xcp_command(&slave, connect, sizeof connect, &answer);
    for (uint8_t i = 0; done && xcp_packet(&answer, i, &packet); i++) {
        for (uint8_t at = 0; at < packet.length; at++) printf("%02X", packet.bytes[at]);
        printf("\n");
    }
    xcp_close(&slave);
    return 0;
}
