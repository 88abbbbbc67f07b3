/* Six readers beside a writer: each image that is read is whole, and none is older than the one before. */
#include "common.h"

static xcp_slave slave = XCP_CLOSED;
static xcp_reader readers[XCP_READERS];
static int ended;
static struct { long reads, newer, torn, older; } counts[XCP_READERS];

static void *task(void *at) {
    xcp_reader *reader = (xcp_reader *)at;
    long reads = 0, newer = 0, torn = 0, older = 0;
    uint32_t first, now, last = 0;
    uint64_t number = 0, before = 0;
    uint8_t image[XCP_IMAGE_BYTES];
    xcp_acquire(reader);
    want(xcp_read(reader, 0, image, sizeof image), "an image is held");
    memcpy(&first, image, 4);
    while (!SEEN(ended)) {
        if (xcp_acquire(reader)) newer++;
        want(xcp_read(reader, 0, image, sizeof image) && xcp_number(reader, &number), "an image is held");
        reads++;
        memcpy(&now, image, 4);
        if (now == first && number == 0) now = 0;
        else if (memcmp(image, image + 4, 12)) torn++; /* each write puts one number four times */
        if (now < last || number < before) older++;
        last = now;
        before = number;
    }
    size_t i = (size_t)(reader - readers);
    counts[i].reads = reads, counts[i].newer = newer, counts[i].torn = torn, counts[i].older = older;
    return NULL;
}

int main(int argc, char **argv) {
    read_layout(argc, argv);
    uint32_t writes = argc > 2 ? (uint32_t)atol(argv[2]) : 1000000;
    want(xcp_open(layout, layout_length, &slave) == 0, "a slave");
    pthread_t threads[XCP_READERS];
    for (int i = 0; i < XCP_READERS; i++) want(xcp_reader_open(&slave, readers + i) == 0, "a reader");
    for (int i = 0; i < XCP_READERS; i++) start(threads + i, task, readers + i);
    xcp_answer answer = XCP_ANSWER_INIT;
    static const uint8_t connects[] = {0xFF, 0}, both_pages[] = {0xEB, 0x83, 0, 1};
    xcp_command(&slave, connects, sizeof connects, &answer);
    xcp_command(&slave, both_pages, sizeof both_pages, &answer);
    uint8_t packet[24] = {0xED, 16, 0, 0, 0, 0, 8, 0};
    for (uint32_t i = 1; i <= writes; i++) {
        for (int j = 0; j < 4; j++) memcpy(packet + 8 + 4 * j, &i, 4);
        want(xcp_command(&slave, packet, sizeof packet, &answer) && answer.bytes[0] == 0xFF, "a write is done");
    }
    TELL(ended, 1);
    long torn = 0, older = 0, reads = 0;
    for (int i = 0; i < XCP_READERS; i++) {
        pthread_join(threads[i], NULL);
        fprintf(stderr, "reader %d: %ld images read, %ld times a newer one\n", i, counts[i].reads, counts[i].newer);
        torn += counts[i].torn, older += counts[i].older, reads += counts[i].reads;
        xcp_reader_close(readers + i);
    }
    xcp_close(&slave);
    printf("six readers: torn %ld, older %ld\n", torn, older);
    return torn || older || !reads;
}
