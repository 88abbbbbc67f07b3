/* Each allocation of the openings fails in turn, and no other call takes memory. Linked with
 * -Wl,--wrap=malloc,--wrap=realloc,--wrap=free. */
#include "parts.h"
#ifdef __cplusplus
extern "C" {
#endif
void *__real_malloc(size_t size);
void *__real_realloc(void *old, size_t size);
void __real_free(void *place);
void *__wrap_malloc(size_t size);
void *__wrap_realloc(void *old, size_t size);
void __wrap_free(void *place);
#ifdef __cplusplus
}
#endif

/* A text whose one segment has a file. */
static const char filed[] =
    "id = 'F'\nmax_cto = 8\nmax_dto = 8\n[[segment]]\naddress = 0\ndata_file = 'f'\n[signals]\naddress = 16\nlength = 1\n[[event]]\nname = 'e'\n";
static const uint8_t data[] = {1, 2, 3};
static const uint32_t size = sizeof data;

static uint8_t stored[XCP_STORED_BYTES];
static size_t stored_length;
static bool by_parts, by_data, counting;
static long asked, refused_one, blocks;

static bool refuses(void) { return counting && ++asked == refused_one; }

void *__wrap_malloc(size_t size) {
    if (refuses()) return NULL;
    void *place = __real_malloc(size);
    blocks += counting && place;
    return place;
}

void *__wrap_realloc(void *old, size_t size) {
    if (refuses()) return NULL;
    void *place = __real_realloc(old, size);
    blocks += counting && place && !old;
    return place;
}

void __wrap_free(void *place) {
    blocks -= counting && place;
    __real_free(place);
}

static uint8_t opens(xcp_slave *slave) {
    if (by_data && stored_length) return xcp_open_data_stored((const uint8_t *)filed, sizeof filed - 1, data, size, &size, 1, stored, stored_length, slave);
    if (by_data) return xcp_open_data((const uint8_t *)filed, sizeof filed - 1, data, size, &size, 1, slave);
    if (by_parts && stored_length) return xcp_open_parts_stored(&engine_parts, ENGINE_PAGES, stored, stored_length, slave);
    if (by_parts) return xcp_open_parts(&engine_parts, ENGINE_PAGES, slave);
    if (stored_length) return xcp_open_stored(layout, layout_length, stored, stored_length, slave);
    return xcp_open(layout, layout_length, slave);
}

/* Opens all, with the nth allocation refused, and closes it again. True while there was an nth one. */
static bool opens_without(long nth, long *told, long *done_without) {
    xcp_slave slave = XCP_CLOSED;
    xcp_reader reader = XCP_CLOSED;
    xcp_framer framer = XCP_CLOSED;
    asked = 0, refused_one = nth, blocks = 0, counting = true;
    uint8_t first = opens(&slave);
    uint8_t second = first ? first : xcp_reader_open(&slave, &reader);
    uint8_t third = first ? first : xcp_framer_open(xcp_max_cto(&slave), &framer);
    want(!slave.at == !!first && !reader.at == !!second && !framer.at == !!third, "a handle owns what was opened");
    want(!first || first == XCP_NO_MEMORY, "memory is what was refused");
    want(second == first, "a reader takes no memory");
    want(!third || third == XCP_NO_MEMORY, "memory is what was refused");
    xcp_framer_close(&framer);
    xcp_reader_close(&reader);
    xcp_close(&slave);
    counting = false;
    want(blocks == 0, "all blocks are freed");
    if (asked < nth) return false;
    ++*(third ? told : done_without);
    return true;
}

static long all_calls(long rounds) {
    static const uint8_t connects[] = {0xFF, 0}, pages[] = {0xEB, 0x83, 0, 1}, page[] = {0xEB, 0x83, 0, 0}, copy[] = {0xE4, 0, 0, 0, 1},
                         mta[] = {0xF6, 0, 0, 0, 0, 0, 8, 0}, block[] = {0xF5, 80}, put[] = {0xF0, 4, 1, 2, 3, 4}, sum[] = {0xF3, 0, 0, 0, 16, 0, 0, 0};
    static const struct { const uint8_t *bytes; size_t length; } commands[] = {{connects, 2}, {pages, 4}, {mta, 8}, {put, 6}, {mta, 8}, {block, 2}, {mta, 8}, {sum, 8}, {copy, 5}, {page, 4}};
    xcp_slave slave = XCP_CLOSED;
    xcp_reader reader = XCP_CLOSED;
    xcp_framer framer = XCP_CLOSED;
    xcp_answer answer = XCP_ANSWER_INIT;
    xcp_one_packet one = {0, {0}};
    xcp_one_frame frame = {0, {0}};
    xcp_fed fed = {0, 0, 0, 0, {0}};
    uint8_t image[XCP_IMAGE_BYTES];
    uint64_t number;
    want(!opens(&slave) && !xcp_framer_open(xcp_max_cto(&slave), &framer), "a slave and a framer");
    asked = 0, refused_one = 0, counting = true;
    want(!xcp_reader_open(&slave, &reader), "a reader");
    for (long i = 0; i < rounds; i++) {
        for (size_t k = 0; k < sizeof commands / sizeof *commands; k++) {
            xcp_command(&slave, commands[k].bytes, commands[k].length, &answer);
            for (uint8_t j = 0; xcp_packet(&answer, j, &one); j++) {
                xcp_frame((uint16_t)i, one.bytes, one.length, &frame);
                xcp_feed(&framer, frame.bytes, frame.length, &fed);
            }
        }
        xcp_time(&slave, (uint64_t)i, &answer), xcp_event(&slave, 0, image, 24, &answer);
        xcp_drain(&slave, &answer), xcp_finish_store(&slave, &answer);
        want(!xcp_stored_pages(&slave, stored, sizeof stored, &stored_length), "a file of stored pages");
        xcp_acquire(&reader), xcp_read(&reader, 0, image, sizeof image), xcp_number(&reader, &number);
        xcp_pending(&slave), xcp_held(&slave), xcp_hangup(&slave, &answer);
    }
    counting = false;
    xcp_reader_close(&reader), xcp_framer_close(&framer), xcp_close(&slave);
    return asked;
}

static void each_refused(const char *what) {
    long told = 0, done_without = 0, nth = 1;
    while (opens_without(nth, &told, &done_without)) nth++;
    fprintf(stderr, "%s: %ld allocations, %ld refusals told, %ld done without\n", what, nth - 1, told, done_without);
    printf("%s: each refused allocation is told or done without, and nothing is lost\n", what);
}

/* The file of the pages with which the slave opens. */
static void keep_pages(void) {
    xcp_slave slave = XCP_CLOSED;
    want(!opens(&slave) && !xcp_stored_pages(&slave, stored, sizeof stored, &stored_length), "a file of stored pages");
    xcp_close(&slave);
}

int main(int argc, char **argv) {
    read_layout(argc, argv);
    each_refused("by a text");
    printf("allocations of all other calls: %ld\n", all_calls(500));
    each_refused("with stored pages");
    by_parts = true, stored_length = 0;
    each_refused("by parts");
    printf("allocations of all other calls: %ld\n", all_calls(500));
    each_refused("by parts with stored pages");
    by_data = true, stored_length = 0;
    each_refused("by a text with a file");
    keep_pages();
    each_refused("by a text with a file and stored pages");
    return 0;
}
