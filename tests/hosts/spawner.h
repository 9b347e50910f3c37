/* A main that sporks a call of itself and spoins: by beats with a token for every step a pool of it has eight threads, each the child of
 * the one before, and then they are joined from the last on. */
#include <stdint.h>

static const uint8_t spawner[] = {
    0x00, 0x00, 0x00, 0x24, 0x01, 0x01, 0x00, 0x00, 0x03, 0x01, 0x00, 0x00, 0x00, 0x00, 0x00, 0x00, 0x00, 0x04,
    0x01, 0x00, 0x00, 0x00, 0x00, 0x01, 0x00, 0x00, 0x05, 0x02, 0x02, 0x00, 0x00, 0x00, 0x00, 0x00, 0x03, 0x00,
};

/* The threads of these beats: the last beat but one ends main, and the last is refused with 16. There are 16 steps and 7 promotions. */
static const uint32_t spawner_threads[] = {0, 1, 2, 3, 4, 5, 6, 7, 7, 6, 5, 4, 3, 2, 1, 0, 0};
enum { SPAWNER_THREADS = sizeof spawner_threads / sizeof spawner_threads[0], SPAWNER_STEPS = 16, SPAWNER_PROMOTIONS = 7 };
