/* For bench/c.sh: calls a function of the profile on frames of 64 bytes, as often as the first word says. It is compiled with the function's text, which
   is included as FUNCTION. Of the library there are the chunks of a frame alone. */
#include <stdint.h>
#include <stdio.h>
#include <stdlib.h>

static uint8_t frame[64];
static uint32_t place;

static void *packet_borrow(uint32_t size) {
    void *chunk = &frame[place];
    place += size;
    return chunk;
}

static void packet_return(void *chunk) {
    place = (uint32_t)((uint8_t *)chunk - frame);
}

#include FUNCTION

int main(int count, char **words) {
    if (count != 2) return 2;
    long frames = atol(words[1]);
    long sum = 0;
    for (int i = 0; i < 64; i++) frame[i] = (uint8_t)i;
    for (long n = 0; n < frames; n++) sum += nf_process(0, (uint64_t)n);
    printf("%ld\n", sum);
    (void)packet_borrow;
    (void)packet_return;
    return 0;
}
