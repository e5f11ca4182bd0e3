/* The smallest host: one user joins an empty book.
 *
 *     cc first.c $(pkg-config --cflags --libs fenstubble) -o first && ./first */
#include <fenstubble.h>
#include <stdio.h>

static uint16_t head[FENSTUBBLE_HEAD_LEN] = {FENSTUBBLE_MODE_DELTA}, orders[FENSTUBBLE_ORDERS_LEN], count;
static uint8_t iv[FENSTUBBLE_INNER_VERTICES_BYTES], it[FENSTUBBLE_INNER_TOKENS_BYTES];
static uint8_t ov[FENSTUBBLE_OUTER_VERTICES_BYTES], ot[FENSTUBBLE_OUTER_TOKENS_BYTES], rs[FENSTUBBLE_RESOURCES_BYTES];

int main(void) {
    uint16_t result = fenstubble_join(head, FENSTUBBLE_HEAD_LEN, iv, sizeof iv, it, sizeof it, ov, sizeof ov, ot, sizeof ot, rs, sizeof rs,
                                      orders, FENSTUBBLE_ORDERS_LEN, &count);
    printf("%s: %u orders, the first is %u %u %u\n", fenstubble_reason(result), count, orders[0], orders[1], orders[2]);
    return result != FENSTUBBLE_DONE;
}
