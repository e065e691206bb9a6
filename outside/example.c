/* Reads a frame with an order, damages it, and writes it again; then writes a frame with ozone, through cerduma.h. */
#include "cerduma.h"

#include <inttypes.h>
#include <stdio.h>
#include <string.h>

/* The cycles of the draft: of the hut-bound stream, which carries readings or ozone, and of orders. */
enum { HUT_BOUND = 11, ORDERS = 17 };

/* The hut's frame with the order "note 7", acknowledgement 1 and number 0. */
static void order(void) {
    uint8_t bytes[] = {0x4D, 0x48, 0x4C, 0, 1, 2, 2, 0, 1, 0, 0, 5, 3, 0, 0, 0, 7, 0x58, 0xB0};
    struct cerduma_order_frame frame;
    memset(&frame, 0, sizeof frame);

    struct cerduma_answer answer = cerduma_read_order(HUT_BOUND, ORDERS, bytes, sizeof bytes, &frame);
    printf("refusal %zu, %zu bytes: laden %d, ack %d, number %d, tag %d, value %" PRIu32 "\n", answer.refusal, answer.length,
           frame.laden, frame.ack, frame.number, frame.order.tag, frame.order.value);

    bytes[16] ^= 1;
    answer = cerduma_read_order(HUT_BOUND, ORDERS, bytes, sizeof bytes, &frame);
    printf("damaged: refusal %zu at byte %zu\n", answer.refusal, answer.place);
    bytes[16] ^= 1;

    uint8_t area[CERDUMA_LONGEST];
    answer = cerduma_write_order(HUT_BOUND, ORDERS, &frame, area, sizeof area);
    printf("written: %zu bytes, %s\n", answer.length, memcmp(area, bytes, sizeof bytes) == 0 ? "the same" : "others");

    area[0] = 0;
    answer = cerduma_write_order(HUT_BOUND, ORDERS, &frame, area, 18);
    printf("into 18 bytes: %zu bytes wanted, %s\n", answer.length, area[0] == 0 ? "none written" : "some written");

    frame.order.tag = 9;
    answer = cerduma_write_order(HUT_BOUND, ORDERS, &frame, area, sizeof area);
    printf("tag 9: refusal %zu\n", answer.refusal);
}

/* The mast's frame with ozone at 421.2 s: 12.34 mPa, the cell at -4.25 degrees. */
static void ozone(void) {
    struct cerduma_ozone_frame frame = {true, 3, 5, {4212, 1234, -425}};
    uint8_t area[CERDUMA_LONGEST];
    struct cerduma_answer answer = cerduma_write_ozone(ORDERS, HUT_BOUND, &frame, area, sizeof area);
    printf("ozone: %zu bytes, of which the element's are", answer.length);
    for (int i = 12; i < 20; i++) {
        printf(" %02X", area[i]);
    }
    printf("\n");

    struct cerduma_ozone_frame heard;
    memset(&heard, 0, sizeof heard);
    answer = cerduma_read_ozone(ORDERS, HUT_BOUND, area, answer.length, &heard);
    printf("heard: ack %d, number %d, %" PRIu32 ", %d, %d\n", heard.ack, heard.number, heard.ozone.time, heard.ozone.partial_pressure,
           heard.ozone.cell_temperature);

    frame.ozone.partial_pressure = 5001;
    answer = cerduma_write_ozone(ORDERS, HUT_BOUND, &frame, area, sizeof area);
    printf("50.01 mPa: refusal %zu\n", answer.refusal);
}

int main(void) {
    order();
    ozone();
    return 0;
}
