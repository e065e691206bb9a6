/* Cerduma's frames for C: the functions of libcerduma.a.
 *
 * Nothing checks these declarations against crates/cerduma/src, which they follow by hand. What a caller owes is in
 * docs/OUTSIDE.md; in short: pointers are not null and point to as many bytes as the length beside them says, or to one whole
 * struct; what is passed for writing overlaps nothing else that is passed; a bool is 0 or 1. No function takes memory of the heap.
 */
#ifndef CERDUMA_H
#define CERDUMA_H

#include <stdbool.h>
#include <stddef.h>
#include <stdint.h>

#ifdef __cplusplus
extern "C" {
#endif

/* The longest frame, in bytes. */
#define CERDUMA_LONGEST 32

/* What a call answers. The refusals of these functions (docs/REFUSALS.md has all):
 *
 *   10  reading: the bytes are not 14 to 32                               at byte 0
 *   11  reading: the first five bytes are not the mark and the version    at byte 0
 *   12  reading: the last two bytes are not the check                     at the check's first byte
 *   13  reading: tag, sender, number of a bare frame, width or length     at byte 5, 6, 9 or 11
 *   14  the acknowledgement or the number is not below its cycle          at byte 7 or 9
 *   15  reading: the element's bytes are none of the kind                 at byte 12 and on, the first field at fault
 *   17  writing: a field is out of range, or the tag is none              no place
 *
 * Where several apply, the one with the smallest number is told, and of equal numbers the lowest place. A refusal leaves the
 * caller's frame and area as they were. */
struct cerduma_answer {
    size_t refusal; /* the refusal's number; 0: none */
    size_t place;   /* the byte of the frame that is at fault; 0 too where there is no place, or no refusal */
    size_t length;  /* how many bytes the frame has that was read or written; 0 after a refusal */
};

/* What the balloon's instruments told. */
struct cerduma_reading {
    uint32_t time;       /* tenths of a second from release */
    int32_t height;      /* decimetres, -5000 to 500000 */
    int16_t temperature; /* hundredths of a degree Celsius, -12000 to 6000 */
    uint16_t humidity;   /* tenths of a percent, 0 to 1000 */
    uint16_t pressure;   /* tenths of a hectopascal, 0 to 11000 */
};

/* A frame of a hut-bound stream of readings. One that is not laden has been read with number 0 and a reading of zeros; where it is
 * written, its number and its reading are not looked at. The same goes for the element of every other frame below. */
struct cerduma_reading_frame {
    bool laden;      /* whether it carries a reading and its number */
    uint16_t ack;    /* the acknowledgement */
    uint16_t number; /* the number of the reading */
    struct cerduma_reading reading;
};

/* What the balloon's ozone cell told. */
struct cerduma_ozone {
    uint32_t time;             /* tenths of a second from release */
    uint16_t partial_pressure; /* hundredths of a millipascal, 0 to 5000 */
    int16_t cell_temperature;  /* hundredths of a degree Celsius, -5000 to 5000 */
};

/* A frame of a hut-bound stream of ozone. */
struct cerduma_ozone_frame {
    bool laden;      /* whether it carries ozone and its number */
    uint16_t ack;    /* the acknowledgement */
    uint16_t number; /* the number of the ozone */
    struct cerduma_ozone ozone;
};

/* How the air moves that the balloon drifts in. */
struct cerduma_wind {
    uint32_t time;      /* tenths of a second from release */
    uint16_t direction; /* hundredths of a degree, 0 to 35999 */
    uint16_t speed;     /* tenths of a metre a second, 0 to 2000 */
};

/* A frame of a hut-bound stream of winds. */
struct cerduma_wind_frame {
    bool laden;      /* whether it carries a wind and its number */
    uint16_t ack;    /* the acknowledgement */
    uint16_t number; /* the number of the wind */
    struct cerduma_wind wind;
};

/* What the hut asks of the mast. */
enum { CERDUMA_TUNE = 1, CERDUMA_POINT = 2, CERDUMA_NOTE = 3 };

/* Fields that the tag does not name have been read as 0; where an order is written they are not looked at. */
struct cerduma_order {
    uint8_t tag;        /* CERDUMA_TUNE, CERDUMA_POINT or CERDUMA_NOTE; any other is refused by 17 where it is written */
    uint32_t value;     /* tune: the frequency in kHz, 400150 to 406000; note: the number of a launch note, any */
    uint16_t bearing;   /* point: hundredths of a degree, 0 to 35999 */
    uint16_t elevation; /* point: hundredths of a degree, 0 to 9000 */
};

/* A frame of a mast-bound stream of orders. */
struct cerduma_order_frame {
    bool laden;      /* whether it carries an order and its number */
    uint16_t ack;    /* the acknowledgement */
    uint16_t number; /* the number of the order */
    struct cerduma_order order;
};

/* Reads the frame that the bytes are, as the hut hears it from the mast, into *frame. ack_cycle is the cycle of the stream that is
 * acknowledged (of orders), number_cycle that of the stream that the frame belongs to (of readings). */
struct cerduma_answer cerduma_read_reading(uint16_t ack_cycle, uint16_t number_cycle, const uint8_t *bytes, size_t length,
                                           struct cerduma_reading_frame *frame);

/* Writes a frame into the front of an area of so many bytes and answers how many the frame has. Where the area has fewer it stays
 * as it was: so an answered length that is above the area's says that nothing was written. CERDUMA_LONGEST bytes are enough for
 * any frame. */
struct cerduma_answer cerduma_write_reading(uint16_t ack_cycle, uint16_t number_cycle, const struct cerduma_reading_frame *frame,
                                            uint8_t *area, size_t length);

/* The same for ozone and for winds, which the mast sends too. A frame does not say of which kind its element is, and these two are
 * equally wide: a frame with the one can be read as a frame with the other. */
struct cerduma_answer cerduma_read_ozone(uint16_t ack_cycle, uint16_t number_cycle, const uint8_t *bytes, size_t length,
                                         struct cerduma_ozone_frame *frame);

struct cerduma_answer cerduma_write_ozone(uint16_t ack_cycle, uint16_t number_cycle, const struct cerduma_ozone_frame *frame,
                                          uint8_t *area, size_t length);

struct cerduma_answer cerduma_read_wind(uint16_t ack_cycle, uint16_t number_cycle, const uint8_t *bytes, size_t length,
                                        struct cerduma_wind_frame *frame);

struct cerduma_answer cerduma_write_wind(uint16_t ack_cycle, uint16_t number_cycle, const struct cerduma_wind_frame *frame,
                                         uint8_t *area, size_t length);

/* The same for orders, as the mast hears them from the hut; here ack_cycle is that of the hut-bound stream and number_cycle that of
 * orders. */
struct cerduma_answer cerduma_read_order(uint16_t ack_cycle, uint16_t number_cycle, const uint8_t *bytes, size_t length,
                                         struct cerduma_order_frame *frame);

struct cerduma_answer cerduma_write_order(uint16_t ack_cycle, uint16_t number_cycle, const struct cerduma_order_frame *frame,
                                          uint8_t *area, size_t length);

#ifdef __cplusplus
}
#endif

#endif
