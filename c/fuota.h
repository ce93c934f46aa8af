/* Firmware update over the air for LoRaWAN (TS003, TS004, TS005 and TS006, 1.0.0): a receiver of one file at a time, a
 * whole device, the server of a campaign, payloads as text, and the program as a call. docs/SAMPLES.md says how to build
 * and link it.
 *
 * Each call is proved: with any argument that its types allow it does what the README.md of crates/fuota_c,
 * crates/fuota_server_c and crates/fuota_run_c say, nothing undefined, and returns. For processors of 32 bits the proved
 * code is translated, which nothing proves: docs/NARROW.md says how, and why it means the same.
 * Memory is taken by the calls _new and _restore alone, and given back by _free, and by _new and _restore of what was
 * there; fuota_decode and fuota_run take memory and give it back before they return.
 * What C owes is written here, and nothing checks it:
 *   - a handle begins as { 0 }, as by its ..._NONE. It is not copied, and what is in it is neither read nor written by
 *     C;
 *   - one call at a time uses a handle, and all calls on one handle come from one thread: that an object may go to
 *     another thread, under a lock too, is not proved;
 *   - a pointer is to a value of its type, or to so many as the number after it says, set before the call even
 *     where the call only writes there; nothing else reads or writes there during the call. It is not NULL; but
 *     in C and C++, by the functions at the end of this header, one to bytes may be NULL where their number is 0;
 *   - a bool is 0 or 1;
 *   - malloc, realloc and free come from one allocator, and align a block to each power of two up to 16 that divides
 *     its size;
 *   - no call comes from a signal handler, or from the forked child of a process with threads;
 *   - there is stack for the call: docs/SAMPLES.md says how much. fuota_run takes the most, up to 125 KB, and of the others
 *     fuota_server_restore, some 7 KB, for which a thread of Linux wants 16 KB.
 * Numbers in structs are in the byte order of the machine; payloads, keys and saved bytes are bytes in their order.
 */
#ifndef FUOTA_H
#define FUOTA_H

#include <stdbool.h>
#include <stddef.h>
#include <stdint.h>

#ifdef __cplusplus
extern "C" {
#endif

/* The version of this header. A library with another MAJOR, or MINOR while MAJOR is 0, is another interface. */
#define FUOTA_VERSION_MAJOR 0
#define FUOTA_VERSION_MINOR 1
#define FUOTA_VERSION_PATCH 0

/* That of the library: MAJOR * 65536 + MINOR * 256 + PATCH. */
uint32_t fuota_version(void);

/* A number of bytes. It has 64 bits on each processor, as the proved code counts, and so has a handle; so this header is the
 * same for processors of 32 bits. A program there widens what it hands in as C does by itself, and prints what it gets as
 * PRIu64, or as an unsigned after a cast. No area has 2^31 bytes or more there: such a length is never handed in (an offset
 * may be any number), and where the library itself would need such a block, it answers FUOTA_NO_MEMORY. */
typedef uint64_t fuota_length;

/* The bits of a pointer on the processor for which the library was built: 64, or 32. This call alone is not of the proved
 * code, which does not know. */
uint32_t fuota_pointer_bits(void);

/* What a call answers, where it says nothing else. After each answer but FUOTA_DONE what C handed in to be written to
 * is as it was, unless the call says otherwise. */
enum fuota_answer {
    FUOTA_DONE = 0,
    FUOTA_NOTHING = 1,   /* there is nothing to tell, to take or to send */
    FUOTA_NO_OBJECT = 2, /* the handle has no receiver, device or server */
    FUOTA_RANGE = 3,     /* an argument is out of its range; nothing changed */
    FUOTA_NO_ROOM = 4,   /* the text has no room; its length alone was written */
    FUOTA_NO_MEMORY = 5, /* there was not enough memory */
    FUOTA_REFUSED = 6,   /* the payload spells no commands, or the image is no image file; nothing acted */
    FUOTA_DEAF = 7,      /* the device did not hear the payload */
    FUOTA_FULL = 8,      /* the device would hold more than 8 uplinks; nothing acted */
    FUOTA_SPENT = 9,     /* the frame counts of the group are spent; nothing changed */
    FUOTA_CORRUPT = 10,  /* the saved bytes are of no object that is so set up */
    FUOTA_FOREIGN = 11,  /* the bytes are no frame of the group that the device hears */
    FUOTA_DOWN = 12,     /* the sessions of the device are down until it gets power; nothing changed */
    FUOTA_FLASH = 13     /* the flash has something at a session's place that is no session's */
};

/* A value of enum fuota_answer. */
typedef uint8_t fuota_result;

/* ---- What a session shows ---- */

/* What is known of the file. */
enum fuota_verdict {
    FUOTA_RECEIVING = 0,
    FUOTA_COMPLETE = 1, /* one file alone fits the fragments heard */
    FUOTA_NO_ROWS = 2,  /* there were more independent coded fragments than rows */
    FUOTA_CONFLICT = 3  /* no file fits */
};

typedef struct fuota_view {
    uint64_t mark;            /* of the fragment that decided the session; 0 while it receives */
    fuota_length file_length; /* bytes of the whole file; 0 where none is whole */
    uint16_t received;        /* fragments heard, repeats included, at most 16,383 */
    uint16_t missing;         /* pieces still to be gained */
    uint8_t verdict;          /* a value of enum fuota_verdict */
} fuota_view;

/* ---- A receiver of one file at a time (TS004), with session 0 alone ---- */

typedef struct fuota_receiver {
    uint64_t at;
} fuota_receiver;

#define FUOTA_RECEIVER_NONE { 0 }

/* What a receiver has room for, and each session of a device: pieces, bytes of a piece, and rows, so many lost pieces as
 * coded fragments can make good. docs/SAMPLES.md says what memory each takes. */
enum fuota_size {
    FUOTA_SIZE_SMALL = 0,  /* 256 of 48 bytes, 16 rows */
    FUOTA_SIZE_MIDDLE = 1, /* 1,024 of 48 bytes, 64 rows */
    FUOTA_SIZE_LARGE = 2   /* 4,096, of 64 bytes in a receiver, of up to 239 in a device, 256 rows */
};

/* What fuota_receiver_set_up answers where the handle has no receiver. */
#define FUOTA_NO_RECEIVER 255

/* The fields of FragSessionSetupReq. */
typedef struct fuota_setup {
    uint32_t descriptor; /* any */
    uint16_t nb_frag;    /* pieces, from 1 */
    uint8_t frag_size;   /* bytes of a piece, from 1; longer than the size says where there are fewer pieces, as long as
                          * they and the rows have room */
    uint8_t index;       /* 0 */
    uint8_t mask;        /* multicast groups that feed the session: bit 0 to 3; the others say nothing */
    uint8_t algo;        /* 0 */
    uint8_t delay;       /* BlockAckDelay; any value, it is for who sends the answer */
    uint8_t padding;     /* zero bytes at the end of the last piece, fewer than frag_size */
} fuota_setup;

/* Frees what was there, and puts a new receiver of a size, a value of enum fuota_size, with no session, into the
 * handle: FUOTA_DONE; FUOTA_RANGE at another size, or FUOTA_NO_MEMORY, and then there is no receiver. */
fuota_result fuota_receiver_new(fuota_receiver *handle, uint8_t size);

/* Frees the receiver, if there is one; the handle has none afterwards, and may be freed again. */
void fuota_receiver_free(fuota_receiver *handle);

/* FragSessionSetupReq: all refusal bits of its answer (1 coding, 2 no room, 4 no such index, 8 another descriptor), 0
 * where the session lives; FUOTA_NO_RECEIVER. */
uint8_t fuota_receiver_set_up(fuota_receiver *handle, const fuota_setup *setup);

/* A payload of port 201 that came by unicast: a DataFragment of session 0 is heard, and anything else passed over;
 * `mark` is the caller's own. FUOTA_DONE; FUOTA_RANGE at more than 242 bytes; FUOTA_NO_OBJECT. */
fuota_result fuota_receiver_hear(fuota_receiver *handle, const uint8_t *payload, fuota_length length, uint64_t mark);

/* What the session shows: FUOTA_DONE; FUOTA_NOTHING without a session; FUOTA_NO_OBJECT. */
fuota_result fuota_receiver_view(fuota_receiver *handle, fuota_view *out);

/* Copies bytes of the whole file, from the offset on, as many as there are and have room; their count, 0 also
 * without a receiver. */
fuota_length fuota_receiver_file(fuota_receiver *handle, fuota_length offset, uint8_t *into, fuota_length room);

/* FragSessionStatusAns, as the 5 bytes to send, at the front of `answer`; their count, and 0 where none is to be
 * sent, where they have no room, or without a receiver. `all` is the request's Participants bit. */
fuota_length fuota_receiver_status(fuota_receiver *handle, bool all, uint8_t *answer, fuota_length room);

/* ---- A device of all four packages ---- */

typedef struct fuota_device {
    uint64_t at;
} fuota_device;

#define FUOTA_DEVICE_NONE { 0 }

typedef struct fuota_config {
    uint32_t hw;         /* hardware version */
    uint32_t offset;     /* seconds that its clock is ahead of true time */
    uint32_t area;       /* bytes of the file area of a session, 1 to 262,382 */
    uint32_t descriptor; /* the one descriptor that sessions take, where has_descriptor */
    uint16_t rows;       /* rows for the coded fragments of a session, 0 to 256 */
    uint8_t formats;     /* image formats that it knows: 1 (format 1 alone) or 2 (both) */
    uint8_t sessions;    /* session indices, 1 to 4 */
    uint8_t groups;      /* multicast groups, 1 to 4 */
    bool has_descriptor;
    bool is_class_c;     /* it always hears unicast payloads; else in the two windows after its uplink */
    bool is_v11;         /* the key is AppKey of LoRaWAN 1.1; else GenAppKey of LoRaWAN 1.0 */
    uint8_t key[16];     /* in the order of the standard's keys */
} fuota_config;

/* When and how a payload comes. */
typedef struct fuota_arrival {
    uint64_t t;     /* ms of true time, at most 4,294,967,295,999; docs/SAMPLES.md says where from */
    uint64_t mark;  /* the caller's own: the number at which a verdict is marked */
    uint32_t word;  /* 32 random bits */
    uint32_t addr;  /* McAddr, and frame count, where is_group */
    uint32_t count;
    bool is_group;  /* by a multicast group; else by unicast */
} fuota_arrival;

typedef struct fuota_uplink {
    uint64_t due;         /* ms of true time */
    fuota_length length;  /* bytes of payload */
    uint8_t port;
    uint8_t payload[242]; /* in the order in which they are sent; the bytes after `length` are as they were */
} fuota_uplink;

/* Frees what was there, and puts a new device into the handle, with all memory that it will ever need: FUOTA_DONE;
 * FUOTA_RANGE where a number of the configuration is out of range, or the size none of fuota_size, or FUOTA_NO_MEMORY,
 * and then there is no device. Its sessions have room for files of that size within the area; a setup of more pieces or
 * rows is refused with bit 2, so `rows` is at most those of the size for files of any pieces. */
fuota_result fuota_device_new(fuota_device *handle, uint8_t size, const fuota_config *config);

/* Frees the device, if there is one; the handle has none afterwards, and may be freed again. */
void fuota_device_free(fuota_device *handle);

/* A payload comes: FUOTA_DONE, where its commands acted; FUOTA_DEAF, FUOTA_REFUSED, FUOTA_FULL, where they did not,
 * which is counted; FUOTA_DOWN where its sessions are; FUOTA_RANGE at more than 242 bytes, and at a `t` out of range;
 * FUOTA_NO_OBJECT. A reboot that is due at `t` is carried out before the payload and after it, also where its commands
 * do not act, but not at FUOTA_DOWN and FUOTA_RANGE. */
fuota_result fuota_device_deliver(fuota_device *handle, uint8_t port, const uint8_t *payload, fuota_length length,
                                  const fuota_arrival *arrival);

/* Bytes that its radio heard come at `t` ms of true time, with 32 random bits and the caller's own mark. A multicast
 * frame of the group that is heard is answered as its payload by fuota_device_deliver; FUOTA_FOREIGN at other bytes,
 * which are counted as deaf; FUOTA_DOWN where its sessions are; FUOTA_RANGE at a `t` out of range; FUOTA_NO_OBJECT. A
 * reboot that is due at `t` is carried out, but not at FUOTA_DOWN and FUOTA_RANGE. */
fuota_result fuota_device_radio(fuota_device *handle, const uint8_t *bytes, fuota_length length, uint64_t t,
                                uint32_t word, uint64_t mark);

/* The device wakes at `t` ms of true time and asks for the time: FUOTA_DONE; FUOTA_FULL where it holds 8 uplinks;
 * FUOTA_RANGE at a `t` out of range; FUOTA_NO_OBJECT. A reboot that is due at `t` is carried out before and after,
 * but not at FUOTA_RANGE. */
fuota_result fuota_device_wake(fuota_device *handle, uint64_t t);

/* Takes the oldest uplink that is held: FUOTA_DONE; FUOTA_NOTHING where none is; FUOTA_NO_OBJECT. */
fuota_result fuota_device_take_uplink(fuota_device *handle, fuota_uplink *out);

/* What the session of an index, 0 to 3, shows: FUOTA_DONE; FUOTA_NOTHING without a session, and where they are down;
 * FUOTA_RANGE at another index; FUOTA_NO_OBJECT. */
fuota_result fuota_device_view(fuota_device *handle, uint8_t index, fuota_view *out);

/* Copies bytes of the whole file of the session of an index, from the offset on, as many as there are and have room;
 * their count, 0 also at another index and without a device. */
fuota_length fuota_device_file(fuota_device *handle, uint8_t index, fuota_length offset, uint8_t *into,
                               fuota_length room);

/* The version of the firmware that runs, 0 at first, and another after a reboot (deliver, wake) into a received
 * image: FUOTA_DONE; FUOTA_NO_OBJECT. */
fuota_result fuota_device_running(fuota_device *handle, uint32_t *version);

/* Payloads that did not act, and fragments that no session heard. */
typedef struct fuota_counts {
    uint64_t deaf;    /* payloads that were not heard, and bytes that were no frame for it */
    uint64_t refused; /* payloads that spell no commands */
    uint64_t full;    /* payloads whose answers had no room */
    uint64_t dropped; /* fragments that no session heard */
} fuota_counts;

/* Its counters: FUOTA_DONE; FUOTA_NO_OBJECT. */
fuota_result fuota_device_counts(fuota_device *handle, fuota_counts *out);

/* What was received to run next is to the device. */
enum fuota_image {
    FUOTA_IMAGE_NONE = 0,         /* there is none */
    FUOTA_IMAGE_CORRUPT = 1,      /* no image file */
    FUOTA_IMAGE_INCOMPATIBLE = 2, /* an image file for other hardware */
    FUOTA_IMAGE_VALID = 3         /* it runs after the reboot */
};

typedef struct fuota_next {
    uint32_t version; /* at FUOTA_IMAGE_VALID; else 0 */
    uint8_t state;    /* a value of enum fuota_image */
} fuota_next;

/* FUOTA_DONE; FUOTA_NO_OBJECT. */
fuota_result fuota_device_next(fuota_device *handle, fuota_next *out);

/* Both image formats are known from now on, and what was received to run next is read again: FUOTA_DONE;
 * FUOTA_NO_OBJECT. */
fuota_result fuota_device_raise(fuota_device *handle);

/* The bytes that a device saves. */
#define FUOTA_SAVED_DEVICE 492

/* What the device knows, as bytes for fuota_device_restore, at the front of `into`; their count, and 0 where they
 * have no room, or without a device. They are saved after a call, before its uplinks go out. They hold the keys of
 * its groups. */
fuota_length fuota_device_save(fuota_device *handle, uint8_t *into, fuota_length room);

/* Copies bytes of the image file that was received to run next, or else of the one that runs, from the offset on,
 * as many as there are and have room; their count, 0 also where there is no file and without a device. */
fuota_length fuota_device_firmware(fuota_device *handle, bool is_next, fuota_length offset, uint8_t *into,
                                   fuota_length room);

/* Frees what was there, and puts the device of this configuration that saved these bytes into the handle, with the
 * files that ran and that was received to run next, each of length 0 where there was none: FUOTA_DONE. Its sessions
 * lay in memory, and are gone; so it saves the same bytes again but for the four that say whose file was whole, which
 * are 0 (docs/FORMATS.md), and the digest. There is no device after FUOTA_RANGE and FUOTA_NO_MEMORY, as of
 * fuota_device_new, and after FUOTA_CORRUPT, where no such device saved them. */
fuota_result fuota_device_restore(fuota_device *handle, uint8_t size, const fuota_config *config, const uint8_t *saved,
                                  fuota_length saved_length, const uint8_t *running, fuota_length running_length,
                                  const uint8_t *next, fuota_length next_length);

/* ---- A device whose sessions are held in a flash ---- */

/* Its flash is bytes of the library's own, at least four spans; C hands them in, and copies them out between two calls
 * to keep them with what fuota_device_save gives, all or none of both. A device restored of them goes on in each
 * session. A new flash is zeros. A session of n pieces of s bytes (NbFrag and FragSize of its setup) takes
 * 24,640 + (2 n + 1)(10 + s) bytes of its span (docs/FORMATS.md, "Session in flash"): the least span is that of the
 * longest file that the device is to take, and a setup that takes more is refused with bit 1 (no memory). In one of
 * FUOTA_LONGEST_SPAN each session fits; one below 24,640 is FUOTA_RANGE. */
#define FUOTA_LONGEST_SPAN 631573

/* As fuota_device_new, of a device whose sessions are held in a flash of these bytes, each in `span` of them. They are
 * down until fuota_device_power. FUOTA_RANGE also where the flash has no room for four spans. */
fuota_result fuota_device_new_in_flash(fuota_device *handle, uint8_t size, const fuota_config *config, uint32_t span,
                                       const uint8_t *flash, fuota_length flash_length);

/* As fuota_device_restore, of such a device. Its sessions are in the flash, and down until fuota_device_power. */
fuota_result fuota_device_restore_in_flash(fuota_device *handle, uint8_t size, const fuota_config *config, uint32_t span,
                                           const uint8_t *flash, fuota_length flash_length, const uint8_t *saved,
                                           fuota_length saved_length, const uint8_t *running,
                                           fuota_length running_length, const uint8_t *next,
                                           fuota_length next_length);

/* Opens the sessions that are held in the flash, and offers each file that is whole, and was not when the device was last
 * up, to next: FUOTA_DONE; FUOTA_FLASH, and then they are down; FUOTA_NOTHING where sessions are in memory, and nothing
 * changes; FUOTA_NO_OBJECT. */
fuota_result fuota_device_power(fuota_device *handle);

/* Copies bytes of the flash, from the offset on, as many as there are and have room; their count, 0 also where sessions
 * are in memory and without a device. */
fuota_length fuota_device_flash(fuota_device *handle, fuota_length offset, uint8_t *into, fuota_length room);

/* ---- The server of a campaign ---- */

typedef struct fuota_server {
    uint64_t at;
} fuota_server;

#define FUOTA_SERVER_NONE { 0 }

/* A device of a plan, by its key. */
typedef struct fuota_plan_device {
    uint8_t key[16]; /* GenAppKey of LoRaWAN 1.0, or AppKey of LoRaWAN 1.1 */
    bool is_v11;     /* which */
} fuota_plan_device;

/* What a server is to do, but for its devices. */
typedef struct fuota_plan {
    uint32_t addr;       /* McAddr, where has_group */
    uint32_t min, max;   /* the first frame count that is used, and the first that isn't any more, above it; where
                          * has_group */
    uint32_t start;      /* SessionTime, where has_window, which goes with a group */
    uint32_t freq;       /* DLFrequ, in units of 100 Hz, below 2^24 */
    uint16_t parity;     /* coded fragments, 0 to 512 */
    uint8_t frag_size;   /* bytes of a piece, 1 to 239; at most 4,096 pieces */
    uint8_t timeout;     /* TimeOut, 0 to 15 */
    uint8_t dr;          /* DR */
    uint8_t periodicity; /* 0 to 7, where is_class_b */
    uint8_t index;       /* FragIndex of the session on each device, 0 to 3 */
    uint8_t id;          /* McGroupID on each device, 0 to 3, where has_group */
    bool has_group, has_window; /* both, or neither */
    bool is_class_b;     /* the window is of class B; else of class C */
    uint8_t key[16];     /* McKey */
} fuota_plan;

/* A field of a plan that is wrong. They are looked at in this order: frag_size, parity, index, the group, the window,
 * the devices. FUOTA_FIELD_WINDOW is also a group without a window, and a window without a group. */
enum fuota_field {
    FUOTA_FIELD_FRAG_SIZE = 1,
    FUOTA_FIELD_PARITY = 2,
    FUOTA_FIELD_GROUP = 3,
    FUOTA_FIELD_WINDOW = 4,
    FUOTA_FIELD_DEVICES = 5,
    FUOTA_FIELD_INDEX = 6
};

/* A payload on its way to devices. */
typedef struct fuota_down {
    fuota_length length;  /* bytes of payload */
    uint32_t addr;        /* McAddr, and frame count, where is_group; else as they were */
    uint32_t count;
    uint8_t port;
    bool is_group;        /* to a multicast group; else by unicast */
    uint8_t payload[242]; /* in the order in which they are sent; the bytes after `length` are as they were */
} fuota_down;

/* The arrival of a payload of a server at a device, at `t` ms of true time, with 32 random bits and a mark. */
static inline fuota_arrival fuota_arrival_of(const fuota_down *down, uint64_t t, uint32_t word, uint64_t mark) {
    fuota_arrival arrival = {t, mark, word, 0, 0, down->is_group};
    if (down->is_group) {
        arrival.addr = down->addr;
        arrival.count = down->count;
    }
    return arrival;
}

/* Where a device stands. */
enum fuota_stage_kind {
    FUOTA_AT = 0,      /* the answer to the request is what moves it on */
    FUOTA_UPDATED = 1, /* it runs the campaign's image */
    FUOTA_STOPPED = 2  /* its answer to the request refused the campaign, with these bits */
};

enum fuota_request {
    FUOTA_REQUEST_VERSION = 1,
    FUOTA_REQUEST_GROUP = 2,
    FUOTA_REQUEST_FRAGMENTS = 3,
    FUOTA_REQUEST_WINDOW = 4,
    FUOTA_REQUEST_STATUS = 5,
    FUOTA_REQUEST_IMAGE = 6,
    FUOTA_REQUEST_REBOOT = 7,
    FUOTA_REQUEST_CHECK = 8
};

typedef struct fuota_stage {
    uint8_t stage;   /* a value of enum fuota_stage_kind */
    uint8_t request; /* a value of enum fuota_request; 0 at FUOTA_UPDATED */
    uint8_t bits;    /* at FUOTA_STOPPED; else 0 */
} fuota_stage;

/* Frees what was there, and puts a server at the start of a campaign into the handle: FUOTA_DONE. There is no
 * server after FUOTA_REFUSED, where the image is no image file; FUOTA_RANGE, where a field of the plan is wrong,
 * with the first of them, as enum fuota_field says, in *field; and FUOTA_NO_MEMORY. The devices, 1 to 64, are
 * numbered from 1. */
fuota_result fuota_server_new(fuota_server *handle, const fuota_plan *plan, const fuota_plan_device *devices,
                              fuota_length devices_length, const uint8_t *image, fuota_length image_length,
                              uint8_t *field);

/* Frees the server, if there is one; the handle has none afterwards, and may be freed again. */
void fuota_server_free(fuota_server *handle);

/* The next fragment to all devices: FUOTA_DONE; FUOTA_NOTHING where all were sent; FUOTA_SPENT; FUOTA_NO_OBJECT. */
fuota_result fuota_server_next_fragment(fuota_server *handle, fuota_down *out);

/* FragSessionStatusReq to all devices, answered by those that miss a fragment: FUOTA_DONE; FUOTA_SPENT;
 * FUOTA_NO_OBJECT. */
fuota_result fuota_server_status_all(fuota_server *handle, fuota_down *out);

/* The most bytes of a frame. */
#define FUOTA_MAX_FRAME 255

/* A payload to the group as its multicast frame of LoRaWAN 1.0.x, at the front of `into`; their count, and 0 where
 * the payload is not to the plan's group, has more than 242 bytes or is for port 0, where the frame has no room, or
 * without a server. A network server that is given payloads makes the frames itself. */
fuota_length fuota_server_frame(fuota_server *handle, const fuota_down *down, uint8_t *into, fuota_length room);

/* What the server asks of a device now, by unicast; it is sent again when no answer comes: FUOTA_DONE;
 * FUOTA_NOTHING where it is updated or refused; FUOTA_RANGE where the plan has no device of this number, 1 to 64;
 * FUOTA_NO_OBJECT. */
fuota_result fuota_server_ask(fuota_server *handle, uint8_t dev, fuota_down *out);

/* An uplink of a device came on a port, at `t` ms of GPS time, and moves its stage: FUOTA_DONE, with an answer to
 * send to it; FUOTA_NOTHING, where none is due; FUOTA_REFUSED, where the payload spells no commands; FUOTA_RANGE,
 * where the plan has no such device or the payload more than 242 bytes, and then nothing changes; FUOTA_NO_OBJECT. */
fuota_result fuota_server_uplink(fuota_server *handle, uint8_t dev, uint8_t port, const uint8_t *payload,
                                 fuota_length length, uint64_t t, fuota_down *out);

/* Where a device stands: FUOTA_DONE; FUOTA_RANGE where the plan has no such device; FUOTA_NO_OBJECT. */
fuota_result fuota_server_ledger(fuota_server *handle, uint8_t dev, fuota_stage *out);

/* What a device told in its last FragSessionStatusAns for the campaign's session. */
typedef struct fuota_status {
    uint16_t received; /* fragments that it heard, repeats included, at most 16,383 */
    uint8_t missing;   /* pieces that it missed, at most 255, which stands for more too */
    bool norows;       /* it had too little memory for the matrix */
} fuota_status;

/* FUOTA_DONE; FUOTA_NOTHING where it told nothing; FUOTA_RANGE where the plan has no such device; FUOTA_NO_OBJECT. */
fuota_result fuota_server_last_status(fuota_server *handle, uint8_t dev, fuota_status *out);

/* The number of the fragment that fuota_server_next_fragment sends next, from 1; where all were sent, one more than that
 * of the last: FUOTA_DONE; FUOTA_NO_OBJECT. */
fuota_result fuota_server_fragment_number(fuota_server *handle, uint16_t *number);

/* The group's next frame count, from its `min` to its `max`, where none is left; 0 without a group: FUOTA_DONE;
 * FUOTA_NO_OBJECT. */
fuota_result fuota_server_frame_count(fuota_server *handle, uint32_t *count);

/* McAppSKey and McNetSKey (LoRaWAN 1.1: McNwkSKey) of a group with this McKey and McAddr: what a network server is given for
 * the group, in the place of McKey. All keys are in the order of the standard's. */
void fuota_mc_app_s_key(const uint8_t mc_key[16], uint32_t addr, uint8_t s_key[16]);
void fuota_mc_net_s_key(const uint8_t mc_key[16], uint32_t addr, uint8_t s_key[16]);

/* Requests to a device by unicast that no campaign makes by itself: it deletes the session of an index, the group of an
 * id, or the image of a firmware version, which it has received and does not run; or it asks for the time, `count`
 * times. FUOTA_DONE; FUOTA_RANGE at an index or id above 3 and a count above 7, and then nothing is written. */
fuota_result fuota_frag_session_delete(uint8_t index, fuota_down *out);
fuota_result fuota_mc_group_delete(uint8_t id, fuota_down *out);
fuota_result fuota_dev_delete_image(uint32_t version, fuota_down *out);
fuota_result fuota_force_device_resync(uint8_t count, fuota_down *out);

/* The most bytes that a server saves: 44, and six for each of 64 devices. */
#define FUOTA_SAVED_SERVER 428

/* What the server knows, as bytes for fuota_server_restore, at the front of `into`; their count, and 0 where they
 * have no room, or without a server. They are saved before the payload of a call goes out. There is no key among
 * them. */
fuota_length fuota_server_save(fuota_server *handle, uint8_t *into, fuota_length room);

/* Frees what was there, and puts the server of this plan, devices and image that saved these bytes into the handle:
 * as fuota_server_new puts one at its start, and answered as there; FUOTA_CORRUPT where no such server saved them. */
fuota_result fuota_server_restore(fuota_server *handle, const fuota_plan *plan, const fuota_plan_device *devices,
                                  fuota_length devices_length, const uint8_t *image, fuota_length image_length,
                                  const uint8_t *saved, fuota_length saved_length, uint8_t *field);

/* ---- Payloads as text ---- */

enum fuota_why {
    FUOTA_WHY_PORT = 0,    /* the port carries no package */
    FUOTA_WHY_UNKNOWN = 1, /* no command has this identifier */
    FUOTA_WHY_SHORT = 2,   /* the payload ends within a command */
    FUOTA_WHY_TOO_LONG = 3 /* it has more than 242 bytes, which is FUOTA_RANGE in C, and so never told */
};

/* A field is written at the answers that it names, and else as it was. */
typedef struct fuota_decoded {
    fuota_length length; /* bytes of the text, at FUOTA_DONE and FUOTA_NO_ROOM */
    uint16_t at;         /* the byte at which reading stops, from 0, at FUOTA_REFUSED */
    uint8_t why;         /* a value of enum fuota_why, at FUOTA_REFUSED */
} fuota_decoded;

/* The commands of a payload of port 200 to 203, each on a line, at the front of `text`, with no 0 after it:
 * FUOTA_DONE, and out->length bytes of text; FUOTA_REFUSED; FUOTA_NO_ROOM, where the text has more than `room`
 * bytes, and its length is in out->length; FUOTA_RANGE at more than 242 bytes of payload; FUOTA_NO_MEMORY. `up`
 * says which way the payload goes: from a device, or to one. */
fuota_result fuota_decode(uint8_t port, bool up, const uint8_t *payload, fuota_length length, uint8_t *text,
                          fuota_length room, fuota_decoded *out);

/* ---- The program as a call ---- */

/* Bytes that stand in a struct: an address, by fuota_at, and after it their number. The address has 64 bits on each
 * processor, and is not 0, even where the number is; so { 0 } is no such struct. */
typedef struct fuota_word {
    uint64_t bytes; /* UTF-8, without a 0 at the end */
    fuota_length bytes_length;
} fuota_word;

typedef struct fuota_file {
    uint64_t name;
    fuota_length name_length;
    uint64_t bytes;
    fuota_length bytes_length;
} fuota_file;

/* How the program ends (docs/FORMATS.md, "Statuses"). A write fault and missing memory are never told here: the latter
 * is an answer of the call, and the former none. */
enum fuota_exit {
    FUOTA_EXIT_DONE = 0,
    FUOTA_EXIT_USAGE = 2,
    FUOTA_EXIT_IMAGE_REFUSED = 3,
    FUOTA_EXIT_SCRIPT_REFUSED = 4,
    FUOTA_EXIT_READ_FAULT = 5,
    FUOTA_EXIT_WRITE_FAULT = 6,
    FUOTA_EXIT_MEMORY = 7,
    FUOTA_EXIT_TOO_LONG = 8,
    FUOTA_EXIT_NOT_COMPLETE = 9
};

typedef struct fuota_ran {
    fuota_length length; /* bytes that the program wrote */
    uint8_t status;      /* a value of enum fuota_exit */
} fuota_ran;

/* What the program `fuota` writes and ends with, for the words of a command line, the program's name first, over these
 * files and no others: FUOTA_DONE, with what it wrote at the front of `text`, no 0 after it; FUOTA_NO_ROOM, where that has
 * more than `room` bytes, and then *out alone is written; FUOTA_NO_MEMORY. A name that no file has cannot be read, and of
 * two files of one name the first is read. A word that is no text is answered as by the program, with the usage. The call
 * keeps nothing. It is not in libraries for microcontrollers. */
fuota_result fuota_run(const fuota_word *words, fuota_length words_length, const fuota_file *files,
                       fuota_length files_length, uint8_t *text, fuota_length room, fuota_ran *out);

/* ---- NULL for no bytes ---- */

/* Each call that takes bytes by a pointer and a number, where NULL may stand for none. */
static inline const uint8_t *fuota_from(const uint8_t *at) {
    static const uint8_t none = 0;
    return at ? at : &none;
}

static inline uint8_t *fuota_into(uint8_t *at) {
    static uint8_t none;
    return at ? at : &none;
}

static inline fuota_result fuota_receiver_hear_0(fuota_receiver *handle, const uint8_t *payload, fuota_length length,
                                                 uint64_t mark) {
    return fuota_receiver_hear(handle, fuota_from(payload), length, mark);
}

static inline fuota_length fuota_receiver_file_0(fuota_receiver *handle, fuota_length offset, uint8_t *into,
                                                 fuota_length room) {
    return fuota_receiver_file(handle, offset, fuota_into(into), room);
}

static inline fuota_length fuota_receiver_status_0(fuota_receiver *handle, bool all, uint8_t *answer,
                                                   fuota_length room) {
    return fuota_receiver_status(handle, all, fuota_into(answer), room);
}

static inline fuota_result fuota_device_deliver_0(fuota_device *handle, uint8_t port, const uint8_t *payload,
                                                  fuota_length length, const fuota_arrival *arrival) {
    return fuota_device_deliver(handle, port, fuota_from(payload), length, arrival);
}

static inline fuota_result fuota_device_radio_0(fuota_device *handle, const uint8_t *bytes, fuota_length length,
                                                uint64_t t, uint32_t word, uint64_t mark) {
    return fuota_device_radio(handle, fuota_from(bytes), length, t, word, mark);
}

static inline fuota_length fuota_device_file_0(fuota_device *handle, uint8_t index, fuota_length offset,
                                               uint8_t *into, fuota_length room) {
    return fuota_device_file(handle, index, offset, fuota_into(into), room);
}

static inline fuota_length fuota_device_save_0(fuota_device *handle, uint8_t *into, fuota_length room) {
    return fuota_device_save(handle, fuota_into(into), room);
}

static inline fuota_length fuota_device_firmware_0(fuota_device *handle, bool is_next, fuota_length offset,
                                                   uint8_t *into, fuota_length room) {
    return fuota_device_firmware(handle, is_next, offset, fuota_into(into), room);
}

static inline fuota_result fuota_device_restore_0(fuota_device *handle, uint8_t size, const fuota_config *config,
                                                  const uint8_t *saved, fuota_length saved_length,
                                                  const uint8_t *running, fuota_length running_length,
                                                  const uint8_t *next, fuota_length next_length) {
    return fuota_device_restore(handle, size, config, fuota_from(saved), saved_length, fuota_from(running),
                                running_length, fuota_from(next), next_length);
}

static inline fuota_result fuota_device_new_in_flash_0(fuota_device *handle, uint8_t size, const fuota_config *config,
                                                       uint32_t span, const uint8_t *flash,
                                                       fuota_length flash_length) {
    return fuota_device_new_in_flash(handle, size, config, span, fuota_from(flash), flash_length);
}

static inline fuota_result fuota_device_restore_in_flash_0(fuota_device *handle, uint8_t size, const fuota_config *config,
                                                           uint32_t span, const uint8_t *flash,
                                                           fuota_length flash_length, const uint8_t *saved,
                                                           fuota_length saved_length, const uint8_t *running,
                                                           fuota_length running_length, const uint8_t *next,
                                                           fuota_length next_length) {
    return fuota_device_restore_in_flash(handle, size, config, span, fuota_from(flash), flash_length, fuota_from(saved),
                                         saved_length, fuota_from(running), running_length, fuota_from(next),
                                         next_length);
}

static inline fuota_length fuota_device_flash_0(fuota_device *handle, fuota_length offset, uint8_t *into,
                                                fuota_length room) {
    return fuota_device_flash(handle, offset, fuota_into(into), room);
}

static inline fuota_result fuota_server_new_0(fuota_server *handle, const fuota_plan *plan,
                                              const fuota_plan_device *devices, fuota_length devices_length,
                                              const uint8_t *image, fuota_length image_length, uint8_t *field) {
    return fuota_server_new(handle, plan, devices, devices_length, fuota_from(image), image_length, field);
}

static inline fuota_length fuota_server_frame_0(fuota_server *handle, const fuota_down *down, uint8_t *into,
                                          fuota_length room) {
    return fuota_server_frame(handle, down, fuota_into(into), room);
}

static inline fuota_result fuota_server_uplink_0(fuota_server *handle, uint8_t dev, uint8_t port,
                                                 const uint8_t *payload, fuota_length length, uint64_t t,
                                                 fuota_down *out) {
    return fuota_server_uplink(handle, dev, port, fuota_from(payload), length, t, out);
}

static inline fuota_length fuota_server_save_0(fuota_server *handle, uint8_t *into, fuota_length room) {
    return fuota_server_save(handle, fuota_into(into), room);
}

static inline fuota_result fuota_server_restore_0(fuota_server *handle, const fuota_plan *plan,
                                                  const fuota_plan_device *devices, fuota_length devices_length,
                                                  const uint8_t *image, fuota_length image_length,
                                                  const uint8_t *saved, fuota_length saved_length,
                                                  uint8_t *field) {
    return fuota_server_restore(handle, plan, devices, devices_length, fuota_from(image), image_length,
                                fuota_from(saved), saved_length, field);
}

static inline fuota_result fuota_decode_0(uint8_t port, bool up, const uint8_t *payload, fuota_length length,
                                          uint8_t *text, fuota_length room, fuota_decoded *out) {
    return fuota_decode(port, up, fuota_from(payload), length, fuota_into(text), room, out);
}

/* The address of bytes for a struct above; NULL has one too, for none. */
static inline uint64_t fuota_at(const void *bytes) {
    return (uint64_t)(size_t)fuota_from((const uint8_t *)bytes);
}

static inline fuota_result fuota_run_0(const fuota_word *words, fuota_length words_length, const fuota_file *files,
                                       fuota_length files_length, uint8_t *text, fuota_length room, fuota_ran *out) {
    static const fuota_word no_word = {0, 0};
    static const fuota_file no_file = {0, 0, 0, 0};
    return fuota_run(words ? words : &no_word, words_length, files ? files : &no_file, files_length, fuota_into(text),
                     room, out);
}

/* So calls go there by their own names. */
#define fuota_receiver_hear fuota_receiver_hear_0
#define fuota_receiver_file fuota_receiver_file_0
#define fuota_receiver_status fuota_receiver_status_0
#define fuota_device_deliver fuota_device_deliver_0
#define fuota_device_radio fuota_device_radio_0
#define fuota_device_file fuota_device_file_0
#define fuota_device_save fuota_device_save_0
#define fuota_device_firmware fuota_device_firmware_0
#define fuota_device_restore fuota_device_restore_0
#define fuota_device_new_in_flash fuota_device_new_in_flash_0
#define fuota_device_restore_in_flash fuota_device_restore_in_flash_0
#define fuota_device_flash fuota_device_flash_0
#define fuota_server_new fuota_server_new_0
#define fuota_server_frame fuota_server_frame_0
#define fuota_server_uplink fuota_server_uplink_0
#define fuota_server_save fuota_server_save_0
#define fuota_server_restore fuota_server_restore_0
#define fuota_decode fuota_decode_0
#define fuota_run fuota_run_0

#ifdef __cplusplus
}
#endif
#endif
