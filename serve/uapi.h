/* The commands of linux/gpio.h, both of its versions. The library and the broker share this table. */
#ifndef UAPI_H
#define UAPI_H

#include <stdbool.h>
#include <stddef.h>
#include <stdint.h>

/* What a command's number is made of. */
#define UAPI_TYPE(number) ((number) >> 8 & 0xff)
#define UAPI_GPIO 0xb4

/* Lines of one request, at most, and of one chip. */
#define UAPI_LINES 64
#define UAPI_CHIP_LINES 512
/* Attributes of one configuration, at most. */
#define UAPI_ATTRIBUTES 10
/* Bytes of a name or a consumer. */
#define UAPI_NAME 32

/* Events that wait for a request of version 2 at most. */
#define UAPI_EVENTS (16 * UAPI_LINES)

/* Lengths of what a read gives. */
#define UAPI_EVENT 48
#define UAPI_CHANGE 288
#define UAPI_CHANGE1 104
#define UAPI_EVENT1 16

/* What a file is: a chip, a request of version 2, or one of the two requests of version 1. */
enum file_kind { FILE_CHIP, FILE_LINES, FILE_HANDLE1, FILE_EVENT1 };

/* What a command may bring about besides its answer. */
enum uapi_effect {
    UAPI_ASKS,      /* nothing */
    UAPI_SETS,      /* other levels */
    UAPI_WATCHES,   /* later changes of a line, to be read */
    UAPI_UNWATCHES, /* no such changes any more */
    UAPI_REQUESTS,  /* a file of its own, and changes for those who watch */
    UAPI_CHANGES    /* changes for those who watch */
};

struct uapi_command {
    uint32_t number;
    size_t length;    /* of its structure */
    const char *word; /* in a session */
    bool version1;    /* said by `ioctl1` */
    bool of_chip;     /* else of a request */
    bool gives;       /* its answer has bytes */
    bool drives;      /* the driver is asked for it */
    enum uapi_effect effect;
    enum file_kind makes; /* of UAPI_REQUESTS */
    uint32_t fd_at;       /* where the new file's number stands */
    uint32_t consumer_at; /* and the consumer */
};

/* The command with that number on a file of that kind, or NULL. */
const struct uapi_command *uapi_find(enum file_kind kind, uint32_t number);

/* The length of the structure of a number, or 0 where no command has it. */
size_t uapi_length(uint32_t number);

/* Little-endian numbers in a structure's bytes. */
uint32_t uapi_u32(const unsigned char *bytes, size_t at);
uint64_t uapi_u64(const unsigned char *bytes, size_t at);

/* Whether a line configuration of 272 bytes asks for edges of any line, and for a debounce period. */
bool uapi_wants_edges(const unsigned char *config);
bool uapi_wants_debounce(const unsigned char *config);

/* How many events the machine keeps for a request of version 2 whose structure this is, until they are read. */
size_t uapi_capacity(const unsigned char *bytes);

/* The lines that a request's structure asks for: how many, and their offsets. */
size_t uapi_lines(const struct uapi_command *command, const unsigned char *bytes, uint32_t *offsets);

#endif
