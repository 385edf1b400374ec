#include "uapi.h"

/* Where numbers stand in the structure of a request of version 2. */
#define REQUEST_NUM_LINES 560
#define REQUEST_EVENT_BUFFER_SIZE 564
/* Events that are kept for each line of a request that says nothing of how many. */
#define EVENTS_PER_LINE 16

static const struct uapi_command commands[] = {
    {0x8044b401, 68, "GET_CHIPINFO", .of_chip = true, .gives = true},
    {0xc100b405, 256, "GET_LINEINFO", .of_chip = true, .gives = true},
    {0xc100b406, 256, "WATCH", .of_chip = true, .gives = true, .effect = UAPI_WATCHES},
    {0xc004b40c, 4, "UNWATCH", .of_chip = true, .effect = UAPI_UNWATCHES},
    {0xc250b407, 592, "GET_LINE", .drives = true, .of_chip = true, .effect = UAPI_REQUESTS, .makes = FILE_LINES,
        .fd_at = 588, .consumer_at = 256},
    {0xc110b40d, 272, "SET_CONFIG", .drives = true, .effect = UAPI_CHANGES},
    {0xc010b40e, 16, "GET_VALUES", .drives = true, .gives = true},
    {0xc010b40f, 16, "SET_VALUES", .drives = true, .effect = UAPI_SETS},
    {0xc048b402, 72, "LINEINFO", .version1 = true, .of_chip = true, .gives = true},
    /* (sessions have no watch of version 1: the broker says that of version 2 before this) */
    {0xc048b40b, 72, "LINEINFO", .version1 = true, .of_chip = true, .gives = true, .effect = UAPI_WATCHES},
    {0xc16cb403, 364, "LINEHANDLE", .drives = true, .version1 = true, .of_chip = true, .effect = UAPI_REQUESTS,
        .makes = FILE_HANDLE1, .fd_at = 360, .consumer_at = 324},
    {0xc030b404, 48, "LINEEVENT", .drives = true, .version1 = true, .of_chip = true, .effect = UAPI_REQUESTS,
        .makes = FILE_EVENT1, .fd_at = 44, .consumer_at = 12},
    {0xc040b408, 64, "GET_VALUES", .drives = true, .version1 = true, .gives = true},
    {0xc040b409, 64, "SET_VALUES", .drives = true, .version1 = true, .effect = UAPI_SETS},
    {0xc054b40a, 84, "SET_CONFIG", .drives = true, .version1 = true, .effect = UAPI_CHANGES},
};

#define COMMANDS (sizeof commands / sizeof *commands)

const struct uapi_command *uapi_find(enum file_kind kind, uint32_t number) {
    for (size_t i = 0; i < COMMANDS; i++) {
        const struct uapi_command *command = &commands[i];
        bool fits =
            kind == FILE_CHIP ? command->of_chip : !command->of_chip && command->version1 == (kind != FILE_LINES);
        if (fits && command->number == number)
            return command;
    }
    return NULL;
}

size_t uapi_length(uint32_t number) {
    for (size_t i = 0; i < COMMANDS; i++)
        if (commands[i].number == number)
            return commands[i].length;
    return 0;
}

uint32_t uapi_u32(const unsigned char *bytes, size_t at) {
    return (uint32_t)bytes[at] | (uint32_t)bytes[at + 1] << 8 | (uint32_t)bytes[at + 2] << 16 |
           (uint32_t)bytes[at + 3] << 24;
}

uint64_t uapi_u64(const unsigned char *bytes, size_t at) {
    return uapi_u32(bytes, at) | (uint64_t)uapi_u32(bytes, at + 4) << 32;
}

/* Where a configuration has its flags, the count of its attributes, and these; and what an attribute has where. */
#define CONFIG_FLAGS 0
#define CONFIG_COUNT 8
#define CONFIG_ATTRIBUTES 32
#define ATTRIBUTE_LENGTH 24
#define ATTRIBUTE_ID 0
#define ATTRIBUTE_VALUE 8
/* The ids of an attribute, and the flags of both edges. */
#define ID_FLAGS 1
#define ID_DEBOUNCE 3
#define FLAGS_EDGES (1 << 4 | 1 << 5)

/* The next attribute with that id, from the one of that number on, which is moved past it; NULL where there is none. */
static const unsigned char *next_attribute(const unsigned char *config, uint32_t id, size_t *number) {
    size_t count = uapi_u32(config, CONFIG_COUNT);
    while (*number < count && *number < UAPI_ATTRIBUTES) {
        const unsigned char *attribute = config + CONFIG_ATTRIBUTES + ATTRIBUTE_LENGTH * (*number)++;
        if (uapi_u32(attribute, ATTRIBUTE_ID) == id)
            return attribute;
    }
    return NULL;
}

bool uapi_wants_edges(const unsigned char *config) {
    const unsigned char *attribute;
    bool wants = uapi_u64(config, CONFIG_FLAGS) & FLAGS_EDGES;
    for (size_t at = 0; (attribute = next_attribute(config, ID_FLAGS, &at));)
        wants = wants || (uapi_u64(attribute, ATTRIBUTE_VALUE) & FLAGS_EDGES);
    return wants;
}

bool uapi_wants_debounce(const unsigned char *config) {
    const unsigned char *attribute;
    bool wants = false;
    for (size_t at = 0; (attribute = next_attribute(config, ID_DEBOUNCE, &at));)
        wants = wants || uapi_u32(attribute, ATTRIBUTE_VALUE) > 0;
    return wants;
}

size_t uapi_lines(const struct uapi_command *command, const unsigned char *bytes, uint32_t *offsets) {
    size_t count = 1;
    if (command->makes == FILE_LINES)
        count = uapi_u32(bytes, 560);
    else if (command->makes == FILE_HANDLE1)
        count = uapi_u32(bytes, 356);
    if (count > UAPI_LINES)
        count = UAPI_LINES;
    for (size_t i = 0; i < count; i++)
        offsets[i] = uapi_u32(bytes, 4 * i);
    return count;
}

/* The machine counts as the kernel does, but doesn't round up to a power of two. */
size_t uapi_capacity(const unsigned char *bytes) {
    size_t asked = uapi_u32(bytes, REQUEST_EVENT_BUFFER_SIZE);
    if (asked == 0)
        asked = EVENTS_PER_LINE * (size_t)uapi_u32(bytes, REQUEST_NUM_LINES);
    return asked < UAPI_EVENTS ? asked : UAPI_EVENTS;
}
