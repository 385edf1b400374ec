#include "flow.h"

#include <errno.h>
#include <fcntl.h>
#include <stdio.h>
#include <string.h>
#include <sys/ioctl.h>
#include <unistd.h>

#include "../items.h"
#include "../questions.h"
#include "../room.h"
#include "../spare.h"

/* Items that wait at most: those of a chip's file, and of a request of version 1. */
#define CHANGES_KEPT 32
#define EVENTS1_KEPT 16
/* The kernel gives a pipe its memory by pages. */
#define PAGE 4096u
/* Room for the path of a file in /proc. */
#define LINK_SPACE 64
/* Where an event of version 2 has its line. */
#define EVENT_LINE_AT 12
/* The longest item, which may have been read in part. */
#define MOST_ITEM UAPI_CHANGE

size_t flow_item(const struct file *file) {
    switch (file->kind) {
    case FILE_CHIP:
        return file->version == 1 ? UAPI_CHANGE1 : UAPI_CHANGE;
    case FILE_LINES:
        return UAPI_EVENT;
    default:
        return UAPI_EVENT1;
    }
}

size_t flow_filled(const struct file *file, size_t size) {
    size_t item = flow_item(file);
    if (size < item)
        return 0;
    if (item != UAPI_CHANGE1)
        return size - size % item;
    size_t most = size < QUESTIONS_READ_MOST ? size : QUESTIONS_READ_MOST;
    return items_room_for_changes1(most) / UAPI_CHANGE * UAPI_CHANGE1;
}

static size_t capacity_of(enum file_kind kind, const unsigned char *structure) {
    switch (kind) {
    case FILE_CHIP:
        return CHANGES_KEPT;
    case FILE_LINES:
        return uapi_capacity(structure);
    default:
        return EVENTS1_KEPT;
    }
}

struct flow_kept flow_keep(enum file_kind kind, size_t capacity, size_t waiting, size_t came) {
    struct flow_kept kept = {waiting, came};
    if (waiting + came <= capacity)
        return kept;
    if (kind == FILE_CHIP) {
        kept.came = capacity > waiting ? capacity - waiting : 0;
    } else {
        kept.came = came < capacity ? came : capacity;
        kept.waiting = capacity - kept.came;
    }
    return kept;
}

/* Takes the oldest so many of the moved events off the ring, read or lost. */
static void forget_moved(struct broker *broker, struct file *file, size_t count, bool read) {
    struct moved *moved = file->moved;
    for (; moved && count > 0 && moved->count > 0; count--) {
        if (read)
            waits_count_read(broker, file->chip, moved->lines[moved->first]);
        moved->first = (moved->first + 1) % UAPI_EVENTS;
        moved->count--;
    }
}

/* Adds the lines of items that were moved. */
static void note_moved(struct file *file, const unsigned char *bytes, size_t count) {
    struct moved *moved = file->moved;
    for (size_t i = 0; moved && i < count && moved->count < UAPI_EVENTS; i++) {
        uint32_t line = file->kind == FILE_LINES ? uapi_u32(bytes + i * UAPI_EVENT, EVENT_LINE_AT) : file->lines[0];
        moved->lines[(moved->first + moved->count++) % UAPI_EVENTS] = (uint16_t)line;
    }
}

/* Counts what was read, where so many bytes wait by now. An item of which a part was read isn't read yet. */
static void count_reads(struct broker *broker, struct file *file, size_t bytes) {
    size_t item = flow_item(file), waiting = (bytes + item - 1) / item;
    if (file->moved && file->moved->count > waiting)
        forget_moved(broker, file, file->moved->count - waiting, true);
}

/* A page of a pipe may be used by little more than half, since what doesn't fit into its rest begins another one. */
bool flow_prepare(struct file *file, const unsigned char *structure) {
    file->capacity = capacity_of(file->kind, structure);
    if (file->kind != FILE_CHIP)
        file->moved = room_new(sizeof *file->moved);
    size_t bytes = file->capacity * flow_item(file);
    size_t pages = 2 * ((bytes + PAGE - 1) / PAGE) + 1;
    int size = (int)(pages * PAGE);
    if (fcntl(file->watch.number, F_GETPIPE_SZ) >= size || fcntl(file->watch.number, F_SETPIPE_SZ, size) >= 0)
        return true;
    errno = ENOMEM;
    return false;
}

static size_t bytes_waiting(const struct file *file) {
    int bytes = 0;
    return ioctl(file->watch.number, FIONREAD, &bytes) ? 0 : (size_t)bytes;
}

void flow_count_reads(struct broker *broker, struct file *file) {
    if (!files_is_gone(file))
        count_reads(broker, file, bytes_waiting(file));
}

void flow_count_reads_of(struct broker *broker, unsigned chip) {
    for (struct file *file = broker->files.first; file; file = file->next)
        if (file->chip == chip)
            flow_count_reads(broker, file);
}

/* Takes bytes out of the pipe, by a reading end of its own for that moment: in one call, which the kernel does as a
 * whole. How many; 0 where there are none, or no end can be had. */
static size_t take_out(const struct file *file, unsigned char *bytes, size_t size) {
    char path[LINK_SPACE];
    snprintf(path, sizeof path, "/proc/self/fd/%d", file->watch.number);
    int end = open(path, O_RDONLY | O_NONBLOCK | O_CLOEXEC);
    if (end < 0 && spare_is_wanted(errno)) {
        spare_lend();
        end = open(path, O_RDONLY | O_NONBLOCK | O_CLOEXEC);
    }
    if (end < 0)
        return 0;
    ssize_t got = read(end, bytes, size);
    close(end);
    spare_take();
    return got > 0 ? (size_t)got : 0;
}

/* Puts bytes into the pipe, which has room for them (flow_prepare). Where its readers are gone they are lost with it.
 */
static void put_in(const struct file *file, const unsigned char *bytes, size_t length) {
    if (length > 0 && write(file->watch.number, bytes, length) < 0)
        return;
}

/* Where what came is too much: takes all out of the pipe, and puts back what is kept. In between a program may find
 * nothing to read, but no event is read twice, out of order, or lost that the machine's queue would have kept: what
 * the program has read before is counted as read. `bytes` has the items that came, behind room for those that wait. */
static void put_newest(struct broker *broker, struct file *file, unsigned char *bytes, size_t room, size_t came) {
    size_t item = flow_item(file), got = take_out(file, bytes, room);
    size_t begun = got % item; /* the rest of an item that was read in part */
    struct flow_kept kept = flow_keep(file->kind, file->capacity, got / item, came);
    size_t length = begun;
    count_reads(broker, file, got);
    forget_moved(broker, file, got / item - kept.waiting, false);
    note_moved(file, bytes + room + (came - kept.came) * item, kept.came);
    memmove(bytes + length, bytes + got - kept.waiting * item, kept.waiting * item);
    length += kept.waiting * item;
    memmove(bytes + length, bytes + room + (came - kept.came) * item, kept.came * item);
    put_in(file, bytes, length + kept.came * item);
}

bool flow_move(struct broker *broker, struct file *file) {
    static unsigned char bytes[2 * QUESTIONS_READ_MOST + MOST_ITEM];
    const size_t room = QUESTIONS_READ_MOST + MOST_ITEM;
    uint32_t length = 0;
    size_t item = flow_item(file);
    int error = questions_read(broker, file, QUESTIONS_READ_MOST, bytes + room, &length);
    if (broker->machine.ended)
        return false;
    if (!error && file->kind == FILE_CHIP && file->version == 1)
        length = (uint32_t)items_make_changes1(bytes + room, length);
    size_t came = error ? 0 : length / item, bytes_left = bytes_waiting(file), waiting = bytes_left / item;
    struct flow_kept kept = flow_keep(file->kind, file->capacity, waiting, came);
    if (kept.waiting < waiting) {
        put_newest(broker, file, bytes, room, came);
        return true;
    }
    count_reads(broker, file, bytes_left);
    note_moved(file, bytes + room, kept.came);
    put_in(file, bytes + room, kept.came * item);
    return true;
}

int flow_read(struct broker *broker, struct file *file, size_t size, unsigned char *bytes, uint32_t *count) {
    size_t filled = flow_filled(file, size);
    if (file->kind == FILE_HANDLE1 || filled == 0)
        return EINVAL;
    *count = (uint32_t)take_out(file, bytes, filled);
    flow_count_reads(broker, file);
    return *count == 0 ? EAGAIN : 0;
}
