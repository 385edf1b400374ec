/* Events that stand in the pipes themselves, so that the kernel answers the programs' reads.
 *
 * The machine's queue of such a file is emptied into its pipe whenever something came. An event in the pipe is out of
 * the machine's hands, so what is lost of those is decided here: the pipe keeps what the machine's queue would. */
#ifndef FLOW_H
#define FLOW_H

#include "../broker.h"

/* The lines of the events in the pipe of a request, the oldest first: a ring. */
struct moved {
    uint16_t lines[UAPI_EVENTS];
    size_t first, count;
};

/* Bytes of one event or change of a file. */
size_t flow_item(const struct file *file);

/* How many of the bytes of a read the chip's driver would fill: whole items; 0 where there is no room for one. */
size_t flow_filled(const struct file *file, size_t size);

/* Gives a file the capacity of its queue, which for a request of version 2 its structure says, and its pipe room for as
 * many items. False, with ENOMEM, where the kernel refuses that. */
bool flow_prepare(struct file *file, const unsigned char *structure);

/* Moves what the machine has for a file into its pipe. False where the served program has ended. */
bool flow_move(struct broker *broker, struct file *file);

/* Reads out of a file's pipe for a program: at most `size` bytes, whole items. The error's number, or 0 and how many
 * bytes there are. */
int flow_read(struct broker *broker, struct file *file, size_t size, unsigned char *bytes, uint32_t *count);

/* Counts the events that programs have read out of a file's pipe since it was last looked at; of all files of a chip.
 */
void flow_count_reads(struct broker *broker, struct file *file);
void flow_count_reads_of(struct broker *broker, unsigned chip);

/* What a queue of `capacity` items keeps when `came` more come to the `waiting` ones. */
struct flow_kept {
    size_t waiting; /* the last so many of those that wait, */
    size_t came;    /* and so many of those that came: the first of them of a chip's file, else the last */
};

struct flow_kept flow_keep(enum file_kind kind, size_t capacity, size_t waiting, size_t came);

#endif
