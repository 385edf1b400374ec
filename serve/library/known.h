/* Which of the program's files are the broker's. */
#ifndef KNOWN_H
#define KNOWN_H

#include <stdbool.h>
#include <sys/types.h>

/* What a file is, by the number of its pipe. */
struct known {
    bool ours;
    ino_t ino;
    int chip; /* of a chip's file, else -1 */
};

/* What the file with that number is. A pipe with a mark is asked about once. errno stays as it was. */
struct known known_file(int file);

/* Keeps what a file is that just came from the broker. */
void known_keep(int file, int chip);

#endif
