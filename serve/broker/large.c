#include "large.h"

#include <errno.h>
#include <linux/sockios.h>
#include <string.h>
#include <sys/ioctl.h>
#include <sys/mman.h>
#include <unistd.h>

#include "clients.h"
#include "report.h"

/* A file without a name that has these bytes, read from its start, for the caller to close; -1 where there can be none.
 */
static int file_with(const char *data, size_t length) {
    int file = memfd_create("answer", MFD_CLOEXEC);
    while (file >= 0 && length > 0) {
        ssize_t written = write(file, data, length);
        if (written < 0 && errno == EINTR)
            continue;
        if (written <= 0) {
            close(file);
            return -1;
        }
        data += written;
        length -= (size_t)written;
    }
    if (file >= 0 && lseek(file, 0, SEEK_SET) != 0) {
        close(file);
        return -1;
    }
    return file;
}

/* Whether a client has taken all that it was sent. */
static bool has_taken_all(const struct client *client) {
    int untaken;
    return ioctl(client->watch.number, SIOCOUTQ, &untaken) == 0 && untaken == 0;
}

static void let_go(struct clients *clients, struct large *large) {
    if (large->file < 0)
        return;
    close(large->file);
    clients->untaken -= large->length;
    *large = (struct large){.file = -1};
}

void large_forget(struct clients *clients, struct client *client) {
    /* (a client that has received the file goes on reading it; one that has not would keep its memory for ever) */
    bool kept = client->large.file >= 0 && !has_taken_all(client);
    if (kept && ftruncate(client->large.file, 0))
        report("the memory of an answer that nobody takes can't be freed: %s", strerror(errno));
    let_go(clients, &client->large);
}

/* Lets go of the files of all who have taken them. */
static void let_taken_go(struct clients *clients) {
    for (struct client *client = clients->first; client; client = client->next)
        if (client->large.file >= 0 && has_taken_all(client))
            let_go(clients, &client->large);
}

int large_send(struct clients *clients, struct client *client, struct answer *answer, const void *data) {
    if (clients->untaken > 0)
        let_taken_go(clients);
    if (client->large.file >= 0)
        return EAGAIN;
    int file = answer->length <= LARGE_MOST - clients->untaken ? file_with(data, answer->length) : -1;
    if (file < 0)
        return ENOMEM;
    answer->in_file = 1;
    if (!clients_send(client, answer, NULL, 0, file)) {
        close(file);
        return EAGAIN;
    }
    client->large = (struct large){file, answer->length};
    clients->untaken += answer->length;
    return 0;
}
