#include "watch.h"

#include <sys/epoll.h>

bool watch_by(int poller, struct watch *watch, unsigned events) {
    struct epoll_event event = {.events = events, .data.ptr = watch};
    return epoll_ctl(poller, EPOLL_CTL_ADD, watch->number, &event) == 0;
}

bool watch_change(int poller, struct watch *watch, unsigned events) {
    struct epoll_event event = {.events = events, .data.ptr = watch};
    return epoll_ctl(poller, EPOLL_CTL_MOD, watch->number, &event) == 0;
}
