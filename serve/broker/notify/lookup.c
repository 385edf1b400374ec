#include "lookup.h"

#include <errno.h>
#include <fcntl.h>
#include <stdio.h>
#include <string.h>
#include <sys/stat.h>
#include <unistd.h>

#include "../../tree_names.h"
#include "../../wire.h"

/* Where names stand in the broker's folder: all, and those below /sys where gpio-sim's file system is shown. */
#define ROOT "/root"
#define VIEW "/view"
#define SYS "/sys"
/* The folder of the chips' files, how their names begin, and how that of a device by its number. */
#define DEV "/dev"
#define CHIP "gpiochip"
#define BY_NUMBER "/sys/dev/char/" WIRE_MAJOR_TEXT ":"
/* The most digits of a chip's number. */
#define CHIP_DIGITS 2
/* Room for the path of a process's folder in /proc. */
#define LINK_SPACE 64
/* Links that lead to links are followed so far, as the kernel does. */
#define MOST_LINKS 40

/* Folders of the broker's, with all that is below them. In /sys/class/gpio there is nothing: lines of the machine
 * itself would be driven there. */
static const char *const folders[] = {"/sys/bus/gpio", "/sys/devices/gpioserve", "/sys/class/gpio"};

static bool begins(const char *path, const char *front) {
    return strncmp(path, front, strlen(front)) == 0;
}

static const char *last_part(const char *path) {
    const char *last = strrchr(path, '/');
    return last ? last + 1 : path;
}

static bool is_or_below(const char *path, const char *folder) {
    size_t length = strlen(folder);
    return begins(path, folder) && (path[length] == 0 || path[length] == '/');
}

/* A chip's number: decimal, without leading zeros; -1 where the text is none. */
static int chip_of(const char *text) {
    int number = 0;
    size_t length = strlen(text);
    if (length == 0 || length > CHIP_DIGITS || (*text == '0' && length > 1))
        return -1;
    for (; *text; text++) {
        if (*text < '0' || *text > '9')
            return -1;
        number = 10 * number + *text - '0';
    }
    return number < WIRE_CHIPS ? number : -1;
}

void lookup_hide_home(const char *home, char *path) {
    size_t length = strlen(home);
    if (strncmp(path, home, length) != 0 || !(begins(path + length, ROOT "/") || begins(path + length, VIEW "/")))
        return;
    const char *rest = path + length + strlen(ROOT);
    memmove(path, rest, strlen(rest) + 1);
}

/* Writes a path of three parts. False where it is too long. */
static bool join(char path[PATH_MAX], const char *front, const char *middle, const char *rest) {
    int length = snprintf(path, PATH_MAX, "%s%s%s", front, middle, rest);
    return length >= 0 && length < PATH_MAX;
}

/* Writes the path by which the folder that relative names begin in is reached from here. */
static void write_folder(const struct lookup_from *from, char link[LINK_SPACE]) {
    if (from->folder == AT_FDCWD)
        snprintf(link, LINK_SPACE, "/proc/%d/cwd", from->process);
    else
        snprintf(link, LINK_SPACE, "/proc/%d/fd/%d", from->process, from->folder);
}

/* What is left of a path behind a part of this name and what says nothing there; NULL where the part is another one. */
static const char *behind_part(const char *path, const char *part) {
    size_t length = strlen(part);
    while (*path == '/' || (*path == '.' && path[1] == '/'))
        path++;
    return strncmp(path, part, length) == 0 && (path[length] == '/' || path[length] == 0) ? path + length : NULL;
}

/* What is left of a name in the folder /proc/self, which is that of whoever looks there; NULL for all others. */
static const char *behind_self(const char *name) {
    const char *proc = behind_part(name, "proc"), *self = proc ? behind_part(proc, "self") : NULL;
    return proc && !self ? behind_part(proc, "thread-self") : self;
}

/* Writes the path by which a name of the process is reached from here. False where it is too long. */
static bool reach(const struct lookup_from *from, const char *name, char path[PATH_MAX]) {
    char front[LINK_SPACE];
    if (*name != '/') {
        write_folder(from, front);
        return join(path, front, "/", name);
    }
    const char *own = behind_self(name);
    snprintf(front, sizeof front, "/proc/%d%s", from->process, own ? "" : "/root");
    return join(path, front, own ? own : name, "");
}

/* Reads the text of a link. False where there is none, or it is too long. */
static bool read_link(const char *path, char text[PATH_MAX]) {
    ssize_t length = readlink(path, text, PATH_MAX);
    if (length <= 0 || length >= PATH_MAX)
        return false;
    text[length] = 0;
    return true;
}

/* Whether a path has a part of this name. */
static bool has_part(const char *path, const char *part) {
    size_t length = strlen(part);
    for (const char *at = strstr(path, part); at; at = strstr(at + 1, part))
        if ((at == path || at[-1] == '/') && (at[length] == 0 || at[length] == '/'))
            return true;
    return false;
}

/* Whether a name may be the broker's by its text, at a quick look: most are not. */
static bool may_be_ours(const char *name) {
    const char *last = last_part(name);
    if (*name == '/')
        return begins(name, DEV) || begins(name, SYS) || begins(name, "//") || begins(name, "/.") || begins(last, CHIP);
    return strcmp(name, ".") == 0 || begins(name, "..") || strstr(name, "gpio") || has_part(name, "config") ||
           begins(last, WIRE_MAJOR_TEXT ":") || begins(name, WIRE_MAJOR_TEXT ":");
}

/* Takes a whole path for the result, where it is the broker's. */
static void take(struct lookup *lookup, const struct lookup_from *from, const char *whole) {
    lookup->is_dev = strcmp(whole, DEV) == 0;
    lookup->is_tree = tree_names_has(whole);
    lookup->is_shared = tree_names_shares(whole);
    lookup->in_view = from->shows_tree && begins(whole, SYS "/");
    bool ours = lookup->is_dev || (lookup->is_tree && from->shows_tree) || begins(whole, BY_NUMBER) ||
                begins(whole, DEV "/" CHIP);
    for (size_t i = 0; i < sizeof folders / sizeof *folders; i++)
        ours = ours || is_or_below(whole, folders[i]);
    lookup->ours = ours && join(lookup->path, from->home, lookup->in_view ? VIEW : ROOT, whole);
    if (lookup->ours && begins(whole, DEV "/" CHIP))
        lookup->chip = chip_of(whole + strlen(DEV "/" CHIP));
}

/* A path that is put together part by part. */
struct walk {
    const struct lookup_from *from;
    char whole[PATH_MAX];
    size_t length;
    bool is_too_long;
    int error; /* of a path of the broker's that leads nowhere */
};

static void drop_part(struct walk *walk) {
    while (walk->length > 0 && walk->whole[--walk->length] != '/')
        continue;
}

static void add_part(struct walk *walk, const char *part, size_t length) {
    walk->is_too_long = walk->length + length + 1 >= sizeof walk->whole;
    if (walk->is_too_long)
        return;
    walk->whole[walk->length++] = '/';
    memcpy(walk->whole + walk->length, part, length);
    walk->length += length;
}

/* Goes on by a path: `.` and repeated slashes say nothing. `leave` does what `..` says. */
static void walk_on(struct walk *walk, const char *path, void (*leave)(struct walk *walk)) {
    while (*path && !walk->error && !walk->is_too_long) {
        size_t part = strcspn(path, "/");
        if (part == 2 && path[0] == '.' && path[1] == '.')
            leave(walk);
        else if (part > 0 && !(part == 1 && path[0] == '.'))
            add_part(walk, path, part);
        path += part;
        path += *path == '/';
    }
    walk->whole[walk->length] = 0;
}

/* Does what `..` says. Of the broker's own names it does so as the kernel: a link there leads on first, and behind what
 * is no folder there is nothing. (The text of a link there leads through no other link.) */
static void leave_part(struct walk *walk) {
    struct lookup place;
    struct stat status;
    char text[PATH_MAX];
    walk->whole[walk->length] = 0;
    take(&place, walk->from, walk->whole);
    if (place.ours && !place.is_dev) {
        int failed = stat(place.path, &status);
        if (failed || !S_ISDIR(status.st_mode)) {
            walk->error = failed ? errno : ENOTDIR;
            return;
        }
        if (read_link(place.path, text)) {
            lookup_hide_home(walk->from->home, text);
            drop_part(walk);
            if (*text == '/')
                walk->length = 0;
            walk_on(walk, text, drop_part);
        }
    }
    drop_part(walk);
}

/* Walks the whole path of a name as the program knows it. False where it has none. */
static bool whole_path(struct walk *walk, const struct lookup_from *from, const char *name) {
    char link[LINK_SPACE], folder[PATH_MAX];
    walk->from = from;
    walk->length = 0;
    walk->is_too_long = false;
    walk->error = 0;
    if (*name != '/') {
        write_folder(walk->from, link);
        if (!read_link(link, folder) || *folder != '/')
            return false;
        lookup_hide_home(walk->from->home, folder);
        walk_on(walk, folder, drop_part);
    }
    walk_on(walk, name, leave_part);
    return !walk->error && !walk->is_too_long;
}

/* Whether a path from here is the folder /dev, or the one that lists the chips in its place. */
static bool is_dev(const char *home, const char *path) {
    struct stat dev, listed, status;
    char shown[PATH_MAX];
    if (stat(path, &status) || !S_ISDIR(status.st_mode))
        return false;
    if (stat(DEV, &dev) == 0 && dev.st_ino == status.st_ino && dev.st_dev == status.st_dev)
        return true;
    return join(shown, home, ROOT, DEV) && stat(shown, &listed) == 0 && listed.st_ino == status.st_ino &&
           listed.st_dev == status.st_dev;
}

/* Whether the last part of a name says only where it is, as `.` does. */
static bool is_place(const char *last) {
    return *last == 0 || strcmp(last, ".") == 0 || strcmp(last, "..") == 0 || strcmp(last, DEV + 1) == 0;
}

/* Looks at what a name leads to, where its last part is as a chip's or as that of /dev: its folder may be /dev however
 * that is spelled. */
static void look_at_folder(struct lookup *lookup, const struct lookup_from *from, const char *name) {
    char path[PATH_MAX], whole[PATH_MAX];
    const char *last = last_part(name);
    bool is_chip = begins(last, CHIP);
    if (!(is_chip || is_place(last)) || !reach(from, name, path))
        return;
    if (is_chip)
        path[last_part(path) - path] = 0;
    if (is_dev(from->home, path) && join(whole, DEV, is_chip ? "/" : "", is_chip ? last : ""))
        take(lookup, from, whole);
}

static void look_at(struct lookup *lookup, const struct lookup_from *from, const char *name) {
    if (may_be_ours(name)) {
        struct walk walk;
        if (whole_path(&walk, from, name))
            take(lookup, from, walk.whole);
        lookup->error = walk.error;
        lookup->ours = lookup->ours || walk.error != 0;
    }
    if (!lookup->ours)
        look_at_folder(lookup, from, name);
}

/* Puts what a link says in the place of its name. False where there is no link, or no room. */
static bool follow_link(const struct lookup_from *from, char name[PATH_MAX]) {
    char path[PATH_MAX], text[PATH_MAX];
    if (!reach(from, name, path) || !read_link(path, text))
        return false;
    lookup_hide_home(from->home, text);
    size_t kept = *text == '/' ? 0 : (size_t)(last_part(name) - name);
    if (kept + strlen(text) >= PATH_MAX)
        return false;
    memcpy(name + kept, text, strlen(text) + 1);
    return true;
}

/* What a name says behind its last part stays: a slash or `.` there makes it that of a folder. So a chip's name with a
 * slash is looked for in the broker's folder, where it is no folder's. */
static void keep_end(struct lookup *lookup, const char *name) {
    const char *last = last_part(name);
    const char *end = *name == 0 ? "" : *last == 0 ? "/" : strcmp(last, ".") == 0 ? "/." : "";
    size_t length = strlen(lookup->path), added = strlen(end);
    if (added == 0 || lookup->is_dev)
        return;
    if (length + added >= sizeof lookup->path) {
        lookup->error = ENAMETOOLONG;
        return;
    }
    memcpy(lookup->path + length, end, added + 1);
    lookup->chip = -1;
}

void lookup_name(struct lookup *lookup, const struct lookup_from *from, const char *name, bool follow) {
    char at[PATH_MAX];
    lookup->ours = lookup->is_dev = lookup->is_tree = lookup->is_shared = lookup->in_view = false;
    lookup->error = 0;
    lookup->chip = -1;
    look_at(lookup, from, name);
    if (!lookup->ours && !lookup->is_tree && follow && join(at, name, "", ""))
        for (int links = 0; !lookup->ours && !lookup->is_tree && links < MOST_LINKS && follow_link(from, at); links++)
            look_at(lookup, from, at);
    if (lookup->ours && !lookup->error)
        keep_end(lookup, name);
}
