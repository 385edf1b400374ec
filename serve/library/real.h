/* The functions of the C library that this one stands in front of. */
#ifndef REAL_H
#define REAL_H

/* Marks a function that takes the place of the C library's. */
#define TAKES_OVER __attribute__((visibility("default")))

/* All functions that REAL may name. */
#define REAL_NAMES(each)                                                                                               \
    each(openat) each(fopen) each(fopen64) each(ioctl) each(fcntl) each(poll) each(ppoll) each(read) each(readv)       \
        each(access) each(faccessat) each(euidaccess) each(getxattr) each(lgetxattr) each(listxattr) each(llistxattr)  \
            each(realpath) each(scandirat) each(scandirat64) each(readdir) each(glob) each(mkdir) each(mkdirat)        \
                each(rmdir) each(unlink) each(unlinkat) each(remove) each(truncate) each(truncate64) each(chdir)       \
                    each(fchdir) each(getcwd) each(get_current_dir_name) each(setmntent)

#define REAL_NUMBER(name) REAL_##name,
enum real_number { REAL_NAMES(REAL_NUMBER) REAL_COUNT };

/* The function of that name that comes after this library's. All are looked up when the library is loaded, so that a
 * call in a signal handler, or in a child that was made beside threads, waits for no lock of the dynamic linker. */
#define REAL(name) ((__typeof__(&(name)))real_function(REAL_##name))
void *real_function(enum real_number number);

#endif
