/* Where gpio-sim's files are. */
#ifndef PATHS_H
#define PATHS_H

#define CONFIGFS "/sys/kernel/config/gpio-sim"
#define PLATFORM "/sys/devices/platform"

enum { PATH_ROOM = 512 };

#endif
