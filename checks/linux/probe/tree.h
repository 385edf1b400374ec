/* Files and folders of configfs and sysfs. Each function returns 0 or the error's number. */
#ifndef TREE_H
#define TREE_H

#include "text.h"

int tree_mkdir(const char *path);
int tree_rmdir(const char *path);

/* Writes a value by one call. In it \n stands for a line end and \\ for a backslash. */
int tree_write(const char *path, const char *value);

/* Adds what the file has, without the line end behind it. */
int tree_read(const char *path, struct text *value);

#endif
