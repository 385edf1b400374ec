#include "touch.h"

/* Marks a file. A look that wakes its readers replaces one that doesn't. */
static void touch(struct files *files, struct file *file, enum file_look look) {
    if (files_is_gone(file) || file->look >= look)
        return;
    if (file->look == LOOK_NONE)
        files->touched++;
    file->look = look;
}

static bool has_line(const struct file *file, uint32_t line) {
    for (size_t i = 0; i < file->line_count; i++)
        if (file->lines[i] == line)
            return true;
    return false;
}

void touch_edges(struct files *files, unsigned chip, uint32_t line) {
    for (struct file *file = files->first; file; file = file->next)
        if (file->awaits && file->kind != FILE_CHIP && file->chip == chip && has_line(file, line))
            touch(files, file, LOOK_WAKES);
}

void touch_watches(struct files *files, unsigned chip, const uint32_t *lines, size_t count) {
    for (struct file *file = files->first; file; file = file->next) {
        if (!file->awaits || file->kind != FILE_CHIP || file->chip != chip)
            continue;
        for (size_t i = 0; i < count; i++)
            if (files_is_watched(file, lines[i]))
                touch(files, file, LOOK_WAKES);
    }
}

void touch_debounced(struct files *files) {
    for (struct file *file = files->first; file; file = file->next)
        if (file->awaits && file->debounces)
            touch(files, file, LOOK_WAKES);
}

void touch_waiting(struct files *files) {
    for (struct file *file = files->first; file; file = file->next)
        if (file->awaits)
            touch(files, file, LOOK_WAKES);
}

void touch_all(struct files *files) {
    for (struct file *file = files->first; file; file = file->next)
        touch(files, file, LOOK_WAKES);
}

void touch_read(struct files *files, struct file *file) {
    if (files_shows(file))
        touch(files, file, LOOK_TAKES);
}
