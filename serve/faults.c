#include "faults.h"

#include <string.h>

const char *faults_words(const char *kind) {
    static const struct {
        const char *kind, *words;
    } faults[] = {
        {"byte", "a byte that is no printable ASCII"},
        {"header", "no `session 1`"},
        {"section", "a section can't begin here: a board has statements alone"},
        {"statement", "no statement begins with this word"},
        {"words", "a word too many, or one is missing"},
        {"word", "a word that is not of its form"},
        {"name", "another actor has this name"},
        {"limit", "beyond a limit"},
    };
    for (size_t i = 0; i < sizeof faults / sizeof *faults; i++)
        if (strcmp(kind, faults[i].kind) == 0)
            return faults[i].words;
    return kind;
}
