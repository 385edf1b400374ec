/* What the kinds of a refused line mean. */
#ifndef FAULTS_H
#define FAULTS_H

/* A kind of `refused LINE COLUMN KIND` in words; the kind itself where it is none that is known. */
const char *faults_words(const char *kind);

#endif
