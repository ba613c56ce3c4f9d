/* What the two parts of compare share. */
#ifndef COMPARE_H
#define COMPARE_H

#include <stdint.h>

/* Prints that the archive and the plain routines differ, with what each returned. */
void compare_differ(const char *what, uint64_t ours, uint64_t plains);

/* Counts the refusal, if a routine returned one. */
void compare_count_refusal(uint64_t n);

/*
 * Writes a legal paper item by item through both, reads it and writes it again; with calls in between that are spoiled
 * in the writer, the item, the room or the buffer. Returns how many calls these were.
 */
uint64_t compare_writers(const uint8_t *paper);

/* Calls at the edges of what the writer takes, each refusal alone and with others. */
void compare_writer_edges(void);

#endif
