// The breadth-first search in C, and what it shares with the Rattle library it is measured against.
#ifndef SEARCH_H
#define SEARCH_H

#include <stddef.h>
#include <stdint.h>

// A record of the found list: a state, the place of the state it was found from, and the move.
struct found {
    uint32_t state, parent, move;
};

struct answer {
    uint32_t leak; // 1 for leak, 0 for never
    uint32_t found;
    uint64_t tried;
    uint32_t length; // of the witness; 0 for never
};

// The counts of a text.
struct counts {
    uint32_t states, moves, queries;
};

// Reads an accepted text; what it does with another one is not defined.
struct counts search_counts(const uint8_t *text, size_t text_len);

// Analyses query number `query` of an accepted text. Each table has at least as many entries as there are states.
// Answers 0, or 31 if a table is too short.
uint32_t search_analyse(const uint8_t *text, size_t text_len, uint32_t query, uint32_t *marks, size_t marks_len,
                        struct found *found, size_t found_len, uint32_t *witness, size_t witness_len,
                        struct answer *answer);

#endif
