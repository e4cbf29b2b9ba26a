/* Ends a program of checks at the first answer that is not as it should be. */
#ifndef CHECKS_H
#define CHECKS_H

#include <stdio.h>
#include <stdlib.h>

/* Ends the program, with its file and line, if an answer is not as it should be. */
#define CHECK(answer)                                                 \
    do {                                                              \
        if (!(answer)) {                                              \
            printf("%s, line %d: %s\n", __FILE__, __LINE__, #answer); \
            exit(1);                                                  \
        }                                                             \
    } while (0)

#endif
