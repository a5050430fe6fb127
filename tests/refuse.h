/* What refuse.c offers to a program that it is linked into. */
#ifndef REFUSE_H
#define REFUSE_H

/* From now on the n-th call of malloc, calloc or realloc by this thread is refused, or none if n is 0. Answers how many
 * there were since the last such call. */
long refuse_memory(long n);

/* How many more blocks of memory this thread has taken than given back. */
long blocks_taken(void);
#endif
