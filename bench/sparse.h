/* What a map saves that leaves out background. */
#ifndef SPARSE_H
#define SPARSE_H

/* The lake and its file with a class left out, beside the complete lake; and what the calls take on both. */
void print_sparse(void);

#endif
