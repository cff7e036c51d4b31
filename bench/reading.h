/* What it takes to read the form of a key, from the smallest block's to the largest's. */
#ifndef READING_H
#define READING_H

/* The table, beside what the library took before; and whether that is what is wanted. */
void print_reading(void);

#endif
