/*
 * Groups of cases about the classes in a window: exist, report and select.
 */
#ifndef QUERIES_H
#define QUERIES_H

void group_queries_written_out(void);
void group_small_queries(void);

/* Exist where some pixels were not seen. */
void group_small_mixtures(void);
void group_runs(void);
void group_random_mixtures(void);

#endif
