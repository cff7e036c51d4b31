/* Random windows on the lake: how often the records are fetched. */
#ifndef EXPERIMENT_H
#define EXPERIMENT_H

/* Prints the table, and writes the plot to this file. */
void experiment(const char *plot);

#endif
