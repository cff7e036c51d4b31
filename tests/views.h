/*
 * Groups of cases about maps that agree on a window. The view of a map through a window is the list of its records with
 * a pixel there, each by key and class. Where two maps have the same view, all that the library answers about the
 * window is the same, but for the indices of first records; and at these the same records stand. Where the views
 * differ, so do the openings with their records.
 */
#ifndef VIEWS_H
#define VIEWS_H

/* All windows of small pictures, and every two of these pictures, found by pixels to have the same view or not. */
void group_small_views(void);

/* Maps filled anew outside a window, and maps changed at one record. */
void group_random_views(void);

#endif
