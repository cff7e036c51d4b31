#include "experiment.h"

#include "measure.h"

#include <stdio.h>

enum { TRIES = 500, RATIOS = 4 };

/* The area of the window, and the side of a square of that area, in those of the picture. */
static const struct {
    const char *area;
    double side;
} ratios[RATIOS] = {{".00001", .00316228}, {".0001", .01}, {".001", .0316228}, {".01", .1}};

static double openings[RATIOS], blocks[RATIOS]; /* on average, for each ratio */

/* A window of nearly that part of the picture, up to four times as long as broad, anywhere. */
static rectangle random_window(uint32_t m, int i)
{
    static uint64_t state = 1;
    uint32_t root = (uint32_t)(ratios[i].side * (1 << m) + .5), h = root / 2 + below(&state, root / 2 * 3 + 1);
    return anywhere(m, h, root * root / h, &state);
}

static void try_windows(const map *a, int i)
{
    static result r;
    openings[i] = blocks[i] = 0;
    for (int n = 0; n < TRIES; n++) {
        rectangle at = random_window(a->m, i);
        lutniorad_answer opened = call(&library, OPEN, a, at, &r), cut = call(&library, DECOMPOSE, a, at, &r);
        if (opened.refusal != 0 || cut.refusal != 0 || opened.first > cut.first)
            wrong("a window is refused, or has more openings than blocks", "experiment");
        openings[i] += (double)opened.first / TRIES;
        blocks[i] += (double)cut.first / TRIES;
    }
}

/* ---- The plot: both axes are logarithmic ---- */

enum { LEFT = 70, RIGHT = 500, TOP = 40, BOTTOM = 300, DECADES = 4 };

/* The logarithm to base 10 of a number from 1 on: digit by digit, in base 2. */
static double logarithm(double x)
{
    double sum = 0, digit = 1;
    for (; x >= 10; x /= 10)
        sum++;
    for (int i = 0; i < 20; i++) {
        x *= x;
        digit /= 2;
        if (x >= 10) {
            x /= 10;
            sum += digit;
        }
    }
    return sum;
}

static int x_of(int i)
{
    return LEFT + 30 + i * (RIGHT - LEFT - 60) / (RATIOS - 1);
}

static double y_of(double average)
{
    return BOTTOM - logarithm(average) * (BOTTOM - TOP) / DECADES;
}

static void draw_line(FILE *to, const char *colour, const char *name, const double *averages)
{
    fprintf(to, "<g fill=\"%s\"><polyline fill=\"none\" stroke=\"%s\" stroke-width=\"2\" points=\"", colour, colour);
    for (int i = 0; i < RATIOS; i++)
        fprintf(to, "%d,%.1f ", x_of(i), y_of(averages[i]));
    fprintf(to, "\"/>\n");
    for (int i = 0; i < RATIOS; i++)
        fprintf(to,
                "<circle cx=\"%d\" cy=\"%.1f\" r=\"4\"/>"
                "<text x=\"%d\" y=\"%.1f\" text-anchor=\"middle\">%.1f</text>\n",
                x_of(i), y_of(averages[i]), x_of(i), y_of(averages[i]) - 10, averages[i]);
    fprintf(to, "<text x=\"%d\" y=\"%.1f\">%s</text></g>\n", x_of(RATIOS - 1) + 12,
            y_of(averages[RATIOS - 1]) + 4, name);
}

static void draw_axes(FILE *to)
{
    for (int i = 0, ten = 1; i <= DECADES; i++, ten *= 10)
        fprintf(to,
                "<path stroke=\"#ddd\" d=\"M%d %.1fH%d\"/>"
                "<text x=\"%d\" y=\"%.1f\" text-anchor=\"end\">%d</text>\n",
                LEFT, y_of(ten), RIGHT, LEFT - 8, y_of(ten) + 4, ten);
    for (int i = 0; i < RATIOS; i++)
        fprintf(to, "<text x=\"%d\" y=\"%d\" text-anchor=\"middle\">%s</text>\n", x_of(i), BOTTOM + 18, ratios[i].area);
    fprintf(to, "<path stroke=\"#000\" fill=\"none\" d=\"M%d %dV%dH%d\"/>\n", LEFT, TOP, BOTTOM, RIGHT);
    fprintf(to, "<text x=\"%d\" y=\"%d\" text-anchor=\"middle\">area of the window / area of the picture</text>\n",
            (LEFT + RIGHT) / 2, BOTTOM + 40);
    fprintf(to, "<text x=\"%d\" y=\"%d\">Fetches for a window, on average over %d random windows on the lake</text>\n",
            LEFT, TOP - 20, TRIES);
}

static void draw(const char *plot)
{
    FILE *to = fopen(plot, "w");
    if (to == NULL)
        wrong("the plot cannot be written", plot);
    fprintf(to, "<svg xmlns=\"http://www.w3.org/2000/svg\" viewBox=\"0 0 600 350\" font-family=\"sans-serif\" "
                "font-size=\"12\">\n<rect width=\"600\" height=\"350\" fill=\"#fff\"/>\n");
    draw_axes(to);
    draw_line(to, "#c33", "Algorithm-1", blocks);
    draw_line(to, "#06c", "the library", openings);
    fprintf(to, "</svg>\n");
    if (fclose(to) != 0)
        wrong("the plot cannot be written", plot);
}

void experiment(const char *plot)
{
    static map a;
    make_map(&a, LAKE);
    printf("\nRandom windows on the lake, %d for each area: fetches for a window, on average\n\n", TRIES);
    printf("| area of the window / of the picture | Algorithm-1 | the library | fewer by |\n");
    printf("| ----------------------------------: | ----------: | ----------: | -------: |\n");
    for (int i = 0; i < RATIOS; i++) {
        try_windows(&a, i);
        printf("| %35s | %11.1f | %11.1f | %7.0f%% |\n", ratios[i].area, blocks[i], openings[i],
               100 - 100 * openings[i] / blocks[i]);
    }
    draw(plot);
}
