/* Draws the measured figures as an SVG: the four calls side by side, and the archive at three sizes. */
#include "picture.h"

#include <math.h>

#include "targets.h"

enum { WIDTH = 2000, HEIGHT = 700, LEFT = 80, RIGHT = 1980, PLOT = 190, STEPS = 4 };
enum { MOST_BARS = 4, BAR_GAP = 6, GROUP_GAP = 30, UNDER_LINES = 2 };

/* One chart: so many bars for each input, with what to call them, and lines of text under each input. */
typedef struct {
    const char *title;
    int bars, top;
    const char *legend[MOST_BARS];
    const char *colour[MOST_BARS];
    double value[INPUTS][MOST_BARS];
    char under[INPUTS][UNDER_LINES][48];
} chart;

static void text(FILE *to, double x, double y, const char *more, const char *what)
{
    fprintf(to, "<text x=\"%.1f\" y=\"%.1f\" %s>%s</text>\n", x, y, more, what);
}

/* 1, 2, 2.5 or 5 times a power of ten: the least step that reaches over the highest bar. */
static double step_over(double most)
{
    static const double steps[] = {1, 2, 2.5, 5, 10};
    double ten = pow(10, floor(log10(most / STEPS)));
    for (unsigned i = 0; i < sizeof steps / sizeof *steps; i++)
        if (steps[i] * ten * STEPS >= most)
            return steps[i] * ten;
    return 10 * ten;
}

static double highest(const chart *c)
{
    double most = 1;
    for (int i = 0; i < INPUTS; i++)
        for (int b = 0; b < c->bars; b++)
            most = fmax(most, c->value[i][b]);
    return most;
}

static void draw_axis(FILE *to, const chart *c, double step)
{
    char label[32], turned[64];
    for (int i = 0; i <= STEPS; i++) {
        double y = c->top + PLOT - (double)PLOT * i / STEPS;
        fprintf(to, "<line x1=\"%d\" y1=\"%.1f\" x2=\"%d\" y2=\"%.1f\" stroke=\"%s\"/>\n", LEFT, y, RIGHT, y, i ? "#ddd" : "#333");
        snprintf(label, sizeof label, "%.0f", step * i);
        text(to, LEFT - 8, y + 4, "text-anchor=\"end\"", label);
    }
    double middle = c->top + PLOT / 2.0;
    snprintf(turned, sizeof turned, "text-anchor=\"middle\" transform=\"rotate(-90 24 %.1f)\"", middle);
    text(to, 24, middle, turned, "instructions per line");
}

static void draw_legend(FILE *to, const chart *c)
{
    for (int b = 0; b < c->bars; b++) {
        double x = LEFT + 130.0 * b, y = c->top - 34;
        fprintf(to, "<rect x=\"%.1f\" y=\"%.1f\" width=\"12\" height=\"12\" fill=\"%s\"/>\n", x, y, c->colour[b]);
        text(to, x + 18, y + 10.5, "", c->legend[b]);
    }
}

static void draw_group(FILE *to, const chart *c, int input, double top_value)
{
    char label[32];
    double wide = (double)(RIGHT - LEFT) / INPUTS, middle = LEFT + wide * (input + 0.5);
    double step = (wide - GROUP_GAP) / c->bars, thick = step - BAR_GAP;
    for (int b = 0; b < c->bars; b++) {
        double centre = middle + (b - (c->bars - 1) / 2.0) * step, tall = PLOT * c->value[input][b] / top_value, y = c->top + PLOT - tall;
        fprintf(to, "<rect x=\"%.1f\" y=\"%.1f\" width=\"%.1f\" height=\"%.1f\" fill=\"%s\"/>\n",
                centre - thick / 2, y, thick, tall, c->colour[b]);
        snprintf(label, sizeof label, "%.0f", c->value[input][b]);
        /* a white rim, so that no grid line runs through the number */
        text(to, centre, y - 4, "text-anchor=\"middle\" stroke=\"#fff\" stroke-width=\"3\" paint-order=\"stroke\"", label);
    }
    text(to, middle, c->top + PLOT + 18, "text-anchor=\"middle\" font-weight=\"bold\"", input_names[input]);
    for (int i = 0; i < UNDER_LINES && c->under[input][i][0] != 0; i++)
        text(to, middle, c->top + PLOT + 34 + 16 * i, "text-anchor=\"middle\"", c->under[input][i]);
}

static void draw_chart(FILE *to, const chart *c)
{
    double step = step_over(highest(c));
    text(to, LEFT, c->top - 46, "font-size=\"15\" font-weight=\"bold\"", c->title);
    draw_legend(to, c);
    draw_axis(to, c, step);
    for (int i = 0; i < INPUTS; i++)
        draw_group(to, c, i, step * STEPS);
}

static void draw_calls(const figures *f, FILE *to)
{
    chart c = {
        .bars = 4,
        .top = 110,
        .legend = {"archive", "plain checker", "tuned checker", "floor (line ends)"},
        .colour = {"#1f5fa8", "#e08a1e", "#3f9e6b", "#8a8a8a"},
    };
    char title[80];
    snprintf(title, sizeof title, "One check of 60,000 lines (target: archive / plain at most %.1f)", most_ratio);
    c.title = title;
    for (int i = 0; i < INPUTS; i++) {
        for (int b = 0; b < c.bars; b++)
            c.value[i][b] = per_line(f, i, SIZE_60000, (enum which)(ARCHIVE - b));
        snprintf(c.under[i][0], sizeof c.under[i][0], "archive / plain: %.3f", ratio(f, i, SIZE_60000, PLAIN));
        snprintf(c.under[i][1], sizeof c.under[i][1], "archive / tuned: %.2f", ratio(f, i, SIZE_60000, TUNED));
    }
    draw_chart(to, &c);
}

static void draw_sizes(const figures *f, FILE *to)
{
    chart c = {
        .bars = SIZES,
        .top = 460,
        .legend = {"600 lines", "6,000 lines", "60,000 lines"},
        .colour = {"#a9c8ec", "#5c94d2", "#1f5fa8"},
    };
    char title[80];
    snprintf(title, sizeof title, "The archive as the file grows (target: 60,000 / 6,000 at most %.2f)", most_growth);
    c.title = title;
    for (int i = 0; i < INPUTS; i++) {
        for (int b = 0; b < c.bars; b++)
            c.value[i][b] = per_line(f, i, (enum size)b, ARCHIVE);
        snprintf(c.under[i][0], sizeof c.under[i][0], "60,000 / 6,000: %.4f", growth(f, i, ARCHIVE));
    }
    draw_chart(to, &c);
}

void picture_print(const figures *f, FILE *to)
{
    fprintf(to, "<svg xmlns=\"http://www.w3.org/2000/svg\" width=\"%d\" height=\"%d\" viewBox=\"0 0 %d %d\"", WIDTH, HEIGHT, WIDTH, HEIGHT);
    fprintf(to, " font-family=\"sans-serif\" font-size=\"12\">\n");
    fprintf(to, "<rect width=\"%d\" height=\"%d\" fill=\"#fff\"/>\n", WIDTH, HEIGHT);
    text(to, LEFT, 32, "font-size=\"18\" font-weight=\"bold\"", "Decklesail: instructions per line of the Dirf check");
    draw_calls(f, to);
    draw_sizes(f, to);
    fprintf(to, "</svg>\n");
}
