/* draw.c: the ring as a picture, in SVG. Positions go clockwise from the top. A stretch of words is a dash of a circle's stroke, so that
 * no point has to be computed: only lengths along a circle, and angles to turn labels by. */

#define _DEFAULT_SOURCE
#include "reader.h"

#include <inttypes.h>
#include <stdio.h>
#include <string.h>

enum { MOST_FILES = 3, MOST_KINDS = 10, MOST_NAME = 40, MOST_SHADES = 24, SHADE_ROOM = 32 };
/* A panel for each file, with the circles around (0, 0): radius and width of their strokes. */
enum { PANEL = 580, PANEL_HEIGHT = 560, RECORDS = 180, RECORDS_WIDTH = 64, EPOCHS = 132, EPOCHS_WIDTH = 14, DIFFERENT = 220, DIFFERENT_WIDTH = 6 };
enum { LABELS = 238, SECOND_LABELS = 256 };
enum { LEGEND_ROW = 24, MARGIN = 30 };
#define TURN 6.283185307179586
#define FREE "#eceff3"
#define LEFT_OVER "#cfd6de"
#define UNKNOWN "#e3d3d3"
#define WRONG "#d3202f"
#define INK "#22303c"

static const char *const colors[MOST_KINDS] = {"#2f6fb3", "#e08a1e", "#3d9a50", "#8a5fbf", "#c2477f", "#1f9aa5", "#a8862a", "#6b7b8c", "#b5523b", "#54722c"};

struct drawn {
    struct reading reading;
    uint64_t words[DRIVELOG_MAX_IMAGE_WORDS];
    size_t count; /* of the words; 0 if the file is no image */
    const char *name;
};
static struct drawn files[MOST_FILES];
static int file_count, chosen;

/* Kinds and epochs of all files, in rising order. */
static uint64_t kinds[MOST_FILES * DRIVELOG_MAX_RECORDS * 2], epochs[MOST_FILES * DRIVELOG_MAX_RECORDS * 2];
static int kind_count, epoch_count;

/* ---------------------------------------------------------------- what is drawn */

static int place_of(const uint64_t *numbers, int count, uint64_t number)
{
    int at = 0;
    while (at < count && numbers[at] < number)
        at++;
    return at;
}

static void add(uint64_t *numbers, int *count, uint64_t number)
{
    int at = place_of(numbers, *count, number);
    if (at < *count && numbers[at] == number)
        return;
    memmove(numbers + at + 1, numbers + at, (size_t)(*count - at) * sizeof *numbers);
    numbers[at] = number;
    ++*count;
}

static void read_one(struct drawn *file, const char *name)
{
    read_log(name, &file->reading);
    look_after_end(&file->reading);
    file->name = name;
    file->count = file->reading.ring > 0 ? drive.words : 0;
    memcpy(file->words, chosen_image(), 8 * file->count);
    for (uint64_t i = 0; i < file->reading.count + file->reading.after; i++) {
        add(kinds, &kind_count, file->reading.records[i][DRIVELOG_RECORD_KIND]);
        add(epochs, &epoch_count, file->reading.records[i][DRIVELOG_RECORD_EPOCH]);
    }
}

static int is_whole(const struct drawn *file) { return file->count > 0 && file->reading.found == 0; }

/* Whether a recovery of the files as modules of one log prefers the first: readable, then the greater epoch, then the greater end. */
static int is_before(const struct drawn *file, const struct drawn *other)
{
    const uint64_t *mine = file->reading.cursor, *its = other->reading.cursor;
    if (is_whole(file) != is_whole(other))
        return is_whole(file);
    if (mine[DRIVELOG_CURSOR_SUPERLINE_EPOCH] != its[DRIVELOG_CURSOR_SUPERLINE_EPOCH])
        return mine[DRIVELOG_CURSOR_SUPERLINE_EPOCH] > its[DRIVELOG_CURSOR_SUPERLINE_EPOCH];
    return mine[DRIVELOG_CURSOR_LSN] > its[DRIVELOG_CURSOR_LSN];
}

static const char *color_of(uint64_t kind) { return colors[place_of(kinds, kind_count, kind) % MOST_KINDS]; }

/* From light for the oldest epoch to dark for the newest. */
static const char *shade_of(uint64_t epoch, char *color)
{
    int gray = epoch_count < 2 ? 120 : 215 - 165 * place_of(epochs, epoch_count, epoch) / (epoch_count - 1);
    snprintf(color, SHADE_ROOM, "#%02x%02x%02x", gray, gray, gray + 20);
    return color;
}

/* ---------------------------------------------------------------- pieces */

/* Text with no character that XML does not take. `most` characters of it, and dots if there are more. */
static void put_xml(const char *text, size_t most)
{
    const uint8_t *at = (const uint8_t *)text;
    for (size_t left = strlen(text), bytes, done = 0; left > 0; at += bytes, left -= bytes, done++) {
        if (done == most) {
            fputs("..", stdout);
            return;
        }
        bytes = character_bytes(at, left);
        int plain = bytes > 0 && *at >= ' ' && is_printable(at, bytes);
        if (bytes == 0)
            bytes = 1;
        if (*at == '&' || *at == '<' || *at == '>' || *at == '"')
            printf("&#%d;", *at);
        else if (plain)
            fwrite(at, 1, bytes, stdout);
        else
            fputs("\xEF\xBF\xBD", stdout);
    }
}

/* A stretch of a circle, from a ring position on. */
static void stretch(int radius, int width, uint64_t ring, uint64_t pos, uint64_t count, const char *color, const char *more)
{
    double whole = TURN * radius, length = whole * (double)count / (double)ring;
    double gap = length > 4 && count < ring ? 1 : 0;
    printf("<circle r=\"%d\" stroke-width=\"%d\" stroke=\"%s\" stroke-dasharray=\"%.3f %.3f\" transform=\"rotate(%.4f)\"%s/>\n", radius, width, color,
           length - gap, whole - length + gap, 360.0 * (double)pos / (double)ring - 90, more);
}

static double angle_of(uint64_t ring, double pos) { return 360 * pos / (double)ring; }

/* Upright text at an angle; `more` says how it is aligned. */
static void label(double angle, int radius, const char *size, const char *more, const char *text)
{
    printf("<text transform=\"rotate(%.3f) translate(0 %d) rotate(%.3f)\" font-size=\"%s\" dy=\"4\"%s>%s</text>\n", angle, -radius, -angle, size,
           more, text);
}

static void marker(uint64_t ring, uint64_t pos, int radius, const char *color, const char *text)
{
    double angle = angle_of(ring, (double)pos);
    printf("<path transform=\"rotate(%.3f)\" d=\"M0 %d V%d\" stroke=\"%s\" stroke-width=\"2\"/>\n", angle, -(RECORDS - RECORDS_WIDTH / 2), -(radius - 9),
           color);
    int right = angle > 25 && angle < 155, left = angle > 205 && angle < 335;
    label(angle, right || left ? radius - 4 : radius, "13", right ? " text-anchor=\"start\"" : left ? " text-anchor=\"end\"" : "", text);
}

/* Words from the end to the head that are not 0: nothing reads them. */
static void draw_left_over(const struct drawn *file)
{
    const struct reading *reading = &file->reading;
    uint64_t ring = reading->ring, end = reading->cursor[DRIVELOG_CURSOR_POS];
    uint64_t free_words = ring - reading->cursor[DRIVELOG_CURSOR_USED];
    for (uint64_t i = 0, first = 0; i <= free_words; i++) {
        if (i < free_words && file->words[SUPERLINE_WORDS + (end + i) % ring] != 0)
            continue;
        if (i > first)
            stretch(RECORDS, RECORDS_WIDTH, ring, (end + first) % ring, i - first, LEFT_OVER, "");
        first = i + 1;
    }
}

static void draw_record(const struct drawn *file, uint64_t index)
{
    const uint64_t *record = file->reading.records[index];
    uint64_t ring = file->reading.ring, size = size_words(record), pos = record[DRIVELOG_RECORD_POS], mark = record[DRIVELOG_RECORD_MARK];
    int after = index >= file->reading.count;
    char text[32];
    if (after)
        stretch(RECORDS, RECORDS_WIDTH, ring, pos, size, "#ffffff", "");
    stretch(RECORDS, RECORDS_WIDTH, ring, pos, size, color_of(record[DRIVELOG_RECORD_KIND]),
            after ? " opacity=\"0.45\" mask=\"url(#stripes)\"" : mark == DRIVELOG_MARK_RELEASED ? " opacity=\"0.25\"" : "");
    if (angle_of(ring, (double)size) < 7)
        return;
    snprintf(text, sizeof text, "%" PRIu64, record[DRIVELOG_RECORD_LSN]);
    printf("<g fill=\"%s\">", after || mark == DRIVELOG_MARK_RELEASED ? INK : "#ffffff");
    label(angle_of(ring, (double)pos + (double)size / 2), RECORDS, "12", "", text);
    fputs("</g>\n", stdout);
}

/* Records of one epoch follow one another, and are one stretch. */
static void draw_epochs(const struct reading *reading)
{
    uint64_t all = reading->count + reading->after, size = 0;
    for (uint64_t i = 0; i < all; i++) {
        const uint64_t *record = reading->records[i];
        char shade[SHADE_ROOM];
        size += size_words(record);
        if (i + 1 < all && record[DRIVELOG_RECORD_EPOCH] == reading->records[i + 1][DRIVELOG_RECORD_EPOCH])
            continue;
        uint64_t end = record[DRIVELOG_RECORD_POS] + size_words(record);
        stretch(EPOCHS, EPOCHS_WIDTH, reading->ring, (end + reading->ring - size) % reading->ring, size,
                shade_of(record[DRIVELOG_RECORD_EPOCH], shade), "");
        size = 0;
    }
}

/* Where the words differ from those of the file that is compared with; how many do. */
static uint64_t draw_different(const struct drawn *file, const struct drawn *other)
{
    uint64_t ring = file->reading.ring, different = 0;
    for (uint64_t i = 0, first = 0; i <= ring; i++) {
        if (i < ring && file->words[SUPERLINE_WORDS + i] != other->words[SUPERLINE_WORDS + i])
            continue;
        if (i > first)
            stretch(DIFFERENT, DIFFERENT_WIDTH, ring, first, i - first, WRONG, "");
        different += i - first;
        first = i + 1;
    }
    return different;
}

static void line_of_text(int y, const char *size, const char *text) { printf("<text y=\"%d\" font-size=\"%s\">%s</text>\n", y, size, text); }

static void say_middle(const struct drawn *file)
{
    const struct reading *reading = &file->reading;
    const uint64_t *cursor = reading->cursor;
    char text[200];
    snprintf(text, sizeof text, "%" PRIu64 " listed, %" PRIu64 " released", reading->listed, reading->count - reading->listed);
    line_of_text(-34, "15", text);
    snprintf(text, sizeof text, "head LSN %" PRIu64, reading->head_lsn);
    line_of_text(-12, "13", text);
    snprintf(text, sizeof text, "%s LSN %" PRIu64, reading->found == 0 ? "end" : "stopped at", cursor[DRIVELOG_CURSOR_LSN]);
    line_of_text(6, "13", text);
    snprintf(text, sizeof text, "epoch %" PRIu64, cursor[DRIVELOG_CURSOR_SUPERLINE_EPOCH]);
    line_of_text(24, "13", text);
    snprintf(text, sizeof text, "ring of %" PRIu64 " words", reading->ring);
    line_of_text(42, "13", text);
    if (reading->found == 0)
        snprintf(text, sizeof text, "%" PRIu64 " free", room_words(reading));
    line_of_text(60, "13", reading->found == 0 ? text : "");
}

/* How a file stands to the one that a recovery of all would take. */
static void say_differences(const struct drawn *file, uint64_t ring_words)
{
    const struct drawn *other = &files[chosen];
    char text[200];
    int superline = file->count == other->count && memcmp(file->words, other->words, 8 * SUPERLINE_WORDS) != 0;
    if (file == other)
        snprintf(text, sizeof text, "a recovery takes this copy");
    else if (file->count != other->count)
        snprintf(text, sizeof text, "another size than copy %d", chosen + 1);
    else if (ring_words == 0 && !superline)
        snprintf(text, sizeof text, "equal to copy %d", chosen + 1);
    else
        snprintf(text, sizeof text, "%" PRIu64 " word%s of the ring differ%s from copy %d%s", ring_words, ring_words == 1 ? "" : "s",
                 ring_words == 1 ? "s" : "", chosen + 1, superline ? ", and the superline" : "");
    line_of_text(PANEL_HEIGHT / 2 - 10, "13", text);
}

static void draw_file(int number)
{
    const struct drawn *file = &files[number];
    const struct reading *reading = &file->reading;
    const uint64_t *cursor = reading->cursor;
    printf("<g transform=\"translate(%d %d)\" fill=\"none\" text-anchor=\"middle\">\n<g fill=\"" INK "\"><text y=\"%d\" font-size=\"16\" font-weight=\"bold\">",
           PANEL / 2 + PANEL * number, MARGIN + PANEL_HEIGHT / 2, -PANEL_HEIGHT / 2 + 8);
    if (file_count > 1)
        printf("copy %d: ", number + 1);
    put_xml(file->name, MOST_NAME);
    puts("</text></g>");
    if (file->count == 0) {
        printf("<circle r=\"%d\" stroke-width=\"%d\" stroke=\"" UNKNOWN "\"/>\n<g fill=\"" INK "\"><text font-size=\"13\">", RECORDS, RECORDS_WIDTH);
        path = file->name;
        put_xml(reading->error != 0 ? system_in_words(reading->error) : drivelog_refusal_text(reading->found), SIZE_MAX);
        puts("</text></g>\n</g>");
        return;
    }
    printf("<circle r=\"%d\" stroke-width=\"%d\" stroke=\"%s\"/>\n", RECORDS, RECORDS_WIDTH, reading->found == 0 ? FREE : UNKNOWN);
    if (reading->found == 0)
        draw_left_over(file);
    for (uint64_t i = 0; i < reading->count + reading->after; i++)
        draw_record(file, i);
    draw_epochs(reading);
    uint64_t different = file_count > 1 && file->count == files[chosen].count ? draw_different(file, &files[chosen]) : 0;
    uint64_t ring = reading->ring, head = reading->head_pos, end = cursor[DRIVELOG_CURSOR_POS];
    uint64_t apart = (end + ring - head) % ring, least = ring / 16;
    int label_radius = apart < least || ring - apart < least ? SECOND_LABELS : LABELS; /* labels that would meet are at two distances */
    if (reading->found != 0)
        stretch(RECORDS, RECORDS_WIDTH, ring, end, ring / 90 + 1, WRONG, "");
    puts("<g fill=\"" INK "\">");
    marker(ring, head, LABELS, INK, reading->count == 0 && reading->found == 0 ? "head and end" : "head");
    if (reading->found != 0)
        marker(ring, end, label_radius, WRONG, reading->found == -DRIVELOG_DAMAGED ? "damaged" : "too many");
    else if (reading->count > 0)
        marker(ring, end, label_radius, INK, "end");
    say_middle(file);
    if (file_count > 1)
        say_differences(file, different);
    puts("</g>\n</g>");
}

/* ---------------------------------------------------------------- legend */

/* A place in the legend: as many in a row as there is room for. */
static int legend_places;

static void legend_box(const char *color, const char *more, const char *text)
{
    int in_row = file_count * PANEL / 190, x = MARGIN + legend_places % in_row * 190, y = legend_places / in_row * LEGEND_ROW;
    printf("<rect x=\"%d\" y=\"%d\" width=\"16\" height=\"14\" fill=\"%s\"%s/><text x=\"%d\" y=\"%d\" font-size=\"13\" fill=\"" INK "\">%s</text>\n", x, y,
           color, more, x + 23, y + 12, text);
    legend_places++;
}

static int has_after(void)
{
    int after = 0;
    for (int i = 0; i < file_count; i++)
        after |= files[i].reading.after > 0;
    return after;
}

static int any_stopped(void)
{
    int stopped = 0;
    for (int i = 0; i < file_count; i++)
        stopped |= !is_whole(&files[i]);
    return stopped;
}

static void draw_legend(void)
{
    char text[100], color[SHADE_ROOM];
    legend_places = 0;
    /* Kinds that share a color share a place. */
    for (int i = 0; i < kind_count && i < MOST_KINDS; i++) {
        int length = snprintf(text, sizeof text, "kind %" PRIu64, kinds[i]);
        if (i + MOST_KINDS < kind_count)
            snprintf(text + length, sizeof text - (size_t)length, ", %" PRIu64 "%s", kinds[i + MOST_KINDS],
                     i + 2 * MOST_KINDS < kind_count ? ", .." : "");
        legend_box(colors[i], "", text);
    }
    legend_box(colors[0], " opacity=\"0.25\"", "released");
    if (has_after())
        legend_box(colors[0], " opacity=\"0.45\" mask=\"url(#stripes)\"", "after the end, whole");
    legend_box(FREE, "", "free, 0");
    legend_box(LEFT_OVER, "", "free, not 0");
    if (any_stopped())
        legend_box(UNKNOWN, "", "cannot be read");
    if (file_count > 1)
        legend_box(WRONG, "", "words that differ");
    for (int i = 0; i < epoch_count; i++) {
        if (epoch_count > MOST_SHADES && i > 0 && i < epoch_count - 1)
            continue;
        snprintf(text, sizeof text, "epoch %" PRIu64 "%s", epochs[i], i == 0 && epoch_count > MOST_SHADES ? " (oldest)" : "");
        legend_box(shade_of(epochs[i], color), "", text);
    }
}

static int legend_height(void)
{
    int shades = epoch_count > MOST_SHADES ? 2 : epoch_count, shown = kind_count < MOST_KINDS ? kind_count : MOST_KINDS;
    int places = shown + 3 + has_after() + any_stopped() + (file_count > 1) + shades, in_row = file_count * PANEL / 190;
    return (places + in_row - 1) / in_row * LEGEND_ROW;
}

int draw_files(const char *const *names, int count)
{
    int status = DONE;
    name_files(names[0]);
    if (count == 1 && path_count == HANDLE_MODULES) {
        static char *three[MOST_FILES];
        for (count = 0; count < MOST_FILES; count++)
            if ((three[count] = strdup(paths[count])) == NULL)
                fail("there is no memory for its name");
        names = (const char *const *)three;
    }
    file_count = count;
    for (int i = 0; i < count; i++) {
        read_one(&files[i], names[i]);
        say_ending(&files[i].reading);
        status = worse(status, status_of(&files[i].reading));
        if (is_before(&files[i], &files[chosen]))
            chosen = i;
    }
    int width = count * PANEL, height = MARGIN + PANEL_HEIGHT + MARGIN + legend_height() + MARGIN / 2;
    printf("<svg xmlns=\"http://www.w3.org/2000/svg\" width=\"%d\" height=\"%d\" viewBox=\"0 0 %d %d\" font-family=\"DejaVu Sans, Verdana, sans-serif\">\n",
           width, height, width, height);
    puts("<title>a drive log's ring, by drivelog draw</title>\n<defs><pattern id=\"lines\" width=\"6\" height=\"6\" patternUnits=\"userSpaceOnUse\" "
         "patternTransform=\"rotate(45)\"><rect width=\"3\" height=\"6\" fill=\"white\"/></pattern><mask id=\"stripes\" maskUnits=\"userSpaceOnUse\" "
         "x=\"-300\" y=\"-300\" width=\"3000\" height=\"3000\"><rect x=\"-300\" y=\"-300\" width=\"3000\" height=\"3000\" fill=\"url(#lines)\"/></mask></defs>\n"
         "<rect width=\"100%\" height=\"100%\" fill=\"white\"/>");
    for (int i = 0; i < count; i++)
        draw_file(i);
    printf("<g transform=\"translate(0 %d)\">\n", MARGIN + PANEL_HEIGHT + MARGIN / 2);
    draw_legend();
    puts("</g>\n</svg>");
    return status;
}
