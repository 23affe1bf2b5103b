/* GEOS's prepared polygons on the points and shapes of bench/polygons.py: each point is tested by itself.
 *
 * usage: geos POINTS.csv RINGS [numbers]     (cc -O2 geos.c -lgeos_c, Debian's libgeos-dev)
 *
 * POINTS.csv has a line of names and then `X,Y` a line. RINGS has for each ring a line with the number of its positions
 * and then `X Y` a line, the first position again as the last. Each ring is a polygon of one multipolygon, so that a
 * point is in by the even-odd rule over all rings, or where it lies on an edge. Answers `hits N`, and with `numbers`
 * the numbers of the points that are in, as bkd does. Standard error has the processor seconds that preparing and
 * testing took, and of the testing what making a geometry of each point takes. */
#include <geos_c.h>
#include <stdarg.h>
#include <stdio.h>
#include <stdlib.h>
#include <string.h>
#include <time.h>

typedef struct {
    double x, y;
} Position;

static void tell(const char *text, ...)
{
    va_list words;
    va_start(words, text);
    vfprintf(stderr, text, words);
    va_end(words);
    fputc('\n', stderr);
}

static void *need(void *made, const char *what)
{
    if (made == NULL) {
        tell("geos: %s", what);
        exit(1);
    }
    return made;
}

static double seconds(void)
{
    struct timespec now;
    clock_gettime(CLOCK_PROCESS_CPUTIME_ID, &now);
    return (double)now.tv_sec + (double)now.tv_nsec / 1e9;
}

/* The positions of a file of `X,Y` lines behind a line of names, and how many. */
static Position *read_points(const char *path, size_t *count)
{
    FILE *file = need(fopen(path, "r"), path);
    size_t room = 1 << 16;
    Position *points = need(malloc(room * sizeof *points), "no memory");
    *count = 0;
    if (fscanf(file, "%*[^\n]\n") == EOF)
        exit(1);
    for (Position p; fscanf(file, "%lf,%lf\n", &p.x, &p.y) == 2; points[(*count)++] = p)
        if (*count == room)
            points = need(realloc(points, (room *= 2) * sizeof *points), "no memory");
    fclose(file);
    return points;
}

static GEOSGeometry *read_ring(FILE *file, unsigned int count)
{
    GEOSCoordSequence *positions = need(GEOSCoordSeq_create(count, 2), "no positions");
    for (unsigned int i = 0; i < count; i++) {
        Position p;
        if (fscanf(file, "%lf %lf", &p.x, &p.y) != 2 || !GEOSCoordSeq_setXY(positions, i, p.x, p.y))
            exit(1);
    }
    GEOSGeometry *ring = need(GEOSGeom_createLinearRing(positions), "no ring");
    return need(GEOSGeom_createPolygon(ring, NULL, 0), "no polygon");
}

static GEOSGeometry *read_rings(const char *path)
{
    FILE *file = need(fopen(path, "r"), path);
    GEOSGeometry **rings = NULL;
    unsigned int count = 0, length;
    for (; fscanf(file, "%u", &length) == 1; count++) {
        rings = need(realloc(rings, (count + 1) * sizeof *rings), "no memory");
        rings[count] = read_ring(file, length);
    }
    fclose(file);
    GEOSGeometry *all = need(GEOSGeom_createCollection(GEOS_MULTIPOLYGON, rings, count), "no polygons");
    free(rings);
    return all;
}

/* Marks the points that are in, and answers how many they are. */
static size_t test(const GEOSPreparedGeometry *shape, const Position *points, size_t count, char *in)
{
    size_t hits = 0;
    for (size_t i = 0; i < count; i++) {
        GEOSGeometry *point = need(GEOSGeom_createPointFromXY(points[i].x, points[i].y), "no point");
        in[i] = GEOSPreparedIntersects(shape, point);
        if (in[i] > 1)
            exit(1);
        hits += (size_t)in[i];
        GEOSGeom_destroy(point);
    }
    return hits;
}

/* The seconds that making a geometry of each point takes. */
static double making(const Position *points, size_t count)
{
    double begun = seconds();
    for (size_t i = 0; i < count; i++)
        GEOSGeom_destroy(need(GEOSGeom_createPointFromXY(points[i].x, points[i].y), "no point"));
    return seconds() - begun;
}

int main(int words, char **word)
{
    if (words < 3 || words > 4 || (words == 4 && strcmp(word[3], "numbers") != 0)) {
        tell("usage: geos POINTS.csv RINGS [numbers]");
        return 1;
    }
    initGEOS(tell, tell);
    size_t count;
    Position *points = read_points(word[1], &count);
    char *in = need(calloc(count + 1, 1), "no memory");
    GEOSGeometry *rings = read_rings(word[2]);
    double begun = seconds();
    const GEOSPreparedGeometry *shape = GEOSPrepare(rings);
    if (shape == NULL)
        return 1;
    /* what is prepared is made at the first test of a point in the box round all */
    Position corner;
    GEOSGeom_getXMin(rings, &corner.x);
    GEOSGeom_getYMin(rings, &corner.y);
    test(shape, &corner, 1, in);
    double prepared = seconds();
    size_t hits = test(shape, points, count, in);
    double tested = seconds();
    printf("hits %zu\n", hits);
    for (size_t i = 0; words == 4 && i < count; i++)
        if (in[i])
            printf("%zu\n", i);
    fprintf(stderr, "%.6f %.6f %.6f %s\n", prepared - begun, tested - prepared, making(points, count), GEOSversion());
    GEOSPreparedGeom_destroy(shape);
    GEOSGeom_destroy(rings);
    free(in);
    free(points);
    finishGEOS();
    return 0;
}
