/* Triangulates the survey points of a hill with a fence, and tells what is nearest to a camp and
 * what a path to it meets. */
#include "tevasulim.h"

#include <stdio.h>

/* Says why a call was refused. */
static int refused(const char *what, tevasulim_status status)
{
    fprintf(stderr, "%s: %s\n", what, tevasulim_status_string(status));
    return 1;
}

/* Which of some points a vertex stands for. */
static unsigned point_at(const uint32_t *vertices, size_t count, uint32_t vertex)
{
    size_t i = 0;
    while (i < count && vertices[i] != vertex)
        i++;
    return (unsigned)i;
}

static int tell_nearest(const tevasulim_point *points, size_t count)
{
    tevasulim_triangulation hill = {0};
    uint32_t vertices[4], nearest;
    tevasulim_status status;
    tevasulim_point camp = {70, 110};
    status = tevasulim_open(&hill, TEVASULIM_PLAIN);
    if (!status)
        status = tevasulim_insert_all(&hill, points, count, vertices, 4);
    if (!status)
        status = tevasulim_nearest(&hill, &camp, 1, &nearest, 1);
    if (!status)
        printf("nearest to the camp: point %u\n", point_at(vertices, count, nearest));
    tevasulim_close(&hill);
    return status ? refused("the camp", status) : 0;
}

static void print_meetings(const tevasulim_meeting *met, size_t length, const uint32_t *vertices,
                           size_t count)
{
    for (size_t i = 0; i < length; i++)
        if (met[i].kind == TEVASULIM_ACROSS_EDGE)
            printf("the path crosses edge %u-%u, fence: %s\n",
                   point_at(vertices, count, met[i].from), point_at(vertices, count, met[i].to),
                   met[i].constrained ? "yes" : "no");
}

static int tell_path(const tevasulim_point *points, size_t count)
{
    tevasulim_triangulation hill = {0};
    uint32_t vertices[4];
    tevasulim_status status;
    tevasulim_point from = {-100, 20}, to = {70, 110};
    tevasulim_meeting met[16];
    size_t length = 0;
    status = tevasulim_open(&hill, TEVASULIM_CONSTRAINED);
    if (!status)
        status = tevasulim_insert_all(&hill, points, count, vertices, 4);
    if (!status)
        status = tevasulim_constrain(&hill, vertices[0], vertices[2]);
    if (!status)
        status = tevasulim_line(&hill, &from, &to, met, 16, &length);
    if (!status)
        print_meetings(met, length, vertices, count);
    tevasulim_close(&hill);
    return status ? refused("the path", status) : 0;
}

int main(void)
{
    const tevasulim_point points[] = {{0, 0}, {120, 35}, {-80, 140}, {-150, -60}};
    return tell_nearest(points, 4) || tell_path(points, 4);
}
