/* Different triangulations in different threads: each of many lists of random edits is made by one
 * thread alone, and then all are made at once. Both times each has to end with the same faces. */
#include <pthread.h>
#include <stdio.h>
#include <stdlib.h>
#include <tevasulim.h>

enum { THREADS = 8, LISTS = 6, EDITS = 1500, REACH = 60, ROOM = 20000, LEAST = 300 };

/* A number below `bound`, by Knuth's multiplier. */
static uint32_t draw(uint64_t *state, uint32_t bound)
{
    *state = *state * 6364136223846793005u + 1442695040888963407u;
    return (uint32_t)(*state >> 33) % bound;
}

static void edit(tevasulim_triangulation *self, uint64_t *state)
{
    tevasulim_counts counts;
    tevasulim_place place;
    uint32_t vertex;
    tevasulim_point point = {(int32_t)draw(state, REACH), (int32_t)draw(state, REACH)};
    tevasulim_count(self, &counts);
    uint32_t count = (uint32_t)counts.vertices, first = draw(state, count + 1);
    switch (draw(state, 8)) {
    case 0:
        tevasulim_remove(self, first);
        break;
    case 1:
        tevasulim_constrain(self, first, draw(state, count + 1));
        break;
    case 2:
        tevasulim_release(self, first, draw(state, count + 1));
        break;
    case 3:
        tevasulim_locate(self, &point, 1, &place, 1);
        break;
    default:
        tevasulim_insert(self, point.x, point.y, &vertex);
    }
}

/* A sum of all faces after a list of edits. */
static uint64_t sum_of_faces(tevasulim_triangulation *self)
{
    tevasulim_face *faces = malloc(ROOM * sizeof *faces);
    size_t length = 0;
    uint64_t sum = 0;
    if (!faces || tevasulim_faces(self, faces, ROOM, &length) || length < LEAST)
        exit(2);
    for (size_t i = 0; i < length; i++)
        for (int k = 0; k < 3; k++)
            sum = sum * 31 + faces[i].corners[k] * 2 + faces[i].constrained[k];
    free(faces);
    return sum * 31 + length;
}

static uint64_t make_list(uint64_t seed)
{
    tevasulim_triangulation self = {0};
    uint64_t state = seed, sum;
    if (tevasulim_open(&self, TEVASULIM_CONSTRAINED))
        exit(2);
    for (int i = 0; i < EDITS; i++)
        edit(&self, &state);
    sum = sum_of_faces(&self);
    tevasulim_close(&self);
    return sum;
}

static void *make_lists(void *given)
{
    uint64_t *sums = given;
    for (int i = 0; i < LISTS; i++)
        sums[i] = make_list(sums[i]);
    return NULL;
}

int main(void)
{
    static uint64_t alone[THREADS][LISTS], together[THREADS][LISTS];
    pthread_t threads[THREADS];
    for (int t = 0; t < THREADS; t++)
        for (int i = 0; i < LISTS; i++)
            alone[t][i] = together[t][i] = (uint64_t)(t * LISTS + i + 1);
    for (int t = 0; t < THREADS; t++)
        make_lists(alone[t]);
    for (int t = 0; t < THREADS; t++)
        if (pthread_create(&threads[t], NULL, make_lists, together[t]))
            return 2;
    for (int t = 0; t < THREADS; t++)
        pthread_join(threads[t], NULL);
    for (int t = 0; t < THREADS; t++)
        for (int i = 0; i < LISTS; i++)
            if (alone[t][i] != together[t][i]) {
                printf("list %d of thread %d has other faces\n", i, t);
                return 1;
            }
    printf("%d threads\n", THREADS);
    return 0;
}
