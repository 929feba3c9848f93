// The floors of checks/bench/ways.cpp: rooms with doors and pillars, and a maze. Walls and pillars
// are closed quadrangles, and two of them share a whole side or nothing.
#pragma once
#include "points.h"
#include <array>

typedef std::array<Point, 4> Quadrangle;

struct Floor {
    static const int64_t PITCH = 1024;
    int64_t side, half;
    std::vector<Quadrangle> closed;
    Random random;

    // A wall from one crossing of the grid to the next, without what is open of it.
    void wall(bool upright, int64_t i, int64_t j, int64_t from, int64_t to) {
        int64_t along = (upright ? j : i) * PITCH, across = (upright ? i : j) * PITCH;
        Point low{along + from, across - half}, high{along + to, across + half};
        if (upright) std::swap(low.x, low.y), std::swap(high.x, high.y);
        closed.push_back({low, {high.x, low.y}, high, {low.x, high.y}});
    }

    void whole_wall(bool upright, int64_t i, int64_t j) { wall(upright, i, j, half, PITCH - half); }

    void wall_with_door(bool upright, int64_t i, int64_t j, int64_t width) {
        int64_t free = PITCH - 2 * half - width - 128;
        int64_t door = half + 64 + (int64_t)random.below(free);
        wall(upright, i, j, half, door);
        wall(upright, i, j, door + width, PITCH - half);
    }

    // The crossings of the grid and the walls around it.
    Floor(int64_t side, int64_t half) : side(side), half(half) {
        for (int64_t i = 0; i <= side; i++)
            for (int64_t j = 0; j <= side; j++) wall(false, i, j, -half, half);
        for (int64_t i = 0; i < side; i++)
            for (int64_t end : {(int64_t)0, side})
                whole_wall(false, i, end), whole_wall(true, end, i);
    }
};

// Rooms, each of which has a door to the left or below, and behind half of the other walls one
// too: so all are joined. In each quarter of a room there is a pillar.
static Floor rooms(int64_t side) {
    Floor floor(side, 32);
    for (int64_t i = 0; i < side; i++)
        for (int64_t j = 0; j < side; j++) {
            bool left = j == 0 || (i > 0 && floor.random.below(2)), second = floor.random.below(2);
            for (bool upright : {true, false}) {
                if ((upright ? i : j) == 0) continue;
                if (upright == left || second) floor.wall_with_door(upright, i, j, 160);
                else floor.whole_wall(upright, i, j);
            }
            for (int64_t quarter = 0; quarter < 4; quarter++) {
                int64_t x = i * Floor::PITCH + quarter % 2 * 480 + 122 + floor.random.below(300);
                int64_t y = j * Floor::PITCH + quarter / 2 * 480 + 122 + floor.random.below(300);
                int64_t u = 20 + floor.random.below(40), v = 20 + floor.random.below(40);
                floor.closed.push_back(
                    {Point{x + u, y + v}, {x - v, y + u}, {x - u, y - v}, {x + v, y - u}});
            }
        }
    return floor;
}

// A maze in which one way joins two cells: a walk at random, back where it can go no further.
static Floor maze(int64_t side) {
    Floor floor(side, 64);
    // Whether the wall below each cell is open, and the one to its left, and whether it was met.
    std::vector<std::array<bool, 3>> cells(side * side);
    std::vector<int64_t> met{0};
    cells[0][2] = true;
    while (!met.empty()) {
        int64_t here = met.back(), i = here % side, j = here / side, count = 0;
        std::array<int64_t, 4> next;
        if (i > 0 && !cells[here - 1][2]) next[count++] = here - 1;
        if (i + 1 < side && !cells[here + 1][2]) next[count++] = here + 1;
        if (j > 0 && !cells[here - side][2]) next[count++] = here - side;
        if (j + 1 < side && !cells[here + side][2]) next[count++] = here + side;
        if (count == 0) { met.pop_back(); continue; }
        int64_t there = next[floor.random.below(count)], higher = std::max(here, there);
        cells[higher][there - here == 1 || here - there == 1] = true;
        cells[there][2] = true;
        met.push_back(there);
    }
    for (int64_t i = 0; i < side; i++)
        for (int64_t j = 0; j < side; j++)
            for (bool upright : {true, false})
                if ((upright ? i : j) > 0 && !cells[j * side + i][upright])
                    floor.whole_wall(upright, i, j);
    return floor;
}
