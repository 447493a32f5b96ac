// write N: the text of squares.py N, written by fprintf from points in memory; the time of the writing
// alone, in milliseconds, goes to standard error.
//
//     g++ -O2 -o write write.cpp && ./write 900 >squares.wkt
#include <chrono>
#include <cstdint>
#include <cstdio>
#include <cstdlib>
#include <vector>

struct Coord {
    int32_t x, y;
};

using Ring = std::vector<Coord>;

static std::vector<Ring> squares(int32_t count) {
    const int32_t side = 64;
    std::vector<Ring> rings;
    for (int32_t row = 0; row < count; row++) {
        for (int32_t column = 0; column < count; column++) {
            const int32_t left = side * column, low = side * row;
            rings.push_back({{left, low}, {left + side, low}, {left + side, low + side}, {left, low + side}});
        }
    }
    return rings;
}

static void write_ring(FILE *out, const Ring &ring) {
    fprintf(out, "POLYGON ((");
    for (const Coord &point : ring) {
        fprintf(out, "%d %d, ", point.x, point.y);
    }
    fprintf(out, "%d %d))\n", ring[0].x, ring[0].y);
}

int main(int argc, char **argv) {
    const std::vector<Ring> rings = squares(argc > 1 ? atoi(argv[1]) : 0);
    const auto start = std::chrono::steady_clock::now();
    for (const Ring &ring : rings) {
        write_ring(stdout, ring);
    }
    if (fflush(stdout) != 0) {
        return 1;
    }
    const std::chrono::duration<double, std::milli> spent = std::chrono::steady_clock::now() - start;
    fprintf(stderr, "%.0f ms\n", spent.count());
}
