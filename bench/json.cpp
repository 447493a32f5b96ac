// json IN OUT: reads a FeatureCollection with nlohmann::json, takes each coordinate as a whole number, and writes the
// collection back as compact text, whose bytes must be those that `cover` wrote; the number of points goes to standard
// output. It needs Debian's nlohmann-json3-dev.
//
//     g++ -O2 -o json json.cpp
//     cover clean cells.wkt cells.json --rule least-index && ./json cells.json back.json && cmp cells.json back.json
#include <cstdint>
#include <fstream>
#include <iostream>
#include <nlohmann/json.hpp>

using nlohmann::json;

// The points of a ring, each read as whole numbers.
static long points_of(const json &ring) {
    long count = 0;
    for (const json &point : ring) {
        point.at(0).get<int64_t>();
        point.at(1).get<int64_t>();
        count++;
    }
    return count;
}

static long points_of_polygon(const json &rings) {
    long count = 0;
    for (const json &ring : rings) count += points_of(ring);
    return count;
}

int main(int argc, char **argv) {
    if (argc != 3) return 2;
    std::ifstream in(argv[1]);
    const json document = json::parse(in);
    long count = 0;
    for (const json &feature : document.at("features")) {
        const json &geometry = feature.at("geometry");
        if (geometry.is_null()) continue;
        const json &coordinates = geometry.at("coordinates");
        if (geometry.at("type") == "Polygon") {
            count += points_of_polygon(coordinates);
        } else {
            for (const json &polygon : coordinates) count += points_of_polygon(polygon);
        }
    }
    std::ofstream(argv[2]) << document << "\n";
    std::cout << count << "\n";
}
