// The minimum cuts of a graph in METIS format: cuts FILE. It prints the value, and for each minimum cut its side without vertex 1.
// With CMake: see CMakeLists.txt beside this file. Without: c++ -std=c++17 cuts.cpp $(pkg-config --cflags --libs mincut) -o cuts
#include <mincut.hpp>

#include <fstream>
#include <iostream>
#include <sstream>
#include <string>

// The next line that is no comment.
static bool next_line(std::istream &file, std::istringstream &line) {
    std::string text;
    do {
        if (!std::getline(file, text)) return false;
    } while (!text.empty() && text[0] == '%');
    line.clear();
    line.str(text);
    return true;
}

// Each edge stands in the lines of both its ends and is taken from the lesser one. Weights of vertices are not read.
static mincut::EdgeList read(std::istream &file) {
    std::istringstream line;
    std::uint32_t n = 0;
    std::size_t m = 0;
    std::string format;
    if (!next_line(file, line) || !(line >> n >> m)) throw std::runtime_error("the header is missing");
    const bool weighted = line >> format && format.back() == '1';
    mincut::EdgeList edges(n);
    for (std::uint32_t u = 0; u < n && next_line(file, line); ++u) {
        std::uint32_t v;
        for (std::uint64_t w = 1; line >> v && (!weighted || line >> w);)
            if (u + 1 < v) edges.add(u, v - 1, w);
    }
    return edges;
}

int main(int count, char **words) {
    std::ifstream file(count == 2 ? words[1] : "");
    if (!file) return std::cerr << "usage: cuts FILE\n", 2;
    try {
        const mincut::Sides sides = mincut::sides(read(file));
        std::cout << "value " << sides.value() << "\ncuts " << sides.size() << '\n';
        for (const auto &side : sides.lists()) {
            for (std::size_t k = 0; k < side.size(); ++k) std::cout << (k ? " " : "") << side[k] + 1;
            std::cout << '\n';
        }
    } catch (const std::exception &error) {
        return std::cerr << error.what() << '\n', 1;
    }
}
