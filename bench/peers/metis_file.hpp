// What the peers share: a plain reader of METIS text that trusts the file, and the line that each prints.
#pragma once
#include <cstdint>
#include <cstdio>
#include <cstdlib>
#include <ctime>
#include <iostream>
#include <iterator>
#include <string>
#include <vector>

struct Edge {
    uint32_t u, v;
    int64_t weight;
};

struct EdgeFile {
    uint32_t vertices = 0;
    std::vector<Edge> edges;
};

// Goes along the words of a text, line by line.
class Words {
public:
    explicit Words(const std::string &text) : at(text.c_str()), end(text.c_str() + text.size()) {}

    // Skips comments; false at the end of the text.
    bool begin_line() {
        while (at < end && *at == '%') skip_line();
        return at < end;
    }

    // The next number of the line, or false at its end, which is passed.
    bool next(uint64_t &number) {
        while (at < end && (*at == ' ' || *at == '\t' || *at == '\r')) ++at;
        if (at == end || *at == '\n') {
            if (at < end) ++at;
            return false;
        }
        for (number = 0; at < end && *at >= '0' && *at <= '9'; ++at) number = number * 10 + (*at - '0');
        return true;
    }

private:
    void skip_line() {
        while (at < end && *at++ != '\n') {}
    }
    const char *at, *end;
};

inline std::string whole_input() {
    std::string text;
    std::vector<char> piece(1 << 20);
    for (size_t length; (length = fread(piece.data(), 1, piece.size(), stdin)) > 0;) text.append(piece.data(), length);
    return text;
}

// The vertices are numbered from 0 here, and each edge stands once, with its lesser end first.
inline EdgeFile read_edges() {
    const std::string text = whole_input();
    Words words(text);
    EdgeFile file;
    std::vector<uint64_t> header;
    uint64_t number = 0;
    while (header.empty() && words.begin_line())
        while (words.next(number)) header.push_back(number);
    if (header.size() < 2) exit(1);
    const uint64_t form = header.size() > 2 ? header[2] : 0;
    const uint64_t leading = form / 100 % 10 + (form / 10 % 10 ? (header.size() > 3 ? header[3] : 1) : 0);
    file.vertices = header[0];
    file.edges.reserve(header[1]);
    for (uint32_t u = 0; u < file.vertices && words.begin_line(); ++u) {
        bool more = true;
        for (uint64_t k = 0; more && k < leading; ++k) more = words.next(number);
        while (more && words.next(number)) {
            uint64_t weight = 1;
            const uint32_t v = number - 1;
            if (form % 10) words.next(weight);
            if (u < v) file.edges.push_back({u, v, (int64_t)weight});
        }
    }
    return file;
}

inline double processor_seconds() {
    timespec now;
    clock_gettime(CLOCK_PROCESS_CPUTIME_ID, &now);
    return now.tv_sec + now.tv_nsec * 1e-9;
}

// Prints the answer, and on standard error the processor seconds of the search alone; ends the peer.
inline void tell(const char *name, unsigned long long answer, double seconds) {
    printf("%s %llu\n", name, answer);
    fprintf(stderr, "search %.6f\n", seconds);
    fflush(stdout);
    _Exit(0);
}
