// LEMON's network simplex on the same nets, to time against: g++ -O2 bench/lemon.cpp.
// Reads nets as crates/batch/out/batch does, prints their areas, and with `time R` the time of R runs of each on stderr.
// The graph and the solver object are built once for each net, outside the loop. Each timed run sets the supplies,
// makes the costs from the points, sets them, and runs the solver.
#include <chrono>
#include <cstdlib>
#include <iostream>
#include <vector>
#include <lemon/network_simplex.h>
#include <lemon/smart_graph.h>

using namespace lemon;

struct Pin {
    int x, y, current;
};

typedef NetworkSimplex<SmartDigraph, int, int> Simplex;

static int length(const Pin &a, const Pin &b) {
    return std::abs(a.x - b.x) + std::abs(a.y - b.y);
}

class Net {
public:
    explicit Net(const std::vector<Pin> &given) : pins(given), supply(graph), cost(graph) {
        std::vector<SmartDigraph::Node> nodes;
        for (size_t i = 0; i < pins.size(); ++i) {
            nodes.push_back(graph.addNode());
        }
        for (size_t i = 0; i < pins.size(); ++i) {
            for (size_t j = 0; j < pins.size(); ++j) {
                if (pins[i].current > 0 && pins[j].current < 0) {
                    graph.addArc(nodes[i], nodes[j]);
                }
            }
        }
        simplex = new Simplex(graph);
    }

    ~Net() {
        delete simplex;
    }

    long long run() {
        for (SmartDigraph::NodeIt n(graph); n != INVALID; ++n) {
            supply[n] = pins[graph.id(n)].current;
        }
        for (SmartDigraph::ArcIt a(graph); a != INVALID; ++a) {
            cost[a] = length(pins[graph.id(graph.source(a))], pins[graph.id(graph.target(a))]);
        }
        simplex->supplyMap(supply).costMap(cost);
        if (simplex->run() != Simplex::OPTIMAL) {
            return -1;
        }
        return simplex->totalCost<long long>();
    }

private:
    std::vector<Pin> pins;
    SmartDigraph graph;
    SmartDigraph::NodeMap<int> supply;
    SmartDigraph::ArcMap<int> cost;
    Simplex *simplex;
};

int main(int argc, char **argv) {
    int rounds = argc > 2 ? std::atoi(argv[2]) : 0;
    long long nanos = 0, plans = 0, kept = 0;
    int count;
    while (std::cin >> count) {
        std::vector<Pin> pins(count);
        for (Pin &pin : pins) {
            std::cin >> pin.x >> pin.y >> pin.current;
        }
        Net net(pins);
        std::cout << net.run() << "\n";
        auto start = std::chrono::steady_clock::now();
        for (int r = 0; r < rounds; ++r) {
            kept += net.run();
        }
        auto took = std::chrono::steady_clock::now() - start;
        nanos += std::chrono::duration_cast<std::chrono::nanoseconds>(took).count();
        plans += rounds;
    }
    std::cerr << nanos / 1000 << " microseconds, " << plans << " plans\n";
    return kept < 0;
}
