// A sweeper over libcadical, to compare `sweep` with: reads a DIMACS text on standard input and prints the same report.
// Every net that is fixed or that equals a lower net or its opposite in all models is found: candidates come from a
// model, each is decided by at most two searches, and each model that a search finds splits the candidates further.
// It takes the text to be well formed.
#include <cadical.hpp>
#include <cctype>
#include <cstdio>
#include <cstdlib>
#include <string>
#include <vector>

static int nets = 0;
static std::vector<std::vector<int>> clauses;

static std::string text_without_comments() {
    std::string text, line;
    for (int c; (c = getchar()) != EOF || !line.empty();) {
        if (c != EOF)
            line += (char)c;
        if (c == EOF || c == '\n') {
            if (line[0] != 'c')
                text += line;
            line.clear();
        }
    }
    return text;
}

static void read_text() {
    std::string text = text_without_comments();
    const char *at = text.c_str();
    char *end;
    if (text.compare(0, 5, "p cnf") != 0) {
        fprintf(stderr, "sweep_peer: no header\n");
        exit(1);
    }
    nets = (int)strtol(at + 5, &end, 10);
    long count = strtol(end, &end, 10);
    std::vector<int> clause;
    while ((long)clauses.size() < count) {
        at = end;
        int number = (int)strtol(at, &end, 10);
        if (at == end || abs(number) > nets) {
            fprintf(stderr, "sweep_peer: the text is not well formed\n");
            exit(1);
        }
        if (number) {
            clause.push_back(number);
        } else {
            clauses.push_back(clause);
            clause.clear();
        }
    }
}

// A literal as a code: 2v, or 2v + 1 for the opposite; the constants are 0 and 1.
static int number_of(int code) { return code % 2 ? -(code / 2) : code / 2; }

struct Sweeper {
    CaDiCaL::Solver solver;
    std::vector<int> name;   // of each net, the lowest literal that may still equal it
    std::vector<bool> model; // the last model, by net; the constant is false

    bool find(int a, int b) {
        if (a)
            solver.assume(a);
        if (b)
            solver.assume(b);
        if (solver.solve() != 10)
            return false;
        for (int v = 1; v <= nets; v++)
            model[v] = solver.val(v) > 0;
        return true;
    }

    bool value(int code) const { return model[code / 2] ^ (code % 2); }

    // Nets from v on that differ from their name in the model part from it, and take the lowest of them for their name.
    void split(int v) {
        std::vector<int> heir(nets + 1, 0), side(nets + 1, 0);
        for (int w = v; w <= nets; w++) {
            int code = name[w], u = code / 2;
            if (u == w || model[w] == value(code))
                continue;
            if (!heir[u]) {
                heir[u] = w;
                side[u] = code % 2;
            }
            name[w] = 2 * heir[u] + (side[u] ^ (code % 2));
        }
    }

    // Whether v has another value than its candidate in some model, which is then at hand.
    bool apart(int v) {
        int code = name[v];
        if (code < 2)
            return find(code ? -v : v, 0);
        return find(v, -number_of(code)) || find(-v, number_of(code));
    }

    // What has been shown helps the later searches.
    void tell(int v) {
        int code = name[v], other = number_of(code);
        if (code < 2) {
            solver.add(code ? v : -v), solver.add(0);
        } else {
            solver.add(v), solver.add(-other), solver.add(0);
            solver.add(-v), solver.add(other), solver.add(0);
        }
    }

    bool sweep() {
        solver.set("quiet", 1);
        solver.reserve(nets);
        std::vector<bool> occurs(nets + 1, false);
        for (const auto &clause : clauses) {
            for (int number : clause) {
                occurs[abs(number)] = true;
                solver.add(number);
            }
            solver.add(0);
        }
        model.assign(nets + 1, false);
        name.assign(nets + 1, 0);
        if (!find(0, 0))
            return false;
        for (int v = 1; v <= nets; v++)
            name[v] = occurs[v] ? (int)model[v] : 2 * v;
        for (int v = 1; v <= nets; v++) {
            if (name[v] / 2 == v)
                continue;
            if (apart(v))
                split(v);
            else
                tell(v);
        }
        return true;
    }
};

int main() {
    read_text();
    Sweeper sweeper;
    if (!sweeper.sweep()) {
        printf("%6d%6d%6d\n", 0, 3, 0);
        return 0;
    }
    for (int v = 1; v <= nets; v++) {
        int code = sweeper.name[v];
        if (code == 2 * v)
            printf("%6d%6d%6d\n", v, 0, v);
        else if (code < 2)
            printf("%6d%6d%6d\n", v, 1, code);
        else
            printf("%6d%6d%6d\n", v, 2, number_of(code));
    }
}
