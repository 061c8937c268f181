/* Finds nets that are equal without a fault, for flows/prove, which compiles it with the library of cadical.

   sweep QUESTION REFUTATION LARGER [CONFLICTS]

   QUESTION is what flows/question writes. Its part without a fault is tried at 1,024 drawn inputs. From the inputs to the outputs, of each
   net that had the same bit as an earlier one at all of them, or the other bit, or always one bit, the solver is asked whether that is so
   at every input, with at most CONFLICTS conflicts (100) a question. What it finds is written into REFUTATION, as DRAT in text, and each
   equality is a lemma there; LARGER is the question with the equalities as clauses more, which is easier to refute. A refutation of LARGER
   behind REFUTATION without its deletions refutes QUESTION. Nothing of it is trusted. */
#include <algorithm>
#include <cadical.hpp>
#include <cstdint>
#include <cstdio>
#include <cstdlib>
#include <cstring>
#include <fstream>
#include <iostream>
#include <sstream>
#include <string>
#include <unordered_map>
#include <vector>

using Clauses = std::vector<std::vector<int>>;

// the question's text by its parts, and of its clauses those without a fault
struct Question {
    int variables = 0, count = 0, without_fault = 0; // the last is the number of variables before the first choice
    std::vector<int> inputs, nets;
    std::string body;
    Clauses clauses;
};

static Question read(const char *path) {
    Question made;
    std::ifstream file(path);
    std::string line, kind;
    while (std::getline(file, line)) {
        std::istringstream words(line);
        int number;
        if (line[0] == 'c') {
            words >> kind >> kind >> number;
            if (kind == "input") made.inputs.push_back(number);
            if (kind == "net") made.nets.push_back(number);
            if (kind == "cell" && !made.without_fault) made.without_fault = number - 1;
        } else if (line[0] == 'p') {
            words >> kind >> kind >> made.variables >> made.count;
            if (!made.without_fault) made.without_fault = made.variables;
        } else {
            made.body += line + "\n";
            std::vector<int> clause;
            while (words >> number && number) clause.push_back(number);
            if (std::all_of(clause.begin(), clause.end(), [&](int it) { return std::abs(it) <= made.without_fault; }))
                made.clauses.push_back(clause);
        }
    }
    return made;
}

// 64 drawn inputs at once: of each variable in which of them its bit is known, and the bits
struct Simulation {
    const Question &question;
    std::vector<std::vector<int>> holding; // of each literal the clauses that have it
    std::vector<uint64_t> known, bits;
    std::vector<int> order; // variables, as they became known
    explicit Simulation(const Question &q) : question(q), holding(2 * q.without_fault + 2) {
        for (size_t k = 0; k < q.clauses.size(); k++)
            for (int it : q.clauses[k]) holding[place(it)].push_back(k);
    }
    static int place(int literal) { return 2 * std::abs(literal) + (literal < 0); }
    uint64_t is_false(int literal) const {
        int at = std::abs(literal);
        return known[at] & (literal > 0 ? ~bits[at] : bits[at]);
    }
    void run(uint64_t &seed, int round) {
        known.assign(question.without_fault + 1, 0), bits = known;
        order.clear();
        std::vector<char> waits(question.clauses.size(), 1);
        std::vector<int> queue(question.clauses.size());
        for (size_t k = 0; k < queue.size(); k++) queue[k] = k;
        for (int input : question.inputs) {
            auto draw = [&] { return seed ^= seed << 13, seed ^= seed >> 7, seed ^= seed << 17; };
            uint64_t one = draw(), two = draw(), three = draw();
            known[input] = ~0ull;
            bits[input] = round % 4 == 2 ? one & two & three : round % 4 == 3 ? one | two | three : one;
        }
        for (size_t next = 0; next < queue.size(); next++) {
            int clause = queue[next];
            waits[clause] = 0;
            const auto &them = question.clauses[clause];
            for (size_t k = 0; k < them.size(); k++) {
                uint64_t forced = ~known[std::abs(them[k])];
                for (size_t other = 0; other < them.size() && forced; other++)
                    if (other != k) forced &= is_false(them[other]);
                if (!forced) continue;
                int at = std::abs(them[k]);
                known[at] |= forced;
                if (them[k] > 0) bits[at] |= forced;
                if (known[at] == ~0ull) order.push_back(at);
                for (int it : holding[place(-them[k])])
                    if (!waits[it]) waits[it] = 1, queue.push_back(it);
            }
        }
    }
};

int main(int count, char **words) {
    if (count < 4 || count > 5) { std::cerr << "usage: sweep QUESTION REFUTATION LARGER [CONFLICTS]\n"; return 2; }
    Question question = read(words[1]);
    int conflicts = count > 4 ? std::atoi(words[4]) : 100;

    // what each variable was at the drawn inputs, the first of which is 0 by convention: so a net and its negation are alike
    const int rounds = 16;
    Simulation simulation(question);
    std::vector<std::string> seen(question.without_fault + 1);
    std::vector<int> order;
    uint64_t seed = 88172645463325252ull;
    for (int round = 0; round < rounds; round++) {
        simulation.run(seed, round);
        if (!round) order = simulation.order;
        for (int at = 1; at <= question.without_fault; at++) seen[at].append((const char *)&simulation.bits[at], sizeof(uint64_t));
    }
    std::vector<char> negated(question.without_fault + 1, 0), is_net(question.without_fault + 1, 0);
    for (int at : question.nets) is_net[at] = 1;
    for (auto &it : seen)
        if (!it.empty() && (it[0] & 1)) {
            negated[&it - &seen[0]] = 1;
            for (char &byte : it) byte = ~byte;
        }

    FILE *refutation = std::fopen(words[2], "w");
    if (!refutation) { std::cerr << "sweep: can't write " << words[2] << "\n"; return 2; }
    Clauses found;
    int asked = 0;
    {
        CaDiCaL::Solver solver;
        solver.configure("plain");
        solver.set("binary", 0);
        solver.set("quiet", 1);
        solver.trace_proof(refutation, words[2]);
        for (const auto &clause : question.clauses) {
            for (int it : clause) solver.add(it);
            solver.add(0);
        }
        // whether it refutes these literals together, which makes a clause
        auto refutes = [&](std::vector<int> literals) {
            for (int it : literals) solver.assume(it);
            solver.limit("conflicts", conflicts);
            asked++;
            if (solver.solve() != 20) return false;
            for (int &it : literals) it = -it;
            for (int it : literals) std::fprintf(refutation, "%d ", it), solver.add(it);
            std::fputs("0\n", refutation);
            solver.add(0);
            found.push_back(literals);
            return true;
        };
        std::unordered_map<std::string, std::vector<int>> alike;
        for (int at : question.inputs) alike[seen[at]].push_back(negated[at] ? -at : at);
        const std::string always(rounds * sizeof(uint64_t), 0);
        for (int at : order) {
            if (!is_net[at]) continue;
            int literal = negated[at] ? -at : at;
            bool is_known = seen[at] == always && refutes({literal});
            auto &others = alike[seen[at]];
            for (size_t k = 0; k < others.size() && k < 4 && !is_known; k++)
                is_known = refutes({literal, -others[k]}) && refutes({-literal, others[k]});
            if (!is_known) others.push_back(literal);
        }
    }
    std::fclose(refutation);

    std::ofstream larger(words[3]);
    larger << "p cnf " << question.variables << " " << question.count + found.size() << "\n" << question.body;
    for (const auto &clause : found) {
        for (int it : clause) larger << it << " ";
        larger << "0\n";
    }
    std::cout << asked << " asked, " << found.size() << " refuted\n";
    return larger.flush() ? 0 : 2;
}
