// Checks that a placement is the first of those that cost least, by LEMON's network simplex alone: with the tasks
// before a task as they are placed, each choice that ranks before the task's own must cost more.
// usage: first < CASE
// CASE: 'MACHINES TASKS SPREAD CHURN REMOTE', the slots of each machine, then for each task 'OWN WAITING PLACED COUNT PREFERRED..':
// the place of its machine or -1, the cost of its waiting, the place of its placement, -1 for waiting, and the number of
// machines that it prefers, with their places.
// prints 'first COST SOLVED', or the placement that is cheaper, or as cheap and comes before.
#include <lemon/network_simplex.h>
#include <lemon/smart_graph.h>

#include <algorithm>
#include <cstdio>
#include <vector>

using Graph = lemon::SmartDigraph;
using Number = long long;

struct Task {
    int own;
    Number waiting;
    int placed;
    std::vector<int> preferred;
};

struct Book {
    int machines, tasks;
    Number spread, churn, remote;
    std::vector<int> slots;
    std::vector<Task> rows;

    // A task's cost in a machine's slot of this number, counted from 0.
    Number slot_cost(Number slot) const { return slot * spread; }

    Number cost(const Task& task, int choice, int load) const {
        if (choice < 0) return task.waiting;
        return slot_cost(load) + (task.own == choice ? 0 : (task.own >= 0 ? churn : 0) + (is_remote(task, choice) ? remote : 0));
    }

    // Whether the task prefers machines, and this is none of them.
    static bool is_remote(const Task& task, int choice) {
        const auto& near = task.preferred;
        return !near.empty() && std::find(near.begin(), near.end(), choice) == near.end();
    }

    // The choices in the order of their ranks.
    std::vector<int> choices(const Task& task) const {
        std::vector<int> found;
        if (task.own >= 0) found.push_back(task.own);
        for (int machine = 0; machine < machines; ++machine)
            if (machine != task.own) found.push_back(machine);
        found.push_back(-1);
        return found;
    }
};

// The least cost of placing the tasks from `first` on, with these numbers of tasks on the machines already.
static Number least(const Book& book, int first, const std::vector<int>& load) {
    Graph graph;
    Graph::ArcMap<Number> capacity(graph), cost(graph);
    Graph::NodeMap<Number> supply(graph, 0);
    auto join = [&](Graph::Node tail, Graph::Node head, Number each) {
        auto arc = graph.addArc(tail, head);
        capacity[arc] = 1;
        cost[arc] = each;
    };
    Graph::Node sink = graph.addNode();
    std::vector<Graph::Node> machine;
    for (int place = 0; place < book.machines; ++place) {
        machine.push_back(graph.addNode());
        for (int task = load[place]; task < book.slots[place]; ++task) join(machine[place], sink, book.slot_cost(task));
    }
    for (int place = first; place < book.tasks; ++place) {
        const Task& task = book.rows[place];
        Graph::Node node = graph.addNode();
        supply[node] = 1;
        join(node, sink, task.waiting);
        for (int choice = 0; choice < book.machines; ++choice) join(node, machine[choice], book.cost(task, choice, 0));
    }
    supply[sink] = first - book.tasks;
    lemon::NetworkSimplex<Graph, Number, Number> solver(graph);
    solver.upperMap(capacity).costMap(cost).supplyMap(supply);
    return solver.run() == decltype(solver)::OPTIMAL ? solver.totalCost<Number>() : -1;
}

static bool read_book(Book& book) {
    if (std::scanf("%d %d %lld %lld %lld", &book.machines, &book.tasks, &book.spread, &book.churn, &book.remote) != 5) return false;
    book.slots.resize(book.machines);
    book.rows.resize(book.tasks);
    for (int& slots : book.slots)
        if (std::scanf("%d", &slots) != 1) return false;
    for (Task& task : book.rows) {
        int count;
        if (std::scanf("%d %lld %d %d", &task.own, &task.waiting, &task.placed, &count) != 4) return false;
        task.preferred.resize(count);
        for (int& machine : task.preferred)
            if (std::scanf("%d", &machine) != 1) return false;
    }
    return true;
}

int main() {
    Book book;
    if (!read_book(book)) return 2;
    std::vector<int> load(book.machines, 0);
    Number best = least(book, 0, load), before = 0, solved = 1;
    for (int place = 0; place < book.tasks; ++place) {
        const Task& task = book.rows[place];
        for (int choice : book.choices(task)) {
            if (choice == task.placed) break;
            if (choice >= 0 && load[choice] == book.slots[choice]) continue;
            Number now = before + book.cost(task, choice, choice < 0 ? 0 : load[choice]);
            if (choice >= 0) ++load[choice];
            Number whole = now + least(book, place + 1, load);
            if (choice >= 0) --load[choice];
            ++solved;
            if (whole <= best) {
                std::printf("task %d: choice %d comes before %d and costs %lld\n", place, choice, task.placed, whole);
                return 1;
            }
        }
        before += book.cost(task, task.placed, task.placed < 0 ? 0 : load[task.placed]);
        if (task.placed >= 0) ++load[task.placed];
    }
    if (before != best) {
        std::printf("it costs %lld, and the least is %lld\n", before, best);
        return 1;
    }
    std::printf("first %lld %lld\n", best, solved);
}
