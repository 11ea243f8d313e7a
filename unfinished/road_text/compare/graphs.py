"""Random directed graphs made by NetworkX, each as a road-graph text, and their shortest paths by NetworkX.

    graphs.py FOLDER COUNT SEED

FOLDER/I.gr is graph I in the DIMACS shortest-path form: NetworkX's own edge list, each of its lines behind an `a`, and the
p line and comments as the graphs of the ninth DIMACS challenge have them. FOLDER/I.networkx holds the shortest paths, with
one more arc of weight 0 from every point to the first: nothing precedes the start. A row stands for each point, `-` where
there is no path; or, where a cycle is below 0, the one word `uncontrollable`.

It needs Debian's python3-networkx; compare/graphs calls it.
"""
import random
import sys

import networkx as nx

MOST_POINTS, MOST_LIMITS, MOST_WEIGHT = 64, 1024, 1000000


def drawn(kind, numbers):
    """A graph of one of NetworkX's own kinds; some have arcs side by side, or from a point to itself."""
    n = numbers.choice([1, 2, 3, 5, 8, 12, 12, 20, 30, MOST_POINTS])
    seed = numbers.randrange(1 << 30)
    if kind == 0:
        return nx.gnm_random_graph(n, min(3 * n, MOST_LIMITS), seed=seed, directed=True)
    if kind == 1:
        return nx.gnp_random_graph(n, numbers.choice([0.05, 0.1, 0.2]), seed=seed, directed=True)
    if kind == 2:
        return nx.scale_free_graph(max(n, 3), seed=seed)
    if kind == 3:
        wide = min(n, 8)
        return nx.grid_2d_graph(wide, max(1, n // wide)).to_directed()
    if kind == 4:
        return nx.gn_graph(n, seed=seed)
    if kind == 5:
        return nx.cycle_graph(n, create_using=nx.DiGraph)
    return nx.complete_graph(min(n, 20), create_using=nx.DiGraph)


def weighted(graph, numbers):
    """Weights about a hidden timetable, so that many graphs have arcs below 0 and no cycle below 0; now and then they do."""
    scale = numbers.choice([1, 5, 100, 10000, 150000])
    hidden = {point: 0 if point == 1 else numbers.randint(0, 3 * scale) for point in graph}
    below = numbers.choice([0, 0, 1, scale])
    for tail, head, arc in graph.edges(data=True):
        weight = hidden[head] - hidden[tail] + numbers.randint(-below, 3 * scale)
        arc["weight"] = max(-MOST_WEIGHT, min(MOST_WEIGHT, weight))


def text_of(graph, numbers):
    n, m = graph.number_of_nodes(), graph.number_of_edges()
    arcs = [f"a {line}" for line in nx.generate_edgelist(graph, data=["weight"])]
    lines = [f"p sp {n} {m}", *arcs]
    if numbers.randrange(3) > 0:
        lines = ["c 9th DIMACS Implementation Challenge: Shortest Paths", "c http://www.dis.uniroma1.it/~challenge9",
                 "c TIGER/Line graph USA-road-d.NY", "c", lines[0], f"c graph contains {n} nodes and {m} arcs", "c", *arcs]
        lines.insert(numbers.randint(0, len(lines)), "c\tcaf\N{LATIN SMALL LETTER E WITH ACUTE}")
    return "".join(line + "\n" for line in lines)


def shortest_paths(graph, by_floyd_warshall):
    """A row a point, None where there is no path; or None where a cycle is below 0."""
    points = range(1, graph.number_of_nodes() + 1)
    if by_floyd_warshall:
        paths = nx.floyd_warshall(graph)
        if any(paths[point][point] < 0 for point in points):
            return None
    else:
        try:
            paths = dict(nx.all_pairs_bellman_ford_path_length(graph))
        except nx.NetworkXUnbounded:
            return None
    known = {tail: {head: length for head, length in paths[tail].items() if length != float("inf")} for tail in points}
    return [[known[tail].get(head) for head in points] for tail in points]


def main(folder, count, seed):
    for index in range(count):
        numbers = random.Random(f"{seed} {index}")
        graph = nx.convert_node_labels_to_integers(drawn(index % 7, numbers), first_label=1)
        weighted(graph, numbers)
        with open(f"{folder}/{index}.gr", "w", encoding="utf-8", newline="") as file:
            file.write(text_of(graph, numbers))
        started = nx.MultiDiGraph(graph)
        started.add_weighted_edges_from((point, 1, 0) for point in graph)
        rows = shortest_paths(started, numbers.randrange(2) == 0)
        with open(f"{folder}/{index}.networkx", "w", encoding="ascii") as file:
            if rows is None:
                file.write("uncontrollable\n")
            else:
                file.writelines(" ".join("-" if cell is None else str(cell) for cell in row) + "\n" for row in rows)


main(sys.argv[1], int(sys.argv[2]), int(sys.argv[3]))
