// Road-graph texts read by LEMON's own reader of the DIMACS shortest-path form, and their shortest paths by LEMON: `shortest FOLDER COUNT` reads FOLDER/I.gr and
// writes FOLDER/I.lemon, as graphs.py writes I.networkx. It shares nothing with the library and nothing with the rest of this folder.
#pragma GCC diagnostic ignored "-Wmaybe-uninitialized"  // in LEMON's own code
#define LEMON_ONLY_TEMPLATES  // nothing of it to link
#include <lemon/bellman_ford.h>
#include <lemon/dimacs.h>
#include <lemon/smart_graph.h>

#include <cstdlib>
#include <fstream>
#include <iostream>
#include <sstream>
#include <string>

namespace {

using Graph = lemon::SmartDigraph;
using Lengths = Graph::ArcMap<long long>;

// A row for each point, or the one word.
std::string shortest_paths(const Graph &graph, const Lengths &lengths) {
  std::ostringstream rows;
  for (int from = 0; from < graph.nodeNum(); ++from) {
    lemon::BellmanFord<Graph, Lengths> paths(graph, lengths);
    paths.init();
    paths.addSource(graph.nodeFromId(from));
    if (!paths.checkedStart()) return "uncontrollable\n";
    for (int to = 0; to < graph.nodeNum(); ++to) {
      if (to > 0) rows << ' ';
      if (paths.reached(graph.nodeFromId(to))) rows << paths.dist(graph.nodeFromId(to));
      else rows << '-';
    }
    rows << '\n';
  }
  return rows.str();
}

}  // namespace

int main(int words, char **word) {
  if (words != 3) return std::cerr << "usage: shortest FOLDER COUNT\n", 2;
  for (long i = 0; i < std::atol(word[2]); ++i) {
    const std::string name = std::string(word[1]) + "/" + std::to_string(i);
    std::ifstream text(name + ".gr");
    Graph graph;
    Lengths lengths(graph);
    Graph::Node source;
    lemon::readDimacsSp(text, graph, lengths, source);
    // "nothing precedes the start"
    for (int from = 0; from < graph.nodeNum(); ++from) lengths[graph.addArc(graph.nodeFromId(from), graph.nodeFromId(0))] = 0;
    std::ofstream(name + ".lemon") << shortest_paths(graph, lengths);
  }
}
