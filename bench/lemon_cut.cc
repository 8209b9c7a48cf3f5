// The value of a smallest cut by LEMON's preflow algorithm. Standard input has three numbers, the nodes, the source and the target,
// and then three for each edge: from, to and cost.
#include <cstdio>
#include <vector>
#include <lemon/preflow.h>
#include <lemon/smart_graph.h>

static bool read_number(int &number)
{
	int c = getchar_unlocked();
	while (c != EOF && (c < '0' || c > '9'))
		c = getchar_unlocked();
	if (c == EOF)
		return false;
	for (number = 0; c >= '0' && c <= '9'; c = getchar_unlocked())
		number = 10 * number + (c - '0');
	return true;
}

int main()
{
	int nodes, source, target, from, to, cost;
	if (!read_number(nodes) || !read_number(source) || !read_number(target))
		return 2;
	lemon::SmartDigraph graph;
	std::vector<int> costs;
	for (int i = 0; i < nodes; i++)
		graph.addNode();
	while (read_number(from) && read_number(to) && read_number(cost)) {
		graph.addArc(graph.nodeFromId(from), graph.nodeFromId(to));
		costs.push_back(cost);
	}
	lemon::SmartDigraph::ArcMap<long long> capacity(graph);
	for (lemon::SmartDigraph::ArcIt arc(graph); arc != lemon::INVALID; ++arc)
		capacity[arc] = costs[graph.id(arc)];
	lemon::Preflow<lemon::SmartDigraph, lemon::SmartDigraph::ArcMap<long long>> preflow(
		graph, capacity, graph.nodeFromId(source), graph.nodeFromId(target));
	preflow.runMinCut();
	std::printf("%lld\n", preflow.flowValue());
}
