#!/usr/bin/env python3
"""Prints what tests of flows expect, by networkx: for each network the maximum flow, and how many in parts
and how many out parts the residual network reaches from the starts. usage: python3 oracles/flows.py (networkx
3.6.1 made the numbers that stand)"""
import networkx


class Network:
    """Nodes with weights (None: no bound), arcs, starts and ends."""

    def __init__(self, weights=(), arcs=(), starts=(), ends=()):
        self.weights, self.arcs = list(weights), list(arcs)
        self.starts, self.ends = list(starts), list(ends)

    def node(self, weight):
        self.weights.append(weight)
        return len(self.weights) - 1

    def arc(self, start, end):
        self.arcs.append((start, end))

    def way(self, start, nodes, end):
        """Arcs from one node to another by so many new nodes without weights."""
        for _ in range(nodes):
            between = self.node(None)
            self.arc(start, between)
            start = between
        self.arc(start, end)


def crossing():
    return Network([3, 1, 1, 3, None, None, None, None],
                   [(0, 1), (1, 2), (2, 3), (1, 4), (4, 5), (5, 3), (0, 6), (6, 7), (7, 2)], [0], [3])


def ladder(rungs):
    """Rung i can be reached by the rails later than rung i - 1, so that the path by it is longer, and takes
    back what each path before it put on the rungs."""
    n = Network()
    there = back = None
    firsts, seconds = [], []
    for rung in range(rungs):
        above = n.node(1000 if rung == 0 else None)
        first, second = n.node(1), n.node(1)
        below = n.node(1000 if rung == 0 else None)
        n.arc(above, first)
        n.arc(second, below)
        if rung > 0:
            n.way(there, 2 * rung, above)
            n.way(below, 2 * rung, back)
        there, back = above, below
        firsts.append(first)
        seconds.append(second)
    n.arc(firsts[0], seconds[0])
    for rung in range(1, rungs):
        n.arc(firsts[rung - 1], seconds[rung])
        n.arc(firsts[rung], seconds[rung - 1])
    n.starts, n.ends = [0], [3]
    return n


def bundle(places, rounds):
    """Rails to and from rounds, and places of weight 1 between two hubs. Each round's paths are longer, and
    take back what the paths of the round before put on the places."""
    n = Network([1_000_000, 1_000_000, None, None, None, None], [(0, 2), (3, 1)], [0], [1])

    def through(start, weight, end):
        between = n.node(weight)
        n.arc(start, between)
        n.arc(between, end)

    there, back = 2, 3
    for number in range(rounds):
        first, second = (4, 5) if number % 2 == 0 else (5, 4)
        last = there, back
        there, back = n.node(None), n.node(None)
        through(last[0], 1000, there)
        through(back, 1000, last[1])
        through(there, places, first)
        through(second, places, back)
    for _ in range(places):
        through(4, 1, 5)
    return n


def circled():
    """The same beside a circle: of 1000 that can leave its start 4 come to the end, and the way out of the
    circle that is shorter takes 3."""
    n = bundle(12, 12)
    start = n.node(1000)
    circle = [n.node(None) for _ in range(4)]
    for place in range(4):
        n.arc(circle[place], circle[(place + 1) % 4])
    n.arc(start, circle[0])
    near, far = n.node(3), n.node(1)
    n.arc(circle[2], near)
    n.arc(near, 1)
    n.way(circle[3], 20, far)
    n.arc(far, 1)
    n.starts = [start, 0]
    return n


def two_thousand():
    n, state = Network(), 1
    for v in range(2000):
        state = (state * 1_103_515_245 + 12_345) % 2_147_483_648
        n.node(state // 65_536 % 10 + 1)
        for _ in range(2):
            state = (state * 1_103_515_245 + 12_345) % 2_147_483_648
            n.arc(v, state // 65_536 % 2000)
    n.starts, n.ends = range(300), range(1700, 2000)
    return n


def judge(n):
    """The maximum flow, and the numbers of in parts and out parts that are reached when it flows."""
    graph = networkx.DiGraph()
    graph.add_node('source')
    graph.add_node('sink')
    for v, weight in enumerate(n.weights):
        bound = {} if weight is None else {'capacity': weight}
        graph.add_edge((v, 'in'), (v, 'out'), **bound)
    for start, end in n.arcs:
        graph.add_edge((start, 'out'), (end, 'in'))
    for start in n.starts:
        graph.add_edge('source', (start, 'in'))
    for end in n.ends:
        graph.add_edge((end, 'out'), 'sink')
    left = networkx.algorithms.flow.preflow_push(graph, 'source', 'sink')
    reached, waiting = {'source'}, ['source']
    while waiting:
        part = waiting.pop()
        for other, arc in left[part].items():
            if other not in reached and arc['flow'] < arc['capacity']:
                reached.add(other)
                waiting.append(other)
    sides = [sum((v, side) in reached for v in range(len(n.weights))) for side in ('in', 'out')]
    return left.graph['flow_value'], *sides


if __name__ == '__main__':
    print('crossing', judge(crossing()))
    print('ladder of 12 rungs', judge(ladder(12)))
    print('bundle of 12 places and 12 rounds', judge(bundle(12, 12)))
    print('the same beside a circle', judge(circled()))
    print('two thousand nodes at random', judge(two_thousand()))
