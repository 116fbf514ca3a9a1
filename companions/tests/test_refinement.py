"""Refinement, formulas and sequences of random graphs, against what the plain definitions come to."""
import random
import unittest

from .helpers import COMPANIONS  # noqa: F401 (it makes the package known)
from lotos_companion.bisimulation.formula import Distinguisher, events_of_one_alone
from lotos_companion.bisimulation.refinement import Refinement
from lotos_companion.exploring.graph import MenuKind, StateGraph


def graph_of(moves):
    """A graph with these moves of each state."""
    graph = StateGraph()
    for state, events in enumerate(moves):
        graph.numbers[b"%d" % state] = state
        graph.menus.append(MenuKind(tuple(b"%d: x" % it for it in range(len(events)))))
        for label, target in events:
            if label not in graph.labels:
                graph.labels.append(label)
            graph.transition_labels.append(graph.labels.index(label))
            graph.targets.append(target)
        graph.first.append(len(graph.targets))
    return graph


def random_moves(chance, states, events):
    """Moves of some states at random."""
    moves = [[] for _ in range(states)]
    for _ in range(events):
        moves[chance.randrange(states)].append((chance.choice("ab"), chance.randrange(states)))
    return moves


def rounds(moves):
    """For each round the classes of the states, by the plain definition."""
    kinds = [[0] * len(moves)]
    while True:
        marks = [(kinds[-1][state], frozenset((label, kinds[-1][target]) for label, target in events))
                 for state, events in enumerate(moves)]
        names = {mark: number for number, mark in enumerate(dict.fromkeys(marks))}
        kinds.append([names[it] for it in marks])
        if len(set(kinds[-1])) == len(set(kinds[-2])):
            return kinds


def holds(moves, formula, state):
    """Whether a formula holds of a state."""
    found = any(label == formula.label and all(holds(moves, it, target) for it in formula.parts) for label, target in moves[state])
    return found != formula.negated


def words(moves, length):
    """All sequences of labels of the first state up to a length."""
    found, layer = set(), {("", 0)}
    for _ in range(length):
        layer = {(word + label, target) for word, state in layer for label, target in moves[state]}
        found |= {word for word, _ in layer}
    return found


class RandomGraphs(unittest.TestCase):
    def test_classes_and_formulas(self):
        chance = random.Random(7)
        parted = 0
        for _ in range(150):
            lefts, rights = (random_moves(chance, chance.randint(1, 7), chance.randint(0, 14)) for _ in range(2))
            refinement = Refinement(graph_of(lefts), graph_of(rights))
            offset = len(lefts)
            moves = lefts + [[(label, target + offset) for label, target in events] for events in rights]
            kinds = rounds(moves)
            distinguisher = Distinguisher(refinement)
            for state in range(len(moves)):
                for other in range(len(moves)):
                    self.assertEqual(refinement.are_one(state, other), kinds[-1][state] == kinds[-1][other])
                    if kinds[-1][state] != kinds[-1][other]:
                        formula = distinguisher.formula(state, other)
                        self.assertTrue(holds(moves, formula, state))
                        self.assertFalse(holds(moves, formula, other))
                        least = next(count for count, kind in enumerate(kinds) if kind[state] != kind[other])
                        self.assertEqual((formula.depth, refinement.parted_at(state, other)), (least, least))
                        parted += 1
        self.assertGreater(parted, 1000)

    def test_sequences(self):
        chance = random.Random(8)
        found = 0
        for _ in range(200):
            lefts, rights = (random_moves(chance, chance.randint(1, 4), chance.randint(1, 7)) for _ in range(2))
            events = events_of_one_alone(graph_of(lefts), graph_of(rights))
            alone = words(lefts, 7) - words(rights, 7)
            if events is None:
                self.assertFalse(alone)
            else:
                self.assertIn("".join(events), words(lefts, len(events)))
                self.assertNotIn("".join(events), words(rights, len(events)))
                self.assertFalse([it for it in alone if len(it) < len(events)])
                found += 1
        self.assertGreater(found, 50)


if __name__ == "__main__":
    unittest.main()
