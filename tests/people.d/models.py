"""Models and certificates that the tests make."""
import random


def knapsack(seed, columns, rows):
    """A knapsack of 0 or 1 in each column, with random costs and weights."""
    draw = random.Random(f"knapsack {seed} {columns} {rows}")
    weights = [[draw.randint(1, 60) for _ in range(columns)] for _ in range(rows)]
    text = ["NAME knapsack", "ROWS", " N obj"] + [f" L r{row}" for row in range(rows)] + ["COLUMNS", " m 'MARKER' 'INTORG'"]
    for column in range(columns):
        text.append(f" x{column} obj -{draw.randint(10, 70)}")
        text += [f" x{column} r{row} {weights[row][column]}" for row in range(rows)]
    text += [" m 'MARKER' 'INTEND'", "RHS"] + [f" rhs r{row} {sum(weights[row]) // 2}" for row in range(rows)]
    return "\n".join(text + ["BOUNDS"] + [f" BV b x{column}" for column in range(columns)] + ["ENDATA"]) + "\n"


def maximised(text):
    """A knapsack with its costs as profits, which are maximised."""
    return text.replace(" obj -", " obj ").replace("ROWS\n", "OBJSENSE MAX\nROWS\n", 1)


def drill(seed):
    """The model of a seed (docs/DRILL.md)."""
    state = seed

    def draw(most):
        nonlocal state
        state = (state * 6364136223846793005 + 1442695040888963407) % 2 ** 64
        return (state >> 33) % most

    costs = [1 + draw(20) for _ in range(30)]
    weights = [[1 + draw(9) if draw(4) == 0 else 0 for _ in range(30)] for _ in range(10)]
    text = [f"NAME drill{seed}", "ROWS", " N obj"] + [f" L r{row}" for row in range(10)] + ["COLUMNS", " m 'MARKER' 'INTORG'"]
    for column in range(30):
        text.append(f" x{column} obj -{costs[column]}")
        text += [f" x{column} r{row} {weights[row][column]}" for row in range(10) if weights[row][column]]
    text += [" m 'MARKER' 'INTEND'", "RHS"] + [f" rhs r{row} {sum(weights[row]) // 2}" for row in range(10)]
    return "\n".join(text + ["BOUNDS"] + [f" BV b x{column}" for column in range(30)] + ["ENDATA"]) + "\n"


def equation(columns, side):
    """Twice the sum of 0 or 1 columns is an odd number: no solution, and a large tree without cuts."""
    text = ["NAME equation", "ROWS", " N cost", " E odd", "COLUMNS", " m 'MARKER' 'INTORG'"] + [f" x{at} odd 2" for at in range(columns)]
    text += [" m 'MARKER' 'INTEND'", "RHS", f" rhs odd {side}", "BOUNDS"] + [f" BV b x{at}" for at in range(columns)]
    return "\n".join(text + ["ENDATA"]) + "\n"


class EquationTree:
    """A tree of the equation that splits its columns in their order: the split column and the number of ones of each node, its branch, its children."""

    def __init__(self, columns, side):
        self.columns, self.side = columns, side
        self.nodes, self.parents, self.children = [(0, 0)], [(-1, 0)], {}
        left = [0]
        while left:
            node = left.pop()
            depth, ones = self.nodes[node]
            if 2 * ones <= side <= 2 * (ones + columns - depth):
                first = len(self.nodes)
                self.children[node] = first
                for value in (0, 1):
                    self.nodes.append((depth + 1, ones + value))
                    self.parents.append((node, value))
                left += [first, first + 1]

    def assumption(self, node):
        return 1 + 2 * self.columns + node - 1

    def line(self, node):
        return 1 + 2 * self.columns + 2 * (len(self.nodes) - 1) - node

    def multipliers(self, node):
        """Why a node without children is infeasible: the row, and a bound of each column."""
        _, ones = self.nodes[node]
        value, factor = (1, 2) if 2 * ones > self.side else (0, -2)
        made = {0: -1 if value else 1}
        fixed = {}
        while node:
            node_above, side = self.parents[node]
            fixed[self.nodes[node_above][0]] = (side, self.assumption(node))
            node = node_above
        for column in range(self.columns):
            side, line = fixed.get(column, (None, 0))
            made[line if side == value else 1 + 2 * column + 1 - value] = factor
        return sorted(made.items())

    def certificate(self):
        """The lines of the certificate, as bnc writes them."""
        columns, nodes = self.columns, len(self.nodes)
        yield f"VER 1.0\nVAR {columns}\n" + "".join(f"x{at}\n" for at in range(columns)) + f"INT {columns}\n" + " ".join(map(str, range(columns)))
        yield f"OBJ min\n0\nCON {1 + 2 * columns} {2 * columns}\nR0 E {self.side} {columns} " + " ".join(f"{at} 2" for at in range(columns))
        for at in range(columns):
            yield f"L{at} G 0 1 {at} 1\nU{at} L 1 1 {at} 1"
        yield f"RTP infeas\nSOL 0\nDER {2 * nodes - 1}"
        for node in range(1, nodes):
            above, value = self.parents[node]
            yield f"A{node} {'G 1' if value else 'L 0'} 1 {self.nodes[above][0]} 1 {{ asm }} -1"
        for node in range(nodes - 1, -1, -1):
            if node in self.children:
                first = self.children[node]
                four = (self.line(first), self.assumption(first), self.line(first + 1), self.assumption(first + 1))
                yield f"N{node} G 1 0 {{ uns {' '.join(map(str, four))} }} -1"
            else:
                pairs = self.multipliers(node)
                yield f"N{node} G 1 0 {{ lin {len(pairs)} {' '.join(f'{line} {factor}' for line, factor in pairs)} }} -1"


def equation_certificate(columns, side):
    return "".join(line + "\n" for line in EquationTree(columns, side).certificate())
