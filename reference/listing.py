"""The page of a program: its tree and its code, as `small list` prints them."""

from small import FORMS, OPCODES, children, number_in

OPERATIONS = {1: "sum", 2: "difference", 3: "product", 4: "quotient", 5: "equal", 6: "less"}


def words(node):
    name = FORMS[node.kind][0]
    match node.kind:
        case 7 | 10 | 11 | 23 | 25:
            return f"{name} {node.tag}"
        case 12 | 13:
            return f"{name} {node.tag}, parameter {node.c}"
        case 20:
            return f"{name} {number_in(node)}"
        case 21:
            return f"{name} {'true' if node.tag else 'false'}"
        case 24:
            return f"{name} {OPERATIONS[node.tag]}"
    return name


def rows(nodes):
    """The nodes with their levels, in the order of a walk from the root."""
    pending = [(len(nodes) - 1, 0)]
    while pending:
        n, level = pending.pop()
        yield n, level
        pending += [(child, level + 1) for child, _ in reversed(children(nodes[n]))]


def page(nodes, code):
    lines = [f"Tree: {len(nodes)} nodes", " node  level  form"]
    for n, level in rows(nodes):
        lines.append(f"{n:>5}{level:>7}  {'  ' * min(level, 30)}{words(nodes[n])}")
    lines += ["", f"Code: {len(code)} words", "position  instruction      operand   node"]
    for position, word in enumerate(code):
        lines.append(f"{position:>8}  {OPCODES[word.opcode - 1]:<11}{word.operand:>13}{word.node:>7}")
    return "".join(line + "\n" for line in lines)
