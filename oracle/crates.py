"""The crates of the repository, as crates.txt lists them."""
import os, re

REPOSITORY = os.path.dirname(os.path.dirname(os.path.abspath(__file__)))


def needed(crate):
    """The crates of the repository that a crate needs, each after those that it needs itself, and the crate last."""
    with open(os.path.join(REPOSITORY, 'crates.txt'), encoding='utf-8') as f:
        direct = {name: deps.split() for name, deps in re.findall(r'^(\w+)(?: staticlib)?:(.*)$', f.read(), re.M)}
    found = []

    def visit(name):
        if name in direct and name not in found:
            for other in direct[name]:
                visit(other)
            found.append(name)

    visit(crate)
    return found
