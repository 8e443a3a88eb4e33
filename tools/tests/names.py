"""What scripts of tools/, dev/ and bench/ take from each other's modules is there: `names.py FILE..`, from the top of the repository."""
import ast
import importlib
import sys

OWN = ('tsp_clock', 'tsp_daemon', 'tsp_supervise', 'tsp_demo', 'tsp_texts', 'tsp_witness', 'tsp_build', 'lab', 'jobs')


def is_module(name):
    """Whether there is such a module."""
    try:
        importlib.import_module(name)
    except ImportError:
        return False
    return True


class Names(ast.NodeVisitor):
    """The names of own modules that a file takes, and those that aren't there."""

    def __init__(self):
        self.modules, self.taken, self.missing, self.bound = {}, [], [], set()

    def visit_Import(self, node):
        for name in node.names:
            if name.name.split('.')[0] in OWN:
                self.modules[name.asname or name.name] = name.name

    def visit_ImportFrom(self, node):
        if node.module and node.module.split('.')[0] in OWN:
            for name in node.names:
                whole = f'{node.module}.{name.name}'
                if is_module(whole):
                    self.modules[name.asname or name.name] = whole
                elif not hasattr(importlib.import_module(node.module), name.name):
                    self.missing.append(whole)

    def visit_Name(self, node):
        if isinstance(node.ctx, ast.Store):
            self.bound.add(node.id)

    def visit_Attribute(self, node):
        self.generic_visit(node)
        if isinstance(node.value, ast.Name):
            self.taken.append((node.value.id, node.attr))

    def ended(self):
        """The names that aren't there. (a variable may have a module's name where the module isn't used)"""
        for module, name in self.taken:
            if module in self.modules and module not in self.bound and not hasattr(importlib.import_module(self.modules[module]), name):
                self.missing.append(f'{self.modules[module]}.{name}')
        return self.missing


def main():
    sys.path[:0] = 'tools', 'dev', 'bench'
    for file in sys.argv[1:]:
        names = Names()
        with open(file, encoding='utf-8') as text:
            names.visit(ast.parse(text.read()))
        missing = names.ended()
        if missing:
            sys.exit(f'{file} takes {missing[0]}, which isn\'t there')


main()
