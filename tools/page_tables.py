"""Tables of a page of docs/ that a tool makes from the Python module: held against the page and against the rows that a program of rust/reference
prints, or stored anew (`--store`). In the page a table stands between two comments, `<!-- NAME -->` and `<!-- end of NAME -->`.

tools/archive must have made the library, and rust/compare the program.
"""
import os
import subprocess
import sys

ROOT = os.path.dirname(os.path.dirname(os.path.realpath(__file__)))
sys.dont_write_bytecode = True
sys.path.insert(0, f'{ROOT}/python')  # for `import vektrid`


class Tables:
    """The tables of a page: for each its name, and the lines of its header and its rows. `program` prints the rows of all, in order."""

    def __init__(self, tool, page, program, tables):
        self.tool, self.page, self.program, self.tables = tool, page, program, tables

    def fail(self, why):
        sys.exit(f'{self.tool}: {why}')

    def parted(self, text, name):
        """A text before the table of a name, the table, and the text after it."""
        begin, end = f'<!-- {name} -->\n', f'<!-- end of {name} -->\n'
        if text.count(begin) != 1 or text.count(end) != 1:
            self.fail(f'{self.page} needs the lines {begin.strip()} and {end.strip()}, once each')
        before, rest = text.split(begin)
        table, after = rest.split(end)
        return before + begin, table, end + after

    def read(self):
        with open(f'{ROOT}/{self.page}', encoding='utf-8') as file:
            return file.read()

    def store(self):
        text = self.read()
        for name, header, rows in self.tables:
            before, _, after = self.parted(text, name)
            text = before + ''.join(f'{line}\n' for line in header + rows) + after
        with open(f'{ROOT}/{self.page}', 'w', encoding='utf-8') as file:
            file.write(text)

    def hold(self):
        """Fails at the first difference."""
        text = self.read()
        for name, header, rows in self.tables:
            if self.parted(text, name)[1].splitlines() != header + rows:
                self.fail(f'the table of {self.page} named "{name}" is not what the tool makes: tools/{self.tool} --store')
        program = f'{ROOT}/rust/target/release/{self.program}'
        if not os.path.exists(program):
            self.fail(f'rust/compare has not made the program {self.program}')
        printed = subprocess.run([program], stdout=subprocess.PIPE, encoding='utf-8', check=True).stdout.splitlines()
        if printed != [row for _, _, rows in self.tables for row in rows]:
            self.fail(f'{self.program} of rust/reference prints other rows than the tool makes')

    def main(self, usage):
        """What the command line asks for."""
        if sys.argv[1:] not in ([], ['--store']):
            sys.exit(usage)
        rows = sum(len(rows) for _, _, rows in self.tables)
        if sys.argv[1:]:
            self.store()
            print(f'{self.tool}: stored {rows} rows')
        else:
            self.hold()
            print(f'{self.tool}: {rows} rows of {self.page}, as the module and rust/reference give them')
