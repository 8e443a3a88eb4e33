"""What tells from which sources a program was built.

out/NAME.listing has the names, sizes and times of change of the sources and of the program, as `find` writes them: ./tsp compares it at each call.
out/NAME.stamp has checksums of their texts, by which a copy of the repository, whose files have other times, is known to be the same.
Both leave out the files of proofs: a changed proof changes neither the program nor what was proved of it.
"""
import hashlib
import os
import subprocess

from tsp_build import crates

# (what ./tsp calls too)
FORMAT = '%p %s %C@\\n'


class Stamp:
    """The notes on the program of one crate."""

    def __init__(self, here, name, below):
        self.here, self.name, self.below = here, name, below
        self.program = crates.program_of(here, name)

    def path(self, ending):
        return os.path.join(self.here, 'out', f'{self.name}.{ending}')

    def folders(self):
        return crates.folders(self.here, self.below, ('src', 'specs'))

    def sources(self):
        """A checksum of the names and texts of the code and its definitions, taken before a build."""
        total = hashlib.sha256()
        for path in ['crates.txt'] + crates.files(self.here, self.folders()):
            with open(os.path.join(self.here, path), 'rb') as text:
                total.update(f'{path} {hashlib.sha256(text.read()).hexdigest()}\n'.encode())
        return total.hexdigest()

    def built(self):
        """A checksum of the program."""
        with open(self.program, 'rb') as octets:
            return hashlib.sha256(octets.read()).hexdigest()

    def is_fresh(self):
        """Whether the program is that of these sources; if so, the listing is made anew."""
        try:
            listing = self.listing()
            with open(self.path('stamp'), encoding='utf-8') as noted:
                same = noted.read().split() == [self.sources(), self.built()]
        except OSError:
            return False
        if same:
            self.put_listing(listing)
        return same

    def put(self, sources, listing):
        """Notes that the program was built from sources with that checksum and listing."""
        os.makedirs(os.path.join(self.here, 'out'), exist_ok=True)
        self.write('stamp', f'{sources}\n{self.built()}\n')
        self.put_listing(listing)

    def listing(self):
        """The folders that ./tsp looks at, and what `find` writes of them now, without the program."""
        folders = ['crates.txt'] + self.folders()
        return folders, self.find(folders)

    def find(self, paths):
        made = subprocess.run(['find', *paths, '-printf', FORMAT], cwd=self.here, stdout=subprocess.PIPE, check=True)
        return made.stdout

    def put_listing(self, listing):
        folders, found = listing
        program = os.path.relpath(self.program, self.here)
        try:
            self.write('folders', ' '.join(folders + [program]) + '\n')
            self.write('listing', found + self.find([program]))
        except OSError:
            # (a folder that can't be written to costs a slower start)
            pass

    def write(self, ending, text):
        path = f'{self.path(ending)}.{os.getpid()}'
        with open(path, 'wb') as file:
            file.write(text if isinstance(text, bytes) else text.encode())
        os.replace(path, self.path(ending))
