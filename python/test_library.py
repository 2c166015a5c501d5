#!/usr/bin/env python3
"""Tests of where the Python module takes the shared library from."""
import os
import shutil
import subprocess
import sys
import tempfile
import unittest
from pathlib import Path

from test_citronreef import citronreef

from citronreef.library import library_for

NAME = "libcitronreef.so.0"
INSTALLED = Path("lib", "python3", "dist-packages", "citronreef")


class Places(unittest.TestCase):
    def setUp(self):
        folder = tempfile.TemporaryDirectory()
        self.addCleanup(folder.cleanup)
        self.top = Path(folder.name).resolve()

    def put(self, *parts):
        """An empty file at this place."""
        path = self.top.joinpath(*parts)
        path.parent.mkdir(parents=True, exist_ok=True)
        path.touch()
        return str(path)

    def test_repository_has_its_own_alone(self):
        package = self.top / "work" / "python" / "citronreef"
        own = str(self.top / "work" / "target" / "lib" / NAME)
        self.put(NAME)
        self.put("work", NAME)
        self.assertEqual(library_for(package), own)
        self.put("work", "target", "lib", NAME)
        self.assertEqual(library_for(package), own)

    def test_install_has_the_one_beside_it(self):
        package = self.top / "prefix" / INSTALLED
        self.put(NAME)
        self.put("prefix", "lib", "target", "lib", NAME)
        self.assertEqual(library_for(package), NAME)
        beside = self.put("prefix", "lib", NAME)
        self.assertEqual(library_for(package), beside)

    def test_anywhere_else_is_left_to_the_loader(self):
        for folders in (("site-packages",), ("lib", "python3", "site-packages"), ("python3", "dist-packages"), ("a", "b", "c")):
            self.put(*folders[:-2], NAME)
            self.put(*folders[:-1], NAME)
            self.put(*folders[:-1], "target", "lib", NAME)
            self.assertEqual(library_for(self.top.joinpath(*folders, "citronreef")), NAME)

    def imported(self, package):
        """What a process says that imports a copy of the module in this folder: the library's name, or an error."""
        shutil.copytree(Path(citronreef.__file__).parent, self.top / package, dirs_exist_ok=True)
        setting = {name: value for name, value in os.environ.items() if name != "CITRONREEF_LIBRARY"}
        setting["PYTHONPATH"] = str(self.top / package.parent)
        command = [sys.executable, "-c", "import citronreef; print(citronreef._library._name)"]
        return subprocess.run(command, env=setting, stdout=subprocess.PIPE, stderr=subprocess.STDOUT, text=True, check=False).stdout

    def test_processes(self):
        """Each layout with a library that can be loaded where the other layout would have it, and then with its own."""
        for package, own, other in (
            (Path("work", "python", "citronreef"), Path("work", "target", "lib", NAME), Path(NAME)),
            (Path("prefix") / INSTALLED, Path("prefix", "lib", NAME), Path("prefix", "lib", "target", "lib", NAME)),
        ):
            with self.subTest(package=package):
                shutil.copy(citronreef._library._name, self.put(other))
                if package.parts[0] == "work":
                    self.assertIn(f"ImportError: {self.top / own} cannot be loaded", self.imported(package))
                shutil.copy(citronreef._library._name, self.put(own))
                self.assertEqual(self.imported(package), f"{self.top / own}\n")


if __name__ == "__main__":
    unittest.main()
