"""What pip is given: whole, typed, the same at each build, and enough to answer by Node alone."""
import os
import subprocess
import sys
import tarfile
import tempfile
import unittest
import zipfile

import backend
from coop.machine import which
from coop.program import TOP
from coop.version import VERSION

FOLDER = os.path.join(TOP, "python", "coop")
NODE = which("node") or which("nodejs")
ASKS = """
import coop
print(coop.airport([1, 2]).worth(3), coop.__file__)
print(coop.checking.verdict(coop.nucleolus(coop.airport([2, 4, 6])).line.encode()))
print(coop.telling.same(*(coop.airport([cost]).document().decode() for cost in (1, 2))).outcome)
print(coop.nucleolus(coop.airport([2, 4, 6]))._repr_html_().count("<svg"))
"""


def bytes_of(path: str) -> bytes:
    """What a file has."""
    with open(path, "rb") as file:
        return file.read()


class Built(unittest.TestCase):
    def setUp(self) -> None:
        holder = tempfile.TemporaryDirectory()
        self.addCleanup(holder.cleanup)
        self.folder = holder.name

    def test_the_wheel(self) -> None:
        names, info = [], f"coop-{VERSION}.dist-info"
        for part in ("one", "two"):
            os.mkdir(os.path.join(self.folder, part))
            names.append(os.path.join(self.folder, part, backend.build_wheel(os.path.join(self.folder, part))))
        self.assertEqual([os.path.basename(name) for name in names], [f"coop-{VERSION}-py3-none-any.whl"] * 2)
        self.assertEqual(bytes_of(names[0]), bytes_of(names[1]))
        # Packed, but for the styles and the code that page and worker share.
        self.assertLess(os.path.getsize(names[0]), 750_000)
        with zipfile.ZipFile(names[0]) as archive:
            found = {name: archive.read(name) for name in archive.namelist()}
        record = found[f"{info}/RECORD"].decode().splitlines()
        self.assertEqual([line.split(",")[0] for line in record], list(found))
        for line in record[:-1]:
            name, digest, size = line.split(",")
            self.assertEqual((digest, size), (f"sha256={backend.sum_of(found[name])}", str(len(found[name]))))
        wanted = {f"coop/{name}": os.path.join(FOLDER, name) for name in backend.modules()}
        for folder, names in backend.data().items():
            wanted.update((f"coop/{folder}/{name}", os.path.join(TOP, folder, name)) for name in names)
        self.assertLess({"coop/page/coop.html", "coop/runtime/telling.mjs", "coop/scripts/check-anew"}, set(wanted))
        own = {f"{info}/{part}" for part in ("METADATA", "WHEEL", "RECORD")}
        self.assertEqual(set(found), {*wanted, *own})
        for name, path in wanted.items():
            self.assertEqual(found[name], bytes_of(path), name)
        self.assertIn("coop/py.typed", found)
        self.assertIn(b"\n\n# coop\n", found[f"{info}/METADATA"])
        self.assertIn(b"\nLicense: none yet: the owner of the project has not chosen one\n", found[f"{info}/METADATA"])
        self.assertRegex(found[f"{info}/METADATA"], rb"\nAuthor: \w.*\nLicense")

    def test_the_archive(self) -> None:
        with tarfile.open(os.path.join(self.folder, backend.build_sdist(self.folder))) as archive:
            names = archive.getnames()
            archive.extractall(self.folder)
        inside = os.path.join(self.folder, f"coop-{VERSION}")
        self.assertEqual({name.split("/")[0] for name in names}, {f"coop-{VERSION}"})
        code = "import sys, backend; print(backend.build_wheel(sys.argv[1]))"
        done = subprocess.run([sys.executable, "-B", "-c", code, self.folder], cwd=inside, stdout=subprocess.PIPE)
        again = bytes_of(os.path.join(self.folder, done.stdout.decode().strip()))
        os.mkdir(os.path.join(self.folder, "own"))
        own = backend.build_wheel(os.path.join(self.folder, "own"))
        self.assertEqual(again, bytes_of(os.path.join(self.folder, "own", own)))

    def test_a_wheel_with_a_library(self) -> None:
        """Its platform is that of the library; what is none is refused. Without one no compiler is asked."""
        path = os.path.join(self.folder, "some-library")
        with open(path, "wb") as file:
            file.write(b"\x7fELF\0coop_run\0libc.so.6\0GLIBC_2.2.5\0GLIBC_2.34\0")
        if sys.platform == "linux":
            name = backend.build_wheel(self.folder, {"library": path})
            self.assertRegex(name, rf"^coop-{VERSION}-py3-none-manylinux_2_34_\w+\.whl$")
            with zipfile.ZipFile(os.path.join(self.folder, name)) as archive:
                self.assertEqual(archive.read(f"coop/{backend.library_name()}"), bytes_of(path))
                self.assertIn(b"Root-Is-Purelib: false", archive.read(f"coop-{VERSION}.dist-info/WHEEL"))
        for wrong in (os.path.join(FOLDER, "version.py"), sys.executable):
            with self.assertRaises(backend.NoLibrary):
                backend.build_wheel(self.folder, {"library": wrong})

    @unittest.skipUnless(NODE, "there is no Node")
    def test_what_is_installed(self) -> None:
        """A new environment without the repository, the network and a program answers by Node, and says what lacks."""
        done = subprocess.run([sys.executable, "-m", "venv", "--without-pip", os.path.join(self.folder, "venv")])
        self.assertEqual(done.returncode, 0)
        python = os.path.join(self.folder, "venv", "bin", "python")
        words = [python, "-c", "import sysconfig; print(sysconfig.get_path('purelib'))"]
        site = subprocess.run(words, stdout=subprocess.PIPE, check=True).stdout.decode().strip()
        with zipfile.ZipFile(os.path.join(self.folder, backend.build_wheel(self.folder))) as archive:
            archive.extractall(site)
        tools = os.path.join(self.folder, "tools")
        os.mkdir(tools)
        found = self.asked(python, tools)
        self.assertIn(b"NotFound: no program found: put Node 18 or later on the path", found[1])
        os.symlink(NODE or "", os.path.join(tools, "nodejs"))
        said = f"-2 {os.path.join(site, 'coop', '__init__.py')}\n{{'answer': 'yes'}}\nanother\n1\n"
        self.assertEqual(self.asked(python, tools), (said.encode(), b""))

    def asked(self, python: str, path: str) -> tuple[bytes, bytes]:
        """What a Python prints that asks the package, with these programs alone."""
        words = [python, "-B", "-c", ASKS]
        done = subprocess.run(words, env={"PATH": path}, cwd="/", stdout=subprocess.PIPE, stderr=subprocess.PIPE)
        return done.stdout, done.stderr


if __name__ == "__main__":
    unittest.main()
