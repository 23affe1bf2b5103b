"""Installed: the wheel, the Debian package and `make install`, each into a fresh root, without a network."""
import os
import shutil
import subprocess
import sys
import venv
import zipfile

import pytest

import bkd
from conftest import HERE, TOP

FIRST_USE = """
import bkd, sys, tempfile
with bkd.open(sys.argv[1], create=True, decimals=6) as index:
    index.add_many([(13.404954, 52.520008), (2.352222, 48.856613), (12.496366, 41.902782)])
    print(index.box((0, 45), (15, 55)), bkd.find().words[0])
"""
# nothing of this checkout, and no network, may be what makes it work
ALONE = {name: value for name, value in os.environ.items() if not name.startswith(("BKD", "PYTHON", "PIP"))}
TABLE = "name,lon,lat\nBerlin,13404954,52520008\nParis,2352222,48856613\nRome,12496366,41902782\n"


def said(words, **options):
    run = subprocess.run([str(word) for word in words], capture_output=True, text=True,
                         env=ALONE | {"PIP_NO_INDEX": "1", "PIP_DISABLE_PIP_VERSION_CHECK": "1"}, **options)
    assert run.returncode == 0, run.stdout + run.stderr
    return run.stdout


@pytest.fixture(scope="module")
def packages(tmp_path_factory):
    """The folder with the wheel and the Debian package."""
    if subprocess.run([TOP / "release" / "program"], capture_output=True).returncode != 0:
        pytest.skip("there is no program of these sources")
    folder = tmp_path_factory.mktemp("packages")
    for path in said([TOP / "release" / "package", folder]).split():
        assert os.path.isfile(path)
    return folder


def first_use(bkd_word, tmp_path):
    """README's first use, by an installed `bkd`."""
    folder = tmp_path / "places"
    folder.mkdir()
    assert said([bkd_word, folder, "load", "--columns", "lon,lat"], input=TABLE) == "loaded 3\nnext 3\n"
    script = "box 0 45000000 15000000 55000000\nnearest 1 12000000 42000000\n"
    assert said([bkd_word, folder, "run"], input=script) == "hits 2\n0\n1\nnear 1\n2 255830545480\n"
    assert bkd.__version__ in said([bkd_word, "--version"])
    assert "shell FOLDER" in said([bkd_word, "--help"])


def test_the_wheel_holds_all(packages):
    (wheel,) = packages.glob("*.whl")
    with zipfile.ZipFile(wheel) as archive:
        names = set(archive.namelist())
        assert archive.testzip() is None
        mode = archive.getinfo("bkd/bin/bkd").external_attr >> 16
        told = archive.read(f"bkd-{bkd.__version__}.dist-info/METADATA").decode()
    assert mode & 0o111 and {"bkd/py.typed", "bkd/view/page.html", "bkd/view/page.js"} <= names
    assert {path.relative_to(HERE.parent).as_posix() for path in (HERE.parent / "bkd").rglob("*.py")} <= names
    assert f"bkd-{bkd.__version__}.dist-info/licenses/LICENSE" in names
    assert "License: Apache-2.0" in told and "Requires-Python: >=3.11" in told and "# bkd for Python" in told


def test_the_same_sources_make_the_same_wheel(packages, tmp_path):
    (wheel,) = packages.glob("*.whl")
    said([sys.executable, TOP / "clients" / "python" / "packing.py", tmp_path])
    assert (tmp_path / wheel.name).read_bytes() == wheel.read_bytes()


def test_the_wheel_unpacked(packages, tmp_path):
    """What is in the wheel works by itself, outside of the checkout."""
    (wheel,) = packages.glob("*.whl")
    with zipfile.ZipFile(wheel) as archive:
        archive.extractall(tmp_path / "there")
    (tmp_path / "there" / "bkd" / "bin" / "bkd").chmod(0o755)
    told = said([sys.executable, "-c", FIRST_USE, tmp_path / "a"], cwd=tmp_path / "there")
    assert told == f"[0, 1] {tmp_path / 'there' / 'bkd' / 'bin' / 'bkd'}\n"


@pytest.mark.slow
@pytest.mark.parametrize("what", ["wheel", "checkout", "editable", "archive"])
def test_by_pip(packages, tmp_path, what):
    venv.create(tmp_path / "venv", with_pip=True)
    python = tmp_path / "venv" / "bin" / "python"
    if what == "archive":
        sys.path.insert(0, str(HERE.parent))
        import packing
        words = [tmp_path / packing.build_sdist(tmp_path)]
    else:
        words = {"wheel": list(packages.glob("*.whl")), "checkout": [HERE.parent],
                 "editable": ["-e", HERE.parent]}[what]
    said([python, "-m", "pip", "install", "-q", *words], cwd=tmp_path)
    first_use(tmp_path / "venv" / "bin" / "bkd", tmp_path)
    place, program = said([python, "-c", FIRST_USE, tmp_path / "a"], cwd=tmp_path).rsplit(" ", 1)
    assert place == "[0, 1]" and (what == "editable" or program.startswith(str(tmp_path)))
    said([python, "-m", "bkd", "--version"], cwd=tmp_path)
    if what == "wheel":
        shown = said([python, "-m", "pip", "show", "-f", "bkd"])
        assert f"Version: {bkd.__version__}" in shown and "License: Apache-2.0" in shown and "bin/bkd" in shown
        assert (tmp_path / "venv" / "share" / "man" / "man1" / "bkd.1").is_file()


def test_make_install(packages, tmp_path):
    root = tmp_path / "root"
    said(["make", "-s", "-C", TOP, "install", f"DESTDIR={root}", "PREFIX=/opt/bkd"])
    place = root / "opt" / "bkd"
    first_use(place / "bin" / "bkd", tmp_path)
    (tmp_path / "link").symlink_to(place / "bin" / "bkd")
    assert bkd.__version__ in said([tmp_path / "link", "--version"])
    for path in ("share/man/man1/bkd.1", "share/bash-completion/completions/bkd", "lib/bkd/python/bkd/py.typed"):
        assert (place / path).is_file()
    said(["make", "-s", "-C", TOP, "uninstall", f"DESTDIR={root}", "PREFIX=/opt/bkd"])
    assert not [path for path in place.rglob("*") if path.is_file()]


def test_the_debian_package(packages, tmp_path):
    if shutil.which("dpkg") is None:
        pytest.skip("no dpkg")
    (package,) = packages.glob("*.deb")
    root = tmp_path / "root"
    (root / "var" / "lib" / "dpkg" / "updates").mkdir(parents=True)
    (root / "var" / "lib" / "dpkg" / "info").mkdir()
    (root / "var" / "lib" / "dpkg" / "status").touch()
    # (dpkg wants to be root, and the C library is the system's)
    dpkg = ["dpkg", f"--root={root}", "--force-not-root", "--force-depends", "--force-script-chrootless"]
    said([*dpkg, "-i", package])
    first_use(root / "usr" / "bin" / "bkd", tmp_path)
    packed = root / "usr" / "lib" / "python3" / "dist-packages"
    told = said([sys.executable, "-c", FIRST_USE, tmp_path / "a"], cwd=packed)
    assert told.startswith("[0, 1] ") and str(packed) in told
    assert "Apache License" in (root / "usr" / "share" / "doc" / "bkd" / "copyright").read_text()
    assert "Depends: libc6 (>= 2.34)" in said(["dpkg-deb", "-I", package])
    said([*dpkg, "-r", "bkd"])
    assert not (root / "usr" / "bin" / "bkd").exists()
