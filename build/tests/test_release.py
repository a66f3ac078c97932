"""release/make_release, with a stand-in for the program and for the tools that make a Debian package."""

import hashlib
import os
import re
import subprocess
import tarfile

import pytest
from conftest import TOP, run

USAGE = "usage: release/make_release FOLDER [--test-program FILE]"
VERSION = (TOP / "VERSION").read_text().strip() + "~test"
# It packs nothing, but has the name that the changelog tells, and finds what debian/zuldokan.install packs.
DPKG_BUILDPACKAGE = r"""#!/bin/sh
set -e
[ "$(cat debian/zuldokan.install)" = 'root/* usr' ] && [ -x root/bin/tierra ]
version=$(sed -n '1s/^zuldokan (\(.*\)) .*/\1/p' debian/changelog)
echo package >"../zuldokan_${version}_amd64.deb"
"""


def test_make_release_tells_its_words():
    status, told, said = run(TOP / "release/make_release", "--help")
    assert (status, said) == (0, "") and told.startswith(f"{USAGE}\n\nMakes a release")


@pytest.mark.parametrize("words", [[], ["-x"], ["a", "b"], ["a", "--test-program"], ["-a", "--test-program", "b"]])
def test_make_release_refuses_other_words(words, tmp_path):
    status, told, said = run(TOP / "release/make_release", *words, cwd=tmp_path)
    assert (status, told, said) == (1, "", f"{USAGE}\n")
    assert list(tmp_path.iterdir()) == []


@pytest.fixture(scope="module")
def release(repository, tmp_path_factory):
    """The folder of a release of the copy, and that of its unpacked tarball."""
    room, top = tmp_path_factory.mktemp("release"), repository
    (room / "tools").mkdir()
    nothing = "#!/bin/sh\n"
    for name, script in {"dpkg-buildpackage": DPKG_BUILDPACKAGE, "lintian": nothing, "program": nothing}.items():
        (room / "tools" / name).write_text(script)
        (room / "tools" / name).chmod(0o755)
    one = ["-c", "user.name=somebody", "-c", "user.email=somebody@example.org", "-c", "gc.auto=0"]
    for words in (["init", "-q"], ["add", "-A"], ["commit", "-q", "-m", "all"]):
        subprocess.run(["git", *one, *words], cwd=top, check=True)
    asked = {**os.environ, "PATH": f"{room}/tools:/usr/bin:/bin"}
    words = [top / "release/make_release", room / "made", "--test-program", room / "tools/program"]
    status, _, said = run(*words, env=asked)
    assert status == 0, said
    with tarfile.open(room / "made" / f"zuldokan-{VERSION}-linux-x86_64.tar.gz") as tarball:
        tarball.extractall(room)
    return room / "made", room / f"zuldokan-{VERSION}-linux-x86_64"


def test_the_files_of_a_release(release):
    made, _ = release
    names = {"PROVED", "Containerfile", f"zuldokan_{VERSION}_amd64.deb", f"zuldokan-{VERSION}-linux-x86_64.tar.gz"}
    assert {path.name for path in made.iterdir()} == names | {"SHA256SUMS"}
    status, told, _ = run("sha256sum", "--check", "--ignore-missing", "SHA256SUMS", cwd=made)
    assert status == 0 and told.count(": OK\n") == len(names)


def test_each_program_has_a_manual_page(release):
    _, root = release
    programs = sorted(path.name for path in (root / "bin").iterdir())
    assert programs == ["tierra", "zuldokan"]
    assert sorted(path.name for path in (root / "share/man/man1").iterdir()) == [f"{name}.1" for name in programs]


def test_what_is_installed(release):
    _, root = release
    assert (root / "bin/zuldokan").resolve() == root / "share/zuldokan/studies/zuldokan"
    doc = root / "share/doc/zuldokan"
    page = (TOP / "docs/FILES.md").read_text().split("## A release\n")[1]
    places = re.findall(r"`((?:bin|share)/[\w/-]+)`", page)
    assert len(places) > 6 and all((root / place).exists() for place in places)
    wanted = ("README.md", "docs/ACTIONS.md", "docs/pictures/sizes.png", "examples/soup.toml")
    assert all((doc / name).is_file() for name in wanted)
    tools = [path.name for path in doc.rglob("*") if path.is_file() and path.stat().st_mode & 0o111]
    assert tools == ["check_soup"]
    assert not (root / "share/zuldokan/studies/tests").exists()


def test_what_is_told_of_the_program(release):
    made, root = release
    proved = (made / "PROVED").read_text()
    assert proved == (root / "share/doc/zuldokan/PROVED").read_text()
    assert f"program    {hashlib.sha256((root / 'bin/tierra').read_bytes()).hexdigest()}\n" in proved
    assert "gate       none: not proved, a test of make_release\n" in proved


def test_the_links_of_the_front_page(release):
    _, root = release
    block = (TOP / "README.md").read_text().split("## A first result\n")[1].split("```\n")[0]
    linked = re.search(r"ln -s (.*) \.\n", block).group(1).split()
    assert len(linked) == 3 and all((root / place.removeprefix("/usr/")).exists() for place in linked)
