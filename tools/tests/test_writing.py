"""Writing files: whole or not at all, where they are named, and nowhere else."""
import contextlib
import os
import pathlib
import stat
import threading

import pytest
from hypothesis import HealthCheck, given, settings, strategies

from avrora_tools import files, writing
from avrora_tools.errors import BadInput
from avrora_tools.writing import Folder

# A file of the user's, outside of what is named, that links lead to.
VICTIM = "mine\n"


@pytest.fixture
def place(tmp_path, monkeypatch):
    """The working folder, beside which a folder of the user's has a file."""
    (tmp_path / "home").mkdir()
    (tmp_path / "home" / "profile").write_text(VICTIM)
    (tmp_path / "here").mkdir()
    monkeypatch.chdir(tmp_path / "here")
    yield tmp_path / "here"
    assert (tmp_path / "home" / "profile").read_text() == VICTIM
    assert os.listdir(tmp_path / "home") == ["profile"]
    assert not [name for _, _, names in os.walk(tmp_path) for name in names if name.startswith(".")]


def refused(part):
    return pytest.raises(BadInput, match=part)


class TestFiles:
    """Files that the user names."""

    @pytest.mark.parametrize("content", ["text\n", b"\0bytes", "\udcff"])
    def test_a_new_file_and_one_that_is_there(self, place, content):
        wanted = content if isinstance(content, bytes) else content.encode(errors="surrogateescape")
        for _ in range(2):
            files.write_whole("a", content)
            assert (place / "a").read_bytes() == wanted
        assert os.listdir(place) == ["a"]

    def test_the_mode_is_that_of_a_new_file(self, place):
        before = os.umask(0o027)
        try:
            files.write_whole("a", "b")
        finally:
            os.umask(before)
        assert stat.S_IMODE((place / "a").stat().st_mode) == 0o640

    @pytest.mark.parametrize("target", ["../home/profile", "../home/new", "beside", "nowhere/at/all", "."])
    def test_a_link(self, place, target):
        (place / "beside").write_text("b")
        os.symlink(target, "a")
        for path in ("a", f"{place}/a"):
            with refused("a: it is a link"):
                files.write_whole(path, "c")
        assert os.readlink("a") == target and (place / "beside").read_text() == "b"

    def test_a_file_with_two_names(self, place):
        """The other one keeps what it has."""
        os.link("../home/profile", "a")
        files.write_whole("a", "c")
        assert (place / "a").read_text() == "c"

    @pytest.mark.parametrize("path", ["out/a", "./out/a", "sub/out/a", "sub/../out/a", "sub//out/a"])
    @pytest.mark.parametrize("is_absolute", [False, True])
    def test_a_link_on_the_way(self, place, path, is_absolute):
        (place / "sub").mkdir()
        os.symlink("../home", "out")
        os.symlink("../../home", "sub/out")
        with refused("out: it is a link"):
            files.write_whole(f"{place}/{path}" if is_absolute else path, "c")

    @pytest.mark.parametrize("here", ["far", "/"])
    def test_a_link_on_the_way_of_an_absolute_name(self, place, tmp_path, monkeypatch, here):
        """Those of the system alone are followed, as /var/run is."""
        (tmp_path / "far").mkdir()
        os.symlink("here", tmp_path / "link")
        monkeypatch.chdir(tmp_path / here)
        with refused("link: it is a link"):
            files.write_whole(f"{tmp_path}/link/a", "c")
        monkeypatch.setattr(writing, "OF_THE_SYSTEM", ("/", str(tmp_path)))
        files.write_whole(f"{tmp_path}/link/a", "c")
        assert (place / "a").read_text() == "c"

    def test_a_name_above(self, place):
        (place / "sub").mkdir()
        os.chdir("sub")
        files.write_whole("../a", "c")
        assert (place / "a").read_text() == "c"

    @pytest.mark.parametrize(
        "path, why",
        [("sub", IsADirectoryError), ("sub/", IsADirectoryError), ("no/a", FileNotFoundError), ("", IsADirectoryError)],
    )
    def test_what_is_no_file(self, place, path, why):
        (place / "sub").mkdir()
        with pytest.raises(why) as fault:
            files.write_whole(path, "c")
        assert fault.value.filename == path

    def test_a_pipe(self, place):
        os.mkfifo("pipe")
        found = []
        reader = threading.Thread(target=lambda: found.append((place / "pipe").read_text()))
        reader.start()
        files.write_whole("pipe", "c")
        reader.join()
        assert found == ["c"] and stat.S_ISFIFO(os.stat("pipe").st_mode)

    def test_a_pipe_that_nobody_reads(self, place, monkeypatch):
        monkeypatch.setattr(writing, "READER_SECONDS", 0.1)
        os.mkfifo("pipe")
        with pytest.raises(OSError) as fault:
            files.write_whole("pipe", "c")
        assert fault.value.filename == "pipe"

    @pytest.mark.parametrize("path", ["/dev/fd/{}", "/proc/self/fd/{}"])
    def test_an_open_file(self, place, path):
        """It is written where it stands, as a shell's `>>` has it."""
        (place / "log").write_text("a")
        with open("log", "a", encoding="utf-8") as log:
            files.write_whole(path.format(log.fileno()), "c")
            files.write_whole(path.format(log.fileno()), b"d")
        assert (place / "log").read_text() == "acd"

    def test_what_is_cut_leaves_all_as_it_was(self, place):
        (place / "a").write_text("b")
        with contextlib.suppress(KeyboardInterrupt), files.whole_file("a") as file:
            file.write("c")
            raise KeyboardInterrupt
        assert (place / "a").read_text() == "b" and os.listdir(place) == ["a"]

    def test_a_name_as_long_as_names_are(self, place):
        files.write_whole("n" * 255, "c")
        assert os.listdir(place) == ["n" * 255]


class TestFolders:
    """Folders that are named, and what is below them."""

    def test_making(self, place):
        with Folder.named("a/b", make=True) as folder, folder.below("c/d", make=True) as inner:
            inner.write("e", "f")
            assert inner.path == "a/b/c/d" and inner.names() == ["e"]
        with Folder.named(f"{place.parent}/other/one", make=True) as folder:
            assert folder.path == f"{place.parent}/other/one"
        assert (place / "a/b/c/d/e").read_text() == "f"

    @pytest.mark.parametrize("path", ["/tmp", "..", "a/..", "a/../../home", "a/../b", "\0"])
    def test_a_name_that_leads_out(self, place, path):
        (place / "a").mkdir()
        with Folder.named(".") as folder, refused("leads out"):
            folder.below(path, make=True)
        assert os.listdir(place) == ["a"]

    @pytest.mark.parametrize("path", ["out", "out/sub", "a/out", "a/out/", "./out"])
    @pytest.mark.parametrize("make", [False, True])
    def test_a_link_on_the_way(self, place, path, make):
        (place / "a").mkdir()
        os.symlink("../home", "out")
        os.symlink("../../home", "a/out")
        with Folder.named(".") as folder, refused("out: it is a link"):
            folder.below(path, make)
        with refused("out: it is a link"):
            Folder.named(path, make)

    def test_a_link_at_the_end_of_an_absolute_name(self, place):
        os.symlink("home", "../link")
        with refused("link: it is a link"):
            Folder.named(f"{place.parent}/link", make=True)
        os.unlink("../link")

    def test_a_folder_that_is_not_there(self, place):
        for path in ("no", f"{place}/no"):
            with pytest.raises(FileNotFoundError):
                Folder.named(path)
        (place / "file").write_text("")
        with Folder.named(".") as folder, pytest.raises(NotADirectoryError) as fault:
            folder.below("file/sub", make=True)
        assert fault.value.filename == "file"

    def test_links_and_pipes_within(self, place):
        os.symlink("../home/profile", "link")
        os.symlink("../home/new", "dangling")
        os.mkfifo("pipe")
        os.link("../home/profile", "second")
        with Folder.named(".") as folder:
            for name in ("link", "dangling"):
                for work in (folder.is_file, folder.lock_file, lambda name: folder.write(name, "c")):
                    with refused(f"{name}: it is a link"):
                        work(name)
            for work in (folder.is_file, folder.lock_file, lambda name: folder.write(name, "c")):
                with refused("pipe: no file"):
                    work("pipe")
            with refused("a second name"):
                folder.is_file("second")
            assert not folder.is_file("none")
            folder.write("plain", "")
            assert folder.is_file("plain")

    def test_locks_cut_nothing(self, place):
        os.link("../home/profile", "lock")
        with Folder.named(".") as folder:
            for name in ("lock", "new"):
                os.close(folder.lock_file(name))
        assert (place / "new").read_text() == ""

    def test_removing(self, place):
        os.symlink("../home/profile", "link")
        os.symlink("../home", "folder")
        (place / "full").mkdir()
        os.symlink("../../home", "full/out")
        (place / "full" / "file").write_text("")
        with Folder.named(".") as folder:
            folder.remove("link")
            folder.remove("link")
            folder.remove_folder("folder")
            folder.remove_folder("full")
            folder.remove_folder("full")
            assert folder.names() == []

    def test_a_path_for_what_takes_no_descriptor(self, place):
        (place / "a").mkdir()
        with Folder.named("a") as folder:
            os.rename("a", "b")
            pathlib.Path(folder.path_within("c")).write_text("d")
        assert (place / "b/c").read_text() == "d"

    @settings(suppress_health_check=[HealthCheck.function_scoped_fixture], deadline=None)
    @given(strategies.text(strategies.characters() | strategies.sampled_from("/.\0"), max_size=12))
    def test_any_name(self, place, name):
        """Each is one of a file here, or refused; none leads elsewhere."""
        with Folder.named(".") as folder:
            try:
                folder.write(name, "c")
                folder.below(f"sub/{name}")
            except (BadInput, OSError, UnicodeEncodeError):
                pass
            written = folder.names()
            assert written in ([], [name]) or len(written) == 1 and os.fsencode(written[0]) == os.fsencode(name)
            for one in written:
                folder.remove(one)


class TestReadingWhatAFileNames:
    def test_devices_and_pipes(self, place):
        os.mkfifo("pipe")
        for name in ("pipe", "/dev/zero", "/dev/tty", "."):
            with refused("cannot read"):
                files.read_named(name, 10)

    def test_files(self, place):
        (place / "a").write_bytes(b"abc")
        assert files.read_named("a", 3) == b"abc" and files.read_named_text("a") == "abc"
        with refused("more than 2 bytes"):
            files.read_named("a", 2)


def test_nothing_is_held_open(place):
    before = len(os.listdir("/proc/self/fd"))
    os.symlink("../home", "out")
    for path in ("a", "sub/a", "out/a", "out", "no/a"):
        with contextlib.suppress(BadInput, OSError):
            files.write_whole(path, "c")
        with contextlib.suppress(BadInput, OSError):
            Folder.named(path).close()
    assert len(os.listdir("/proc/self/fd")) == before
    assert writing.own_stream("/dev/stdout") == 1 and writing.own_stream("a") is None


def test_a_name_as_long_as_one_may_be(tmp_path):
    """In bytes, of which a character may have four."""
    for name in ("n" * 255, "\U0001f600" * 63 + "abc", "\u00e4" * 127 + "a"):
        writing.write_whole(f"{tmp_path}/{name}", "text")
        assert (tmp_path / name).read_text() == "text"
