"""examples/ci/check.sh: images of several sources, the radio's header, and a folder that is used again."""
import shutil
import subprocess

import pytest

from support import TOP, needs_module
import test_check_script
from test_check_script import check

place, pytestmark = test_check_script.place, test_check_script.pytestmark


@needs_module("junit_xml", "python3-junit.xml")
def test_all_sources_of_a_folder_make_one_image(place):
    sources = place / "mine" / "node.src"
    sources.mkdir()
    (sources / "main.c").write_text(
        '#include "part.h"\n#include "radio.h"\nint main(void) { radio_init(); return part(); }\n'
    )
    (sources / "part.c").write_text('#include "part.h"\nint part(void) { return 7; }\n')
    (sources / "part.h").write_text("int part(void);\n")
    assert check(place)[::2] == (0, "")
    symbols = subprocess.run(["avr-nm", place / "out" / "node.elf"], capture_output=True, text=True, check=True).stdout
    assert " T main\n" in symbols and " T part\n" in symbols
    assert (place / "out" / "node.hex").read_text().startswith(":")


@pytest.mark.parametrize(
    "prepared, why",
    [
        (lambda sources: shutil.rmtree(sources) or sources.mkdir(), "./node.src: there is no source"),
        (
            lambda sources: (sources.parent / "node.c").write_text("int main(void) { return 1; }"),
            "./node.c makes an image of this name too",
        ),
    ],
)
def test_a_folder_of_sources_that_says_nothing_or_two_things_is_refused(place, prepared, why):
    sources = place / "mine" / "node.src"
    sources.mkdir()
    (sources / "main.c").write_text("int main(void) { return 0; }\n")
    prepared(sources)
    status, _, err = check(place)
    assert status == 2 and why in err


@needs_module("junit_xml", "python3-junit.xml")
def test_the_header_is_that_of_the_named_home(place, tmp_path):
    """Where the script is not in the archive whose programs it uses."""
    elsewhere = tmp_path / "ci"
    elsewhere.mkdir()
    shutil.copy(f"{TOP}/examples/ci/check.sh", elsewhere)
    (place / "mine" / "good.c").write_text('#include "radio.h"\nint main(void) { radio_init(); return 0; }\n')
    done = subprocess.run(
        ["sh", elsewhere / "check.sh", "mine", "out"],
        cwd=place,
        env={"PATH": "/usr/bin:/bin", "AVRORA_HOME": TOP},
        capture_output=True,
        check=False,
    )
    assert done.returncode == 0, done.stderr
