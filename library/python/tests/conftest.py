"""What the tests share: a song, and what the program does for the same words and files."""
import pytest

import program


@pytest.fixture(scope="session")
def song() -> bytes:
    return (program.TOP / "samples/plain.mp3").read_bytes()


@pytest.fixture(scope="session")
def changed_files() -> list:
    """Small files that are changed at random, with the words of commands for each."""
    return list(program.changed_files())
