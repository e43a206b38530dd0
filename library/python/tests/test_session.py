"""A session is a mapping, and runs words."""
import pytest

import mp3edit


@pytest.fixture
def session():
    with mp3edit.Session() as it:
        yield it


def test_mapping(session, song):
    session["b"] = song
    session["a"] = b""
    session["ä"] = bytearray(b"x")
    session["B"] = memoryview(b"yy")
    # In the order of bytes.
    assert list(session) == ["B", "a", "b", "ä"] and len(session) == 4
    assert session["b"] == song and session["a"] == b"" and session["ä"] == b"x"
    assert "a" in session and "c" not in session and 3 not in session
    session["b"] = b"another"
    assert session.pop("b") == b"another" and "b" not in session
    del session["a"]
    assert dict(session) == {"B": b"yy", "ä": b"x"}
    session.clear()
    assert not session


def test_names_that_are_not_there(session):
    with pytest.raises(KeyError):
        session["a"]
    with pytest.raises(KeyError):
        del session["a"]
    assert list(session) == []


def test_pieces(session, song):
    session["a.mp3"] = song
    assert session.run("split", "a.mp3", "p", "0", "100", "EOF") == 0
    assert list(session) == ["a.mp3", "p01.mp3", "p02.mp3"]
    assert session["a.mp3"] == song and session.text == session.line == ""


def test_refusals(session, song):
    """Each leaves the files as they are, and its line until the next run."""
    session["a"] = song
    for words, status, line in [
        ("", 2, "bad word 1"),
        ("gain -g 2 a a", 1, "a: input is an output"),
        ("cut a 1 1 b", 1, "range 1 to 1 of 193 frames"),
        ("pack x y", 3, "x: absent"),
    ]:
        assert (session.run(*words.split()), session.text, session.line) == (status, "", line)
        assert dict(session) == {"a": song}
    assert session.run("gain", "-g", "2", "a", "b") == 0 and session.line == ""


def test_nothing_is_overwritten(session, song):
    session["a"] = song
    words = "-n gain -g 2 a b".split()
    assert session.run(*words) == 0
    assert session.run(*words) == 1 and session.line == "b: exists"


def test_texts_are_of_the_last_run(session, song):
    session["a"] = song
    assert session.run("info", "a") == 0 and session.text.startswith("MPEG-1, 44100 Hz")
    assert session.run("gain", "-u", "a", "b") == 1 and session.text == ""
    assert session.line == "no undo item"


def test_empty_again(session, song):
    session["a"] = song
    session.close()
    session.close()
    assert list(session) == [] and session.run() == 2
    session["a"] = song
    assert session.run("list", "a") == 0


def test_names_and_words_are_text(session):
    with pytest.raises(TypeError):
        session[b"a"] = b""
    with pytest.raises(TypeError):
        session.run("drill", 1, 1)
    with pytest.raises(UnicodeEncodeError):
        session["\udcff"] = b""
    with pytest.raises(UnicodeEncodeError):
        session.run("list", "\udcff")
    # What was refused before the library was called has left no words.
    assert session.run("drill", "1", "1") == 0
