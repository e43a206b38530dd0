"""Places and stretches of every form, as many as hypothesis finds worth trying."""
import pytest

from program import TOP, same

hypothesis = pytest.importorskip("hypothesis")
st = pytest.importorskip("hypothesis.strategies")

SONG = (TOP / "samples/plain.mp3").read_bytes()
# The sample has 193 frames, a little more than five seconds.
SAMPLES = 193 * 1152
EXAMPLES = hypothesis.settings(max_examples=150, deadline=None, database=None)


def words(form, *numbers):
    return st.builds(form.format, *(st.integers(0, it) for it in numbers))


POSITIONS = st.one_of(
    st.just("EOF"),
    words("{}", 200),
    words("0.{}", 6),
    words("0.{}.{}", 6, 99),
    words("{}.{:02}", 1, 61),
)
PLACES = st.one_of(
    POSITIONS,
    words("{}samples", SAMPLES + 3),
    words("{}s", 6),
    words("{}.{}s", 6, 999),
    words("0.{}.{:03}", 6, 999),
    words("EOF-{}s", 6),
    words("EOF-{}.{}s", 6, 999),
    words("EOF-0.{}.{:02}", 6, 99),
    st.lists(st.sampled_from("0123456789.sEOF-+x"), max_size=6).map("".join),
)


@EXAMPLES
@hypothesis.given(st.lists(POSITIONS, min_size=1, max_size=5), st.booleans())
def test_split(places, keeps):
    same([*(["-n"] if keeps else []), "split", "a", "p", *places], {"a": SONG})


@EXAMPLES
@hypothesis.given(st.lists(PLACES, min_size=1, max_size=5))
def test_split_exact(places):
    same(["split", "--exact", "a", "p", *places], {"a": SONG})


@EXAMPLES
@hypothesis.given(PLACES, PLACES, st.sampled_from(["--exact", "--least"]))
def test_cut(start, end, option):
    same(["cut", option, "a", start, end, "b"], {"a": SONG})


@EXAMPLES
@hypothesis.given(st.lists(PLACES, min_size=2, max_size=6))
def test_remove(places):
    same(["remove", "a", "b", *places], {"a": SONG})
