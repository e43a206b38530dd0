"""Many threads do what one does."""
from concurrent.futures import ThreadPoolExecutor

import mp3edit

COMMANDS = [
    lambda song, it: mp3edit.gain(song, it % 20 - 10),
    lambda song, it: mp3edit.cut(song, it, it + 50, exact=True),
    lambda song, it: mp3edit.join(mp3edit.split(song, it, 120, "EOF"), seamless=True),
    lambda song, it: mp3edit.pack(song, best=it % 2 == 0),
    lambda song, it: mp3edit.remove(song, (it, 100)),
    lambda song, it: mp3edit.info(song).text.encode(),
]


def test_eight_threads(song):
    jobs = [(COMMANDS[it % len(COMMANDS)], it // len(COMMANDS)) for it in range(240)]

    def done(job):
        return job[0](song, job[1])

    with ThreadPoolExecutor(8) as pool:
        assert list(pool.map(done, jobs)) == [done(it) for it in jobs]


def test_one_session_in_eight_threads(song):
    """It takes one call at a time, each whole."""
    with mp3edit.Session({"a": song}) as session:

        def done(number):
            session[f"b{number}"] = song[: 1000 * number]
            assert session.run("gain", "-g", str(number), "a", f"c{number}") == 0
            return session[f"b{number}"], session.pop(f"c{number}"), len(session) > 1

        with ThreadPoolExecutor(8) as pool:
            for number, it in enumerate(pool.map(done, range(40))):
                assert it == (song[: 1000 * number], mp3edit.gain(song, number), True)
        assert len(session) == 41
