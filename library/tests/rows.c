/* Tries all calls of the library. rows FOLDER: there are in FOLDER what the program writes for --help and --version, as help and version;
 * a song.mp3; and what the program makes of it by pack, as packed.mp3. Other bytes, texts and lines were worked out by hand. */
#include "given.h"

/* The two frames with all gains 102. */
static const char *const two_louder =
    "fffb9000 000002580033000000004b000660000000096000cc000000012c001980 ~36 55*381 "
    "fffb9000 28800320003300000000640006600000000c8000cc0000000190001980 ~453 55*319 ~834";
/* The tag that notes two steps up. */
static const char *const undo_tag =
    "'APETAGEX' d00700004000000001000000000000a0 00*8 0b 00*7 'MP3GAIN_UNDO' 00 '-002,-002,N' "
    "'APETAGEX' d0070000400000000100000000000080 00*8";
/* The two frames, each in a file of its own: 208 bytes of an Info frame; before the second frame a silent one, of 104 bytes, with the first
 * 68 bytes of its main data. */
static const char *const first_piece =
    "fffb5000 00*32 'Info' 0000000f0000000100000271 55*100 00*56 "
    "fffb9000 000002580032000000004b000640000000096000c8000000012c0019 ~244 55*300 ~625";
static const char *const second_piece =
    "fffb5000 00*32 'Xing' 0000000f00000002000002d9 49*50 6d*50 00*56 fffb1000 ~244 55*68 ~312 "
    "fffb9000 22000320003200000000640006400000000c8000c800000001900019 ~348 55*332 ~729";

static const char *folder;
static int failed;

static void holds(int it, const char *what)
{
    if (it) return;
    printf("FAILED: %s\n", what);
    failed++;
}

static bytes given(const char *name)
{
    char path[4096];
    snprintf(path, sizeof path, "%s/%s", folder, name);
    return read_file(path);
}

/* A session whose file `a` is the two frames. */
static mp3edit_session with_frames(void)
{
    mp3edit_session session = MP3EDIT_SESSION;
    bytes it = spelled(two_frames);
    holds(put(&session, "a", it) == MP3EDIT_DONE, "put of a");
    free(it.at);
    return session;
}

/* The last run answered `answer`, and left these names, text and line. */
static void left(mp3edit_session *session, const char *what, int answer, int wanted, const char *names, const char *text, const char *line)
{
    bytes all = of_length(0), one;
    size_t number = 0;
    for (; (one = named(session, number)).at != 0; number++) {
        bytes longer = of_length(all.length + 1 + one.length);
        memcpy(longer.at, all.at, all.length);
        longer.at[all.length] = ' ';
        memcpy(longer.at + all.length + 1, one.at, one.length);
        free(all.at);
        free(one.at);
        all = longer;
    }
    holds(same(all, text_of(names)), what);
    holds(answer == wanted, what);
    holds(same(sent(session, mp3edit_text), text_of(text)), what);
    holds(same(sent(session, mp3edit_line), text_of(line)), what);
}

static void change_gains(void)
{
    mp3edit_session session = with_frames();
    const char *const words[] = { "gain", "-s", "s", "-g", "2", "a", "b" };
    size_t at;
    for (at = 0; at < sizeof words / sizeof *words; at++)
        holds(mp3edit_word(&session, letters(words[at]), strlen(words[at])) == MP3EDIT_DONE, "a word");
    left(&session, "gain", mp3edit_run(&session), MP3EDIT_DONE, " a b", "", "");
    holds(same(got(&session, "b"), spelled(two_louder)), "gain: b");
    holds(same(got(&session, "a"), spelled(two_frames)), "gain: a stays");
    left(&session, "a second run has no words", mp3edit_run(&session), MP3EDIT_BAD_WORD, " a b", "", "bad word 1\n");
    left(&session, "list", mp3edit_words(&session, "list", "b", (char *)0), MP3EDIT_DONE, " a b",
         "frame 0 at 0: 128 kbit/s, begin 0, bits 2400\nframe 1 at 417: 128 kbit/s, begin 81, bits 3200\n"
         "2 frames, MPEG-1, 44100 Hz, 2 channels, 0.00.05\n", "");
    left(&session, "no text of the run before", mp3edit_words(&session, "gain", "-g", "1", "a", "c", (char *)0), MP3EDIT_DONE, " a b c", "", "");
    mp3edit_free(&session);
}

static void refuse(void)
{
    mp3edit_session session = with_frames();
    left(&session, "an input that is an output", mp3edit_words(&session, "gain", "-g", "2", "a", "a", (char *)0), MP3EDIT_REFUSED,
         " a", "", "a: input is an output\n");
    left(&session, "an empty range", mp3edit_words(&session, "cut", "a", "1", "1", "b", (char *)0), MP3EDIT_REFUSED,
         " a", "", "range 1 to 1 of 2 frames\n");
    left(&session, "an absent input", mp3edit_words(&session, "pack", "x", "y", (char *)0), MP3EDIT_FAILED, " a", "", "x: absent\n");
    holds(same(got(&session, "a"), spelled(two_frames)), "refused: a stays");
    holds(drop(&session, "a") == MP3EDIT_DONE, "drop");
    left(&session, "a dropped input", mp3edit_words(&session, "list", "a", (char *)0), MP3EDIT_FAILED, "", "", "a: absent\n");
    mp3edit_free(&session);
}

static void split(void)
{
    mp3edit_session session = with_frames();
    left(&session, "split", mp3edit_words(&session, "split", "a", "p", "0", "1", "2", (char *)0), MP3EDIT_DONE, " a p01.mp3 p02.mp3", "", "");
    holds(same(got(&session, "p01.mp3"), spelled(first_piece)), "split: the first piece");
    holds(same(got(&session, "p02.mp3"), spelled(second_piece)), "split: the second piece");
    holds(same(named(&session, 2), text_of("p02.mp3")), "the last name");
    mp3edit_free(&session);
}

/* Behind -n the output that the first run made is kept. */
static void keep(void)
{
    mp3edit_session session = with_frames();
    bytes tag = spelled(undo_tag), wanted = spelled(two_louder);
    size_t at;
    left(&session, "-n", mp3edit_words(&session, "-n", "gain", "-g", "2", "a", "b", (char *)0), MP3EDIT_DONE, " a b", "", "");
    left(&session, "-n again", mp3edit_words(&session, "-n", "gain", "-g", "3", "a", "b", (char *)0), MP3EDIT_REFUSED, " a b", "", "b: exists\n");
    for (at = 0; at < tag.length; at++) more(&wanted, 1, tag.at[at]);
    holds(same(got(&session, "b"), wanted), "-n: b stays");
    free(tag.at);
    mp3edit_free(&session);
}

/* What is read gets as many bytes as there are and fit, and nothing behind them. */
static void read_into(const char *what, bytes it, int is_done, size_t size, const uint8_t *into, size_t room)
{
    size_t at, fits = it.length < room ? it.length : room;
    holds(is_done && size == it.length, what);
    holds(fits == 0 || memcmp(into, it.at, fits) == 0, what);
    for (at = fits; at < 1100; at++) holds(into[at] == 0xee, what);
    free(it.at);
}

static void rooms(void)
{
    static const size_t all[] = { 0, 3, 834, 1000 };
    mp3edit_session session = with_frames();
    uint8_t into[1100];
    size_t size, at;
    int is_done;
    for (at = 0; at < sizeof all / sizeof *all; at++) {
        memset(into, 0xee, sizeof into);
        is_done = mp3edit_get(&session, letters("a"), 1, into, all[at], &size) == MP3EDIT_DONE;
        read_into("get", spelled(two_frames), is_done, size, into, all[at]);
        memset(into, 0xee, sizeof into);
        is_done = mp3edit_name(&session, 0, into, all[at], &size) == MP3EDIT_DONE;
        read_into("name", text_of("a"), is_done, size, into, all[at]);
        holds(mp3edit_words(&session, "drill", "1", "1", (char *)0) == MP3EDIT_DONE, "drill");
        memset(into, 0xee, sizeof into);
        is_done = mp3edit_text(&session, into, all[at], &size) == MP3EDIT_DONE;
        read_into("text", text_of("1 frames, 417 bytes in, 469 bytes out, 0 lead-ins\n"), is_done, size, into, all[at]);
        holds(mp3edit_words(&session, "pack", (char *)0) == MP3EDIT_BAD_WORD, "pack");
        memset(into, 0xee, sizeof into);
        is_done = mp3edit_line(&session, into, all[at], &size) == MP3EDIT_DONE;
        read_into("line", text_of("bad word 2\n"), is_done, size, into, all[at]);
    }
    mp3edit_free(&session);
}

/* What isn't UTF-8, and what isn't there: nothing is done, and nothing is written. */
static void other_bytes(void)
{
    mp3edit_session session = with_frames();
    uint8_t into[4] = { 1, 2, 3, 4 };
    size_t size = 77;
    holds(mp3edit_put(&session, letters("\xff"), 1, into, 4) == MP3EDIT_NOT_TEXT, "put of ff");
    holds(mp3edit_word(&session, letters("\xc3\x28"), 2) == MP3EDIT_NOT_TEXT, "the word c3 28");
    holds(mp3edit_word(&session, letters("\xed\xa0\x80"), 3) == MP3EDIT_NOT_TEXT, "a word with half of a pair");
    holds(mp3edit_get(&session, letters("\xc0\xaf"), 2, into, 4, &size) == MP3EDIT_NOT_TEXT, "get of c0 af");
    holds(mp3edit_drop(&session, letters("a\xe9"), 2) == MP3EDIT_NOT_TEXT, "drop of 61 e9");
    holds(mp3edit_get(&session, letters("zz"), 2, into, 4, &size) == MP3EDIT_ABSENT, "get of zz");
    holds(mp3edit_name(&session, 1, into, 4, &size) == MP3EDIT_ABSENT, "the second name of one");
    holds(mp3edit_name(&session, (size_t)-1, into, 4, &size) == MP3EDIT_ABSENT, "the last name of all");
    holds(drop(&session, "zz") == MP3EDIT_ABSENT, "drop of zz");
    holds(memcmp(into, "\1\2\3\4", 4) == 0 && size == 77, "a call that isn't done writes nothing");
    holds(same(got(&session, "a"), spelled(two_frames)), "other bytes: a stays");
    left(&session, "no word came", mp3edit_run(&session), MP3EDIT_BAD_WORD, " a", "", "bad word 1\n");
    left(&session, "words that aren't UTF-8", mp3edit_words(&session, "list", "\xff", "\xfe", (char *)0), MP3EDIT_BAD_WORD, " a", "", "bad word 2\n");
    left(&session, "words after that", mp3edit_words(&session, "gain", "-g", "0", "a", "b", (char *)0), MP3EDIT_DONE, " a b", "", "");
    mp3edit_free(&session);
}

/* Names are any UTF-8, in the order of their bytes; a file that is put again has the later bytes, and there may be none. */
static void names(void)
{
    mp3edit_session session = with_frames();
    bytes none = of_length(0), some = text_of("some bytes"), it = spelled(two_frames);
    static const char zero[] = { 'a', 0, 'b' };
    holds(put(&session, "\xc3\xa9", some) == MP3EDIT_DONE, "put of a name in UTF-8");
    holds(put(&session, "b", it) == MP3EDIT_DONE, "put of b");
    holds(put(&session, "a/1", none) == MP3EDIT_DONE, "put of no bytes");
    holds(put(&session, "Z", none) == MP3EDIT_DONE, "put of Z");
    holds(put(&session, "", some) == MP3EDIT_DONE, "put of an empty name");
    left(&session, "the names in order", mp3edit_run(&session), MP3EDIT_BAD_WORD, "  Z a a/1 b \xc3\xa9", "", "bad word 1\n");
    holds(same(got(&session, ""), text_of("some bytes")), "get of an empty name");
    holds(same(got(&session, "a/1"), of_length(0)), "get of no bytes");
    holds(put(&session, "b", some) == MP3EDIT_DONE, "put again");
    holds(same(got(&session, "b"), text_of("some bytes")), "get of what was put again");
    left(&session, "an output in place of a longer file", mp3edit_words(&session, "gain", "-s", "s", "-g", "2", "a", "b", (char *)0), MP3EDIT_DONE,
         "  Z a a/1 b \xc3\xa9", "", "");
    holds(same(got(&session, "b"), spelled(two_louder)), "its bytes");
    holds(mp3edit_put(&session, letters(zero), 3, it.at, it.length) == MP3EDIT_DONE, "put of a name with a zero byte");
    holds(mp3edit_word(&session, letters("list"), 4) == MP3EDIT_DONE && mp3edit_word(&session, letters(zero), 3) == MP3EDIT_DONE
          && mp3edit_run(&session) == MP3EDIT_DONE, "a word with a zero byte");
    free(none.at);
    free(some.at);
    free(it.at);
    mp3edit_free(&session);
}

/* Every call takes an empty session, and one that was freed is empty. */
static void empty(void)
{
    mp3edit_session session = MP3EDIT_SESSION, other = with_frames(), moved;
    int turn;
    for (turn = 0; turn < 2; turn++) {
        holds(got(&session, "a").at == 0 && named(&session, 0).at == 0, "an empty session has no files");
        holds(drop(&session, "a") == MP3EDIT_ABSENT, "drop from an empty session");
        holds(same(sent(&session, mp3edit_text), of_length(0)) && same(sent(&session, mp3edit_line), of_length(0)), "an empty text and line");
        mp3edit_free(&session);
        mp3edit_free(&session);
        holds(session.at == 0, "a session that was freed");
        left(&session, "a run of an empty session", mp3edit_run(&session), MP3EDIT_BAD_WORD, "", "", "bad word 1\n");
        holds(mp3edit_word(&session, letters("--version"), 9) == MP3EDIT_DONE, "a word of an empty session");
        mp3edit_free(&session);
        left(&session, "free forgets the words", mp3edit_run(&session), MP3EDIT_BAD_WORD, "", "", "bad word 1\n");
        mp3edit_free(&session);
        moved = other;
        holds(mp3edit_words(&moved, "gain", "-g", "1", "a", "b", (char *)0) == MP3EDIT_DONE, "a session that was moved");
        other = moved;
        holds(named(&session, 0).at == 0, "sessions share nothing");
        holds(mp3edit_words(&session, "list", "a", (char *)0) == MP3EDIT_FAILED, "sessions share no files");
        mp3edit_free(&session);
    }
    mp3edit_free(&other);
    mp3edit_free(&other);
    left(&other, "free", mp3edit_run(&other), MP3EDIT_BAD_WORD, "", "", "bad word 1\n");
    mp3edit_free(&other);
}

static void texts(void)
{
    mp3edit_session session = MP3EDIT_SESSION;
    left(&session, "drill", mp3edit_words(&session, "drill", "1", "1", (char *)0), MP3EDIT_DONE, "",
         "1 frames, 417 bytes in, 469 bytes out, 0 lead-ins\n", "");
    holds(mp3edit_words(&session, "--help", (char *)0) == MP3EDIT_DONE, "--help");
    holds(same(sent(&session, mp3edit_text), given("help")), "the text of --help");
    holds(mp3edit_words(&session, "--version", (char *)0) == MP3EDIT_DONE, "--version");
    holds(same(sent(&session, mp3edit_text), given("version")), "the text of --version");
    mp3edit_free(&session);
}

static void real_file(void)
{
    mp3edit_session session = MP3EDIT_SESSION;
    bytes song = given("song.mp3");
    holds(put(&session, "song", song) == MP3EDIT_DONE, "put of a song");
    holds(mp3edit_words(&session, "gain", "-g", "-3", "song", "quieter", (char *)0) == MP3EDIT_DONE, "gain");
    holds(mp3edit_words(&session, "gain", "-u", "quieter", "back", (char *)0) == MP3EDIT_DONE, "gain -u");
    holds(!same(got(&session, "quieter"), got(&session, "song")), "gain changes a song");
    holds(same(got(&session, "back"), got(&session, "song")), "gain -u gives it back");
    holds(mp3edit_words(&session, "pack", "song", "packed", (char *)0) == MP3EDIT_DONE, "pack");
    holds(same(got(&session, "packed"), given("packed.mp3")), "pack makes what the program makes");
    holds(same(got(&session, "song"), song), "a song stays");
    mp3edit_free(&session);
}

int main(int count, char **words)
{
    if (count != 2) end("rows FOLDER");
    folder = words[1];
    change_gains();
    refuse();
    split();
    keep();
    rooms();
    other_bytes();
    names();
    empty();
    texts();
    real_file();
    if (failed == 0) printf("all is as it should be\n");
    return failed != 0;
}
