/* Has each allocation of some commands refused, alone and with all after it: the call that needed it has to say so, having done nothing or,
 * where it runs a command, having kept its input; it has to succeed afterwards, and all memory has to be given back. To be linked with the
 * static library, by -Wl,--wrap=malloc,--wrap=calloc,--wrap=realloc,--wrap=free. */
#include "given.h"

#define MOST_WORDS 8

typedef struct {
    const char *words[MOST_WORDS];
    uint8_t status;
} command;

static const command commands[] = {
    { { "gain", "-s", "s", "-g", "2", "a", "b" }, MP3EDIT_DONE },
    { { "gain", "-g", "2", "a", "b" }, MP3EDIT_DONE },
    { { "-n", "gain", "-g", "2", "a", "b" }, MP3EDIT_DONE },
    { { "cut", "a", "0", "1", "b" }, MP3EDIT_DONE },
    { { "cut", "--exact", "a", "700samples", "1500samples", "b" }, MP3EDIT_DONE },
    { { "remove", "a", "b", "0", "1" }, MP3EDIT_DONE },
    { { "pack", "a", "b" }, MP3EDIT_DONE },
    { { "pack", "--best", "a", "b" }, MP3EDIT_DONE },
    { { "split", "a", "p", "0", "1", "2" }, MP3EDIT_DONE },
    { { "join", "b", "a", "a" }, MP3EDIT_DONE },
    { { "join", "--seamless", "b", "a", "a" }, MP3EDIT_DONE },
    { { "fade", "a", "b", "sheet" }, MP3EDIT_DONE },
    { { "salvage", "a", "b" }, MP3EDIT_DONE },
    { { "list", "a" }, MP3EDIT_DONE },
    { { "info", "a" }, MP3EDIT_DONE },
    { { "drill", "1", "3" }, MP3EDIT_DONE },
    { { "cut", "a", "1", "1", "b" }, MP3EDIT_REFUSED },
    { { "list", "none" }, MP3EDIT_FAILED },
    { { "gain" }, MP3EDIT_BAD_WORD },
};

void *__real_malloc(size_t size);
void *__real_calloc(size_t count, size_t size);
void *__real_realloc(void *old, size_t size);
void __real_free(void *it);
void *__wrap_malloc(size_t size);
void *__wrap_calloc(size_t count, size_t size);
void *__wrap_realloc(void *old, size_t size);
void __wrap_free(void *it);

/* Whether the library is called; how many allocations it asked for then, the first and the last of those that are refused, and whether one
 * was; and how many blocks it and this test have. */
static struct {
    int is_called, was_refused;
    size_t asked, first, last, blocks;
} memory;

static int is_refused(void)
{
    if (!memory.is_called) return 0;
    memory.asked++;
    if (memory.asked < memory.first || memory.last < memory.asked) return 0;
    memory.was_refused = 1;
    return 1;
}

void *__wrap_malloc(size_t size)
{
    void *made = is_refused() ? 0 : __real_malloc(size);
    if (made != 0) memory.blocks++;
    return made;
}

void *__wrap_calloc(size_t count, size_t size)
{
    void *made = is_refused() ? 0 : __real_calloc(count, size);
    if (made != 0) memory.blocks++;
    return made;
}

void *__wrap_realloc(void *old, size_t size)
{
    void *made = is_refused() ? 0 : __real_realloc(old, size);
    if (made != 0 && old == 0) memory.blocks++;
    return made;
}

void __wrap_free(void *it)
{
    if (it != 0) memory.blocks--;
    __real_free(it);
}

static void refuse(size_t first, size_t last)
{
    memory.asked = 0;
    memory.first = first;
    memory.last = last;
    memory.was_refused = 0;
}

static void refuse_nothing(void)
{
    refuse((size_t)-1, 0);
}

static int failed;
static const command *running;
/* The allocation that is refused; how many were; and how often each answer came then. */
static size_t number, refusals, ends[MP3EDIT_NO_MEMORY + 1];
static bytes frames, sheet;

static void holds(int it, const char *what)
{
    if (it) return;
    printf("FAILED: %s: refused allocation %zu: %s\n", running->words[0], number, what);
    failed++;
}

/* The steps of a try: two files, the words, and the run. */
static size_t steps(void)
{
    size_t words = 0;
    while (words < MOST_WORDS && running->words[words] != 0) words++;
    return 2 + words + 1;
}

static uint8_t take(mp3edit_session *session, size_t step)
{
    if (step == 0) return put(session, "a", frames);
    if (step == 1) return put(session, "sheet", sheet);
    if (step == steps() - 1) return mp3edit_run(session);
    return mp3edit_word(session, letters(running->words[step - 2]), strlen(running->words[step - 2]));
}

/* The same, with its allocations counted and perhaps refused. */
static uint8_t take_watched(mp3edit_session *session, size_t step)
{
    uint8_t answer;
    memory.is_called = 1;
    answer = take(session, step);
    memory.is_called = 0;
    return answer;
}

static int have_same_files(mp3edit_session *one, mp3edit_session *other)
{
    size_t at;
    bytes name;
    for (at = 0; (name = named(one, at)).at != 0; at++) {
        int is_same = same(file_of(one, name), file_of(other, name));
        if (!same(name, named(other, at)) || !is_same) return 0;
    }
    return same(name, named(other, at));
}

static int are_alike(mp3edit_session *one, mp3edit_session *other)
{
    return have_same_files(one, other) && same(sent(one, mp3edit_text), sent(other, mp3edit_text))
        && same(sent(one, mp3edit_line), sent(other, mp3edit_line));
}

/* Memory ran out in the run. Its words are forgotten, so they come again; behind -n an output with only its beginning would be kept. */
static void run_again(mp3edit_session *tried, mp3edit_session *before, uint8_t answer)
{
    static const char *const outputs[] = { "b", "p01.mp3", "p02.mp3" };
    size_t step, at;
    /* What is refused for another reason is refused, with or without memory for the line. */
    int is_refusal = answer == running->status && answer != MP3EDIT_DONE;
    holds(answer == MP3EDIT_FAILED || answer == MP3EDIT_OUT_OF_MEMORY || is_refusal, "another answer");
    if (answer == MP3EDIT_FAILED)
        for (at = 0; at < sizeof outputs / sizeof *outputs; at++) drop(tried, outputs[at]);
    holds(have_same_files(tried, before), "a file was changed that isn't an output");
    for (step = 2; step < steps() - 1; step++) holds(take(tried, step) == MP3EDIT_DONE, "a word after the refusal");
    holds(take(tried, step) == running->status, "the run after the refusal");
}

/* Takes a step of two sessions that are alike, with memory refused in the first one. */
static void take_both(mp3edit_session *tried, mp3edit_session *beside, size_t step)
{
    int is_run = step == steps() - 1;
    uint8_t wanted = is_run ? running->status : MP3EDIT_DONE, answer = take_watched(tried, step);
    if (!memory.was_refused) {
        holds(answer == wanted, "an answer with nothing refused");
    } else {
        refuse_nothing();
        refusals++;
        ends[answer]++;
        if (answer == MP3EDIT_NO_MEMORY) {
            holds(are_alike(tried, beside), "no memory, and something was done");
            holds(take(tried, step) == wanted, "the same call after the refusal");
        } else {
            holds(is_run, "another answer of put or word");
            run_again(tried, beside, answer);
        }
    }
    holds(take(beside, step) == wanted, "an answer beside it");
    holds(are_alike(tried, beside), "both are alike again");
}

/* What reads takes no memory, and neither does what removes. */
static void read_without_memory(mp3edit_session *session)
{
    uint8_t into[8];
    size_t size;
    refuse(1, (size_t)-1);
    memory.is_called = 1;
    mp3edit_name(session, 0, into, sizeof into, &size);
    mp3edit_get(session, letters("a"), 1, into, sizeof into, &size);
    mp3edit_text(session, into, sizeof into, &size);
    mp3edit_line(session, into, sizeof into, &size);
    drop(session, "a");
    memory.is_called = 0;
    holds(memory.asked == 0, "a call that takes no memory asked for some");
    refuse_nothing();
}

/* Refuses one allocation, or that and all after it in the same call. Returns whether there was such a one. */
static int try_refusal(int is_used, size_t last)
{
    mp3edit_session tried = MP3EDIT_SESSION, beside = MP3EDIT_SESSION;
    size_t step, refused = refusals, blocks = memory.blocks;
    refuse_nothing();
    if (is_used) {
        mp3edit_words(&tried, "drill", "1", "1", (char *)0);
        mp3edit_words(&beside, "drill", "1", "1", (char *)0);
    }
    read_without_memory(&tried);
    refuse(number, last);
    for (step = 0; step < steps(); step++) take_both(&tried, &beside, step);
    read_without_memory(&tried);
    mp3edit_free(&tried);
    mp3edit_free(&beside);
    holds(memory.blocks == blocks, "memory wasn't given back");
    return refusals != refused;
}

/* Refuses each allocation of a command in turn. */
static void try_command(int is_used)
{
    size_t refused;
    memset(ends, 0, sizeof ends);
    for (number = 1; try_refusal(is_used, number); number++) {}
    for (refused = number - 1, number = 1; number <= refused; number++)
        holds(try_refusal(is_used, (size_t)-1), "there are fewer allocations if more are refused");
    printf("%s %s: %zu allocations refused, alone and with all after them:", running->words[0], running->words[1] != 0 ? running->words[1] : "", refused);
    for (number = 0; number < sizeof ends / sizeof *ends; number++)
        if (ends[number] != 0) printf(" answer %zu %zu times%s", number, ends[number], number == MP3EDIT_NO_MEMORY ? "" : ",");
    printf("\n");
}

int main(void)
{
    size_t at;
    frames = spelled(two_frames);
    sheet = text_of("0 0\n1 3\n");
    for (at = 0; at < sizeof commands / sizeof *commands; at++) {
        running = commands + at;
        try_command(0);
        try_command(1);
    }
    free(frames.at);
    free(sheet.at);
    return failed != 0;
}
