/* Two threads with a session each: a thousand commands in both give the same answers, texts, lines and files as one after the other. Each
 * session is made and freed by another thread than the one that uses it, which has no more stack than the library may need. */
#define _POSIX_C_SOURCE 200809L
#include "given.h"

#include <pthread.h>

#define COMMANDS 1000
/* What the header says, and what the thread itself needs. */
#define STACK (128 * 1024 + 24 * 1024)

/* A session, the number from which its commands follow, and a sum of all that they did. */
typedef struct {
    mp3edit_session session;
    unsigned seed;
    uint64_t sum;
} work;

/* FNV-1a. */
static void add(work *to, bytes it)
{
    size_t at;
    for (at = 0; at < it.length; at++) to->sum = (to->sum ^ it.at[at]) * 0x100000001b3;
    to->sum = (to->sum ^ 0x100) * 0x100000001b3;
    free(it.at);
}

static uint8_t run(work *it, unsigned kind, const char *number)
{
    mp3edit_session *session = &it->session;
    switch (kind) {
        case 0: return mp3edit_words(session, "gain", "-s", "s", "-w", "-g", number, "a", "b", (char *)0);
        case 1: return mp3edit_words(session, "split", "a", "p", "0", number, "2", (char *)0);
        case 2: return mp3edit_words(session, "join", "--seamless", "b", "a", "a", (char *)0);
        case 3: return mp3edit_words(session, "pack", "--best", "a", "b", (char *)0);
        case 4: return mp3edit_words(session, "info", "a", (char *)0);
        case 5: return mp3edit_words(session, "drill", number, "3", (char *)0);
        case 6: return mp3edit_words(session, "gain", "-g", number, "a", "b", (char *)0);
        default: return mp3edit_words(session, "list", number, (char *)0);
    }
}

static void *do_commands(void *of)
{
    work *it = (work *)of;
    unsigned state = it->seed, at;
    for (at = 0; at < COMMANDS; at++) {
        size_t file;
        bytes name, changed;
        char number[8];
        state = state * 1103515245 + 12345;
        snprintf(number, sizeof number, "%u", state >> 16 & 3);
        it->sum += run(it, state >> 20 & 7, number);
        for (file = 0; (name = named(&it->session, file)).at != 0; file++) {
            add(it, file_of(&it->session, name));
            add(it, name);
        }
        add(it, sent(&it->session, mp3edit_text));
        add(it, sent(&it->session, mp3edit_line));
        /* Some outputs are inputs of later commands. */
        changed = got(&it->session, "b");
        if (changed.at != 0 && changed.length < 5000 && (state >> 24 & 3) == 0) put(&it->session, "a", changed);
        free(changed.at);
    }
    return 0;
}

static work begun(unsigned seed)
{
    work it = { MP3EDIT_SESSION, 0, 0xcbf29ce484222325 };
    bytes frames = spelled(two_frames);
    it.seed = seed;
    if (put(&it.session, "a", frames) != MP3EDIT_DONE) end("no memory for a test");
    free(frames.at);
    return it;
}

int main(void)
{
    work alone[2], together[2];
    pthread_t threads[2];
    pthread_attr_t small;
    int at, failed = 0;
    for (at = 0; at < 2; at++) {
        alone[at] = begun(7u + (unsigned)at);
        do_commands(&alone[at]);
        together[at] = begun(7u + (unsigned)at);
    }
    if (pthread_attr_init(&small) != 0 || pthread_attr_setstacksize(&small, STACK) != 0) end("no small stack");
    for (at = 0; at < 2; at++)
        if (pthread_create(&threads[at], &small, do_commands, &together[at]) != 0) end("no thread");
    for (at = 0; at < 2; at++) {
        pthread_join(threads[at], 0);
        if (together[at].sum != alone[at].sum) failed = 1;
        mp3edit_free(&together[at].session);
        mp3edit_free(&alone[at].session);
    }
    if (failed || alone[0].sum == alone[1].sum) printf("FAILED: two threads do something else than one\n");
    return failed || alone[0].sum == alone[1].sum;
}
