/* Edits MP3 files in memory, as the program mp3edit edits those of a folder. For C99 and C++.
 *
 *     mp3edit_session session = MP3EDIT_SESSION;
 *     uint8_t answer = mp3edit_put(&session, (const uint8_t *)"in", 2, bytes, length);
 *     if (answer == MP3EDIT_DONE)
 *         answer = mp3edit_words(&session, "gain", "-g", "-2", "in", "out", (char *)0);
 *     if (answer == MP3EDIT_DONE)
 *         answer = mp3edit_get(&session, (const uint8_t *)"out", 3, into, room, &size);
 *     mp3edit_free(&session);
 *
 * A session has files, each a name and bytes; the words of the next command; and what the last run
 * sent: its text, which the program writes to standard output, and its line, which it writes to
 * standard error where a command isn't done. All of this is in memory: no call reads or writes a
 * file of the system, or prints.
 *
 * It is proved that each call does what is said here, for callers that keep these rules, which no
 * call can test:
 *
 * - No pointer is null, not even with a length or a room of 0, and each has as many bytes as its
 *   length or room says.
 * - What the pointers of one call lead to doesn't overlap. No call keeps a pointer to it.
 * - A session begins with all bits 0, as MP3EDIT_SESSION, and only these calls change it. It may be
 *   moved; of two copies only one is used from then on.
 * - A session is in one call at a time. It may go from thread to thread, by a lock, or by a
 *   thread's start or end. Sessions share nothing, so each thread may have its own.
 * - malloc, realloc and free belong to one allocator, and give what C says of their alignment: to
 *   16 bytes, for blocks of a multiple of 16.
 * - No call comes from a signal handler, or from the child of a fork in a process of several
 *   threads.
 * - 128 KiB of the stack are free, and an x86-64 processor has SSE4.2 and POPCNT (x86-64-v2).
 */
#ifndef MP3EDIT_H
#define MP3EDIT_H

#include <stdarg.h>
#include <stddef.h>
#include <stdint.h>
#include <string.h>

#ifdef __cplusplus
extern "C" {
#endif

#ifdef __GNUC__
#define MP3EDIT_NOT_NULL __attribute__((nonnull))
#define MP3EDIT_ENDS_IN_NULL __attribute__((sentinel))
#else
#define MP3EDIT_NOT_NULL
#define MP3EDIT_ENDS_IN_NULL
#endif

typedef struct {
    void *at;
} mp3edit_session;

/* An empty session: no files, no words, and an empty text and line. Every call takes one. */
#define MP3EDIT_SESSION { 0 }

/* What the calls answer. */
enum {
    /* It is done. */
    MP3EDIT_DONE = 0,
    /* run: refused. No file was made or changed. */
    MP3EDIT_REFUSED = 1,
    /* run: the words are no command. No file was made or changed. */
    MP3EDIT_BAD_WORD = 2,
    /* run: a file isn't there, or a file or the text couldn't grow, for want of memory. Of the
     * files that were to be written, one may have only its beginning, and others may be missing. */
    MP3EDIT_FAILED = 3,
    /* run: memory was refused before a file was written. No file was made or changed. */
    MP3EDIT_OUT_OF_MEMORY = 4,
    /* put, drop, word, get: the name or the word isn't UTF-8. Nothing was done. */
    MP3EDIT_NOT_TEXT = 5,
    /* drop, get, name: there is no such file. Nothing was done. */
    MP3EDIT_ABSENT = 6,
    /* put, word, run: memory was refused before anything was done. All is as before the call, and
     * the same call may succeed later. */
    MP3EDIT_NO_MEMORY = 7
};

/* Makes these bytes the file of this name, in place of the one that may be there. The session gets
 * its own copy of both. A name is any UTF-8: a slash in it is a byte as all others.
 * Answers MP3EDIT_DONE, _NOT_TEXT, _NO_MEMORY. */
MP3EDIT_NOT_NULL uint8_t mp3edit_put(mp3edit_session *session,
                                     const uint8_t *name, size_t name_length,
                                     const uint8_t *bytes, size_t length);

/* Removes the file of this name.
 * Answers MP3EDIT_DONE, _NOT_TEXT, _ABSENT. */
MP3EDIT_NOT_NULL uint8_t mp3edit_drop(mp3edit_session *session,
                                      const uint8_t *name, size_t name_length);

/* Adds a word to the next command, behind those that it has. The words are those that a shell gives
 * the program, without the program's name.
 * Answers MP3EDIT_DONE, _NOT_TEXT, _NO_MEMORY. */
MP3EDIT_NOT_NULL uint8_t mp3edit_word(mp3edit_session *session,
                                      const uint8_t *word, size_t length);

/* Does what the words say, over the session's files, as the program does over those of a folder,
 * and answers the program's exit status. Then there are no words, and the text and the line are
 * those of this run. Where the answer isn't MP3EDIT_DONE the line says why, unless there was no
 * memory for it.
 * Answers MP3EDIT_DONE, _REFUSED, _BAD_WORD, _FAILED, _OUT_OF_MEMORY, _NO_MEMORY. */
MP3EDIT_NOT_NULL uint8_t mp3edit_run(mp3edit_session *session);

/* Copies the first bytes of the file of this name to `into`, as many as there are and have room,
 * and stores in `size` how many the file has, which may be more. A room of 0 asks for the size
 * alone. Where the answer isn't MP3EDIT_DONE nothing is written to `into` or `size`.
 * Answers MP3EDIT_DONE, _NOT_TEXT, _ABSENT. */
MP3EDIT_NOT_NULL uint8_t mp3edit_get(mp3edit_session *session,
                                     const uint8_t *name, size_t name_length,
                                     uint8_t *into, size_t room, size_t *size);

/* The same for the name of a file. The files are counted from 0, in the order of the bytes of their
 * names.
 * Answers MP3EDIT_DONE, or _ABSENT if there are no more. */
MP3EDIT_NOT_NULL uint8_t mp3edit_name(mp3edit_session *session, size_t number,
                                      uint8_t *into, size_t room, size_t *size);

/* The same for the text of the last run.
 * Answers MP3EDIT_DONE. */
MP3EDIT_NOT_NULL uint8_t mp3edit_text(mp3edit_session *session,
                                      uint8_t *into, size_t room, size_t *size);

/* The same for the line of the last run, which ends in a newline.
 * Answers MP3EDIT_DONE. */
MP3EDIT_NOT_NULL uint8_t mp3edit_line(mp3edit_session *session,
                                      uint8_t *into, size_t room, size_t *size);

/* Gives back all memory of the session. It is empty then, and may be used or freed again. */
MP3EDIT_NOT_NULL void mp3edit_free(mp3edit_session *session);

/* Adds these words to the next command and runs it: strings, of which the last is followed by
 * (char *)0. A string that isn't UTF-8 is, as for the program, a word that no command takes: then
 * the answer is MP3EDIT_BAD_WORD, and the line says which word is the first such one.
 * Answers what mp3edit_run does. After MP3EDIT_NO_MEMORY the session keeps the words that it has
 * got so far: an empty word and mp3edit_run, which then answers MP3EDIT_BAD_WORD, forget them, and
 * so does mp3edit_free. */
MP3EDIT_ENDS_IN_NULL static inline uint8_t mp3edit_words(mp3edit_session *session, ...)
{
    uint8_t answer = MP3EDIT_DONE;
    const char *word;
    va_list words;
    va_start(words, session);
    while (answer == MP3EDIT_DONE && (word = va_arg(words, const char *)) != 0) {
        answer = mp3edit_word(session, (const uint8_t *)word, strlen(word));
        /* No command takes an empty word either, and it is counted. */
        if (answer == MP3EDIT_NOT_TEXT)
            answer = mp3edit_word(session, (const uint8_t *)"", 0);
    }
    va_end(words);
    return answer == MP3EDIT_DONE ? mp3edit_run(session) : answer;
}

#undef MP3EDIT_NOT_NULL
#undef MP3EDIT_ENDS_IN_NULL

#ifdef __cplusplus
}
#endif
#endif
