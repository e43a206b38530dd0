/* What the tests of the library share: bytes that were worked out by hand, and sessions that are looked into. */
#ifndef GIVEN_H
#define GIVEN_H

#include "mp3edit.h"

#include <stdio.h>
#include <stdlib.h>

/* Two frames of MPEG-1, 44,100 Hz, 128 kbit/s, stereo, 417 bytes each. The first has 300 bytes of main data, those of the second begin 81
 * bytes before its own area; all gains are 100. It is spelled as `spelled` reads it. */
static const char *const two_frames =
    "fffb9000 000002580032000000004b000640000000096000c8000000012c0019 ~36 55*381 "
    "fffb9000 28800320003200000000640006400000000c8000c800000001900019 ~453 55*319 ~834";

/* Bytes that are owned. */
typedef struct {
    uint8_t *at;
    size_t length;
} bytes;

static inline void end(const char *why)
{
    fprintf(stderr, "%s\n", why);
    exit(2);
}

static inline bytes of_length(size_t length)
{
    bytes made = { 0, length };
    made.at = (uint8_t *)calloc(length == 0 ? 1 : length, 1);
    if (made.at == 0) end("no memory for a test");
    return made;
}

static inline int digit(char of)
{
    return of >= '0' && of <= '9' ? of - '0' : of >= 'a' && of <= 'f' ? of - 'a' + 10 : -1;
}

/* Adds as many bytes of this value. */
static inline void more(bytes *to, size_t count, int value)
{
    bytes grown = of_length(to->length + count);
    if (to->length != 0) memcpy(grown.at, to->at, to->length);
    memset(grown.at + to->length, value, count);
    free(to->at);
    *to = grown;
}

/* The bytes of a text of words: hexadecimal digits; 55*381, that byte so often; ~417, zero bytes up to that length; 'Info', these letters. */
static inline bytes spelled(const char *text)
{
    bytes made = of_length(0);
    char *rest;
    while (*text != 0) {
        if (*text == ' ') {
            text++;
        } else if (*text == '~') {
            more(&made, strtoul(text + 1, &rest, 10) - made.length, 0);
            text = rest;
        } else if (*text == '\'') {
            for (text++; *text != '\''; text++) more(&made, 1, *text);
            text++;
        } else if (*text == '*') {
            more(&made, strtoul(text + 1, &rest, 10) - 1, made.at[made.length - 1]);
            text = rest;
        } else {
            if (digit(text[0]) < 0 || digit(text[1]) < 0) end(text);
            more(&made, 1, digit(text[0]) << 4 | digit(text[1]));
            text += 2;
        }
    }
    return made;
}

/* The bytes of a file of the system. */
static inline bytes read_file(const char *path)
{
    FILE *file = fopen(path, "rb");
    bytes read;
    if (file == 0 || fseek(file, 0, SEEK_END) != 0) end(path);
    read = of_length((size_t)ftell(file));
    rewind(file);
    if (fread(read.at, 1, read.length, file) != read.length) end(path);
    fclose(file);
    return read;
}

static inline const uint8_t *letters(const char *text)
{
    return (const uint8_t *)text;
}

static inline uint8_t put(mp3edit_session *session, const char *name, bytes it)
{
    return mp3edit_put(session, letters(name), strlen(name), it.at, it.length);
}

static inline uint8_t drop(mp3edit_session *session, const char *name)
{
    return mp3edit_drop(session, letters(name), strlen(name));
}

/* The file of a name, which stays, or, where there is none, a pointer that is null. */
static inline bytes file_of(mp3edit_session *session, bytes name)
{
    bytes it = { 0, 0 };
    uint8_t none;
    if (mp3edit_get(session, name.at, name.length, &none, 0, &it.length) != MP3EDIT_DONE) return it;
    it = of_length(it.length);
    mp3edit_get(session, name.at, name.length, it.at, it.length, &it.length);
    return it;
}

static inline bytes text_of(const char *text)
{
    bytes it = of_length(strlen(text));
    memcpy(it.at, text, it.length);
    return it;
}

static inline bytes got(mp3edit_session *session, const char *name)
{
    bytes spelling = text_of(name), it = file_of(session, spelling);
    free(spelling.at);
    return it;
}

/* What mp3edit_text or mp3edit_line gives. */
static inline bytes sent(mp3edit_session *session, uint8_t (*call)(mp3edit_session *, uint8_t *, size_t, size_t *))
{
    bytes it = { 0, 0 };
    uint8_t none;
    call(session, &none, 0, &it.length);
    it = of_length(it.length);
    call(session, it.at, it.length, &it.length);
    return it;
}

/* The name of a file, or a pointer that is null. */
static inline bytes named(mp3edit_session *session, size_t number)
{
    bytes it = { 0, 0 };
    uint8_t none;
    if (mp3edit_name(session, number, &none, 0, &it.length) != MP3EDIT_DONE) return it;
    it = of_length(it.length);
    mp3edit_name(session, number, it.at, it.length, &it.length);
    return it;
}

/* Whether both are the same bytes, or both null; both are freed. */
static inline int same(bytes one, bytes other)
{
    int is_same = (one.at == 0) == (other.at == 0) && one.length == other.length;
    if (is_same && one.length != 0) is_same = memcmp(one.at, other.at, one.length) == 0;
    free(one.at);
    free(other.at);
    return is_same;
}

#endif
