/* clip IN FROM TO OUT: cuts a clip out of an MP3 file, to the sample. OUT is a new file. */
#include <mp3edit.h>
#include <stdio.h>
#include <stdlib.h>

static const uint8_t in[] = {'i', 'n'}, out[] = {'o', 'u', 't'};

/* The bytes of a file, or NULL. */
static uint8_t *bytes_of(const char *path, size_t *size)
{
    FILE *file = fopen(path, "rb");
    uint8_t *bytes = NULL;
    if (file && fseek(file, 0, SEEK_END) == 0) {
        *size = (size_t)ftell(file);
        rewind(file);
        bytes = malloc(*size + 1);
        *size = bytes ? fread(bytes, 1, *size, file) : 0;
    }
    if (file)
        fclose(file);
    return bytes;
}

/* Writes what the session has under the name out to a new file: a room of 0 asks for its size. */
static int is_written(mp3edit_session *session, const char *path)
{
    size_t size = 0;
    uint8_t none, *clip = NULL;
    FILE *file = fopen(path, "wbx");
    if (file && mp3edit_get(session, out, sizeof out, &none, 0, &size) == MP3EDIT_DONE)
        clip = malloc(size + 1);
    if (clip)
        mp3edit_get(session, out, sizeof out, clip, size, &size);
    int done = clip && fwrite(clip, 1, size, file) == size;
    free(clip);
    return file && fclose(file) == 0 && done;
}

int main(int count, char **words)
{
    mp3edit_session session = MP3EDIT_SESSION;
    uint8_t line[4096], *song = NULL;
    size_t size = 0;
    if (count != 5 || !(song = bytes_of(words[1], &size))) {
        fputs("clip IN FROM TO OUT, with an IN that is there\n", stderr);
        return MP3EDIT_BAD_WORD;
    }
    uint8_t answer = mp3edit_put(&session, in, sizeof in, song, size);
    free(song);
    if (answer == MP3EDIT_DONE)
        answer = mp3edit_words(&session, "cut", "--exact", "in", words[2], words[3], "out",
                               (char *)0);
    mp3edit_line(&session, line, sizeof line, &size);
    fwrite(line, 1, size < sizeof line ? size : sizeof line, stderr);
    if (answer == MP3EDIT_DONE && !is_written(&session, words[4])) {
        perror(words[4]);
        answer = MP3EDIT_FAILED;
    }
    mp3edit_free(&session);
    return answer;
}
