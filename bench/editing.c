/* Edits files in memory many times, for bench/library: editing RUNS HOW FILES NAME.. WORD..
 *
 * Each run puts the files, gives the words, gets every file that is new, and frees the session. A
 * line says its processor time and the time that passed, in microseconds; the last line is the peak
 * of memory in bytes, without what this program holds of the files. HOW is `given`; `kept`, so that
 * malloc keeps what is freed, and a later run finds its pages there; or `peak`, where nothing is
 * got, so that the peak is the library's. */
#include <malloc.h>
#include <mp3edit.h>
#include <stdio.h>
#include <stdlib.h>
#include <string.h>
#include <time.h>

static double microseconds(clockid_t clock)
{
    struct timespec now;
    clock_gettime(clock, &now);
    return 1e6 * (double)now.tv_sec + (double)now.tv_nsec / 1e3;
}

static void must(int holds, const char *what)
{
    if (holds)
        return;
    fprintf(stderr, "%s failed\n", what);
    exit(1);
}

struct file {
    const char *name;
    uint8_t *bytes;
    size_t size;
};

static struct file file_of(const char *name)
{
    struct file it = {name, NULL, 0};
    FILE *file = fopen(name, "rb");
    must(file && fseek(file, 0, SEEK_END) == 0, name);
    it.size = (size_t)ftell(file);
    rewind(file);
    it.bytes = malloc(it.size + 1);
    must(it.bytes && fread(it.bytes, 1, it.size, file) == it.size, name);
    fclose(file);
    return it;
}

static void get_file(mp3edit_session *session, const char *name, size_t length)
{
    size_t size = 0;
    uint8_t none, *bytes;
    must(!mp3edit_get(session, (const uint8_t *)name, length, &none, 0, &size), "get");
    bytes = malloc(size + 1);
    must(bytes && !mp3edit_get(session, (const uint8_t *)name, length, bytes, size, &size), "get");
    free(bytes);
}

static int is_given(const struct file *files, int count, const char *name, size_t length)
{
    for (int it = 0; it < count; it++)
        if (strlen(files[it].name) == length && !memcmp(files[it].name, name, length))
            return 1;
    return 0;
}

static void get_all(mp3edit_session *session, const struct file *files, int count)
{
    uint8_t name[256], text[1];
    size_t length = 0, size = 0;
    for (size_t it = 0; !mp3edit_name(session, it, name, sizeof name, &length); it++)
        if (!is_given(files, count, (char *)name, length))
            get_file(session, (char *)name, length);
    mp3edit_text(session, text, 0, &size);
    uint8_t *whole = malloc(size + 1);
    must(whole && !mp3edit_text(session, whole, size, &size), "text");
    free(whole);
}

static size_t peak(void)
{
    char line[256];
    size_t kilobytes = 0;
    FILE *file = fopen("/proc/self/status", "r");
    while (file && fgets(line, sizeof line, file))
        if (sscanf(line, "VmHWM: %zu kB", &kilobytes) == 1)
            break;
    if (file)
        fclose(file);
    return 1024 * kilobytes;
}

int main(int count, char **words)
{
    must(count > 4, "editing RUNS HOW FILES NAME.. WORD..");
    int runs = atoi(words[1]), only_peak = !strcmp(words[2], "peak"), named = atoi(words[3]);
    if (!strcmp(words[2], "kept"))
        must(mallopt(M_MMAP_MAX, 0) && mallopt(M_TRIM_THRESHOLD, -1), "mallopt");
    struct file *files = calloc((size_t)named + 1, sizeof *files);
    size_t held = 0;
    for (int it = 0; it < named; it++) {
        files[it] = file_of(words[4 + it]);
        held += files[it].size;
    }
    for (int run = 0; run < runs; run++) {
        mp3edit_session session = MP3EDIT_SESSION;
        double used = microseconds(CLOCK_PROCESS_CPUTIME_ID), passed = microseconds(CLOCK_MONOTONIC);
        for (int it = 0; it < named; it++)
            must(!mp3edit_put(&session, (const uint8_t *)files[it].name, strlen(files[it].name),
                              files[it].bytes, files[it].size), "put");
        for (int it = 4 + named; it < count; it++)
            must(!mp3edit_word(&session, (const uint8_t *)words[it], strlen(words[it])), "word");
        must(!mp3edit_run(&session), "run");
        if (!only_peak)
            get_all(&session, files, named);
        mp3edit_free(&session);
        used = microseconds(CLOCK_PROCESS_CPUTIME_ID) - used;
        passed = microseconds(CLOCK_MONOTONIC) - passed;
        printf("%.1f %.1f\n", used, passed);
    }
    printf("%zu\n", peak() - held);
    return 0;
}
