/*
 * Asks the library everything that include/igvm.h offers, for c_library.py.
 *
 *     c_library LIST                about each file that LIST names, a name a line, and the one before it
 *     c_library --twice LIST        all of it twice
 *     c_library --zeros FILE SIZE.. about FILE, and then about so many bytes of zeros each
 *     c_library --threads FILE FILE measures by two threads at once
 *
 * A line is a question: its word, the status, what was asked for, and the answer. Where there is none, it ends with
 * `kept`, or with `written` where the place of the answer isn't as it was. Each place that the library reads or writes
 * is a block of just its size, so that a tool which watches memory sees a step beyond it. The last line says how many
 * of them were taken.
 */
#include <igvm.h>
#include <inttypes.h>
#include <pthread.h>
#include <stdio.h>
#include <stdlib.h>
#include <string.h>

enum {
    PATTERN = 0xA5,        /* what a place is filled with */
    RULES = 26,
    KINDS = 7,             /* all, and one past the last */
    OPTIONS = 3,           /* both values, and one that stands for nothing */
    PAIRED = 3,            /* the platforms that are compared, at most */
    BESIDE = 12,           /* the headers behind whose first byte no header stands: so many are asked for */
    ROUNDS = 100
};

struct file {
    uint8_t *bytes;
    size_t size;
};

static unsigned long taken;

static void stop(const char *why, const char *name)
{
    fflush(stdout);
    fprintf(stderr, "c_library: %s: %s\n", why, name);
    exit(2);
}

/* A place of just this size, filled with the pattern. */
static void *take(size_t size)
{
    void *place = malloc(size);
    if (place == NULL && size == 0)
        place = malloc(1);
    if (place == NULL)
        stop("want of memory", "a place");
    taken++;
    return memset(place, PATTERN, size);
}

/* Whether a place is filled with the pattern as before. */
static int is_kept(const void *place, size_t size)
{
    const uint8_t *bytes = place;
    for (size_t i = 0; i < size; i++)
        if (bytes[i] != PATTERN)
            return 0;
    return 1;
}

static const char *kept(const void *place, size_t size)
{
    return is_kept(place, size) ? "kept" : "written";
}

/* Whether there is an answer to put; where there is none, the line ends here. */
static int is_answered(uint32_t status, const void *place, size_t size)
{
    if (status != IGVM_OK)
        printf(" %s\n", kept(place, size));
    return status == IGVM_OK;
}

static struct file read_file(const char *name)
{
    struct file file = {NULL, 0};
    FILE *stream = fopen(name, "rb");
    long end = 0;
    if (stream == NULL || fseek(stream, 0, SEEK_END) != 0 || (end = ftell(stream)) < 0)
        stop("can't be read", name);
    file.size = (size_t)end;
    file.bytes = take(file.size);
    rewind(stream);
    if (fread(file.bytes, 1, file.size, stream) != file.size)
        stop("can't be read", name);
    fclose(stream);
    return file;
}

/*
 * The words for a rule in room of this size; a zero byte has to end them, and nothing else to be written. A number
 * that no rule has gives no words, and the zero byte.
 */
static void ask_text(uint32_t rule, size_t room)
{
    char *text = take(room);
    size_t size = igvm_rule_text(rule, (uint8_t *)text, room);
    printf("text %zu %" PRIu32 " %zu ", size, rule, room);
    if (size >= room)
        printf("%s\n", kept(text, room));
    else if (text[size] != '\0' || !is_kept(text + size + 1, room - size - 1))
        printf("written behind its end\n");
    else
        printf("%s\n", text);
    free(text);
}

/* In exact room, in more, in a byte less, in none. */
static void ask_texts(uint32_t rule)
{
    size_t size = igvm_rule_text(rule, (uint8_t *)"", 0);
    ask_text(rule, size + 1);
    ask_text(rule, size + 9);
    ask_text(rule, size);
    ask_text(rule, 0);
}

static void ask_check(struct file file)
{
    struct igvm_fault *fault = take(sizeof *fault);
    uint32_t status = igvm_check(file.bytes, file.size, fault);
    printf("check %" PRIu32, status);
    if (status == IGVM_RULE)
        printf(" %" PRIu64 " %" PRIu32 " %" PRIu32 "\n", fault->at, fault->rule, fault->number);
    else
        printf(" %s\n", kept(fault, sizeof *fault));
    free(fault);
}

/* Gives how many platforms there are, 0 where there is no answer. */
static uint32_t ask_count(struct file file)
{
    uint32_t *count = take(sizeof *count), status = igvm_platform_count(file.bytes, file.size, count), found = 0;
    printf("count %" PRIu32, status);
    if (is_answered(status, count, sizeof *count))
        printf(" %" PRIu32 "\n", found = *count);
    free(count);
    return found;
}

static void ask_platform(struct file file, uint32_t number)
{
    struct igvm_platform_fields *found = take(sizeof *found);
    uint32_t status = igvm_platform(file.bytes, file.size, number, found);
    printf("platform %" PRIu32 " %" PRIu32, status, number);
    if (is_answered(status, found, sizeof *found))
        printf(" %" PRIu32 " mask %08" PRIx32 " kind %" PRIu32 " vtl %" PRIu32 " version %" PRIu32 " shared %016" PRIx64
               "\n", found->number, found->mask, found->kind, found->highest_vtl, found->version, found->shared_gpa);
    free(found);
}

static void ask_first_platform(struct file file, uint32_t kind)
{
    uint32_t *number = take(sizeof *number), status = igvm_first_platform(file.bytes, file.size, kind, number);
    printf("first %" PRIu32 " %" PRIu32, status, kind);
    if (is_answered(status, number, sizeof *number))
        printf(" %" PRIu32 "\n", *number);
    free(number);
}

static void put_digest(const uint8_t *bytes, size_t size)
{
    printf(" ");
    for (size_t i = 0; i < size; i++)
        printf("%02x", bytes[i]);
    printf("\n");
}

static void ask_measure(struct file file, uint32_t platform, uint32_t options)
{
    struct igvm_digest *digest = take(sizeof *digest);
    uint32_t status = igvm_measure(file.bytes, file.size, platform, options, digest);
    printf("measure %" PRIu32 " %" PRIu32 " %" PRIu32, status, platform, options);
    if (is_answered(status, digest, sizeof *digest))
        put_digest(digest->bytes, sizeof digest->bytes);
    free(digest);
}

static void ask_sev_measure(struct file file, uint32_t platform)
{
    struct igvm_sev_digest *digest = take(sizeof *digest);
    uint32_t status = igvm_sev_measure(file.bytes, file.size, platform, digest);
    printf("sev %" PRIu32 " %" PRIu32, status, platform);
    if (is_answered(status, digest, sizeof *digest))
        put_digest(digest->bytes, sizeof digest->bytes);
    free(digest);
}

/* Gives the next header's offset, 0 where there is none. */
static uint64_t ask_header(struct file file, uint64_t at)
{
    struct igvm_header_fields *found = take(sizeof *found);
    uint32_t status = igvm_header(file.bytes, file.size, at, found);
    uint64_t next = 0;
    printf("header %" PRIu32 " %" PRIu64, status, at);
    if (is_answered(status, found, sizeof *found))
        printf(" %" PRIu32 " at %" PRIu64 " content %" PRIu64 " length %" PRIu64 " next %" PRIu64 " kind %08" PRIx32
               "\n", found->number, found->at, found->content_at, found->length, next = found->next, found->kind);
    free(found);
    return next;
}

static void ask_pages(struct file file, uint64_t at)
{
    struct igvm_pages_fields *found = take(sizeof *found);
    uint32_t status = igvm_pages(file.bytes, file.size, at, found);
    printf("pages %" PRIu32 " %" PRIu64, status, at);
    if (is_answered(status, found, sizeof *found))
        printf(" gpa %016" PRIx64 " count %" PRIu64 " from %" PRIu64 " size %" PRIu64 "\n", found->gpa, found->count,
               found->data_at, found->data_size);
    free(found);
}

static uint64_t ask_at(struct file file, uint64_t at)
{
    uint64_t next = ask_header(file, at);
    ask_pages(file, at);
    return next;
}

/* Where the fixed header says that the first header stands. */
static uint64_t section_at(struct file file)
{
    uint64_t at = 0;
    for (size_t i = 12; file.size >= 12 && i > 8; i--)
        at = at << 8 | file.bytes[i - 1];
    return at;
}

/* The walk over all headers, the first once more by its own offset, and then offsets at which none stands. */
static void ask_headers(struct file file)
{
    uint64_t beside[BESIDE], at = 0;
    size_t count = 0;
    do {
        uint64_t next = ask_at(file, at);
        if (count < BESIDE)
            beside[count++] = at + 1;
        if (next != 0 && next <= at) {
            printf("header backwards %" PRIu64 "\n", next);
            next = 0;
        }
        at = next;
    } while (at != 0);
    ask_at(file, section_at(file));
    for (size_t i = 0; i < count; i++)
        ask_at(file, beside[i]);
    ask_at(file, file.size);
    ask_at(file, (uint64_t)1 << 63);
    ask_at(file, UINT64_MAX);
}

static void ask_alike(const char *who, struct file first, uint32_t p, struct file second, uint32_t q, uint32_t options)
{
    uint32_t *alike = take(sizeof *alike);
    uint32_t status = igvm_measured_alike(first.bytes, first.size, p, second.bytes, second.size, q, options, alike);
    printf("alike %" PRIu32 " %s %" PRIu32 " %" PRIu32 " %" PRIu32, status, who, p, q, options);
    if (is_answered(status, alike, sizeof *alike))
        printf(" %" PRIu32 "\n", *alike);
    free(alike);
}

/* The first few platforms of two images, and a number past the last: each with each. */
static void ask_pair(const char *who, struct file first, uint32_t count, struct file second, uint32_t second_count)
{
    for (uint32_t p = 0; p <= count && p < PAIRED; p++)
        for (uint32_t q = 0; q <= second_count && q < PAIRED; q++)
            for (uint32_t options = 0; options < OPTIONS; options++)
                ask_alike(who, first, p, second, q, options);
}

/* Everything about one file; gives how many platforms it has. */
static uint32_t ask_file(struct file file)
{
    uint32_t count;
    ask_check(file);
    count = ask_count(file);
    for (uint32_t number = 0; number <= count; number++) {
        ask_platform(file, number);
        for (uint32_t options = 0; options < OPTIONS; options++)
            ask_measure(file, number, options);
        ask_sev_measure(file, number);
    }
    ask_platform(file, UINT32_MAX);
    ask_measure(file, 0, UINT32_MAX);
    for (uint32_t kind = 0; kind < KINDS; kind++)
        ask_first_platform(file, kind);
    ask_first_platform(file, UINT32_MAX);
    ask_headers(file);
    ask_pair("itself", file, count, file, count);
    return count;
}

/* The file that was asked about last, and how many platforms it has. */
static struct file before;
static uint32_t before_count;

static void ask_next(const char *name, struct file file, int times)
{
    uint32_t count = 0;
    printf("file %s\n", name);
    for (int i = 0; i < times; i++) {
        count = ask_file(file);
        ask_pair("forth", before, before_count, file, count);
        ask_pair("back", file, count, before, before_count);
    }
    free(before.bytes);
    before = file;
    before_count = count;
}

static void ask_list(const char *list, int times)
{
    struct file names = read_file(list);
    char *name = (char *)names.bytes;
    for (size_t i = 0; i < names.size; i++)
        if (names.bytes[i] == '\n') {
            names.bytes[i] = '\0';
            ask_next(name, read_file(name), times);
            name = (char *)names.bytes + i + 1;
        }
    free(names.bytes);
}

static void ask_zeros(const char *text)
{
    size_t size = (size_t)strtoull(text, NULL, 10);
    struct file file = {calloc(size, 1), size};
    if (file.bytes == NULL)
        stop("want of memory", text);
    ask_next(text, file, 1);
}

/* What a thread measures, turn by turn, what one thread alone had, and how often it was otherwise. */
struct job {
    struct file files[2];
    struct igvm_digest digests[2];
    unsigned long runs, unlike;
};

static void *measure_often(void *given)
{
    struct job *job = given;
    for (int round = 0; round < ROUNDS; round++)
        for (int i = 0; i < 2; i++) {
            struct igvm_digest digest = {{0}};
            uint32_t status = igvm_measure(job->files[i].bytes, job->files[i].size, 0, IGVM_PLAIN, &digest);
            job->runs++;
            if (status != IGVM_OK || memcmp(&digest, &job->digests[i], sizeof digest) != 0)
                job->unlike++;
        }
    return NULL;
}

/* One thread goes from a file to the other, the other thread the other way round. */
static void measure_at_once(const char *who, struct file one, struct file other)
{
    struct job jobs[2];
    pthread_t threads[2];
    memset(jobs, 0, sizeof jobs);
    jobs[0].files[0] = jobs[1].files[1] = one;
    jobs[0].files[1] = jobs[1].files[0] = other;
    for (int i = 0; i < 4; i++)
        if (igvm_measure(jobs[i / 2].files[i % 2].bytes, jobs[i / 2].files[i % 2].size, 0, IGVM_PLAIN,
                         &jobs[i / 2].digests[i % 2]) != IGVM_OK)
            stop("isn't measured", who);
    for (int i = 0; i < 2; i++)
        if (pthread_create(&threads[i], NULL, measure_often, &jobs[i]) != 0)
            stop("there is no second thread", who);
    for (int i = 0; i < 2; i++)
        pthread_join(threads[i], NULL);
    printf("threads %s %lu runs %lu unlike\n", who, jobs[0].runs + jobs[1].runs, jobs[0].unlike + jobs[1].unlike);
    for (int i = 0; i < 2; i++) {
        printf("digest");
        put_digest(jobs[0].digests[i].bytes, sizeof jobs[0].digests[i].bytes);
    }
}

static void ask_threads(const char *first, const char *second)
{
    struct file one = read_file(first), other = read_file(second);
    measure_at_once("one file", one, one);
    measure_at_once("two files", one, other);
    free(one.bytes);
    free(other.bytes);
}

int main(int count, char **words)
{
    before.bytes = take(0);
    if (count == 4 && strcmp(words[1], "--threads") == 0) {
        ask_threads(words[2], words[3]);
    } else if (count >= 3 && strcmp(words[1], "--zeros") == 0) {
        ask_next(words[2], read_file(words[2]), 1);
        for (int i = 3; i < count; i++)
            ask_zeros(words[i]);
    } else if (count == 2 || (count == 3 && strcmp(words[1], "--twice") == 0)) {
        for (uint32_t rule = 0; rule <= RULES + 2; rule++)
            ask_texts(rule);
        ask_texts(UINT32_MAX);
        ask_list(words[count - 1], count - 1);
    } else {
        stop("usage", "c_library [--twice] LIST | --zeros FILE SIZE.. | --threads FILE FILE");
    }
    free(before.bytes);
    printf("taken %lu\n", taken);
    return fflush(stdout) == 0 ? 0 : 2;
}
