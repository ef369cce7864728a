/* Prints the launch digest of an image's first SEV-SNP platform, as `./igvm measure FILE --platform snp` does. */
#include <igvm.h>
#include <stdio.h>
#include <stdlib.h>

static int fail(int status, const char *text)
{
    fprintf(stderr, "igvm: %s\n", text);
    return status;
}

/* Puts a file's bytes into memory; of one that is too long, more of them than an image may have. */
static int read_file(const char *name, uint8_t **bytes, size_t *size)
{
    FILE *file = fopen(name, "rb");
    size_t room = 0, got = 1;
    for (*size = 0; file != NULL && got > 0 && *size <= 536870912; *size += got) {
        uint8_t *more = *size == room ? realloc(*bytes, room = 2 * room + 65536) : *bytes;
        if (more == NULL)
            return fail(5, "want of memory");
        *bytes = more;
        got = fread(more + *size, 1, room - *size, file);
    }
    return file == NULL || ferror(file) || fclose(file) != 0 ? fail(4, "outside fault: shelf") : 0;
}

static int refuse(const uint8_t *file, size_t size)
{
    struct igvm_fault fault = {0, 0, 0};
    char text[32] = "", number[16] = "";
    igvm_check(file, size, &fault);
    igvm_rule_text(fault.rule, (uint8_t *)text, sizeof text);
    if (fault.rule == IGVM_RULE_UNKNOWN_TYPE)
        snprintf(number, sizeof number, "%08x", (unsigned)fault.number);
    if (fault.rule == IGVM_RULE_FLAGS)
        snprintf(number, sizeof number, "%u", (unsigned)fault.number);
    fprintf(stderr, "igvm: file refused at %llu: %s%s\n", (unsigned long long)fault.at, text, number);
    return 1;
}

int main(int count, char **words)
{
    struct igvm_digest digest = {{0}};
    uint32_t platform = 0, status;
    uint8_t *file = NULL;
    size_t size = 0;
    int failed = count == 2 ? read_file(words[1], &file, &size) : fail(2, "usage: measure FILE");
    if (failed)
        return failed;
    if ((status = igvm_first_platform(file, size, IGVM_SEV_SNP, &platform)) == IGVM_OK)
        status = igvm_measure(file, size, platform, IGVM_PLAIN, &digest);
    if (status == IGVM_RULE)
        return refuse(file, size);
    if (status != IGVM_OK)
        return status == IGVM_TOO_LONG ? fail(8, "limit: file") : fail(6, "no platform snp");
    for (size_t i = 0; i < sizeof digest.bytes; i++)
        printf("%02x", digest.bytes[i]);
    return putchar('\n') == EOF || fflush(stdout) != 0 ? fail(4, "outside fault: output") : 0;
}
