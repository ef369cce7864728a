/*
 * IGVM files read and measured by proved code: out/libigvm.a, which ./libigvm builds.
 *
 * Each call takes a whole file as a pointer and a length, and judges it itself. It takes no memory, keeps no
 * state, reads nothing else and writes nothing but what it is given to write; so any number of threads may call at
 * once. All but `igvm_rule_text` answer a status: IGVM_OK, or why there is no answer. Where there is none, what a call
 * was given to write is as it was; `igvm_check` alone writes the fault of a file that it refuses.
 *
 * What the caller owes: `file` points to `file_size` bytes that may be read and that nobody changes during the call;
 * it isn't null, even for 0 bytes. Each other pointer points to a whole value of its type, aligned, which is nothing
 * else's. Nothing else is asked of an argument.
 *
 * Numbers are in the machine's order. File offsets and sizes are in bytes.
 */
#ifndef IGVM_H
#define IGVM_H

#include <stddef.h>
#include <stdint.h>

#ifdef __cplusplus
extern "C" {
#endif

/* The answer of each call. */
enum igvm_status {
    IGVM_OK = 0,
    IGVM_RULE = 1,        /* the file breaks a rule of docs/FORMAT.md: igvm_check says which */
    IGVM_TOO_LONG = 2,    /* the file has more than 536,870,912 bytes */
    IGVM_NO_PLATFORM = 3, /* the image has no such platform */
    IGVM_NO_DIGEST = 4,   /* platforms of this kind have no such digest */
    IGVM_OTHER_KIND = 5,  /* the two platforms are of two kinds */
    IGVM_NO_HEADER = 6,   /* no header begins at this file offset */
    IGVM_NO_PAGES = 7,    /* the header places no pages */
    IGVM_UNKNOWN = 8      /* an argument's value stands for nothing: a kind, or a bit of the options */
};

/* The kinds of platforms. */
enum igvm_kind {
    IGVM_NATIVE = 0,
    IGVM_VSM = 1,
    IGVM_SEV_SNP = 2,
    IGVM_TDX = 3,
    IGVM_SEV = 4,
    IGVM_SEV_ES = 5
};

/* Options of a measurement, added up. */
enum igvm_options {
    IGVM_PLAIN = 0,
    IGVM_NATIVE_ZERO = 1 /* the launch puts SEV-SNP pages of zeros as ZERO pages */
};

/* The rules that a file can break, by their names in docs/FORMAT.md. igvm_rule_text has their words. */
enum igvm_rule {
    IGVM_RULE_TOO_SHORT = 1,
    IGVM_RULE_MAGIC,
    IGVM_RULE_VERSION,
    IGVM_RULE_AARCH64,
    IGVM_RULE_ARCHITECTURE,
    IGVM_RULE_PAGE_SIZE,
    IGVM_RULE_TOTAL_SIZE,
    IGVM_RULE_SECTION,
    IGVM_RULE_CHECKSUM,
    IGVM_RULE_HEADER_CUT,
    IGVM_RULE_UNKNOWN_TYPE,
    IGVM_RULE_LENGTH,
    IGVM_RULE_FLAGS,
    IGVM_RULE_DATA_TYPE,
    IGVM_RULE_PLATFORM_TYPE,
    IGVM_RULE_ORDER,
    IGVM_RULE_MASK,
    IGVM_RULE_ALIGN,
    IGVM_RULE_AREA_LIMIT,
    IGVM_RULE_AREA_REPEATED,
    IGVM_RULE_AREA_UNKNOWN,
    IGVM_RULE_AREA_SIZE,
    IGVM_RULE_WRAP,
    IGVM_RULE_DATA_OUTSIDE,
    IGVM_RULE_TOO_MANY_PAGES,
    IGVM_RULE_NO_PLATFORM
};

/* The first rule that a file breaks. */
struct igvm_fault {
    uint64_t at;     /* the file offset where it does */
    uint32_t rule;   /* enum igvm_rule */
    uint32_t number; /* the type that is unknown, or the flag's bit; 0 for all other rules */
};

/* A platform header. */
struct igvm_platform_fields {
    uint64_t shared_gpa;  /* the guest physical address from which memory is shared with the host */
    uint32_t number;      /* its place among the platforms, from 0 */
    uint32_t mask;        /* its compatibility mask: one bit */
    uint32_t kind;        /* enum igvm_kind */
    uint32_t version;     /* the platform's version */
    uint32_t highest_vtl; /* the highest virtual trust level of the guest */
};

/* A launch digest of SEV-SNP or TDX. */
struct igvm_digest {
    uint8_t bytes[48];
};

/* A launch digest of SEV or SEV-ES. */
struct igvm_sev_digest {
    uint8_t bytes[32];
};

/* Where a header stands in the file. */
struct igvm_header_fields {
    uint64_t at;         /* its first byte */
    uint64_t content_at; /* its content, behind its type and its length */
    uint64_t length;     /* how many bytes its content has */
    uint64_t next;       /* the next header's first byte, or 0 where this is the last */
    uint32_t number;     /* its place among the headers, from 0 */
    uint32_t kind;       /* its type: 0x302 for a page, and so on (docs/FORMAT.md) */
};

/* Pages of 4,096 bytes that a header places in the guest, in a row in the guest and in the file. */
struct igvm_pages_fields {
    uint64_t gpa;       /* the guest physical address of the first */
    uint64_t count;     /* how many there are */
    uint64_t data_at;   /* where their bytes stand in the file, or 0 where it has none of them */
    uint64_t data_size; /* how many of their bytes the file has; zeros follow these */
};

/*
 * Whether a file breaks no rule: IGVM_OK, IGVM_RULE with the first rule that it breaks in `fault`, or IGVM_TOO_LONG.
 */
uint32_t igvm_check(const uint8_t *file, size_t file_size, struct igvm_fault *fault);

/*
 * Writes the words for a rule and a zero byte into `text`, where both have room, and nothing where they don't (32
 * bytes are enough for each). It answers how many bytes the words have. A number that no rule has gives no words: the
 * zero byte alone, and 0. "unknown type " is to be followed by the fault's number in eight hexadecimal digits, "flag
 * bit " by it in decimal ones.
 */
size_t igvm_rule_text(uint32_t rule, uint8_t *text, size_t text_size);

/* How many platforms an image has, from 1 to 32. IGVM_RULE, IGVM_TOO_LONG. */
uint32_t igvm_platform_count(const uint8_t *file, size_t file_size, uint32_t *count);

/* The platform of a number, from 0. IGVM_RULE, IGVM_TOO_LONG, IGVM_NO_PLATFORM. */
uint32_t igvm_platform(const uint8_t *file, size_t file_size, uint32_t number, struct igvm_platform_fields *platform);

/* The number of the first platform of a kind. IGVM_UNKNOWN first, IGVM_RULE, IGVM_TOO_LONG, IGVM_NO_PLATFORM. */
uint32_t igvm_first_platform(const uint8_t *file, size_t file_size, uint32_t kind, uint32_t *number);

/*
 * The launch digest of an image for its platform of a number: the LD of SEV-SNP, the MRTD of TDX. IGVM_UNKNOWN first,
 * IGVM_RULE, IGVM_TOO_LONG, IGVM_NO_PLATFORM, IGVM_NO_DIGEST.
 */
uint32_t igvm_measure(const uint8_t *file, size_t file_size, uint32_t platform, uint32_t options,
                      struct igvm_digest *digest);

/* The same for a platform of SEV or SEV-ES. IGVM_RULE, IGVM_TOO_LONG, IGVM_NO_PLATFORM, IGVM_NO_DIGEST. */
uint32_t igvm_sev_measure(const uint8_t *file, size_t file_size, uint32_t platform, struct igvm_sev_digest *digest);

/*
 * Whether two images have the same measured pages for a platform of each, both SEV-SNP or both TDX: 1 or 0 in `alike`.
 * Where they have, their launch digests are one. IGVM_UNKNOWN first, then why the first image has no such platform,
 * then why the second has none, IGVM_OTHER_KIND, IGVM_NO_DIGEST.
 */
uint32_t igvm_measured_alike(const uint8_t *first, size_t first_size, uint32_t first_platform,
                             const uint8_t *second, size_t second_size, uint32_t second_platform,
                             uint32_t options, uint32_t *alike);

/*
 * The header whose first byte is at a file offset, and the first header for 0. A host that begins with 0 and goes on
 * with `next` until that is 0 sees each header once, in file order. IGVM_RULE, IGVM_TOO_LONG, IGVM_NO_HEADER.
 */
uint32_t igvm_header(const uint8_t *file, size_t file_size, uint64_t at, struct igvm_header_fields *header);

/*
 * The pages that the header at a file offset places, and the first header's for 0: those of a page header and of a
 * VMSA context with their bytes, those of a parameter insert with none, since they are its area's. IGVM_RULE,
 * IGVM_TOO_LONG, IGVM_NO_HEADER, IGVM_NO_PAGES.
 */
uint32_t igvm_pages(const uint8_t *file, size_t file_size, uint64_t at, struct igvm_pages_fields *pages);

#ifdef __cplusplus
}
#endif

#endif
