/* Says whether a binary WebAssembly module is valid: what it declares, each function's body and each constant
 * expression. It also checks a function operator by operator, and shows what lies on its stacks in between.
 * docs/EMBEDDING.md is the page to read first.
 *
 *     struct tansyattic_module module = TANSYATTIC_NONE;
 *     struct tansyattic_verdict verdict;
 *     uint8_t text[200];
 *     tansyattic_load(bytes, length, TANSYATTIC_FEATURES_DEFAULT, &module, text, sizeof text, &verdict);
 *     if (verdict.status == TANSYATTIC_VALID)
 *         tansyattic_validate_function(&module, 7, text, sizeof text, &verdict);
 *     tansyattic_free(&module);
 *
 * A body that is being written, for a module that has no bodies yet:
 *
 *     struct tansyattic_function function = TANSYATTIC_NONE;
 *     size_t taken;
 *     tansyattic_declare(bytes, length, TANSYATTIC_FEATURES_DEFAULT, &module, text, sizeof text, &verdict);
 *     tansyattic_begin(&module, 3, &function, text, sizeof text, &verdict);
 *     if (tansyattic_try_op(&function, op, size, offset, &taken, text, sizeof text, &verdict) == TANSYATTIC_VALID)
 *         ..append the operator, which has `taken` bytes, to the body
 *     tansyattic_free_function(&function);
 *
 * What is proved of the library holds if the caller keeps to these conditions, which nothing tests:
 * - `bytes` points at `length` bytes, which nothing writes during the call; those of a module that is loaded stay,
 *   unwritten, until it is freed;
 * - `text` points at `text_length` bytes, and `out` at one verdict: writable, apart from each other and from `bytes`,
 *   and used by nothing else during the call; what stands in them before doesn't matter. The same holds of whatever
 *   else a call writes through a pointer (`taken`, `first`, `behind`, a type, a frame). None of these pointers is
 *   null; `bytes` and `text` may be null if their length is 0;
 * - a `struct tansyattic_module` and a `struct tansyattic_function` begin as TANSYATTIC_NONE, and the library alone
 *   reads and changes them from then on; they may be moved, but aren't copied;
 * - the three functions at the end mean what is said of them (memory.c has them over malloc, realloc and free);
 * - no call is made from a signal handler, or from the forked child of a process with threads.
 *
 * Threads: a `struct tansyattic_module` is a handle. One call at a time uses it, from any thread; the same holds of a
 * `struct tansyattic_function`. tansyattic_share makes another handle of the same module, for another thread. Nothing
 * changes the module, and it is freed with its last handle and the last function that was begun over it. Calls share
 * nothing else, so several threads may make calls at once if the three functions for memory allow it, as those of
 * memory.c do.
 *
 * A call returns on all bytes, and gives back all memory that it took, except what a module or a function keeps. None
 * stops the program or unwinds. That nothing goes wrong inside is proved, and not tested as it runs: if a condition
 * above is broken, or the toolchain has a bug, what a call does is undefined. The archive is built for Linux on
 * x86-64-v2, as position independent code; it has no state of its own, and calls memcpy, memmove and memset.
 */
#ifndef TANSYATTIC_H
#define TANSYATTIC_H
#include <stdbool.h>
#include <stddef.h>
#include <stdint.h>
#ifdef __cplusplus
extern "C" {
#endif

/* The version of this header. That of the library is tansyattic_version(). */
#define TANSYATTIC_VERSION_MAJOR 0
#define TANSYATTIC_VERSION_MINOR 2
#define TANSYATTIC_VERSION_PATCH 0
#define TANSYATTIC_VERSION \
    (TANSYATTIC_VERSION_MAJOR * 65536 + TANSYATTIC_VERSION_MINOR * 256 + TANSYATTIC_VERSION_PATCH)

enum tansyattic_status {
    TANSYATTIC_VALID = 0,         /* the module is valid; of one body: it is, and so is what the module declares; of an
                                   * operator: it is accepted */
    TANSYATTIC_INVALID = 1,       /* what the module declares isn't valid, or a body, a constant expression or the
                                   * operator isn't */
    TANSYATTIC_MALFORMED = 2,     /* the bytes aren't those of a module, or begin with no operator */
    TANSYATTIC_OUT_OF_MEMORY = 3, /* memory ran out: nothing is known */
    TANSYATTIC_NOT_COVERED = 4,   /* nothing is refused, but there is a vector operator: those aren't covered */
    TANSYATTIC_NO_BODY = 5,       /* the module has no body for the function: it is imported, isn't there, or was
                                   * declared without bodies */
    TANSYATTIC_NOT_LOADED = 6,    /* there is no module, or no function */
    TANSYATTIC_TOO_LARGE = 7      /* what the module declares is past a limit of this library: it may be valid */
};

enum tansyattic_kind {
    TANSYATTIC_FUNCTION = 0,       /* the body of a function */
    TANSYATTIC_TABLE = 1,          /* the constant expression of a table */
    TANSYATTIC_GLOBAL = 2,         /* that of a global */
    TANSYATTIC_ELEMENT_OFFSET = 3, /* that of the offset of an element segment */
    TANSYATTIC_ELEMENT = 4,        /* that of an item of one */
    TANSYATTIC_DATA_OFFSET = 5,    /* that of the offset of a data segment */
    TANSYATTIC_MODULE = 6          /* the module as a whole; also of a call on a function */
};

/* Why an operator is refused: a number for each reason, beside the text. Within a major version, numbers are only
 * added. It is NONE if no rule of an operator refused, but the bytes, a declaration or a look-up did, or memory ran
 * out. */
enum tansyattic_reason {
    TANSYATTIC_REASON_NONE = 0,
    TANSYATTIC_REASON_OUT_OF_MEMORY = 1,
    TANSYATTIC_REASON_CLOSED = 2,
    TANSYATTIC_REASON_ACQUIRE_RELEASE_OFF = 3,
    TANSYATTIC_REASON_MULTIBYTE_ARRAYS_OFF = 4,
    TANSYATTIC_REASON_REFERENCE_OFF = 5,
    TANSYATTIC_REASON_MULTI_VALUE_OFF = 6,
    TANSYATTIC_REASON_NOTHING_FOUND = 7,
    TANSYATTIC_REASON_MISMATCH = 8,
    TANSYATTIC_REASON_NO_REFERENCE = 9,
    TANSYATTIC_REASON_NO_DECLARED_REFERENCE = 10,
    TANSYATTIC_REASON_NO_CONTINUATION_REFERENCE = 11,
    TANSYATTIC_REASON_NOT_BELOW = 12,
    TANSYATTIC_REASON_OTHER_SHAREDNESS = 13,
    TANSYATTIC_REASON_OPERANDS_LEFT = 14,
    TANSYATTIC_REASON_SELECT_OF_REFERENCES = 15,
    TANSYATTIC_REASON_SELECT_OF_TWO_TYPES = 16,
    TANSYATTIC_REASON_SELECT_ARITY = 17,
    TANSYATTIC_REASON_UNKNOWN_LOCAL = 18,
    TANSYATTIC_REASON_UNINITIALIZED_LOCAL = 19,
    TANSYATTIC_REASON_UNKNOWN_LABEL = 20,
    TANSYATTIC_REASON_UNKNOWN_TYPE = 21,
    TANSYATTIC_REASON_UNKNOWN_FUNCTION = 22,
    TANSYATTIC_REASON_UNKNOWN_GLOBAL = 23,
    TANSYATTIC_REASON_UNKNOWN_TABLE = 24,
    TANSYATTIC_REASON_UNKNOWN_MEMORY = 25,
    TANSYATTIC_REASON_UNKNOWN_TAG = 26,
    TANSYATTIC_REASON_UNKNOWN_ELEMENTS = 27,
    TANSYATTIC_REASON_UNKNOWN_DATA = 28,
    TANSYATTIC_REASON_NO_DATA_COUNT = 29,
    TANSYATTIC_REASON_UNKNOWN_FIELD = 30,
    TANSYATTIC_REASON_TYPE_INDEX_TOO_LARGE = 31,
    TANSYATTIC_REASON_NO_FUNCTION_TYPE = 32,
    TANSYATTIC_REASON_NO_STRUCT_TYPE = 33,
    TANSYATTIC_REASON_NO_ARRAY_TYPE = 34,
    TANSYATTIC_REASON_NO_CONTINUATION_TYPE = 35,
    TANSYATTIC_REASON_NO_CONTINUATION = 36,
    TANSYATTIC_REASON_NO_DESCRIPTOR = 37,
    TANSYATTIC_REASON_TARGET_WITHOUT_DESCRIPTOR = 38,
    TANSYATTIC_REASON_WANTS_DESCRIPTOR = 39,
    TANSYATTIC_REASON_NOT_DESCRIBED = 40,
    TANSYATTIC_REASON_UNEXPECTED_HEAP_TYPE = 41,
    TANSYATTIC_REASON_TAG_WITH_RESULTS = 42,
    TANSYATTIC_REASON_UNDECLARED_FUNCTION = 43,
    TANSYATTIC_REASON_UNSHARED_FUNCTION = 44,
    TANSYATTIC_REASON_UNSHARED_GLOBAL = 45,
    TANSYATTIC_REASON_UNSHARED_TABLE = 46,
    TANSYATTIC_REASON_UNSHARED_STRUCT = 47,
    TANSYATTIC_REASON_UNSHARED_ARRAY = 48,
    TANSYATTIC_REASON_UNSHARED_CONTINUATION = 49,
    TANSYATTIC_REASON_IMMUTABLE_GLOBAL = 50,
    TANSYATTIC_REASON_IMMUTABLE_FIELD = 51,
    TANSYATTIC_REASON_IMMUTABLE_ARRAY = 52,
    TANSYATTIC_REASON_FIELD_PACKING = 53,
    TANSYATTIC_REASON_ARRAY_PACKING = 54,
    TANSYATTIC_REASON_NOT_DEFAULTABLE = 55,
    TANSYATTIC_REASON_NOT_ALLOWED = 56,
    TANSYATTIC_REASON_ALIGNED_MORE = 57,
    TANSYATTIC_REASON_ALIGNED_LESS = 58,
    TANSYATTIC_REASON_ATOMIC_ARRAY = 59,
    TANSYATTIC_REASON_OFFSET_BEYOND = 60,
    TANSYATTIC_REASON_NO_BYTES = 61,
    TANSYATTIC_REASON_NO_NEW_DATA = 62,
    TANSYATTIC_REASON_NO_INIT_DATA = 63,
    TANSYATTIC_REASON_NO_REFERENCES = 64,
    TANSYATTIC_REASON_OTHER_ELEMENTS = 65,
    TANSYATTIC_REASON_OTHER_STORAGE = 66,
    TANSYATTIC_REASON_OTHER_TABLE = 67,
    TANSYATTIC_REASON_NO_FUNCTION_TABLE = 68,
    TANSYATTIC_REASON_CAST_TO_CONTINUATION = 69,
    TANSYATTIC_REASON_OTHER_HIERARCHY = 70,
    TANSYATTIC_REASON_CAST_NOT_BELOW = 71,
    TANSYATTIC_REASON_CAST_LABEL_EMPTY = 72,
    TANSYATTIC_REASON_CAST_FAIL_LABEL_EMPTY = 73,
    TANSYATTIC_REASON_CAST_LABEL = 74,
    TANSYATTIC_REASON_CAST_FAIL_LABEL = 75,
    TANSYATTIC_REASON_NOT_EXACT = 76,
    TANSYATTIC_REASON_ELSE_OUTSIDE_IF = 77,
    TANSYATTIC_REASON_CATCH_OUTSIDE_TRY = 78,
    TANSYATTIC_REASON_CATCH_ALL_OUTSIDE_TRY = 79,
    TANSYATTIC_REASON_DELEGATE_OUTSIDE_TRY = 80,
    TANSYATTIC_REASON_RETHROW_OUTSIDE_CATCH = 81,
    TANSYATTIC_REASON_TABLE_ARITY = 82,
    TANSYATTIC_REASON_TABLE_END = 83,
    TANSYATTIC_REASON_NON_NULL_LABEL_EMPTY = 84,
    TANSYATTIC_REASON_NON_NULL_LABEL = 85,
    TANSYATTIC_REASON_OTHER_RESULTS = 86,
    TANSYATTIC_REASON_CLAUSE_ARITY = 87,
    TANSYATTIC_REASON_CLAUSE_TYPE = 88,
    TANSYATTIC_REASON_CLAUSE_REFERENCE = 89,
    TANSYATTIC_REASON_OTHER_ARGUMENTS = 90,
    TANSYATTIC_REASON_OTHER_CONTINUATIONS = 91,
    TANSYATTIC_REASON_OTHER_CONTINUATION = 92,
    TANSYATTIC_REASON_TAG_WITH_PARAMETERS = 93,
    TANSYATTIC_REASON_WANTS_CONTINUATION = 94,
    TANSYATTIC_REASON_LABEL_WITHOUT_CONTINUATION = 95,
    TANSYATTIC_REASON_OTHER_TAG = 96,
    TANSYATTIC_REASON_OTHER_SWITCH_TAG = 97
};

/* A set of proposals: those that are on. All other bits are ignored. BULK_MEMORY also lets in what BULK_MEMORY_OPT
 * does, memory.copy and memory.fill. */
#define TANSYATTIC_FEATURE_MULTI_VALUE               (UINT32_C(1) << 0)
#define TANSYATTIC_FEATURE_FLOATS                    (UINT32_C(1) << 1)
#define TANSYATTIC_FEATURE_SIMD                      (UINT32_C(1) << 2)
#define TANSYATTIC_FEATURE_REFERENCE_TYPES           (UINT32_C(1) << 3)
#define TANSYATTIC_FEATURE_BULK_MEMORY               (UINT32_C(1) << 4)
#define TANSYATTIC_FEATURE_BULK_MEMORY_OPT           (UINT32_C(1) << 5)
#define TANSYATTIC_FEATURE_SIGN_EXTENSION            (UINT32_C(1) << 6)
#define TANSYATTIC_FEATURE_SATURATING_FLOAT_TO_INT   (UINT32_C(1) << 7)
#define TANSYATTIC_FEATURE_THREADS                   (UINT32_C(1) << 8)
#define TANSYATTIC_FEATURE_SHARED_EVERYTHING_THREADS (UINT32_C(1) << 9)
#define TANSYATTIC_FEATURE_EXCEPTIONS                (UINT32_C(1) << 10)
#define TANSYATTIC_FEATURE_LEGACY_EXCEPTIONS         (UINT32_C(1) << 11)
#define TANSYATTIC_FEATURE_TAIL_CALL                 (UINT32_C(1) << 12)
#define TANSYATTIC_FEATURE_FUNCTION_REFERENCES       (UINT32_C(1) << 13)
#define TANSYATTIC_FEATURE_GC                        (UINT32_C(1) << 14)
#define TANSYATTIC_FEATURE_CUSTOM_DESCRIPTORS        (UINT32_C(1) << 15)
#define TANSYATTIC_FEATURE_STACK_SWITCHING           (UINT32_C(1) << 16)
#define TANSYATTIC_FEATURE_MEMORY_CONTROL            (UINT32_C(1) << 17)
#define TANSYATTIC_FEATURE_WIDE_ARITHMETIC           (UINT32_C(1) << 18)
#define TANSYATTIC_FEATURE_ACQUIRE_RELEASE_ATOMICS   (UINT32_C(1) << 19)
#define TANSYATTIC_FEATURE_MULTIBYTE_ARRAY_ACCESS    (UINT32_C(1) << 20)
#define TANSYATTIC_FEATURE_MUTABLE_GLOBAL            (UINT32_C(1) << 21)
#define TANSYATTIC_FEATURE_MEMORY64                  (UINT32_C(1) << 22)
#define TANSYATTIC_FEATURE_MULTI_MEMORY              (UINT32_C(1) << 23)
#define TANSYATTIC_FEATURE_EXTENDED_CONST            (UINT32_C(1) << 24)
#define TANSYATTIC_FEATURE_CUSTOM_PAGE_SIZES         (UINT32_C(1) << 25)
#define TANSYATTIC_FEATURES_ALL ((UINT32_C(1) << 26) - 1)
/* What upstream has on by default: the proposals of the standard's version 3.0, and threads. */
#define TANSYATTIC_FEATURES_DEFAULT \
    (TANSYATTIC_FEATURE_MULTI_VALUE | TANSYATTIC_FEATURE_FLOATS | TANSYATTIC_FEATURE_SIMD | \
     TANSYATTIC_FEATURE_REFERENCE_TYPES | TANSYATTIC_FEATURE_BULK_MEMORY | TANSYATTIC_FEATURE_BULK_MEMORY_OPT | \
     TANSYATTIC_FEATURE_SIGN_EXTENSION | TANSYATTIC_FEATURE_SATURATING_FLOAT_TO_INT | \
     TANSYATTIC_FEATURE_THREADS | TANSYATTIC_FEATURE_EXCEPTIONS | TANSYATTIC_FEATURE_TAIL_CALL | \
     TANSYATTIC_FEATURE_FUNCTION_REFERENCES | TANSYATTIC_FEATURE_GC | TANSYATTIC_FEATURE_MUTABLE_GLOBAL | \
     TANSYATTIC_FEATURE_MEMORY64 | TANSYATTIC_FEATURE_MULTI_MEMORY | TANSYATTIC_FEATURE_EXTENDED_CONST)

/* The answer of a check. It reports one thing that isn't accepted, the gravest one, and of equally grave ones the
 * first. The gravest is out of memory; then come malformed, invalid and not covered. For a valid module it reports
 * nothing. */
struct tansyattic_verdict {
    uint32_t status;              /* a tansyattic_status */
    uint32_t kind;                /* what is reported: a tansyattic_kind */
    uint32_t reason;              /* why, if the rule of an operator refuses it: a tansyattic_reason */
    uint64_t index;               /* the index of the function, table, global or segment */
    uint64_t offset;              /* where, from the first byte of the module; of a call on a function, see there */
    size_t text_length;           /* how many bytes of the text were written */
    size_t text_needed;           /* how many bytes the whole text has */
    uint64_t accepted;            /* how many bodies and constant expressions are accepted */
    uint64_t refused;             /* how many are refused; what the module declares counts as one */
    uint64_t not_covered;         /* how many aren't covered */
};

/* A module that was read, or none. */
struct tansyattic_module {
    void *at; /* the library's own: null for none */
};

/* A function, or a constant expression, that is being validated operator by operator, or none. It keeps the module over
 * which it was begun. */
struct tansyattic_function {
    void *at; /* the library's own: null for none */
};
#define TANSYATTIC_NONE {NULL}

/* A value type. An abstract heap type is named by its byte in the binary format. */
enum tansyattic_type_code {
    TANSYATTIC_TYPE_UNKNOWN = 0,    /* of an operand in dead code: its type isn't known */
    TANSYATTIC_TYPE_INDEX = 1,      /* a reference to the declared type at `index` */
    TANSYATTIC_TYPE_CONT = 0x68,    /* a reference to any continuation, and so on down to NOCONT */
    TANSYATTIC_TYPE_EXN = 0x69,
    TANSYATTIC_TYPE_ARRAY = 0x6a,
    TANSYATTIC_TYPE_STRUCT = 0x6b,
    TANSYATTIC_TYPE_I31 = 0x6c,
    TANSYATTIC_TYPE_EQ = 0x6d,
    TANSYATTIC_TYPE_ANY = 0x6e,
    TANSYATTIC_TYPE_EXTERN = 0x6f,
    TANSYATTIC_TYPE_FUNC = 0x70,
    TANSYATTIC_TYPE_NONE = 0x71,
    TANSYATTIC_TYPE_NOEXTERN = 0x72,
    TANSYATTIC_TYPE_NOFUNC = 0x73,
    TANSYATTIC_TYPE_NOEXN = 0x74,
    TANSYATTIC_TYPE_NOCONT = 0x75,
    TANSYATTIC_TYPE_V128 = 0x7b,
    TANSYATTIC_TYPE_F64 = 0x7c,
    TANSYATTIC_TYPE_F32 = 0x7d,
    TANSYATTIC_TYPE_I64 = 0x7e,
    TANSYATTIC_TYPE_I32 = 0x7f
};

struct tansyattic_type {
    uint32_t code;    /* a tansyattic_type_code */
    uint32_t index;   /* with INDEX: which type. Of equal types the library shows the first */
    /* The next three are 0 or 1. Any value but 0 is read as 1. One that means nothing for this type isn't read, and is
     * shown as 0. */
    uint8_t nullable; /* of a reference: whether null is one of its values */
    uint8_t shared;   /* of a reference to an abstract type: whether it is to the shared copy */
    uint8_t exact;    /* with INDEX: whether the types declared below that one are left out */
    uint8_t reserved; /* isn't read, and is shown as 0 */
};

/* What opened a frame, or which part of it is open. */
enum tansyattic_frame_kind {
    TANSYATTIC_FRAME_BLOCK = 0, /* `block`, and the function itself */
    TANSYATTIC_FRAME_IF = 1,
    TANSYATTIC_FRAME_ELSE = 2,
    TANSYATTIC_FRAME_LOOP = 3,
    TANSYATTIC_FRAME_TRY_TABLE = 4,
    TANSYATTIC_FRAME_LEGACY_TRY = 5,
    TANSYATTIC_FRAME_LEGACY_CATCH = 6,
    TANSYATTIC_FRAME_LEGACY_CATCH_ALL = 7
};

enum tansyattic_block_kind {
    TANSYATTIC_BLOCK_EMPTY = 0,   /* it takes and gives nothing */
    TANSYATTIC_BLOCK_VALUE = 1,   /* it gives a value of `block_type` */
    TANSYATTIC_BLOCK_FUNCTION = 2 /* it takes and gives what the function type at `block_index` does */
};

struct tansyattic_frame {
    uint64_t height;                   /* how many operands lie below its own */
    uint32_t kind;                     /* a tansyattic_frame_kind */
    uint32_t block_kind;               /* a tansyattic_block_kind */
    uint32_t block_index;              /* 0 where it isn't of BLOCK_FUNCTION */
    uint32_t unreachable;              /* 1 where its code is dead from here on, else 0 */
    struct tansyattic_type block_type; /* all 0 where it isn't of BLOCK_VALUE */
};

/* Each call below that takes a `text` writes there the text of what is reported: UTF-8, without a zero at the end, and
 * cut if there isn't enough room. Most texts have at most 100 bytes. The call returns the status of the verdict. */

/* Checks a module: what it declares, each body and each constant expression. */
static inline uint32_t tansyattic_validate(const uint8_t *bytes, size_t length, uint32_t features, uint8_t *text,
                                           size_t text_length, struct tansyattic_verdict *out);

/* Reads the sections of a module, and checks what it declares. If the status is TANSYATTIC_VALID, `module` is then that
 * module, and the one that it was before is freed. Otherwise it stays as it was. */
static inline uint32_t tansyattic_load(const uint8_t *bytes, size_t length, uint32_t features,
                                       struct tansyattic_module *module, uint8_t *text, size_t text_length,
                                       struct tansyattic_verdict *out);

/* The same for a module that has no bodies yet: its bytes end before its code section, or have none. Two things of what
 * it declares aren't checked, which tansyattic_load does check: that there are as many bodies as functions that aren't
 * imported, and as many data segments as the data count section says. Functions can be begun over such a module, but
 * none of its functions has a body: tansyattic_validate_function, _module and _next answer TANSYATTIC_NO_BODY. Bytes
 * that have bodies are TANSYATTIC_MALFORMED (`section out of order`). */
static inline uint32_t tansyattic_declare(const uint8_t *bytes, size_t length, uint32_t features,
                                          struct tansyattic_module *module, uint8_t *text, size_t text_length,
                                          struct tansyattic_verdict *out);

/* Makes `other` a handle of the same module, and frees the one that it was before. Answers TANSYATTIC_VALID; or, and
 * then `other` stays as it was, TANSYATTIC_NOT_LOADED or TANSYATTIC_OUT_OF_MEMORY. */
uint32_t tansyattic_share(struct tansyattic_module *module, struct tansyattic_module *other);

/* Frees a module, which is TANSYATTIC_NONE then. If it was so before, nothing is done. */
void tansyattic_free(struct tansyattic_module *module);

/* How many functions a module has, the imported ones included; and how many of them are imported. The imported ones
 * come first, and have no body. Both are 0 if there is no module. */
uint32_t tansyattic_functions(struct tansyattic_module *module);
uint32_t tansyattic_imported_functions(struct tansyattic_module *module);

/* Checks the body of the function at this index. Imported functions count in an index. */
static inline uint32_t tansyattic_validate_function(struct tansyattic_module *module, uint32_t function,
                                                    uint8_t *text, size_t text_length,
                                                    struct tansyattic_verdict *out);

/* Checks each body and each constant expression. What the module declares was checked when it was loaded, so the status
 * is that of the whole module. */
static inline uint32_t tansyattic_validate_module(struct tansyattic_module *module, uint8_t *text,
                                                  size_t text_length, struct tansyattic_verdict *out);

/* Finds the next of them that isn't accepted, constant expressions first, then bodies. It begins at `*position`, which
 * is 0 at first, reports what it finds, and sets `*position` behind that. So a loop of calls reports each of them. The
 * loop ends at TANSYATTIC_VALID, when none is left, and at any status above TANSYATTIC_NOT_COVERED: then there is no
 * module, or it has no bodies. */
static inline uint32_t tansyattic_validate_next(struct tansyattic_module *module, size_t *position,
                                                uint8_t *text, size_t text_length, struct tansyattic_verdict *out);

/* Functions, operator by operator
 *
 * A function begins with one open frame, that of its type, and its parameters as locals. tansyattic_op and
 * tansyattic_try_op take one operator at a time, in the standard's binary format; the `end` of the outermost frame
 * closes the function, and tansyattic_finish says whether it is whole: then it is type safe. No order of calls does
 * harm: a call that may not come at its place is refused. What the calls answer, and what they leave, is proved
 * (docs/CONTRACTS.md).
 *
 * If there is no function, or no module, the status is TANSYATTIC_NOT_LOADED. You choose the `offset` of an operator. A
 * refusal has it, or, if bytes inside the operator are malformed, that of these bytes, counted from it. It is used for
 * nothing else. */

/* Begins a function of the type at this index. Its only locals are its parameters. If the status is TANSYATTIC_VALID,
 * `function` is then this one, and the one that it was before is freed. Otherwise it stays as it was. */
static inline uint32_t tansyattic_begin(struct tansyattic_module *module, uint32_t type_index,
                                        struct tansyattic_function *function, uint8_t *text, size_t text_length,
                                        struct tansyattic_verdict *out);

/* The same for a constant expression that gives a value of this type. It has no place in the module, so it isn't
 * checked whether its operators are constant: any operator may come. */
static inline uint32_t tansyattic_begin_expression(struct tansyattic_module *module, const struct tansyattic_type *type,
                                                   struct tansyattic_function *function, uint8_t *text,
                                                   size_t text_length, struct tansyattic_verdict *out);

/* The same for the function at this index, with the locals that its body declares. Its operators stand in the module's
 * bytes from `*first` up to `*behind`, the place of the first byte after them. Both are written only if the status is
 * TANSYATTIC_VALID. */
static inline uint32_t tansyattic_begin_body(struct tansyattic_module *module, uint32_t index,
                                             struct tansyattic_function *function, uint64_t *first, uint64_t *behind,
                                             uint8_t *text, size_t text_length, struct tansyattic_verdict *out);

/* Declares `count` more locals of this type, before the first operator. If the status isn't TANSYATTIC_VALID, nothing
 * is changed. */
static inline uint32_t tansyattic_define_locals(struct tansyattic_function *function, uint32_t count,
                                                const struct tansyattic_type *type, uint64_t offset, uint8_t *text,
                                                size_t text_length, struct tansyattic_verdict *out);

/* Takes the operator that the bytes begin with; other bytes may follow it. `*taken` is how many bytes it has if it is
 * accepted, and otherwise 0. The status is
 * - TANSYATTIC_VALID: the operator is accepted;
 * - TANSYATTIC_INVALID: its rule doesn't hold;
 * - TANSYATTIC_MALFORMED: the bytes begin with no operator, or end inside one (`unexpected end`);
 * - TANSYATTIC_OUT_OF_MEMORY;
 * - TANSYATTIC_NOT_COVERED: it is a vector operator, and their proposal is on. Nothing is changed.
 * After INVALID, MALFORMED or OUT_OF_MEMORY the function has failed: it accepts no operator any more, and
 * tansyattic_finish doesn't accept it. */
static inline uint32_t tansyattic_op(struct tansyattic_function *function, const uint8_t *bytes, size_t length,
                                     uint64_t offset, size_t *taken, uint8_t *text, size_t text_length,
                                     struct tansyattic_verdict *out);

/* The same, with one difference: if the status isn't TANSYATTIC_VALID, nothing is changed, and the function hasn't
 * failed by this call. */
static inline uint32_t tansyattic_try_op(struct tansyattic_function *function, const uint8_t *bytes, size_t length,
                                         uint64_t offset, size_t *taken, uint8_t *text, size_t text_length,
                                         struct tansyattic_verdict *out);

/* Says whether the function is whole: TANSYATTIC_VALID if it hasn't failed and no frame is open. It changes nothing. */
static inline uint32_t tansyattic_finish(struct tansyattic_function *function, uint64_t offset, uint8_t *text,
                                         size_t text_length, struct tansyattic_verdict *out);

/* Frees a function, which is TANSYATTIC_NONE then. If it was so before, nothing is done. */
void tansyattic_free_function(struct tansyattic_function *function);

/* How many operands there are, in all frames together; how many frames are open; how many locals there are, the
 * parameters included. All are 0 if there is no function. After a failure they show the state that the refused operator
 * left. */
uint64_t tansyattic_operands(struct tansyattic_function *function);
uint64_t tansyattic_frames(struct tansyattic_function *function);
uint32_t tansyattic_locals(struct tansyattic_function *function);

/* The type of the operand at this depth, the top at 0; the frame at this depth, the innermost at 0; the type of the
 * local at this index. Each answers 1 and writes it if there is one, and otherwise answers 0. */
uint32_t tansyattic_operand(struct tansyattic_function *function, uint64_t depth, struct tansyattic_type *type);
uint32_t tansyattic_frame(struct tansyattic_function *function, uint64_t depth, struct tansyattic_frame *frame);
uint32_t tansyattic_local(struct tansyattic_function *function, uint32_t index, struct tansyattic_type *type);

/* The standard's name of the operator that the bytes begin with, by its code alone; and the name of a function in the
 * module's name section. Each writes as much of the name as there is room for, and answers the length of the whole
 * name, or 0 if there is none. Vector operators have no name here. */
static inline size_t tansyattic_operator_name(const uint8_t *bytes, size_t length, uint8_t *text, size_t text_length);
static inline size_t tansyattic_function_name(struct tansyattic_module *module, uint32_t function, uint8_t *text,
                                              size_t text_length);

/* The version of the library: 65,536 times the major number, 256 times the minor one, and the patch. A contract of a
 * call never gets weaker within a major version. */
uint32_t tansyattic_version(void);

/* The library asks the program for memory by the next three functions. This is what the first two answer. */
struct tansyattic_block {
    bool found;                   /* whether there is memory */
    void *block;                  /* the block; if there is no memory, any address but null */
};

/* A block of `size` bytes. Its alignment is `align`, which divides 16. If `size` is 0, it may be any address but
 * null that rattle_dealloc takes. */
struct tansyattic_block rattle_alloc(size_t size, size_t align);

/* Gives a block the size of `size` bytes. Its first `kept` bytes are as they were. The block may move. If there is no
 * memory, it stays as it was. */
struct tansyattic_block rattle_realloc(void *block, size_t kept, size_t size, size_t align);

/* Takes back a block that one of these two answered. */
void rattle_dealloc(void *block);

/* The calls by their names in the archive, for bindings that can't use the inline ones. No pointer may be null here,
 * even if the length is 0. The shared library has the names without `raw_` too. */
uint32_t tansyattic_raw_validate(const uint8_t *bytes, size_t length, uint32_t features, uint8_t *text,
                                 size_t text_length, struct tansyattic_verdict *out);
uint32_t tansyattic_raw_load(const uint8_t *bytes, size_t length, uint32_t features, struct tansyattic_module *module,
                             uint8_t *text, size_t text_length, struct tansyattic_verdict *out);
uint32_t tansyattic_raw_validate_function(struct tansyattic_module *module, uint32_t function, uint8_t *text,
                                          size_t text_length, struct tansyattic_verdict *out);
uint32_t tansyattic_raw_validate_module(struct tansyattic_module *module, uint8_t *text, size_t text_length,
                                        struct tansyattic_verdict *out);
uint32_t tansyattic_raw_validate_next(struct tansyattic_module *module, size_t *position, uint8_t *text,
                                      size_t text_length, struct tansyattic_verdict *out);

uint32_t tansyattic_raw_declare(const uint8_t *bytes, size_t length, uint32_t features,
                                struct tansyattic_module *module, uint8_t *text, size_t text_length,
                                struct tansyattic_verdict *out);
uint32_t tansyattic_raw_begin(struct tansyattic_module *module, uint32_t type_index,
                              struct tansyattic_function *function, uint8_t *text, size_t text_length,
                              struct tansyattic_verdict *out);
uint32_t tansyattic_raw_begin_expression(struct tansyattic_module *module, const struct tansyattic_type *type,
                                         struct tansyattic_function *function, uint8_t *text, size_t text_length,
                                         struct tansyattic_verdict *out);
uint32_t tansyattic_raw_begin_body(struct tansyattic_module *module, uint32_t index,
                                   struct tansyattic_function *function, uint64_t *first, uint64_t *behind,
                                   uint8_t *text, size_t text_length, struct tansyattic_verdict *out);
uint32_t tansyattic_raw_define_locals(struct tansyattic_function *function, uint32_t count,
                                      const struct tansyattic_type *type, uint64_t offset, uint8_t *text,
                                      size_t text_length, struct tansyattic_verdict *out);
uint32_t tansyattic_raw_op(struct tansyattic_function *function, const uint8_t *bytes, size_t length, uint64_t offset,
                           size_t *taken, uint8_t *text, size_t text_length, struct tansyattic_verdict *out);
uint32_t tansyattic_raw_try_op(struct tansyattic_function *function, const uint8_t *bytes, size_t length,
                               uint64_t offset, size_t *taken, uint8_t *text, size_t text_length,
                               struct tansyattic_verdict *out);
uint32_t tansyattic_raw_finish(struct tansyattic_function *function, uint64_t offset, uint8_t *text,
                               size_t text_length, struct tansyattic_verdict *out);
size_t tansyattic_raw_operator_name(const uint8_t *bytes, size_t length, uint8_t *text, size_t text_length);
size_t tansyattic_raw_function_name(struct tansyattic_module *module, uint32_t function, uint8_t *text,
                                    size_t text_length);

/* An address to pass for bytes of length 0, and one for a text of length 0. Nothing is read or written there. */
static inline const uint8_t *tansyattic_bytes(const uint8_t *bytes) {
    static const uint8_t none = 0;
    return bytes != NULL ? bytes : &none;
}

static inline uint8_t *tansyattic_text(uint8_t *text) {
    static uint8_t none;
    return text != NULL ? text : &none;
}

static inline uint32_t tansyattic_validate(const uint8_t *bytes, size_t length, uint32_t features, uint8_t *text,
                                           size_t text_length, struct tansyattic_verdict *out) {
    return tansyattic_raw_validate(tansyattic_bytes(bytes), length, features, tansyattic_text(text), text_length, out);
}

static inline uint32_t tansyattic_load(const uint8_t *bytes, size_t length, uint32_t features,
                                       struct tansyattic_module *module, uint8_t *text, size_t text_length,
                                       struct tansyattic_verdict *out) {
    return tansyattic_raw_load(tansyattic_bytes(bytes), length, features, module, tansyattic_text(text), text_length,
                               out);
}

static inline uint32_t tansyattic_validate_function(struct tansyattic_module *module, uint32_t function,
                                                    uint8_t *text, size_t text_length,
                                                    struct tansyattic_verdict *out) {
    return tansyattic_raw_validate_function(module, function, tansyattic_text(text), text_length, out);
}

static inline uint32_t tansyattic_validate_module(struct tansyattic_module *module, uint8_t *text,
                                                  size_t text_length, struct tansyattic_verdict *out) {
    return tansyattic_raw_validate_module(module, tansyattic_text(text), text_length, out);
}

static inline uint32_t tansyattic_validate_next(struct tansyattic_module *module, size_t *position,
                                                uint8_t *text, size_t text_length, struct tansyattic_verdict *out) {
    return tansyattic_raw_validate_next(module, position, tansyattic_text(text), text_length, out);
}

static inline uint32_t tansyattic_declare(const uint8_t *bytes, size_t length, uint32_t features,
                                          struct tansyattic_module *module, uint8_t *text, size_t text_length,
                                          struct tansyattic_verdict *out) {
    return tansyattic_raw_declare(tansyattic_bytes(bytes), length, features, module, tansyattic_text(text),
                                  text_length, out);
}

static inline uint32_t tansyattic_begin(struct tansyattic_module *module, uint32_t type_index,
                                        struct tansyattic_function *function, uint8_t *text, size_t text_length,
                                        struct tansyattic_verdict *out) {
    return tansyattic_raw_begin(module, type_index, function, tansyattic_text(text), text_length, out);
}

static inline uint32_t tansyattic_begin_expression(struct tansyattic_module *module, const struct tansyattic_type *type,
                                                   struct tansyattic_function *function, uint8_t *text,
                                                   size_t text_length, struct tansyattic_verdict *out) {
    return tansyattic_raw_begin_expression(module, type, function, tansyattic_text(text), text_length, out);
}

static inline uint32_t tansyattic_begin_body(struct tansyattic_module *module, uint32_t index,
                                             struct tansyattic_function *function, uint64_t *first, uint64_t *behind,
                                             uint8_t *text, size_t text_length, struct tansyattic_verdict *out) {
    return tansyattic_raw_begin_body(module, index, function, first, behind, tansyattic_text(text), text_length, out);
}

static inline uint32_t tansyattic_define_locals(struct tansyattic_function *function, uint32_t count,
                                                const struct tansyattic_type *type, uint64_t offset, uint8_t *text,
                                                size_t text_length, struct tansyattic_verdict *out) {
    return tansyattic_raw_define_locals(function, count, type, offset, tansyattic_text(text), text_length, out);
}

static inline uint32_t tansyattic_op(struct tansyattic_function *function, const uint8_t *bytes, size_t length,
                                     uint64_t offset, size_t *taken, uint8_t *text, size_t text_length,
                                     struct tansyattic_verdict *out) {
    return tansyattic_raw_op(function, tansyattic_bytes(bytes), length, offset, taken, tansyattic_text(text),
                             text_length, out);
}

static inline uint32_t tansyattic_try_op(struct tansyattic_function *function, const uint8_t *bytes, size_t length,
                                         uint64_t offset, size_t *taken, uint8_t *text, size_t text_length,
                                         struct tansyattic_verdict *out) {
    return tansyattic_raw_try_op(function, tansyattic_bytes(bytes), length, offset, taken, tansyattic_text(text),
                                 text_length, out);
}

static inline uint32_t tansyattic_finish(struct tansyattic_function *function, uint64_t offset, uint8_t *text,
                                         size_t text_length, struct tansyattic_verdict *out) {
    return tansyattic_raw_finish(function, offset, tansyattic_text(text), text_length, out);
}

static inline size_t tansyattic_operator_name(const uint8_t *bytes, size_t length, uint8_t *text, size_t text_length) {
    return tansyattic_raw_operator_name(tansyattic_bytes(bytes), length, tansyattic_text(text), text_length);
}

static inline size_t tansyattic_function_name(struct tansyattic_module *module, uint32_t function, uint8_t *text,
                                              size_t text_length) {
    return tansyattic_raw_function_name(module, function, tansyattic_text(text), text_length);
}

#ifdef __cplusplus
}
#endif
#endif
