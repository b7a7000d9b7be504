/* The calls of tansyattic.h that are inline there, as symbols of a shared library: so programs in other languages find
 * each call by its name. ffi/install --shared builds it. */

/* The header's own stand aside under other names. */
#define tansyattic_validate inline_validate
#define tansyattic_load inline_load
#define tansyattic_declare inline_declare
#define tansyattic_validate_function inline_validate_function
#define tansyattic_validate_module inline_validate_module
#define tansyattic_validate_next inline_validate_next
#define tansyattic_begin inline_begin
#define tansyattic_begin_expression inline_begin_expression
#define tansyattic_begin_body inline_begin_body
#define tansyattic_define_locals inline_define_locals
#define tansyattic_op inline_op
#define tansyattic_try_op inline_try_op
#define tansyattic_finish inline_finish
#define tansyattic_operator_name inline_operator_name
#define tansyattic_function_name inline_function_name
#include "tansyattic.h"
#undef tansyattic_validate
#undef tansyattic_load
#undef tansyattic_declare
#undef tansyattic_validate_function
#undef tansyattic_validate_module
#undef tansyattic_validate_next
#undef tansyattic_begin
#undef tansyattic_begin_expression
#undef tansyattic_begin_body
#undef tansyattic_define_locals
#undef tansyattic_op
#undef tansyattic_try_op
#undef tansyattic_finish
#undef tansyattic_operator_name
#undef tansyattic_function_name

uint32_t tansyattic_validate(const uint8_t *bytes, size_t length, uint32_t features, uint8_t *text, size_t text_length,
                             struct tansyattic_verdict *out) {
    return inline_validate(bytes, length, features, text, text_length, out);
}

uint32_t tansyattic_load(const uint8_t *bytes, size_t length, uint32_t features, struct tansyattic_module *module,
                         uint8_t *text, size_t text_length, struct tansyattic_verdict *out) {
    return inline_load(bytes, length, features, module, text, text_length, out);
}

uint32_t tansyattic_declare(const uint8_t *bytes, size_t length, uint32_t features, struct tansyattic_module *module,
                            uint8_t *text, size_t text_length, struct tansyattic_verdict *out) {
    return inline_declare(bytes, length, features, module, text, text_length, out);
}

uint32_t tansyattic_validate_function(struct tansyattic_module *module, uint32_t function, uint8_t *text,
                                      size_t text_length, struct tansyattic_verdict *out) {
    return inline_validate_function(module, function, text, text_length, out);
}

uint32_t tansyattic_validate_module(struct tansyattic_module *module, uint8_t *text, size_t text_length,
                                    struct tansyattic_verdict *out) {
    return inline_validate_module(module, text, text_length, out);
}

uint32_t tansyattic_validate_next(struct tansyattic_module *module, size_t *position, uint8_t *text, size_t text_length,
                                  struct tansyattic_verdict *out) {
    return inline_validate_next(module, position, text, text_length, out);
}

uint32_t tansyattic_begin(struct tansyattic_module *module, uint32_t type_index, struct tansyattic_function *function,
                          uint8_t *text, size_t text_length, struct tansyattic_verdict *out) {
    return inline_begin(module, type_index, function, text, text_length, out);
}

uint32_t tansyattic_begin_expression(struct tansyattic_module *module, const struct tansyattic_type *type,
                                     struct tansyattic_function *function, uint8_t *text, size_t text_length,
                                     struct tansyattic_verdict *out) {
    return inline_begin_expression(module, type, function, text, text_length, out);
}

uint32_t tansyattic_begin_body(struct tansyattic_module *module, uint32_t index, struct tansyattic_function *function,
                               uint64_t *first, uint64_t *behind, uint8_t *text, size_t text_length,
                               struct tansyattic_verdict *out) {
    return inline_begin_body(module, index, function, first, behind, text, text_length, out);
}

uint32_t tansyattic_define_locals(struct tansyattic_function *function, uint32_t count,
                                  const struct tansyattic_type *type, uint64_t offset, uint8_t *text,
                                  size_t text_length, struct tansyattic_verdict *out) {
    return inline_define_locals(function, count, type, offset, text, text_length, out);
}

uint32_t tansyattic_op(struct tansyattic_function *function, const uint8_t *bytes, size_t length, uint64_t offset,
                       size_t *taken, uint8_t *text, size_t text_length, struct tansyattic_verdict *out) {
    return inline_op(function, bytes, length, offset, taken, text, text_length, out);
}

uint32_t tansyattic_try_op(struct tansyattic_function *function, const uint8_t *bytes, size_t length, uint64_t offset,
                           size_t *taken, uint8_t *text, size_t text_length, struct tansyattic_verdict *out) {
    return inline_try_op(function, bytes, length, offset, taken, text, text_length, out);
}

uint32_t tansyattic_finish(struct tansyattic_function *function, uint64_t offset, uint8_t *text, size_t text_length,
                           struct tansyattic_verdict *out) {
    return inline_finish(function, offset, text, text_length, out);
}

size_t tansyattic_operator_name(const uint8_t *bytes, size_t length, uint8_t *text, size_t text_length) {
    return inline_operator_name(bytes, length, text, text_length);
}

size_t tansyattic_function_name(struct tansyattic_module *module, uint32_t function, uint8_t *text,
                                size_t text_length) {
    return inline_function_name(module, function, text, text_length);
}
