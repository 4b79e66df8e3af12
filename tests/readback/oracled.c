/* The library's five calls, told by the independent checker: the archive is for x86-64, and this is for the machine at hand, where
   the compiler can watch every access. */
#include <octalmure.h>

#include "causes.h"
#include "exchange.h"
#include "oracle.h"

uint32_t octalmure_check(const uint8_t *file, size_t file_length, uint8_t *answer, size_t answer_length) {
    return oracle_check(file, file_length, answer, answer_length);
}

uint32_t octalmure_carry(const uint8_t *file, size_t file_length, uint32_t horizon, uint8_t *output, size_t output_length,
                         uint8_t *answer, size_t answer_length) {
    return oracle_carry(file, file_length, horizon, output, output_length, answer, answer_length);
}

uint32_t octalmure_import(const uint8_t *file, size_t file_length, const uint8_t *table, size_t table_length, uint8_t *output,
                          size_t output_length, uint8_t *answer, size_t answer_length) {
    return oracle_import(file, file_length, table, table_length, output, output_length, answer, answer_length);
}

uint32_t octalmure_export(const uint8_t *file, size_t file_length, uint8_t *output, size_t output_length, uint8_t *answer,
                          size_t answer_length) {
    return oracle_export(file, file_length, output, output_length, answer, answer_length);
}

uint32_t octalmure_why(const uint8_t *file, size_t file_length, uint32_t record, uint8_t *output, size_t output_length,
                       uint8_t *answer, size_t answer_length) {
    return oracle_why(file, file_length, record, output, output_length, answer, answer_length);
}
