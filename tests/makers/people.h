/* Makers for the files of the suites: a CPF or a CNPJ of a serial number, line 1 of each edition, and a declarant's line whose flags
   follow from its blocks.
   What they make is right: check digits by modulo 11, which of the makers this one and tools/makers.py alone work out, and each flag S
   exactly when its block is there. Greater serial numbers give greater CPFs and CNPJs. */
#ifndef PEOPLE_H
#define PEOPLE_H

#include <stddef.h>
#include <stdint.h>

#include "../plain/plain.h"

enum { CPF_SIZE = 11, CNPJ_SIZE = 14 };

/* The declarant's field that says whether there is such a block: 004's 3.3, 000's 3.4. */
enum { DECPF_PSE_FLAG = 6, DECPF_SCP_FLAG = 7, DECPJ_SCP_FLAG = 6, DECPJ_PSE_FLAG = 10 };

/* A beneficiary's field that says whether such records stand below it: 000's 3.6 and 3.16. */
enum { BPFDEC_INFPA_FLAG = 5, BPFDEC_INFPC_FLAG = 6, BPFRRA_INFPA_FLAG = 6 };

/* Write CPF_SIZE and CNPJ_SIZE digits and no more; of the serial number the last 9 and 12 digits are taken. */
void make_cpf(uint64_t serial, char *out);
void make_cnpj(uint64_t serial, char *out);

/* A CPF or a CNPJ, by its size. */
void make_identity(unsigned size, uint64_t serial, char *out);

/* Line 1 of a file of this edition, with its CR LF; the two are of one length. */
const char *line_one(plain_edition edition);

/* The blocks that have a flag, one bit each. */
enum { HAS_SCP = 1, HAS_PSE = 2 };

/* The line of a declarant whose file has these blocks, with its CR LF, and a NUL behind it: DECPJ where it is a company, else DECPF. Gives
   its bytes, at most 80. */
size_t make_declarant(int company, unsigned blocks, char *out);

#endif
