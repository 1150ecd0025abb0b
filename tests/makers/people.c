#include "people.h"

#include <stdio.h>

enum { CPF_SERIAL = 9, CNPJ_SERIAL = 12 };

/* of the first check digit; that of the second has one more in front */
static const unsigned cpf_weights[] = {11, 10, 9, 8, 7, 6, 5, 4, 3, 2};
static const unsigned cnpj_weights[] = {6, 5, 4, 3, 2, 9, 8, 7, 6, 5, 4, 3, 2};

static char check_digit(const char *digits, unsigned count, const unsigned *weights)
{
    unsigned sum = 0;
    for (unsigned i = 0; i < count; i++)
        sum += (unsigned)(digits[i] - '0') * weights[i];
    unsigned rest = sum % 11;
    return (char)(rest < 2 ? '0' : '0' + 11 - rest);
}

static void make(uint64_t serial, unsigned count, const unsigned *weights, char *out)
{
    for (unsigned i = count; i > 0; i--) {
        out[i - 1] = (char)('0' + serial % 10);
        serial /= 10;
    }
    out[count] = check_digit(out, count, weights + 1);
    out[count + 1] = check_digit(out, count + 1, weights);
}

void make_cpf(uint64_t serial, char *out)
{
    make(serial, CPF_SERIAL, cpf_weights, out);
}

void make_cnpj(uint64_t serial, char *out)
{
    make(serial, CNPJ_SERIAL, cnpj_weights, out);
}

void make_identity(unsigned size, uint64_t serial, char *out)
{
    if (size == CPF_SIZE)
        make_cpf(serial, out);
    else
        make_cnpj(serial, out);
}

const char *line_one(plain_edition edition)
{
    return edition == PLAIN_2025 ? "Dirf|2025|2024|N||R6GP3ZA|\r\n" : "Dirf|2022|2021|N||XJFSFHB|\r\n";
}

size_t make_declarant(int company, unsigned blocks, char *out)
{
    char scp = blocks & HAS_SCP ? 'S' : 'N', pse = blocks & HAS_PSE ? 'S' : 'N', person[CPF_SIZE + 1] = "", firm[CNPJ_SIZE + 1] = "";
    make_cpf(111444777, person);
    make_cnpj(112223330001, firm);
    if (company)
        return (size_t)sprintf(out, "DECPJ|%s|SERRA LTDA|0|%s|%c|N|N|N|%c|N|N|N||\r\n", firm, person, scp, pse);
    return (size_t)sprintf(out, "DECPF|%s|ANA LIMA|N|N|%c|%c|N|||N|||||\r\n", person, pse, scp);
}
