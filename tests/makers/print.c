/* print keys COUNT: the CPF and the CNPJ of so many serial numbers, a line each.
   print declarants: DECPF without a block that has a flag, with an SCP, with a PSE and with both, then DECPJ.
   print files COUNT: files that are meant to be right, each after a line with its bytes: so many of tests/cross, whole and cut and closed,
   and those that the bench measures. */
#include <stdio.h>
#include <stdlib.h>
#include <string.h>

#include "../../bench/input.h"
#include "../cross/chance.h"
#include "../cross/closers.h"
#include "../cross/whole.h"
#include "people.h"

/* far enough apart that every digit of a serial number comes up */
static const uint64_t step = 99991 * UINT64_C(10007);

static void print_keys(unsigned long count)
{
    char cpf[CPF_SIZE + 1] = "", cnpj[CNPJ_SIZE + 1] = "";
    for (unsigned long i = 0; i < count; i++) {
        make_cpf(i * step % 1000000000, cpf);
        make_cnpj(i * step % 1000000000000, cnpj);
        printf("%s %s\n", cpf, cnpj);
    }
}

static void print_declarants(void)
{
    char line[100];
    for (int company = 0; company < 2; company++)
        for (unsigned blocks = 0; blocks <= (HAS_SCP | HAS_PSE); blocks++) {
            make_declarant(company, blocks, line);
            fputs(line, stdout);
        }
}

static void print_file(const uint8_t *bytes, size_t len)
{
    printf("%zu\n", len);
    fwrite(bytes, 1, len, stdout);
}

static void print_declaration(uint64_t seed)
{
    static declaration d;
    static file_text file;
    chance_from(seed);
    sound_declaration(&d);
    write_file(&d, &file);
    print_file(file.bytes, file.len);
    cut_at_line(&file);
    plain_answer a = plain_check_room(file.bytes, file.len, file.len);
    if (a.number == 1) {
        close_file(&file, a.line - 1);
        print_file(file.bytes, file.len);
    }
}

static void print_files(unsigned long count)
{
    static const char *const shapes[] = {"short", "long", "scp", "older", "plan"};
    for (unsigned long i = 0; i < count; i++)
        print_declaration(i);
    for (unsigned i = 0; i < sizeof shapes / sizeof *shapes; i++) {
        input in = input_make("6000", shapes[i], "accepted");
        print_file(in.bytes, in.len);
    }
}

int main(int argc, char **argv)
{
    unsigned long count = argc > 2 ? strtoul(argv[2], NULL, 10) : 0;
    const char *what = argc > 1 ? argv[1] : "";
    if (strcmp(what, "keys") == 0)
        print_keys(count);
    else if (strcmp(what, "declarants") == 0)
        print_declarants();
    else
        print_files(count);
    return 0;
}
