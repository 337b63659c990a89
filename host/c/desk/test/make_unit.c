/*
 * One unit under XTS-AES, for tests: the text on standard input, enciphered
 * under the key in the file and for the number, on standard output.
 *
 *   make_unit KEY NUMBER <TEXT >UNIT
 */

#include <stdio.h>

#include "../input.h"
#include "../number.h"
#include "../say.h"

int main(int argc, char **argv)
{
    static struct unit unit;
    struct key key;
    uint64_t number;

    if (argc != 3 || !number_read_64(argv[2], &number)) {
        complain("make_unit KEY NUMBER");
        return 2;
    }
    if (key_read(argv[1], &key) != 0 || unit_read(&unit) != 0 ||
        lagunedo_xts_encipher(key.bytes, key.length, number, unit.bytes,
                              unit.length) != LAGUNEDO_DONE) {
        complain("there is no such unit");
        return 1;
    }
    return fwrite(unit.bytes, unit.length, 1, stdout) == 1 ? 0 : 1;
}
