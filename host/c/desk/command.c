/*
 * The table of the commands.
 */

#include <string.h>

#include "command.h"

const struct command commands[COMMANDS] = {
    { "new", " SLOTS", 1, TAKES_LOCK, LAGUNEDO_FILE_TO_MAKE, run_new,
      "makes a store of SLOTS free slots, 0 to 1,024",
      "If there is a file of that name already it ends with 106 and leaves "
      "it alone. The new file is for its owner alone." },
    { "check", "", 0, 0, LAGUNEDO_FILE_TO_READ, run_check,
      "names the lowest faulty slot, or else counts the slots and prints the "
      "store's fingerprint",
      "The fingerprint is the SHA-256 of the file's bytes, as sha256sum "
      "prints it, and begin asks for it. What is found faulty is the layout: "
      "no key is taken and no text looked at." },
    { "list", "", 0, 0, LAGUNEDO_FILE_TO_READ, run_list,
      "slot, sheet, revision, mark and length of each sheet, and the counts",
      "A mark is 0 for clear, 1 for the old key and 2 for the new key. The "
      "status says whether the store is sound, and whether it could be read: "
      "scripts are to use this command, and not the program listing, which "
      "ends with 0 whatever it reads." },
    { "add", " SHEET", 1, TAKES_KEYS | TAKES_TEXT | TAKES_LOCK,
      LAGUNEDO_FILE_TO_CHANGE, run_add,
      "adds a sheet with the text of standard input",
      "The text has 16 to 2,096 bytes. The sheet starts at revision 1, under "
      "the new key. Refusals, in this order: 1, 4, 5, 6, 11, 10. Given again "
      "after it had worked, it is refused with 11." },
    { "read", " SHEET", 1, TAKES_KEYS | TAKES_RAW, LAGUNEDO_FILE_TO_READ,
      run_read, "prints a sheet's text, and on standard error its revision",
      "To a file or a pipe the text goes byte for byte. At a terminal a byte "
      "that cannot be shown is printed as \\x and two hex digits, and \\ as "
      "\\\\; --raw prints every byte as it is. Refusals, in this order: 1, "
      "4, 5, 7, 12." },
    { "revise", " SHEET SEEN", 2, TAKES_KEYS | TAKES_TEXT | TAKES_LOCK,
      LAGUNEDO_FILE_TO_CHANGE, run_revise,
      "replaces the text, if the revision is still the one SEEN",
      "The new text is read from standard input, and has 16 to 2,096 bytes. "
      "Refusals, in this order: 1, 4, 5, 6, 7, 12, 8, 9. Given again after "
      "it had worked, it is refused with 8." },
    { "remove", " SHEET", 1, TAKES_LOCK, LAGUNEDO_FILE_TO_CHANGE, run_remove,
      "frees the sheet's slot, sound or not",
      "Refusals, in this order: 4, 5, 7. Given again after it had worked, it "
      "is refused with 7." },
    { "begin", "", 0, TAKES_ONE_KEY | TAKES_SEEN | TAKES_LOCK,
      LAGUNEDO_FILE_TO_CHANGE, run_begin,
      "begins a changeover: marks every sheet under the key as old key",
      "Every sheet has to be marked new key: otherwise a changeover is under "
      "way, and it ends with 108. Each text is deciphered under the key, its "
      "mark becomes 1, and it is enciphered under the same key with the new "
      "lead. FINGERPRINT is what check printed: if the store is another "
      "by now, it ends with 107. So a begin that is given again, at once or "
      "much later, changes nothing. Ends, in this order, with 1, 4, 107, "
      "100, 108. The store as it was is kept as STORE.desk-before." },
    { "rekey", "", 0, TAKES_KEYS | TAKES_COPIES | TAKES_LOCK,
      LAGUNEDO_FILE_TO_CHANGE, run_rekey,
      "brings every sheet under the new key",
      "A sheet in clear or marked old key is converted. One marked new key "
      "is taken to be under the new key already, whichever key it is under: "
      "if two different keys are given, the number of these is said in "
      "words. If it is not 0 and no changeover was under way, give begin "
      "first, and keep the old key. Damaged slots are named and kept. "
      "Refusals, in this order: 1, 4. If a sheet was converted, the store "
      "as it was is kept as STORE.desk-before; if none was, both files "
      "are left alone. Given again after it had worked, it converts none. "
      "Given again after the next begin, its old key is a wrong one, which "
      "no program can tell: the copy is for that." },
    { "import-xts", " SHEET", 1, TAKES_KEYS | TAKES_UNIT | TAKES_LOCK,
      LAGUNEDO_FILE_TO_CHANGE, run_import_xts,
      "adds a sheet with the text that a unit under XTS-AES deciphers to",
      "The unit is read from standard input, and has 16 to 2,096 bytes. The "
      "sheet starts at revision 1, under the new key, as one that was added. "
      "Refusals, in this order: 15, 16, 1, 4, 5, 6, 11, 10. Given again "
      "after it had worked, it is refused with 11. Nothing shows that the "
      "XTS key or the unit's number is the wrong one: read the sheet before "
      "the unit is thrown away." },
    { "xts-block", "", 0, TAKES_UNIT | TAKES_BLOCK | TAKES_RAW |
      TAKES_NO_STORE, LAGUNEDO_FILE_TO_READ, run_xts_block,
      "prints one block of a unit under XTS-AES: 16 bytes of its text",
      "The unit is read from standard input, and has 16 to 65,536 bytes; K "
      "is counted from 0. The block is deciphered without the ones before "
      "it. If the unit ends in odd bytes, fewer than 16, these and the last "
      "full block were enciphered together and cannot be read so. What is "
      "printed at a terminal is escaped as read does. Refusals, in this "
      "order: 15, 16, 17." }
};

const struct command *command_named(const char *name)
{
    size_t i;

    for (i = 0; i < COMMANDS; i++)
        if (strcmp(commands[i].name, name) == 0)
            return &commands[i];
    return NULL;
}
