/*
 * The words of the manual.
 */

#include "manual.h"

const char manual_purpose[] =
    "Keeps the instruction sheets of printing jobs enciphered in the file "
    "STORE.";

const char manual_statuses[] =
    "1 to 17 are refusals of the library; 2, 3, 13 and 14 do not occur here. "
    "After a refusal the file is as it was.";

const struct part manual[PARTS] = {
    { "keys and texts",
      { "A key is a file of exactly 48 or 64 bytes. Texts are read from "
        "standard input and written to standard output, byte for byte; at a "
        "terminal read escapes what cannot be shown.",
        "Nothing shows that a key is the wrong one. read then prints other "
        "bytes, and begin and rekey, given a wrong one, store other bytes: "
        "so they keep the store as it was, as STORE.desk-before. Read a "
        "sheet after each of them, and only then remove the copy. It can be "
        "read by the keys that the store had, and holds in clear what was in "
        "clear. To go back, rename it to STORE while nobody else uses that.",
        NULL } },
    { "from one key to the next",
      { "A sheet's mark says old key or new key, and not which. add, revise "
        "and rekey write new key; so once every sheet is marked so, the "
        "changeover is over, and rekey with another new key would find "
        "nothing to do. begin starts the next. From key a to key b:",
        "1. check prints the store's fingerprint.",
        "2. begin --key a --seen FINGERPRINT marks every sheet old key. From "
        "here on everybody, the server too, gives both keys, --old-key a "
        "--new-key b: a sheet that is added with --key a now is marked new "
        "key and stays under a.",
        "3. rekey --old-key a --new-key b brings every sheet under b.",
        "4. check counts 0 clear and 0 old, and sheets read well with --key "
        "b. Now the copy is removed, and a destroyed. From b to c begins "
        "with 1 again.",
        "begin names what was seen, as revise does, so that one that is sent "
        "again changes nothing: its answer may have been lost, or it may "
        "come from a shell's history, weeks after.",
        NULL } },
    { "taking over",
      { "A plant that comes with sheets under XTS-AES (IEEE 1619-2007) has "
        "them taken over one by one. import-xts reads a unit of its disk "
        "from standard input, deciphers it under the XTS key, a file of "
        "exactly 32 or 64 bytes, and for the unit's number, and adds the "
        "text as a sheet. In the store it is under EME2-AES like any other. "
        "The unit is not changed.",
        "XTS-AES is there for this alone. It enciphers each block of 16 "
        "bytes by itself, so that less is hidden, and it detects forgery no "
        "more than EME2-AES does. xts-block prints one block, for a clerk "
        "who wants to see what a unit is before it is taken over.",
        NULL } },
    { "given again",
      { "A store is replaced whole: STORE.desk-new is written and flushed, "
        "and renamed to STORE. A run that is cut off leaves the old store or "
        "the new one, so the same command is simply given again. If the "
        "first had worked, the store passes check and nothing else has "
        "changed it since, then add and import-xts are refused with 11, "
        "revise with 8 and remove with 7, new ends with 106, begin with 107, "
        "and rekey finds its sheets converted already.",
        "STORE.desk-before is on disk before the store is replaced, and is "
        "written by a begin or rekey that changes the store, and by no "
        "other run.",
        NULL } },
    { "files",
      { "STORE.desk-lock is the lock, and stays. Mode, owner and group of "
        "STORE stay where the system lets them; a new one is for its owner "
        "alone. If a symbolic link is named, the file behind it is "
        "replaced. A server that uses the calls of lagunedo_file.h may share "
        "the store.",
        NULL } }
};

const char *const manual_examples[] = {
    "new plant.store 200",
    "add plant.store 305 --key plant.key <sheet305.txt",
    "read plant.store 305 --key plant.key",
    "revise plant.store 305 1 --key plant.key <sheet305.txt",
    "list plant.store",
    "check plant.store",
    "begin plant.store --key old.key --seen FINGERPRINT",
    "rekey plant.store --old-key old.key --new-key new.key",
    "import-xts a.store 7 --key a.key --xts-key b.key --unit 9 <unit",
    "xts-block --xts-key b.key --unit 9 --block 0 <unit",
    NULL
};
