/* Calls the script of E1 (LANGUAGE 8.2) from C, and prints the line that the program prints for it (6.11). */
#include <roomscript.h>
#include <stdio.h>

#define ROWS ROOMSCRIPT_ROW_NUMBERS(ROOMSCRIPT_BASE_TERMS)
#define STORE ROOMSCRIPT_STORE_NUMBERS(ROOMSCRIPT_BASE_VARIABLES, ROOMSCRIPT_BASE_BOXES)

int main(void) {
    static const uint8_t script[] = {0x52, 0x43, 0x53, 0x00, 0x01, 0x0B, 0x04, 0x08, 0x00,
                                     0x02, 0x00, 0x08, 0x01, 0x02, 0x01, 0x08, 0x02, 0x05,
                                     0x00, 0x00, 0x0A, 0x02, 0x01, 0x01, 0x00};
    static const int32_t readings[ROOMSCRIPT_READINGS_LEN] = {185, 200};
    static uint32_t rows[ROWS], store[STORE];
    roomscript_called called =
        roomscript_call(roomscript_base, script, sizeof script, readings, ROOMSCRIPT_READINGS_LEN,
                        rows, ROWS, store, STORE);
    if (called.number != 0) {
        printf("refused %lu at %lu\n", (unsigned long)called.number, (unsigned long)called.place);
    } else {
        printf("accepted %lu call %ld cells %lu\n", (unsigned long)called.terms,
               (long)called.answer, (unsigned long)called.cells);
    }
    return 0;
}
