/* A store of sheets from C: forms a memory, puts a sheet, gets it, goes over to another key, gets it again, clears it. */
#include "dikhelwa.h"

#include <stdio.h>
#include <string.h>

enum { SLOTS = 4, PAGE = 64 };

/* Prints what a call answered, and tells whether it was accepted. */
static int accepted(const char *call, dikhelwa_answer answer)
{
    if (answer.number == 0) {
        printf("%s: accepted\n", call);
        return 1;
    }
    printf("%s: refused %u (slot %u, field %u)\n", call, (unsigned)answer.number, (unsigned)answer.slot,
           (unsigned)answer.field);
    return 0;
}

static void get(const uint8_t key[16], const uint8_t memory[SLOTS * PAGE], size_t slot)
{
    uint8_t working[PAGE] = {0};
    dikhelwa_sheet s;
    dikhelwa_answer answer = dikhelwa_sheet_get(DIKHELWA_SKINNY, key, 16, SLOTS, PAGE, memory, SLOTS * PAGE, slot,
                                                working, sizeof working, &s);
    if (!accepted("get", answer))
        return;
    if (!answer.found) {
        printf("  the slot is empty\n");
        return;
    }
    printf("  sensors %u and %u, flow %u, return %u, hot water %u, room %u, brine %u\n", (unsigned)s.sensor1,
           (unsigned)s.sensor2, (unsigned)s.flow, (unsigned)s.returned, (unsigned)s.water, (unsigned)s.room,
           (unsigned)s.brine);
}

int main(void)
{
    uint8_t key[16] = {0}, new_key[16], memory[SLOTS * PAGE], working[PAGE];
    dikhelwa_sheet sheet = {17, 18, 350, 300, 480, 210, 55};
    memset(new_key, 0xa5, sizeof new_key);

    if (!accepted("form", dikhelwa_sheet_form(DIKHELWA_SKINNY, key, sizeof key, SLOTS, PAGE, memory, sizeof memory)))
        return 1;
    accepted("put", dikhelwa_sheet_put(DIKHELWA_SKINNY, key, sizeof key, SLOTS, PAGE, memory, sizeof memory, 1, &sheet));
    get(key, memory, 1);
    accepted("change", dikhelwa_sheet_change(DIKHELWA_SKINNY, key, sizeof key, SLOTS, PAGE, memory, sizeof memory, new_key,
                                             sizeof new_key, working, sizeof working));
    get(key, memory, 1);
    get(new_key, memory, 1);
    accepted("clear", dikhelwa_sheet_clear(DIKHELWA_SKINNY, new_key, sizeof new_key, SLOTS, PAGE, memory, sizeof memory, 1));
    get(new_key, memory, 1);
    sheet.room = 1001;
    accepted("put", dikhelwa_sheet_put(DIKHELWA_SKINNY, new_key, sizeof new_key, SLOTS, PAGE, memory, sizeof memory, 1,
                                       &sheet));
    return 0;
}
