/* Holds include/sideboardjay.h to the library: one file, its rows, and what they share. */
#include "../include/sideboardjay.h"

#include <stdio.h>

static const uint8_t file[] = {
    0x03, 0x00, 0xFF, 0xFF, 0x0C, 0x00, 0x45, 0x0D, 0x00, 0xFF, 0xFF, 0x45, 0x0E, 0x00, 0xFF, 0xFF, 0x45,
    0x01, 0x00, 0x01, 0x00, 0x04, 0x00, 0x08, 0x00, 0x45, 0x00, 0x00, 0x00, 0x00, 0x01, 0x00, 0x01, 0x00,
};
static const uint8_t normal[] = {3, 0, 0, 0, 13, 0, 4, 0};
static const uint8_t reverse[] = {3, 0, 0, 0, 14, 0, 8, 0};
static const uint8_t astray[] = {3, 0, 0, 0, 13, 0, 8, 0};

static int failed;

static void held(const char *what, struct tablet_answer answer, uint32_t layer, uint32_t number, uint64_t place) {
    if (answer.layer != layer || answer.number != number || answer.place != place) {
        fprintf(stderr, "header: %s: answered %u %u %llu\n", what, (unsigned)answer.layer, (unsigned)answer.number,
                (unsigned long long)answer.place);
        failed = 1;
    }
}

static void counted(const char *what, struct tablet_counted answer, uint32_t layer, uint32_t number, uint64_t count) {
    held(what, answer.answer, layer, number, 0);
    if (answer.count != count) {
        fprintf(stderr, "header: %s: counted %llu\n", what, (unsigned long long)answer.count);
        failed = 1;
    }
}

int main(void) {
    held("look", tablet_look(file, sizeof file), TABLET_ACCEPTED, 0, 0);
    held("look, a byte less", tablet_look(file, sizeof file - 1), TABLET_FILE, 1, 32);
    held("look, null", tablet_look(NULL, 0), TABLET_FILE, 1, 0);
    held("judge", tablet_judge(file, sizeof file, normal, sizeof normal), TABLET_ACCEPTED, 0, 0);
    held("judge, astray", tablet_judge(file, sizeof file, astray, sizeof astray), TABLET_BOX, 15, 2);
    held("judge, no plan", tablet_judge(NULL, 0, normal, sizeof normal), TABLET_BOX, 15, 0);
    held("judge, null", tablet_judge(file, sizeof file, NULL, 0), TABLET_BOX, 14, 0);
    counted("shared", tablet_shared(normal, sizeof normal, reverse, sizeof reverse), TABLET_ACCEPTED, 0, 2);
    counted("shared, null", tablet_shared(normal, sizeof normal, NULL, 0), TABLET_BOX, 14, 0);

    uint8_t unnamed[sizeof file];
    for (size_t i = 0; i < sizeof file; i++) unnamed[i] = i == 7 || i == 8 ? 0xFF : file[i];
    held("look, second reading", tablet_look(unnamed, sizeof unnamed), TABLET_PLAN, 7, 21);
    return failed;
}
