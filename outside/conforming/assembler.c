// The assembler of docs/FORMATS.md: a program's text becomes the bytes of an image. A text at fault ends the program.
#include "kernel.h"

#include <stdio.h>
#include <stdlib.h>
#include <string.h>

enum { MOST_WORDS = 300, MOST_LABELS = 2000 };

// An instruction's word, its operands and its number. r: a register, v: a value of 16 bits, n: a byte, l: a label's distance.
static const struct {
    const char *word, *operands;
    uint8_t operation;
} FORMS[] = {
    {"li", "rv", 1},    {"lih", "rv", 2},  {"mov", "rr", 3},   {"add", "rrr", 4},  {"sub", "rrr", 5},  {"mul", "rrr", 6}, {"and", "rrr", 7},
    {"or", "rrr", 8},   {"xor", "rrr", 9}, {"shl", "rrr", 10}, {"shr", "rrr", 11}, {"lw", "rrn", 12},  {"sw", "rrn", 13}, {"lb", "rrn", 14},
    {"sb", "rrn", 15},  {"jmp", "v", 16},  {"beq", "rrl", 17}, {"bne", "rrl", 18}, {"bltu", "rrl", 19}, {"sys", "n", 20},
};

// A call that stands with its operands: its word, its number, and how many registers it reads.
static const struct {
    const char *word;
    uint8_t number;
    uint32_t registers;
} LINES[] = {
    {"exit", 1, 0}, {"out", 2, 1}, {"make", 3, 5}, {"copy", 4, 1}, {"drop", 5, 1}, {"send", 6, 5}, {"receive", 7, 3}, {"move", 8, 5},
};
enum { NO_LINE = sizeof LINES / sizeof *LINES };

static struct {
    char name[NAME];
    uint32_t value;
} labels[MOST_LABELS];
static uint32_t labels_known;

static void fault(const char *what, const char *word) {
    fprintf(stderr, "assembler: %s: %s\n", what, word);
    exit(1);
}

static uint32_t line_named(const char *word) {
    uint32_t line = 0;
    while (line < NO_LINE && strcmp(LINES[line].word, word) != 0)
        line++;
    return line;
}

// A number, a character, a label, or a label with a number behind it.
static uint32_t value_of(const char *word) {
    if (*word == '\'')
        return (uint8_t)word[1];
    if ((*word >= 'a' && *word <= 'z') || *word == '_') {
        size_t length = strcspn(word, "+");
        for (uint32_t i = 0; i < labels_known; i++)
            if (strlen(labels[i].name) == length && strncmp(labels[i].name, word, length) == 0)
                return labels[i].value + (word[length] ? value_of(word + length + 1) : 0);
        fault("no such label", word);
    }
    return (uint32_t)strtoul(word, NULL, strncmp(word, "0x", 2) == 0 ? 16 : 10);
}

// The words of a line, which ends at its line feed; a comment is none. The line is cut up for it.
static uint32_t words_of(char *line, char **words) {
    line[strcspn(line, ";")] = 0;
    uint32_t count = 0;
    for (char *word = strtok(line, " \t\r,"); word; word = strtok(NULL, " \t\r,")) {
        if (count == MOST_WORDS)
            fault("too many words", word);
        words[count++] = word;
    }
    return count;
}

static uint32_t size_of(char **words, uint32_t count) {
    if (count == 0)
        return 0;
    if (strcmp(words[0], ".byte") == 0)
        return count - 1;
    if (strcmp(words[0], ".equ") == 0)
        return 0;
    if (line_named(words[0]) != NO_LINE)
        return 4 * LINES[line_named(words[0])].registers + 4;
    return strcmp(words[0], ".zero") == 0 ? value_of(words[1]) : 4;
}

static void write_word(uint8_t *bytes, uint32_t word) {
    for (int i = 0; i < 4; i++)
        bytes[i] = (uint8_t)(word >> (24 - 8 * i));
}

static void write_instruction(uint8_t *bytes, char **words, uint32_t count, uint32_t place) {
    for (size_t form = 0; form < sizeof FORMS / sizeof *FORMS; form++) {
        if (strcmp(FORMS[form].word, words[0]) != 0)
            continue;
        const char *operands = FORMS[form].operands;
        if (count - 1 != strlen(operands))
            fault("wrong number of operands", words[0]);
        memset(bytes, 0, 4);
        bytes[0] = FORMS[form].operation;
        for (uint32_t i = 0; operands[i]; i++) {
            uint32_t value = operands[i] == 'r' ? value_of(words[i + 1] + 1) : value_of(words[i + 1]);
            if (operands[i] == 'r') {
                bytes[i + 1] = (uint8_t)value;
            } else if (operands[i] == 'l') {
                bytes[3] = (uint8_t)((int64_t)(value - place - 4) / 4);
            } else {
                bytes[3] = (uint8_t)value;
                bytes[2] |= (uint8_t)(value >> 8); // nothing of a byte
            }
        }
        return;
    }
    fault("no such word", words[0]);
}

// Whether a word is a register: r0 to r15.
static int is_register(const char *word) {
    return *word == 'r' && word[1] && strspn(word + 1, "0123456789") == strlen(word + 1);
}

// The instructions that set a call's registers, each to its operand or to 0, and the call.
static void write_call(uint8_t *bytes, char **words, uint32_t count, uint32_t line) {
    for (uint32_t i = 1; i <= LINES[line].registers; i++, bytes += 4) {
        int copies = i < count && is_register(words[i]);
        uint32_t value = copies ? value_of(words[i] + 1) << 8 : i < count ? value_of(words[i]) : 0;
        write_word(bytes, (copies ? 3u : 1u) << 24 | i << 16 | value);
    }
    write_word(bytes, 20u << 24 | LINES[line].number);
}

static void write_line(uint8_t *bytes, char **words, uint32_t count, uint32_t place) {
    uint32_t line = line_named(words[0]);
    if (line != NO_LINE) {
        write_call(bytes, words, count, line);
    } else if (strcmp(words[0], ".byte") == 0) {
        for (uint32_t i = 1; i < count; i++)
            bytes[i - 1] = (uint8_t)value_of(words[i]);
    } else if (strcmp(words[0], ".word") == 0) {
        write_word(bytes, value_of(words[1]));
    } else if (strcmp(words[0], ".zero") != 0 && strcmp(words[0], ".equ") != 0) {
        write_instruction(bytes, words, count, place);
    }
}

// Goes through a text, for its labels or for its bytes: how many there are.
static uint32_t pass(char *text, uint8_t *image, uint32_t most) {
    uint32_t place = 0;
    for (char *line = text, *next; line; line = next) {
        next = strchr(line, '\n');
        if (next)
            *next++ = 0;
        char *words[MOST_WORDS], **at = words;
        uint32_t count = words_of(line, words);
        if (count && at[0][strlen(at[0]) - 1] == ':') {
            if (!image && labels_known < MOST_LABELS) {
                snprintf(labels[labels_known].name, NAME, "%.*s", (int)strlen(at[0]) - 1, at[0]);
                labels[labels_known++].value = place;
            }
            at++, count--;
        } else if (count > 2 && strcmp(at[0], ".equ") == 0 && !image && labels_known < MOST_LABELS) {
            snprintf(labels[labels_known].name, NAME, "%s", at[1]);
            labels[labels_known++].value = value_of(at[2]);
        }
        uint32_t size = size_of(at, count);
        if (place + size > most)
            fault("more bytes than the image's blocks", at[0]);
        if (image && count)
            write_line(image + place, at, count, place);
        place += size;
    }
    return place;
}

uint32_t assembled(char *text, uint8_t *image, uint32_t most) {
    labels_known = 0;
    char *copy = strdup(text);
    pass(copy, NULL, most);
    free(copy);
    return pass(text, image, most);
}
