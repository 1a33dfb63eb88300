// Reads boot files of a simple sort. A line is a table's head, `key = value`, a remark or nothing; a list of links stands in one
// line; a string has no escapes, and only `text` may have several lines, between ''' or between """. Of what docs/FORMATS.md
// refuses it looks at nothing: a boot file at fault ends the program, or does something else.
#include "kernel.h"

#include <stdio.h>
#include <stdlib.h>
#include <string.h>

static void fault(const char *what, const char *text) {
    fprintf(stderr, "boot file: %s: %.40s\n", what, text);
    exit(1);
}

// All bytes of a file, and a zero behind them.
char *whole_file(const char *path) {
    FILE *file = fopen(path, "rb");
    if (!file) {
        fputs("read fault\n", stderr);
        exit(3);
    }
    size_t length = 0, most = 1 << 16;
    char *text = malloc(most + 1);
    for (size_t more; (more = fread(text + length, 1, most - length, file)) > 0;) {
        length += more;
        if (length == most)
            text = realloc(text, (most *= 2) + 1);
    }
    fclose(file);
    text[length] = 0;
    return text;
}

// A string, which ends at a quotation mark like the one that it begins with, or at three of them: what stands in it. `end` is what
// stands behind it.
static char *string_at(char *value, char **end) {
    char mark[4] = {value[0], 0, 0, 0};
    if (mark[0] != '"' && mark[0] != '\'')
        fault("no string", value);
    if (value[1] == mark[0] && value[2] == mark[0])
        mark[1] = mark[2] = mark[0];
    char *from = value + strlen(mark), *to = strstr(from, mark);
    if (!to)
        fault("a string has no end", value);
    *to = 0;
    *end = to + strlen(mark);
    if (mark[0] == '"' && strchr(from, '\\'))
        fault("escapes aren't read", from);
    return mark[1] && *from == '\n' ? from + 1 : from;
}

static void name_at(char *value, char *name, char **end) {
    snprintf(name, NAME, "%s", string_at(value, end));
}

// The value of a key in a link's table, up to its bracket; NULL where there is no such key.
static char *value_in(char *table, const char *key) {
    size_t length = strlen(key);
    for (char *at = table; *at && *at != '}'; at += strcspn(at, ",}"), at += *at == ',') {
        at += strspn(at, " \t");
        if (strncmp(at, key, length) == 0 && strspn(at + length, " \t=") > 0)
            return at + length + strspn(at + length, " \t=");
    }
    return NULL;
}

static uint32_t number_in(char *table, const char *key) {
    char *value = value_in(table, key);
    return value ? (uint32_t)strtoul(value, NULL, 10) : 0;
}

static bool is_true(char *table, const char *key) {
    char *value = value_in(table, key);
    return value && strncmp(value, "true", 4) == 0;
}

static uint32_t process_named(const Boot *boot, const char *value) {
    size_t length = strcspn(value + 1, "\"'");
    for (uint32_t i = 0; i < boot->processes; i++)
        if (strlen(boot->born[i].name) == length && strncmp(boot->born[i].name, value + 1, length) == 0)
            return i;
    fault("no such process", value);
    return 0;
}

static Link link_in(const Boot *boot, char *table) {
    Link link = {.there = true};
    char *value = value_in(table, "control");
    if (value) {
        link.to = MANAGER;
        link.code = 1 + process_named(boot, value);
        return link;
    }
    value = value_in(table, "to");
    if (!value)
        fault("a link leads nowhere", table);
    bool server = strncmp(value + 1, "switchboard", 11) == 0 || strncmp(value + 1, "manager", 7) == 0;
    link.to = !server ? FIRST + process_named(boot, value) : value[1] == 's' ? SWITCHBOARD : MANAGER;
    link.code = number_in(table, "code");
    link.channel = number_in(table, "channel");
    link.base = number_in(table, "base");
    link.length = number_in(table, "len");
    link.reply = is_true(table, "reply");
    link.read = is_true(table, "read");
    link.write = is_true(table, "write");
    return link;
}

static uint32_t image_named(const Boot *boot, const char *name) {
    for (uint32_t i = 0; i < boot->images; i++)
        if (strcmp(boot->image[i].name, name) == 0)
            return i;
    fault("no such image", name);
    return 0;
}

// What a file says of its tables, before names are looked up: those of processes may come behind their use.
typedef struct {
    char *texts[MOST_IMAGES], images[64][NAME], *links[64];
    uint32_t machines;
    char table;
} Said;

static void begin_table(Boot *boot, Said *said, const char *line) {
    said->table = line[2];
    if (said->table == 'm')
        said->machines++;
    else if (said->table == 'i' && boot->images < MOST_IMAGES)
        boot->images++;
    else if (said->table == 'p' && boot->processes < 64)
        boot->processes++;
    else
        fault("a table too many", line);
}

// Takes a line `key = value`: what stands behind the value.
static char *take_key(Boot *boot, Said *said, char *line) {
    char *key = line, *value = strchr(line, '='), *end = value;
    if (!value)
        fault("neither a table nor a key", line);
    key[strcspn(key, " \t=")] = 0;
    value += 1 + strspn(value + 1, " \t");
    uint32_t number = (uint32_t)strtoul(value, &end, 10), image = boot->images - 1, process = boot->processes - 1;
    if (said->table == 0 && strcmp(key, "numbers") == 0) {
        boot->numbers = number;
    } else if (said->table == 0 && strcmp(key, "quantum") == 0) {
        boot->quantum = number;
    } else if (said->table == 0 && strcmp(key, "format") == 0) {
        boot->slots = number == 2 ? 128 : 32;
        boot->longest = number == 2 ? 256 : 64;
    } else if (said->table == 'm') {
        *(key[0] == 's' ? &boot->room : &boot->blocks) = number;
    } else if (said->table == 'i' && strcmp(key, "name") == 0) {
        name_at(value, boot->image[image].name, &end);
    } else if (said->table == 'i' && strcmp(key, "blocks") == 0) {
        boot->image[image].blocks = number;
    } else if (said->table == 'i' && strcmp(key, "text") == 0) {
        said->texts[image] = string_at(value, &end);
    } else if (said->table == 'p' && strcmp(key, "name") == 0) {
        name_at(value, boot->born[process].name, &end);
    } else if (said->table == 'p' && strcmp(key, "image") == 0) {
        name_at(value, said->images[process], &end);
    } else if (said->table == 'p' && strcmp(key, "links") == 0) {
        said->links[process] = value;
        end = value + strcspn(value, "\n");
        if (!memchr(value, ']', (size_t)(end - value)))
            fault("a list of links isn't in one line", value);
    } else if (said->table != 'p' || strcmp(key, "machine") != 0) {
        fault("no such key", key);
    }
    return end;
}

static void look_up(Boot *boot, Said *said) {
    for (uint32_t i = 0; i < boot->images; i++) {
        Image *image = &boot->image[i];
        image->bytes = calloc(image->blocks, BLOCK);
        image->size = assembled(said->texts[i], image->bytes, image->blocks * BLOCK);
    }
    for (uint32_t i = 0; i < boot->processes; i++) {
        Born *born = &boot->born[i];
        born->image = image_named(boot, said->images[i]);
        char *at = said->links[i];
        for (uint32_t slot = 0; at && (at = strpbrk(at, "{]")) && *at == '{'; slot++, at += strcspn(at, "}"))
            born->links[slot] = link_in(boot, at + 1);
    }
}

void read_boot(char *text, Boot *boot) {
    static Said said;
    *boot = (Boot){.numbers = 1048576, .quantum = 16, .slots = 32, .longest = 64};
    for (char *line = text; *line;) {
        line += strspn(line, " \t\r\n");
        if (*line == '[')
            begin_table(boot, &said, line);
        else if (*line && *line != '#')
            line = take_key(boot, &said, line);
        line += strcspn(line, "\n");
    }
    if (said.machines != 1) {
        fprintf(stderr, "boot file: this kernel has one machine, not %u\n", said.machines);
        exit(1);
    }
    look_up(boot, &said);
}
