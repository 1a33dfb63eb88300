// A kernel of one machine, in C. It reads a boot file and a schedule, and prints the lines of docs/FORMATS.md:
//
//     kernel run --boot FILE --schedule FILE
//
// Here: turns, ends, directives, and the lines at the end.
#include "kernel.h"

#include <stdarg.h>
#include <stdio.h>
#include <stdlib.h>
#include <string.h>

static const char *const WORDS[] = {
    "user",    "stop",   "resume",  "kill",   "read",    "write", "block", "written",
    "gone",    "create", "created", "noroom", "migrate", "move",  "moved",
};

static Process **processes; // all that were ever made: the first is 0.3
static uint32_t made;
static uint32_t *ring, ring_length; // who may be served, in order
static List inbox;
static uint32_t routed, sent_by_kernel;
static uint64_t groups;

// What is printed: the lines of a group are kept until it is over.

static char *said;
static size_t said_length, said_room;

static void say(const char *format, ...) {
    va_list words;
    for (;;) {
        va_start(words, format);
        size_t length = (size_t)vsnprintf(said + said_length, said_room - said_length, format, words);
        va_end(words);
        if (said_length + length < said_room) {
            said_length += length;
            return;
        }
        said = realloc(said, said_room = 2 * (said_room + length + 1));
    }
}

static void write_said(void) {
    if (fwrite(said, 1, said_length, stdout) != said_length || fflush(stdout) != 0) {
        fputs("write fault\n", stderr);
        exit(5);
    }
    said_length = 0;
}

static const char *name_of(const Message *message) {
    static char text[40];
    snprintf(text, sizeof text, "0.%u#%u%s", message->from, message->number, message->answers ? "!" : "");
    return text;
}

// Messages

// Routes a message: with one machine, into its inbox.
static void put(Message *message) {
    if (routed == boot->numbers) {
        fputs("worn: 0 to 0\n", stderr);
        exit(9);
    }
    routed++;
    say("put 0 0 %s %s 0.%u\n", name_of(message), WORDS[message->kind], message->to);
    append(&inbox, message);
}

static Process *living(uint32_t number) {
    Process *process = number >= FIRST && number - FIRST < made ? processes[number - FIRST] : NULL;
    return process && !process->ended ? process : NULL;
}

// Processes that come and go

static void leave_ring(uint32_t number) {
    uint32_t place = 0;
    while (ring[place] != number)
        place++;
    memmove(&ring[place], &ring[place + 1], (--ring_length - place) * sizeof *ring);
}

static void start(uint32_t image, const Link *links, uint32_t count) {
    processes = realloc(processes, (made + 1) * sizeof *processes);
    ring = realloc(ring, (made + 1) * sizeof *ring);
    uint32_t number = FIRST + made;
    processes[made++] = new_process(number, image, links, count);
    ring[ring_length++] = number;
}

static void end(Process *process, uint32_t why) {
    leave_ring(process->number);
    process->ended = true;
    process->why = why;
    while (process->queue.first && BUG != 4) {
        Message *message = first_of(&process->queue);
        say("dropped %s\n", name_of(message));
        free(message);
    }
    free(process->memory);
}

static void create(const Message *message) {
    uint32_t slots = boot->room, blocks = boot->blocks, needed = boot->image[message->about].blocks;
    for (uint32_t i = 0; i < made; i++) {
        if (!processes[i]->ended) {
            slots--;
            blocks -= processes[i]->blocks;
        }
    }
    if (slots < 1 || blocks < needed) {
        say("nospace %s %u %u\n", name_of(message), slots, blocks);
        put(answer(message, KERNEL, NO_ROOM));
        return;
    }
    start(message->about, message->links, message->enclosed);
    say("created %s 0.%u\n", name_of(message), FIRST + made - 1);
    Message *created = answer(message, KERNEL, CREATED);
    created->about = FIRST + made - 1;
    put(created);
}

// Turns

static void answer_move(const Message *message, uint32_t result) {
    Message *moved = answer(message, message->to, MOVED);
    moved->about = result;
    put(moved);
}

static void handle_ended(const Message *message) {
    const char *name = name_of(message);
    if (message->kind == MIGRATE) {
        say("nomove %s\n", name);
    } else if (message->kind == MOVE) {
        say("gone %s\n", name);
        answer_move(message, 3);
    } else if (message->kind == READ || message->kind == WRITE) {
        say("gone %s\n", name);
        put(answer(message, message->to, GONE));
    } else {
        say("dropped %s\n", name);
    }
}

static void handle_user_or_move(Process *process, Message *message) {
    if (message->kind == USER) {
        append(&process->queue, message);
        say("queued %s\n", name_of(message));
    } else if (message->kind == MIGRATE) { // it is there already
        say("here %s\n", name_of(message));
    } else {
        say("asked %s\n", name_of(message));
        say("answered %s 0\n", name_of(message));
        answer_move(message, 0);
    }
}

static void handle_here(Process *process, Message *message) {
    if (message->kind == USER || message->kind == MIGRATE || message->kind == MOVE) {
        handle_user_or_move(process, message);
        return;
    }
    say("served %s\n", name_of(message));
    if (message->kind == STOP || message->kind == RESUME) {
        process->stopped = message->kind == STOP;
    } else if (message->kind == KILL) {
        end(process, 5);
    } else {
        bool asks = message->kind == READ || message->kind == WRITE;
        Message *next = asks ? serve_piece(process, message) : land_piece(process, message);
        if (next)
            put(next);
    }
}

static void handle(Message *message) {
    Process *process = living(message->to);
    if (message->to == KERNEL) {
        create(message);
    } else if (message->to < FIRST && message->kind == MIGRATE) { // a server, which is there already
        say("here %s\n", name_of(message));
    } else if (message->to < FIRST) {
        say("took %s\n", name_of(message));
        Message *sent = serve(message);
        if (sent)
            put(sent);
    } else if (process) {
        handle_here(process, message);
    } else {
        handle_ended(message);
    }
    if (!(process && message->kind == USER)) // else it is in the queue
        free(message);
}

static void serve_waiting(Process *process) {
    Message *message;
    uint32_t code = complete_receive(process, &message);
    if (code) {
        say("refuse 0.%u %s %u\n", process->number, name_of(message), code);
    } else {
        say("receive 0.%u %s\n", process->number, name_of(message));
        free(message);
    }
}

static void serve_ready(Process *process) {
    Reached reached;
    uint32_t number = process->number;
    say("ran 0.%u %u\n", number, execute(process, &reached));
    if (reached.what == PLAIN)
        return;
    Done done = reached.what == FAULT ? (Done){ENDS, reached.number, NULL} : call(process, reached.number);
    if (done.what == REPLIED) {
        say("call 0.%u %u %u\n", number, reached.number, done.value);
    } else if (done.what == PUT_OUT) {
        say("out 0.%u %u\n", number, done.value);
    } else if (done.what == WAITS) {
        say("wait 0.%u\n", number);
    } else if (done.what == SENDS) {
        say("send 0.%u %s\n", number, name_of(done.message));
        put(done.message);
    } else {
        say("end 0.%u %u\n", number, done.value);
        end(process, done.value);
    }
}

// The first of the ring that can be served, or NULL.
static Process *first_served(void) {
    for (uint32_t place = 0; place < ring_length; place++) {
        Process *process = living(ring[place]);
        if (can_be_served(process))
            return process;
    }
    return NULL;
}

static void turn(void) {
    Process *process;
    say("turn 0\n");
    if (inbox.first) {
        handle(first_of(&inbox));
    } else if ((process = first_served())) {
        if (BUG != 5) { // else it stays where it is, and is the first again
            leave_ring(process->number);
            ring[ring_length++] = process->number;
        }
        (process->status == WAITING ? serve_waiting : serve_ready)(process);
    } else {
        say("idle 0\n");
    }
}

// The schedule

static void migrate(uint32_t home, uint32_t number) {
    say("migrate %u.%u 0\n", home, number);
    if (home == 0 && (number == SWITCHBOARD || number == MANAGER || is_child(number))) {
        Message *message = new_message(KERNEL, sent_by_kernel++, number, MIGRATE);
        message->sender = MANAGER;
        put(message);
    } else {
        say("nochild %u.%u\n", home, number);
    }
}

static void group_is_over(void) {
    groups++;
    write_said();
}

// A turn, as long as there is something for a machine to do: in an inbox, or, with processes, for one of these.
static bool turn_if_due(bool with_processes) {
    if (!inbox.first && !(with_processes && first_served()))
        return false;
    turn();
    group_is_over();
    return true;
}

static void do_line(char *line) {
    char *words[4] = {0};
    uint32_t count = 0;
    for (char *word = strtok(line, " \t\r"); word && count < 4; word = strtok(NULL, " \t\r"))
        words[count++] = word;
    if (count == 0 || words[0][0] == '#')
        return;
    uint32_t number = count > 1 ? (uint32_t)strtoul(words[1], NULL, 10) : 1;
    char *point = count > 1 ? strchr(words[1], '.') : NULL;
    if (strcmp(words[0], "settle") == 0) {
        while (turn_if_due(false))
            ;
    } else if (strcmp(words[0], "rest") == 0) {
        for (uint32_t pass = 0; pass < number && turn_if_due(true); pass++)
            ;
    } else if (strcmp(words[0], "turn") == 0 || strcmp(words[0], "round") == 0 || strcmp(words[0], "spin") == 0) {
        for (uint32_t left = words[0][0] == 's' ? number : 1; left > 0; left--) {
            turn();
            group_is_over();
        }
    } else if (strcmp(words[0], "tick") == 0) {
        say("tick 0\nresent 0 0\n");
        group_is_over();
    } else if (strcmp(words[0], "calloff") == 0 && point) {
        uint32_t who = (uint32_t)strtoul(point + 1, NULL, 10);
        say("calloff %u.%u 0\nnocall %u.%u\n", number, who, number, who);
        group_is_over();
    } else if (strcmp(words[0], "migrate") == 0 && point) {
        migrate(number, (uint32_t)strtoul(point + 1, NULL, 10));
        group_is_over();
    } else {
        fprintf(stderr, "schedule: no such directive: %s\n", words[0]);
        exit(1);
    }
}

// Where everything stands at the end

static void say_link(const Link *link) {
    const char *rights = link->read && link->write ? "rw" : link->read ? "r" : link->write ? "w" : "-";
    say("%s 0.%u at 0 moves 0 code %u channel %u area %u %u %s\n", link->reply ? "reply" : "general", link->to, link->code, link->channel,
        link->base, link->length, rights);
}

static void say_hex(const uint8_t *bytes, uint32_t length) {
    for (uint32_t i = 0; i < length; i++)
        say("%02x", bytes[i]);
}

static void say_list(const List *list, const char *head, uint32_t number) {
    if (!list->first)
        return;
    say(head, number);
    for (const Message *message = list->first; message; message = message->next)
        say(" %s", name_of(message));
    say("\n");
}

static void say_process(const Process *process) {
    if (process->ended) {
        say("process 0.%u ended %u\n", process->number, process->why);
        return;
    }
    say("process 0.%u at 0 here ", process->number);
    if (process->status == READY)
        say("ready");
    else if (process->status == WAITING)
        say("waiting %u %u %u", process->mask, process->buffer, process->capacity);
    else
        say("moving %u 0.%u %u %u %u", process->direction, process->owner, process->base, process->own, process->left);
    say(" %s %u\nregisters 0.%u", process->stopped ? "stopped" : "go", process->sent, process->number);
    for (int i = 0; i < 16; i++)
        say(" %u", process->registers[i]);
    say(" %u\n", process->counter);
    for (uint32_t block = 0; block < process->blocks; block++) {
        const uint8_t *bytes = process->memory + BLOCK * block;
        uint32_t length = BLOCK;
        while (length > 0 && bytes[length - 1] == 0)
            length--;
        if (length == 0)
            continue;
        say("memory 0.%u %u ", process->number, block);
        say_hex(bytes, length);
        say("\n");
    }
    for (uint32_t slot = 0; slot < boot->slots; slot++) {
        if (process->table[slot].there) {
            say("link 0.%u %u ", process->number, slot);
            say_link(&process->table[slot]);
        }
    }
}

static void say_end(void) {
    say("final\n");
    for (uint32_t i = 0; i < made; i++)
        say_process(processes[i]);
    say("server 0.1 %u\nserver 0.2 %u\n", servers.sent[SWITCHBOARD], servers.sent[MANAGER]);
    for (uint32_t i = 0; i < servers.known; i++) {
        say("name ");
        say_hex(servers.names[i].bytes, servers.names[i].length);
        say(" ");
        say_link(&servers.names[i].link);
    }
    for (uint32_t i = 0; i < servers.born; i++)
        say("child %u 0.%u at 0\n", i + 1, servers.children[i]);
    for (uint32_t i = 0; i < servers.waiting; i++)
        say("pending 0.2#%u\n", servers.pending[i].number);
    for (uint32_t i = 0; i < made; i++)
        if (!processes[i]->ended)
            say_list(&processes[i]->queue, "queue 0.%u", processes[i]->number);
    say_list(&inbox, "inbox %u", 0);
    say("end %llu\n", (unsigned long long)groups);
}

static const char *option(int count, char **words, const char *name) {
    for (int i = 2; i + 1 < count; i++)
        if (strcmp(words[i], name) == 0)
            return words[i + 1];
    fputs("usage: kernel run --boot FILE --schedule FILE\n", stderr);
    exit(2);
}

int main(int count, char **words) {
    static Boot read;
    const char *boot_file = option(count, words, "--boot"), *schedule = option(count, words, "--schedule");
    read_boot(whole_file(boot_file), &read);
    boot = &read;
    for (uint32_t i = 0; i < boot->processes; i++) {
        start(boot->born[i].image, boot->born[i].links, boot->slots);
        add_child(FIRST + i);
    }
    for (char *line = whole_file(schedule), *next; line; line = next) {
        next = strchr(line, '\n');
        if (next)
            *next++ = 0;
        do_line(line);
    }
    say_end();
    write_said();
    return 0;
}
