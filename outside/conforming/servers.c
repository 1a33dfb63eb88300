// The switchboard and the process manager (docs/SYSTEM.md, "The servers").
#include "kernel.h"

#include <stdlib.h>
#include <string.h>

Servers servers;

// One element more of a list.
static void *grown(void *list, uint32_t *count, size_t size) {
    return realloc(list, ++*count * size);
}

void add_child(uint32_t process) {
    servers.children = grown(servers.children, &servers.born, sizeof *servers.children);
    servers.children[servers.born - 1] = process;
}

bool is_child(uint32_t process) {
    for (uint32_t i = 0; i < servers.born; i++)
        if (servers.children[i] == process)
            return true;
    return false;
}

// A server's next message.
static Message *next_message(uint32_t server, uint32_t to, Kind kind) {
    return new_message(server, servers.sent[server]++, to, kind);
}

// A message of one byte over a link, if there is one, with another link in it, if there is one.
static Message *over(uint32_t server, const Link *link, uint8_t byte, const Link *enclosed) {
    if (!link || !link->there)
        return NULL;
    Message *message = next_message(server, link->to, USER);
    message->code = link->code;
    message->channel = link->channel;
    message->length = 1;
    message->body[0] = byte;
    if (enclosed)
        message->links[message->enclosed++] = *enclosed;
    return message;
}

// The switchboard

static Entry *entry_of(const uint8_t *name, uint32_t length) {
    for (uint32_t i = 0; i < servers.known; i++)
        if (servers.names[i].length == length && memcmp(servers.names[i].bytes, name, length) == 0)
            return &servers.names[i];
    return NULL;
}

static Message *serve_switchboard(const Message *message) {
    const Link *links = message->links;
    if (message->enclosed == 0)
        return NULL;
    uint8_t operation = message->length ? message->body[0] : 0;
    const uint8_t *name = message->body + 1;
    uint32_t length = message->length - 1; // of the name
    bool registers = operation == 1 && message->enclosed == 2, looks_up = operation == 2 && message->enclosed == 1;
    if (!(registers || looks_up) || length < 1 || length > 16)
        return over(SWITCHBOARD, &links[0], 5, NULL);
    Entry *entry = entry_of(name, length);
    if (looks_up)
        return over(SWITCHBOARD, &links[0], entry ? 1 : 2, entry ? &entry->link : NULL);
    if (links[1].reply)
        return over(SWITCHBOARD, &links[0], 4, NULL);
    if (entry && BUG != 6)
        return over(SWITCHBOARD, &links[0], 3, NULL);
    if (!entry) {
        servers.names = grown(servers.names, &servers.known, sizeof *servers.names);
        entry = &servers.names[servers.known - 1];
    }
    *entry = (Entry){.length = length, .link = links[1]};
    memcpy(entry->bytes, name, length);
    return over(SWITCHBOARD, &links[0], 0, NULL);
}

// The process manager

// Keeps a link, if there is one, until this request is answered.
static Message *keep_pending(Message *request, const Message *message) {
    servers.pending = grown(servers.pending, &servers.waiting, sizeof *servers.pending);
    servers.pending[servers.waiting - 1] = (Pending){request->number, message->enclosed ? message->links[0] : (Link){0}};
    return request;
}

static Message *want_child(const Message *message) {
    const uint8_t *body = message->body;
    if (message->length != 4 || body[0] != 1 || message->enclosed == 0)
        return NULL;
    uint32_t image = 256u * body[2] + body[3];
    if (body[1] != 0 || image >= boot->images)
        return NULL;
    Message *create = next_message(MANAGER, KERNEL, CREATE);
    create->about = image;
    create->enclosed = message->enclosed - 1;
    memcpy(create->links, message->links + 1, create->enclosed * sizeof(Link));
    return keep_pending(create, message);
}

static Message *control_child(const Message *message) {
    static const Kind ORDERS[5] = {[2] = STOP, [3] = RESUME, [4] = KILL};
    if (message->code > servers.born || message->length == 0)
        return NULL;
    uint32_t child = servers.children[message->code - 1], operation = message->body[0];
    if (message->length == 1 && operation >= 2 && operation <= 4)
        return next_message(MANAGER, child, ORDERS[operation]);
    if (message->length == 2 && operation == 5 && message->body[1] == 0)
        return keep_pending(next_message(MANAGER, child, MOVE), message);
    return NULL;
}

// The link that was kept with the request which this message answers.
static Link take_pending(const Message *message) {
    uint32_t place = 0;
    while (servers.pending[place].number != message->number)
        place++;
    Link link = servers.pending[place].answer;
    memmove(&servers.pending[place], &servers.pending[place + 1], (--servers.waiting - place) * sizeof(Pending));
    return link;
}

static Message *serve_manager(const Message *message) {
    if (message->kind == USER) {
        Message *sent = message->code ? control_child(message) : want_child(message);
        return sent ? sent : over(MANAGER, message->enclosed ? &message->links[0] : NULL, 2, NULL);
    }
    Link link = take_pending(message);
    if (message->kind == MOVED)
        return over(MANAGER, &link, (uint8_t)message->about, NULL);
    if (message->kind == NO_ROOM)
        return over(MANAGER, &link, 1, NULL);
    add_child(message->about);
    Link control = {.there = true, .to = MANAGER, .code = servers.born};
    return over(MANAGER, &link, 0, &control);
}

// Does what a message for a server asks: what that one sends then, if anything.
Message *serve(const Message *message) {
    return message->to == SWITCHBOARD ? serve_switchboard(message) : serve_manager(message);
}
