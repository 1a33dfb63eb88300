// A process: its instructions, its calls, its receives and its data moves (docs/FORMATS.md, "Instructions"; docs/SYSTEM.md, "Calls"
// and "Data moves").
#include "kernel.h"

#include <stdio.h>
#include <stdlib.h>
#include <string.h>

const Boot *boot;

// Lists and messages

void append(List *list, Message *message) {
    message->next = NULL;
    if (list->first)
        list->last->next = message;
    else
        list->first = message;
    list->last = message;
}

// The first message of a list that isn't empty, which leaves it.
Message *first_of(List *list) {
    Message *message = list->first;
    list->first = message->next;
    return message;
}

Message *new_message(uint32_t from, uint32_t number, uint32_t to, Kind kind) {
    Message *message = calloc(1, sizeof *message);
    message->from = message->sender = from;
    message->number = number;
    message->to = to;
    message->kind = kind;
    return message;
}

// A kernel's answer to a request, under its name.
Message *answer(const Message *request, uint32_t sender, Kind kind) {
    Message *message = new_message(request->from, request->number, request->sender, kind);
    message->answers = true;
    message->sender = sender;
    return message;
}

static Message *next_message(Process *process, uint32_t to, Kind kind) {
    return new_message(process->number, process->sent++, to, kind);
}

// Processes

static uint64_t memory_of(const Process *process) {
    return (uint64_t)BLOCK * process->blocks;
}

static bool is_within(const Process *process, uint32_t at, uint32_t length) {
    return (uint64_t)at + length <= memory_of(process);
}

Process *new_process(uint32_t number, uint32_t image, const Link *links, uint32_t count) {
    Process *process = calloc(1, sizeof *process);
    process->number = number;
    process->blocks = boot->image[image].blocks;
    process->memory = calloc(process->blocks, BLOCK);
    memcpy(process->memory, boot->image[image].bytes, boot->image[image].size);
    memcpy(process->table, links, count * sizeof *links);
    return process;
}

static Link *link_in(Process *process, uint32_t slot) {
    return slot < boot->slots && process->table[slot].there ? &process->table[slot] : NULL;
}

static uint32_t empty_slots(const Process *process) {
    uint32_t count = 0;
    for (uint32_t slot = 0; slot < boot->slots; slot++)
        count += !process->table[slot].there;
    return count;
}

// Puts a link into the lowest empty slot, which there is.
static uint32_t keep(Process *process, Link link) {
    uint32_t slot = 0;
    while (process->table[slot].there)
        slot++;
    process->table[slot] = link;
    return slot;
}

// Instructions

static uint32_t word_at(const uint8_t *bytes) {
    return (uint32_t)bytes[0] << 24 | (uint32_t)bytes[1] << 16 | (uint32_t)bytes[2] << 8 | bytes[3];
}

static uint32_t computed(uint8_t operation, uint32_t x, uint32_t y) {
    switch (operation) {
    case 4: return x + y;
    case 5: return x - y;
    case 6: return x * y;
    case 7: return x & y;
    case 8: return x | y;
    case 9: return x ^ y;
    case 10: return x << y % 32;
    default: return x >> y % 32;
    }
}

// A load or a store: 0, or its fault.
static uint32_t access_memory(Process *process, uint8_t operation, uint32_t *ra, uint32_t rb, uint8_t offset) {
    uint64_t address = (uint64_t)rb + offset;
    uint32_t size = operation < 14 ? 4 : 1;
    if (address + size > memory_of(process))
        return 1;
    if (address % size)
        return 3;
    uint8_t *at = process->memory + address;
    if (operation == 12)
        *ra = word_at(at);
    else if (operation == 14)
        *ra = *at;
    else if (operation == 15)
        *at = (uint8_t)*ra;
    else
        for (int i = 0; i < 4; i++)
            at[i] = (uint8_t)(*ra >> (24 - 8 * i));
    return 0;
}

static Reached step(Process *process) {
    // how many of a, b and c are registers, by operation
    static const uint8_t REGISTERS[21] = {0, 1, 1, 2, 3, 3, 3, 3, 3, 3, 3, 3, 2, 2, 2, 2, 0, 2, 2, 2, 0};
    uint32_t counter = process->counter, after = counter + 4;
    if (!is_within(process, counter, 4))
        return (Reached){FAULT, 1};
    if (counter % 4)
        return (Reached){FAULT, 3};
    const uint8_t *at = process->memory + counter;
    uint8_t operation = at[0], b = at[2], c = at[3];
    if (operation == 0 || operation > 20)
        return (Reached){FAULT, 2};
    for (int i = 1; i <= REGISTERS[operation]; i++)
        if (at[i] > 15)
            return (Reached){FAULT, 2};
    uint32_t *r = process->registers, *ra = &r[at[1] % 16], immediate = 256u * b + c, fault;
    if (operation == 1)
        *ra = immediate;
    else if (operation == 2)
        *ra = (BUG == 1 ? 0 : *ra % 65536) + 65536 * immediate;
    else if (operation == 3)
        *ra = r[b];
    else if (operation <= 11)
        *ra = computed(operation, r[b], r[c]);
    else if (operation <= 15 && (fault = access_memory(process, operation, ra, r[b], c)) != 0)
        return (Reached){FAULT, fault};
    else if (operation == 16)
        after = immediate;
    else if ((operation == 17 && *ra == r[b]) || (operation == 18 && *ra != r[b]) || (operation == 19 && *ra < r[b]))
        after = counter + 4 + 4 * (uint32_t)(int8_t)c;
    process->counter = after;
    return operation == 20 ? (Reached){CALL, c} : (Reached){PLAIN, 0};
}

// Executes plain instructions, as many as the quantum allows, up to a call or a fault: how many.
uint32_t execute(Process *process, Reached *reached) {
    for (uint32_t count = 0; count < boot->quantum; count++) {
        *reached = step(process);
        if (reached->what != PLAIN)
            return count;
    }
    *reached = (Reached){PLAIN, 0};
    return boot->quantum;
}

// Receives

// Where the first message hangs that a waiting process awaits; what hangs there is NULL where there is none.
static Message **first_awaited(const Process *process) {
    Message **at = (Message **)&process->queue.first;
    while (BUG != 2 && *at && !(process->mask >> (*at)->channel & 1))
        at = &(*at)->next;
    return at;
}

bool can_be_served(const Process *process) {
    if (process->stopped)
        return false;
    return process->status == READY || (process->status == WAITING && *first_awaited(process));
}

// Takes a message out of the queue.
static void take_out(Process *process, Message **at) {
    Message *message = *at;
    *at = message->next;
    if (process->queue.last == message) {
        process->queue.last = process->queue.first;
        while (process->queue.last && process->queue.last->next)
            process->queue.last = process->queue.last->next;
    }
}

// Ends the receive of a process that can be served: its message, and the code, 0 where it isn't refused.
uint32_t complete_receive(Process *process, Message **message) {
    Message **at = first_awaited(process);
    uint32_t *r = process->registers;
    *message = *at;
    process->status = READY;
    r[0] = (*message)->length > process->capacity ? 6 : (*message)->enclosed > empty_slots(process) ? 2 : 0;
    if (r[0] != 0)
        return r[0];
    take_out(process, at);
    memcpy(process->memory + process->buffer, (*message)->body, (*message)->length);
    r[1] = (*message)->code;
    r[2] = (*message)->channel;
    r[3] = (*message)->length;
    r[4] = (*message)->enclosed;
    for (uint32_t i = 0; i < (*message)->enclosed; i++)
        r[5 + i] = keep(process, (*message)->links[i]);
    return 0;
}

// Data moves

// The request for the piece that is due.
static Message *request_piece(Process *process) {
    process->asked = process->sent;
    Message *request = next_message(process, process->owner, process->direction ? WRITE : READ);
    request->base = process->base;
    request->length = process->left < BLOCK ? process->left : BLOCK;
    if (process->direction)
        memcpy(request->body, process->memory + process->own, request->length);
    return request;
}

// Does what a request for a piece of this process's memory asks: the answer.
Message *serve_piece(Process *process, const Message *request) {
    Message *piece = answer(request, process->number, request->kind == READ ? PIECE : WRITTEN);
    piece->length = request->length;
    if (request->kind == READ)
        memcpy(piece->body, process->memory + request->base, request->length);
    else
        memcpy(process->memory + request->base, request->body, request->length);
    return piece;
}

// A piece has come or gone, or its owner has ended: the next request, or NULL where the move is over.
Message *land_piece(Process *process, const Message *answer) {
    if (answer->kind == GONE) {
        process->registers[0] = 7;
        process->status = READY;
        return NULL;
    }
    uint32_t length = process->left < BLOCK ? process->left : BLOCK;
    if (answer->kind == PIECE)
        memcpy(process->memory + process->own, answer->body, length);
    process->base += length;
    process->own += length;
    process->left -= length;
    if (process->left) {
        process->sent -= BUG == 7;
        return request_piece(process);
    }
    process->registers[0] = 0;
    process->status = READY;
    return NULL;
}

// Calls

static Done replied(Process *process, uint32_t code) {
    process->registers[0] = code;
    return (Done){REPLIED, code, NULL};
}

static Done make(Process *process) {
    uint32_t *r = process->registers;
    if (r[3] > 7)
        return replied(process, 3);
    if (r[2] > 31 || !is_within(process, r[4], r[5]))
        return replied(process, 4);
    if (empty_slots(process) == 0)
        return replied(process, 2);
    Link link = {true, r[3] & 1, r[3] & 2, r[3] & 4, process->number, r[1], r[2], r[4], r[5]};
    r[1] = keep(process, link);
    return replied(process, 0);
}

static Done copy(Process *process) {
    const Link *link = link_in(process, process->registers[1]);
    if (!link)
        return replied(process, 1);
    if (link->reply)
        return replied(process, 8);
    if (empty_slots(process) == 0)
        return replied(process, 2);
    process->registers[1] = keep(process, *link);
    return replied(process, 0);
}

static Done drop(Process *process) {
    Link *link = link_in(process, process->registers[1]);
    if (!link)
        return replied(process, 1);
    link->there = false;
    return replied(process, 0);
}

static Done send(Process *process) {
    const uint32_t *r = process->registers;
    Link *named[1 + MOST_ENCLOSED] = {link_in(process, r[1])};
    if (!named[0])
        return replied(process, 1);
    if (r[3] > boot->longest || r[4] > MOST_ENCLOSED)
        return replied(process, 6);
    if (!is_within(process, r[2], r[3]) || !is_within(process, r[5], r[4]))
        return replied(process, 4);
    for (uint32_t i = 0; i < r[4]; i++)
        if (!(named[1 + i] = link_in(process, process->memory[r[5] + i])))
            return replied(process, 1);
    for (uint32_t i = 0; i <= r[4]; i++)
        for (uint32_t j = 0; j < i; j++)
            if (named[i] == named[j] && named[i]->reply)
                return replied(process, 3);
    Message *message = next_message(process, named[0]->to, USER);
    message->code = named[0]->code;
    message->channel = named[0]->channel;
    message->length = r[3];
    memcpy(message->body, process->memory + r[2], r[3]);
    message->enclosed = r[4];
    for (uint32_t i = 0; i < r[4]; i++)
        message->links[i] = *named[1 + i];
    for (uint32_t i = BUG == 3; i <= r[4]; i++)
        if (named[i]->reply)
            named[i]->there = false;
    process->registers[0] = 0;
    return (Done){SENDS, 0, message};
}

static Done receive(Process *process) {
    const uint32_t *r = process->registers;
    if (!is_within(process, r[2], r[3]))
        return replied(process, 4);
    process->status = WAITING;
    process->mask = r[1];
    process->buffer = r[2];
    process->capacity = r[3];
    return (Done){WAITS, 0, NULL};
}

static Done move(Process *process) {
    const uint32_t *r = process->registers;
    const Link *link = link_in(process, r[1]);
    if (!link)
        return replied(process, 1);
    if (r[2] > 1)
        return replied(process, 3);
    if (!(r[2] ? link->write : link->read))
        return replied(process, 5);
    if ((uint64_t)r[3] + r[5] > link->length || !is_within(process, r[4], r[5]))
        return replied(process, 4);
    if (r[5] == 0)
        return replied(process, 0);
    process->status = MOVING;
    process->direction = r[2];
    process->owner = link->to;
    process->base = link->base + r[3];
    process->own = r[4];
    process->left = r[5];
    return (Done){SENDS, 0, request_piece(process)};
}

Done call(Process *process, uint32_t number) {
    switch (number) {
    case 1: return (Done){ENDS, 0, NULL};
    case 2: process->registers[0] = 0; return (Done){PUT_OUT, process->registers[1], NULL};
    case 3: return make(process);
    case 4: return copy(process);
    case 5: return drop(process);
    case 6: return send(process);
    case 7: return receive(process);
    case 8: return move(process);
    default: return (Done){ENDS, 4, NULL};
    }
}
