// A kernel of one machine, in C: what its parts share. README.md beside this file says what it reads and what it leaves out.
#ifndef KERNEL_H
#define KERNEL_H

#include <stdbool.h>
#include <stddef.h>
#include <stdint.h>

#ifndef BUG
#define BUG 0 // 1 to 7 plants one of the bugs of README.md
#endif

enum { BLOCK = 256, MOST_BODY = 256, MOST_SLOTS = 128, MOST_ENCLOSED = 4, MOST_IMAGES = 256, NAME = 17 };

// There is one machine, so a process is its number: 0 is the kernel, and 3 the first process.
enum { KERNEL = 0, SWITCHBOARD = 1, MANAGER = 2, FIRST = 3 };

typedef struct {
    bool there, reply, read, write;
    uint32_t to, code, channel, base, length;
} Link;

typedef enum { USER, STOP, RESUME, KILL, READ, WRITE, PIECE, WRITTEN, GONE, CREATE, CREATED, NO_ROOM, MIGRATE, MOVE, MOVED } Kind;

typedef struct Message {
    struct Message *next;
    uint32_t from, number; // its name, with the next
    bool answers;
    uint32_t to, sender;
    Kind kind;
    uint32_t code, channel;
    uint32_t base, length; // of a body, or of a piece
    uint32_t about;        // an image to make, a process that was made, or what came of a move
    uint32_t enclosed;
    Link links[MOST_ENCLOSED];
    uint8_t body[MOST_BODY];
} Message;

typedef struct {
    Message *first, *last;
} List;

typedef enum { READY, WAITING, MOVING } Status;

typedef struct {
    uint32_t number;
    bool ended, stopped;
    uint32_t why; // it has ended
    uint32_t blocks;
    uint8_t *memory;
    uint32_t registers[16], counter;
    Link table[MOST_SLOTS];
    Status status;
    uint32_t mask, buffer, capacity;                   // waiting
    uint32_t direction, owner, base, own, left, asked; // moving data: the piece under way, and the number of its request
    uint32_t sent;
    List queue;
} Process;

typedef struct {
    char name[NAME];
    uint32_t blocks, size;
    uint8_t *bytes;
} Image;

typedef struct {
    char name[NAME];
    uint32_t image;
    Link links[MOST_SLOTS];
} Born; // a process of the boot file

typedef struct {
    uint32_t numbers, quantum, slots, longest; // the last two: of a table, and of a body
    uint32_t room, blocks;
    uint32_t images, processes;
    Image image[MOST_IMAGES];
    Born born[64];
} Boot;

// What a step of a process reached, and what came of a call.
typedef struct {
    enum { PLAIN, CALL, FAULT } what;
    uint32_t number;
} Reached;

typedef struct {
    enum { REPLIED, PUT_OUT, WAITS, ENDS, SENDS } what;
    uint32_t value; // a code, a word, or why it ends
    Message *message;
} Done;

// boot.c
char *whole_file(const char *path);
void read_boot(char *text, Boot *boot);

// assembler.c
uint32_t assembled(char *text, uint8_t *image, uint32_t most);

// process.c
extern const Boot *boot;
void append(List *list, Message *message);
Message *first_of(List *list);
Message *new_message(uint32_t from, uint32_t number, uint32_t to, Kind kind);
Message *answer(const Message *request, uint32_t sender, Kind kind);
Process *new_process(uint32_t number, uint32_t image, const Link *links, uint32_t count);
bool can_be_served(const Process *process);
uint32_t complete_receive(Process *process, Message **message);
uint32_t execute(Process *process, Reached *reached);
Done call(Process *process, uint32_t number);
Message *serve_piece(Process *process, const Message *request);
Message *land_piece(Process *process, const Message *answer);

// servers.c
typedef struct {
    uint32_t length;
    uint8_t bytes[16];
    Link link;
} Entry; // of the switchboard

typedef struct {
    uint32_t number;
    Link answer;
} Pending; // a request of the manager's, and the link for its answer, if there is one

typedef struct {
    uint32_t sent[FIRST]; // by the switchboard, and by the manager
    Entry *names;
    uint32_t *children;
    Pending *pending;
    uint32_t known, born, waiting; // how many there are of each
} Servers;

extern Servers servers;
void add_child(uint32_t process);
bool is_child(uint32_t process);
Message *serve(const Message *message);

#endif
