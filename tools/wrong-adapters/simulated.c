/* What wrong adapters do, as a library that is loaded before the C library: WRONG_ADAPTER names one of them, by the name
 * of its file NAME.edit beside this one. A link is a connection that was accepted, with its number from 1; a descriptor
 * that was made of another one is of the same link. The one of number 0 stands for all others: what was dialed. */
#define _GNU_SOURCE
#include <dlfcn.h>
#include <errno.h>
#include <fcntl.h>
#include <netinet/in.h>
#include <stdarg.h>
#include <stdlib.h>
#include <string.h>
#include <sys/socket.h>
#include <time.h>
#include <unistd.h>

#define DESCRIPTORS 65536
#define LINKS 4096
#define PIECE 4096
#define MEGABYTE 1048576

struct link {
    size_t sent, came, reads, kept;
    int descriptors;
    char piece[PIECE];
};

static struct link links[LINKS];
static int link_of[DESCRIPTORS];
static long accepted, received;

#define NEXT(name) static __typeof__(&name) next; if (!next) next = (__typeof__(&name))dlsym(RTLD_NEXT, #name)

static int is(const char *name) {
    const char *wrong = getenv("WRONG_ADAPTER");
    return wrong && strcmp(wrong, name) == 0;
}

static struct link *of(int file) {
    return &links[file >= 0 && file < DESCRIPTORS ? link_of[file] : 0];
}

static void join(int file, int number) {
    if (file < 0 || file >= DESCRIPTORS || number <= 0 || number >= LINKS) return;
    link_of[file] = number;
    __atomic_add_fetch(&links[number].descriptors, 1, __ATOMIC_SEQ_CST);
}

static int is_open(int number) {
    return __atomic_load_n(&links[number].descriptors, __ATOMIC_SEQ_CST) > 0;
}

static int open_links(void) {
    int count = 0;
    for (int i = 1; i < LINKS; i++) count += is_open(i);
    return count;
}

static void wait_a_moment(void) {
    usleep(2000);
}

int getentropy(void *room, size_t count) {
    NEXT(getentropy);
    int constant = is("random_bytes_are_constant");
    if (!constant && !is("random_bytes_are_the_same_in_each_run")) return next(room, count);
    for (size_t i = 0; i < count; i++) ((char *)room)[i] = constant ? 7 : random();
    return 0;
}

int clock_gettime(clockid_t clock, struct timespec *now) {
    NEXT(clock_gettime);
    static struct timespec first;
    int status = next(clock, now);
    if (clock != CLOCK_REALTIME) return status;
    if (!first.tv_sec) first = *now;
    if (is("the_clock_stands")) *now = first;
    if (is("the_clock_tells_seconds_alone")) now->tv_nsec = 0;
    if (is("the_clock_falls")) now->tv_nsec = 999999999 - now->tv_nsec;
    if (is("the_clock_is_an_hour_behind")) now->tv_sec -= 3600;
    return status;
}

int bind(int file, const struct sockaddr *address, socklen_t size) {
    NEXT(bind);
    struct sockaddr_in all;
    if (!is("the_door_listens_at_all_addresses") || size != sizeof all) return next(file, address, size);
    memcpy(&all, address, size);
    all.sin_addr.s_addr = htonl(INADDR_ANY);
    return next(file, (struct sockaddr *)&all, size);
}

int accept4(int file, struct sockaddr *address, socklen_t *size, int flags) {
    NEXT(accept4);
    while (is("connections_past_200_are_not_served") && open_links() >= 200) wait_a_moment();
    int link = next(file, address, size, flags);
    if (link >= 0) join(link, ++accepted);
    return link;
}

int fcntl(int file, int command, ...) {
    NEXT(fcntl);
    va_list rest;
    va_start(rest, command);
    long argument = va_arg(rest, long);
    va_end(rest);
    int made = next(file, command, argument);
    if (command == F_DUPFD || command == F_DUPFD_CLOEXEC) join(made, of(file) - links);
    return made;
}

int close(int file) {
    NEXT(close);
    struct link *link = of(file);
    if (link != links) {
        link_of[file] = 0;
        __atomic_sub_fetch(&link->descriptors, 1, __ATOMIC_SEQ_CST);
    }
    return next(file);
}

int shutdown(int file, int how) {
    NEXT(shutdown);
    if (is("a_shut_link_stays_open")) return 0;
    return next(file, is("a_shut_link_is_read_on") ? SHUT_WR : how);
}

ssize_t send(int file, const void *bytes, size_t count, int flags) {
    NEXT(send);
    struct link *link = of(file);
    const char *name = link == links ? "dialed_bytes_past_16_megabytes_are_dropped" : "bytes_past_16_megabytes_are_dropped";
    if (is(name) && link->sent > 16 * MEGABYTE) return count;
    ssize_t sent = next(file, bytes, count, flags);
    if (sent > 0) link->sent += sent;
    return sent;
}

ssize_t recv(int file, void *room, size_t count, int flags) {
    NEXT(recv);
    struct link *link = of(file);
    int number = link - links;
    __atomic_add_fetch(&received, 1, __ATOMIC_SEQ_CST);
    while (is("a_connection_waits_for_the_one_before") && number > 1 && is_open(number - 1)) wait_a_moment();
    if (is("a_link_ends_after_8_megabytes") && link->came > 8 * MEGABYTE) return 0;
    if (is("a_read_repeats_bytes") && ++link->reads % 1000 == 0 && link->kept <= count) {
        memcpy(room, link->piece, link->kept);
        return link->kept;
    }
    ssize_t came = next(file, room, count, flags);
    if (came > 0) {
        link->came += came;
        link->kept = came < PIECE ? came : PIECE;
        memcpy(link->piece, room, link->kept);
    }
    return came;
}

/* whether there is none any more */
static int is_out(void) {
    return received > 10000 && is("memory_runs_out_after_10000_messages");
}

void *malloc(size_t size) {
    NEXT(malloc);
    if (!is_out()) return next(size);
    errno = ENOMEM;
    return NULL;
}

void *realloc(void *old, size_t size) {
    NEXT(realloc);
    if (!is_out()) return next(old, size);
    errno = ENOMEM;
    return NULL;
}
