/* Put before libc by LD_PRELOAD: looks hosts up in the file NAMES in place of the system's resolver. Each of its lines
   is a host and what is found: addresses with commas between them, `nothing`, `silence` of the name servers, or
   `hangs`, which lasts until the line is another one. Each look-up adds a line with the host to the file LOOKED_UP. */
#define _GNU_SOURCE
#include <dlfcn.h>
#include <netdb.h>
#include <stdio.h>
#include <stdlib.h>
#include <string.h>
#include <unistd.h>

typedef int resolver(const char *, const char *, const struct addrinfo *, struct addrinfo **);

/* What the file says of the host now; nothing where it has no line. */
static void read_answer(const char *host, char *answer, size_t size) {
    char name[256], said[256];
    snprintf(answer, size, "nothing");
    FILE *file = fopen(getenv("NAMES"), "r");
    if (!file)
        return;
    while (fscanf(file, "%255s %255s", name, said) == 2)
        if (strcmp(name, host) == 0)
            snprintf(answer, size, "%s", said);
    fclose(file);
}

static void note(const char *host) {
    FILE *file = fopen(getenv("LOOKED_UP"), "a");
    if (file) {
        fprintf(file, "%s\n", host);
        fclose(file);
    }
}

int getaddrinfo(const char *host, const char *service, const struct addrinfo *hints, struct addrinfo **found) {
    resolver *next = (resolver *)dlsym(RTLD_NEXT, "getaddrinfo");
    char answer[256];
    if (!host || !getenv("NAMES"))
        return next(host, service, hints, found);
    note(host);
    for (read_answer(host, answer, sizeof answer); strcmp(answer, "hangs") == 0; usleep(10000))
        read_answer(host, answer, sizeof answer);
    if (strcmp(answer, "nothing") == 0)
        return EAI_NONAME;
    if (strcmp(answer, "silence") == 0)
        return EAI_AGAIN;
    struct addrinfo **end = found;
    for (char *rest, *address = strtok_r(answer, ",", &rest); address; address = strtok_r(NULL, ",", &rest)) {
        int status = next(address, service, hints, end);
        if (status != 0)
            return status;
        while (*end)
            end = &(*end)->ai_next;
    }
    return 0;
}
