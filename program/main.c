/* crossbar-player and oq-player: hands the arguments to the proved player and its answer to the system. PLAYER is the name
   of the player's function, which the Makefile gives. */
#define _POSIX_C_SOURCE 200809L
#include <signal.h>
#include <stddef.h>
#include <stdint.h>
#include <string.h>

#ifndef PLAYER
#error "PLAYER must be crossbar_player or oq_player"
#endif

uint32_t PLAYER(size_t words, const uint8_t *word, size_t length);

int main(int argc, char **argv) {
    const char *word = argc > 1 ? argv[1] : "";
    signal(SIGPIPE, SIG_IGN); /* a pipe that nobody reads is a write that fails */
    return (int)PLAYER(argc > 1 ? (size_t)argc - 1 : 0, (const uint8_t *)word, strlen(word));
}
