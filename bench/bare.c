/* The least that a server does with one connection a request: each thread accepts, receives, sends
 * a reply and closes, whatever the client sends. All threads share one listening socket of loopback.
 *
 *     bare PORT THREADS REPLY
 *
 * REPLY is a file with the bytes of the reply, at most 64 KiB. */
#include <arpa/inet.h>
#include <pthread.h>
#include <stdint.h>
#include <stdio.h>
#include <stdlib.h>
#include <sys/socket.h>
#include <unistd.h>

#define BACKLOG 1024

static char reply[1 << 16];
static size_t reply_bytes;

static void fail(const char *what)
{
	perror(what);
	exit(1);
}

static int listening(uint16_t port)
{
	struct sockaddr_in place = {.sin_family = AF_INET, .sin_port = htons(port)};
	int listener = socket(AF_INET, SOCK_STREAM, 0), yes = 1;

	place.sin_addr.s_addr = htonl(INADDR_LOOPBACK);
	setsockopt(listener, SOL_SOCKET, SO_REUSEADDR, &yes, sizeof yes);
	if (bind(listener, (struct sockaddr *)&place, sizeof place) != 0)
		fail("bind");
	if (listen(listener, BACKLOG) != 0)
		fail("listen");
	return listener;
}

static void *answer_all(void *argument)
{
	int listener = *(int *)argument;
	char request[4096];

	for (;;) {
		int stream = accept(listener, NULL, NULL);

		if (stream < 0)
			continue;
		if (recv(stream, request, sizeof request, 0) > 0)
			send(stream, reply, reply_bytes, MSG_NOSIGNAL);
		close(stream);
	}
	return NULL;
}

int main(int count, char **words)
{
	if (count != 4) {
		fprintf(stderr, "usage: bare PORT THREADS REPLY\n");
		return 2;
	}
	FILE *file = fopen(words[3], "rb");
	if (file == NULL)
		fail(words[3]);
	reply_bytes = fread(reply, 1, sizeof reply, file);
	fclose(file);

	int listener = listening((uint16_t)atoi(words[1]));
	for (int more = atoi(words[2]) - 1; more > 0; more--) {
		pthread_t thread;

		if (pthread_create(&thread, NULL, answer_all, &listener) != 0)
			fail("pthread_create");
	}
	answer_all(&listener);
	return 0;
}
