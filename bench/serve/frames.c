// Load on a server of FetchX509SVID, by frames that are ready made: a client that costs next to nothing, so that the server's
// processor is what bounds the rate. Usage:
//
//	frames SOCKET new COUNT WORKERS    first responses, each on a connection of its own
//	frames SOCKET calls COUNT WORKERS  first responses on WORKERS open connections, each call cancelled at its response
//
// A line of seconds and of responses a second.
#include <pthread.h>
#include <stdatomic.h>
#include <stdint.h>
#include <stdio.h>
#include <stdlib.h>
#include <string.h>
#include <sys/socket.h>
#include <sys/un.h>
#include <time.h>
#include <unistd.h>

// RFC 9113, section 6
enum { DATA = 0, HEADERS = 1, RST_STREAM = 3, SETTINGS = 4, PING = 6, GOAWAY = 7, WINDOW_UPDATE = 8 };
enum { END_STREAM = 1, ACK = 1, END_HEADERS = 4, INITIAL_WINDOW_SIZE = 4, CANCEL = 8 };
enum { FRAME_HEAD = 9, MESSAGE_HEAD = 5, LARGEST_WINDOW = 0x7fffffff, INITIAL_WINDOW = 65535 };

static const char *path;
static long count, workers;
static int on_new_connections;
static atomic_long begun;

struct connection {
	int socket;
	uint32_t stream;
	size_t written, filled;
	uint8_t output[4096], input[1 << 18];
};

static void fail(const char *what)
{
	perror(what);
	exit(1);
}

static void put(struct connection *it, const void *bytes, size_t length)
{
	if (it->written + length > sizeof it->output)
		fail("output");
	memcpy(it->output + it->written, bytes, length);
	it->written += length;
}

static void put_number(struct connection *it, uint32_t number)
{
	put(it, (uint8_t[]){number >> 24, number >> 16, number >> 8, number}, 4);
}

static void put_frame_head(struct connection *it, size_t length, uint8_t type, uint8_t flags, uint32_t stream)
{
	put(it, (uint8_t[]){length >> 16, length >> 8, length, type, flags}, 5);
	put_number(it, stream);
}

static void flush(struct connection *it)
{
	size_t sent = 0;
	while (sent < it->written) {
		ssize_t some = send(it->socket, it->output + sent, it->written - sent, MSG_NOSIGNAL);
		if (some <= 0)
			fail("send");
		sent += some;
	}
	it->written = 0;
}

static void connect_to(struct connection *it)
{
	struct sockaddr_un address = {.sun_family = AF_UNIX};
	strncpy(address.sun_path, path, sizeof address.sun_path - 1);
	it->socket = socket(AF_UNIX, SOCK_STREAM, 0);
	if (it->socket < 0 || connect(it->socket, (struct sockaddr *)&address, sizeof address))
		fail("connect");
	it->stream = it->written = it->filled = 0;
	put(it, "PRI * HTTP/2.0\r\n\r\nSM\r\n\r\n", 24);
	put_frame_head(it, 6, SETTINGS, 0, 0);
	put(it, (uint8_t[]){0, INITIAL_WINDOW_SIZE}, 2);
	put_number(it, LARGEST_WINDOW);
	put_frame_head(it, 4, WINDOW_UPDATE, 0, 0);
	put_number(it, LARGEST_WINDOW - INITIAL_WINDOW);
}

// POST by http, with five headers that the first call files in the dynamic table and later ones name by their index there.
static void call(struct connection *it)
{
	static const char first[] = "\x83\x86\x44\x20/SpiffeWorkloadAPI/FetchX509SVID\x41\x09localhost\x5f\x10"
				    "application/grpc\x40\x02te\x08trailers\x40\x12workload.spiffe.io\x04true";
	static const char later[] = "\x83\x86\xc2\xc1\xc0\xbf\xbe";
	const char *block = it->stream ? later : first;
	if (it->stream) {
		put_frame_head(it, 4, RST_STREAM, 0, it->stream);
		put_number(it, CANCEL);
		it->stream += 2;
	} else {
		it->stream = 1;
	}
	size_t length = (it->stream == 1 ? sizeof first : sizeof later) - 1;
	put_frame_head(it, length, HEADERS, END_HEADERS, it->stream);
	put(it, block, length);
	put_frame_head(it, MESSAGE_HEAD, DATA, END_STREAM, it->stream);
	put(it, (uint8_t[MESSAGE_HEAD]){0}, MESSAGE_HEAD);
}

static void receive(struct connection *it, size_t wanted)
{
	while (it->filled < wanted) {
		flush(it);
		ssize_t some = recv(it->socket, it->input + it->filled, sizeof it->input - it->filled, 0);
		if (some <= 0)
			fail("recv");
		it->filled += some;
	}
}

static void drop(struct connection *it, size_t length)
{
	it->filled -= length;
	memmove(it->input, it->input + length, it->filled);
}

// Reads frames until the call's first message is whole.
static void response(struct connection *it)
{
	size_t got = 0, wanted = MESSAGE_HEAD;
	while (got < wanted) {
		receive(it, FRAME_HEAD);
		uint8_t *head = it->input, *body = head + FRAME_HEAD;
		size_t length = head[0] << 16 | head[1] << 8 | head[2];
		uint32_t stream = head[5] << 24 | head[6] << 16 | head[7] << 8 | head[8];
		receive(it, FRAME_HEAD + length);
		if (head[3] == GOAWAY || (head[3] == RST_STREAM && stream == it->stream))
			fail("the server ended the call");
		if (head[3] == SETTINGS && !(head[4] & ACK))
			put_frame_head(it, 0, SETTINGS, ACK, 0);
		if (head[3] == PING && !(head[4] & ACK)) {
			put_frame_head(it, length, PING, ACK, 0);
			put(it, body, length);
		}
		if (head[3] == DATA && stream == it->stream) {
			if (!got && length < MESSAGE_HEAD)
				fail("a message's head in pieces");
			if (!got)
				wanted += (size_t)body[1] << 24 | body[2] << 16 | body[3] << 8 | body[4];
			got += length;
		}
		drop(it, FRAME_HEAD + length);
	}
}

static void *work(void *unused)
{
	struct connection *it = malloc(sizeof *it);
	connect_to(it);
	while (atomic_fetch_add(&begun, 1) < count) {
		call(it);
		response(it);
		if (on_new_connections) {
			close(it->socket);
			connect_to(it);
		}
	}
	close(it->socket);
	free(it);
	return unused;
}

int main(int number, char **words)
{
	if (number != 5)
		return 2;
	path = words[1];
	on_new_connections = !strcmp(words[2], "new");
	count = atol(words[3]);
	workers = atol(words[4]);
	pthread_t threads[workers];
	struct timespec from, to;
	clock_gettime(CLOCK_MONOTONIC, &from);
	for (long i = 0; i < workers; i++)
		if (pthread_create(&threads[i], NULL, work, NULL))
			fail("thread");
	for (long i = 0; i < workers; i++)
		pthread_join(threads[i], NULL);
	clock_gettime(CLOCK_MONOTONIC, &to);
	double seconds = to.tv_sec - from.tv_sec + (to.tv_nsec - from.tv_nsec) / 1e9;
	printf("%.3f %.0f\n", seconds, count / seconds);
}
