// The floor of bench/serve: what one worker of `serve` costs if it routes and changes nothing. It takes one connection after another at
// 127.0.0.1:PORT; for each request without a body on it, it opens a connection to 127.0.0.1:UPSTREAM, sends it the request as it came, and gives
// back what comes until that connection ends. A connection ends behind 1,000 requests.
// usage: serve_relay PORT UPSTREAM
#define _GNU_SOURCE
#include <arpa/inet.h>
#include <netinet/in.h>
#include <netinet/tcp.h>
#include <stdlib.h>
#include <string.h>
#include <sys/socket.h>
#include <unistd.h>

enum { MOST_REQUESTS = 1000, MOST = 65536 };

static const char CLOSE[] = "\r\nconnection: close";

static struct sockaddr_in loopback(const char *port) {
  struct sockaddr_in at = {.sin_family = AF_INET, .sin_port = htons((unsigned short)atoi(port))};
  at.sin_addr.s_addr = htonl(INADDR_LOOPBACK);
  return at;
}

static int send_all(int to, const char *bytes, size_t length) {
  while (length > 0) {
    ssize_t size = send(to, bytes, length, MSG_NOSIGNAL);
    if (size <= 0) return 0;
    bytes += size;
    length -= (size_t)size;
  }
  return 1;
}

// Gives the upstream the request, and keeps what it answers: how many bytes, 0 where it can't be reached.
static size_t ask(struct sockaddr_in *upstream, const char *request, size_t length, char *answer) {
  int to = socket(AF_INET, SOCK_STREAM, 0), yes = 1;
  size_t received = 0;
  ssize_t size = 0;
  setsockopt(to, IPPROTO_TCP, TCP_NODELAY, &yes, sizeof yes);
  if (!connect(to, (struct sockaddr *)upstream, sizeof *upstream) && send_all(to, request, length))
    while (received < MOST && (size = read(to, answer + received, MOST - received)) > 0) received += (size_t)size;
  close(to);
  return received;
}

// Gives the client the answer, of the last request with a field that says so.
static int give(int client, const char *answer, size_t length, int last) {
  const char *line = memmem(answer, length, "\r\n", 2);
  if (!last) return send_all(client, answer, length);
  return line && send_all(client, answer, (size_t)(line - answer)) && send_all(client, CLOSE, sizeof CLOSE - 1) &&
         send_all(client, line, length - (size_t)(line - answer));
}

static void serve(int client, struct sockaddr_in *upstream) {
  static char request[MOST], answer[MOST];
  size_t held = 0;
  for (int number = 1; number <= MOST_REQUESTS; number++) {
    char *end;
    while (!(end = memmem(request, held, "\r\n\r\n", 4))) {
      ssize_t size = held < MOST ? read(client, request + held, MOST - held) : 0;
      if (size <= 0) return;
      held += (size_t)size;
    }
    size_t length = (size_t)(end - request) + 4, received = ask(upstream, request, length, answer);
    if (received == 0 || !give(client, answer, received, number == MOST_REQUESTS)) return;
    held -= length;
    memmove(request, request + length, held);
  }
}

int main(int count, char **words) {
  if (count != 3) return 2;
  struct sockaddr_in at = loopback(words[1]), upstream = loopback(words[2]);
  int listener = socket(AF_INET, SOCK_STREAM, 0), yes = 1;
  setsockopt(listener, SOL_SOCKET, SO_REUSEADDR, &yes, sizeof yes);
  if (bind(listener, (struct sockaddr *)&at, sizeof at) || listen(listener, 4096)) return 1;
  for (;;) {
    int client = accept(listener, NULL, NULL);
    if (client < 0) continue;
    setsockopt(client, IPPROTO_TCP, TCP_NODELAY, &yes, sizeof yes);
    serve(client, &upstream);
    close(client);
  }
}
