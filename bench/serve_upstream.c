// The upstream of bench/serve, bench/clients, bench/hostile and bench/soak: gives each connection at 127.0.0.1:PORT an answer of 13 bytes, and closes it.
// usage: serve_upstream PORT
#include <arpa/inet.h>
#include <pthread.h>
#include <stdlib.h>
#include <string.h>
#include <sys/socket.h>
#include <unistd.h>

enum { THREADS = 4, MOST = 65536 };

static const char ANSWER[] = "HTTP/1.1 200 OK\r\ncontent-type: text/plain\r\ncontent-length: 13\r\n\r\nHello, world!";

static int listener;

// Reads a head, which ends at its first empty line: whether one came.
static int read_head(int from) {
  char head[MOST + 1];
  size_t length = 0;
  while (length < MOST) {
    ssize_t size = read(from, head + length, MOST - length);
    if (size <= 0) return 0;
    length += (size_t)size;
    head[length] = 0;
    if (strstr(head, "\r\n\r\n")) return 1;
  }
  return 0;
}

static void *serve(void *unused) {
  for (;;) {
    int client = accept(listener, NULL, NULL);
    if (client < 0) continue;
    if (read_head(client)) (void)!send(client, ANSWER, sizeof ANSWER - 1, MSG_NOSIGNAL);
    close(client);
  }
  return unused;
}

int main(int count, char **words) {
  struct sockaddr_in at = {.sin_family = AF_INET, .sin_port = htons((unsigned short)(count > 1 ? atoi(words[1]) : 0))};
  int yes = 1;
  pthread_t thread;
  at.sin_addr.s_addr = htonl(INADDR_LOOPBACK);
  listener = socket(AF_INET, SOCK_STREAM, 0);
  setsockopt(listener, SOL_SOCKET, SO_REUSEADDR, &yes, sizeof yes);
  if (bind(listener, (struct sockaddr *)&at, sizeof at) || listen(listener, 4096)) return 1;
  for (int n = 1; n < THREADS; n++)
    if (pthread_create(&thread, NULL, serve, NULL)) return 1;
  serve(NULL);
}
