/* Frames messages with http_parser and copies out the same texts as gateward does: of a request its method and target, of a
   response its phrase; the fields, and the body. Usage: frames MESSAGE request|response PIECE COUNT; prints nanoseconds, and how many
   fields there were. */
#include <http_parser.h>
#include <stdint.h>
#include <stdio.h>
#include <stdlib.h>
#include <string.h>
#include <time.h>

struct text { char *bytes; size_t size, room; };
struct message { struct text line, body, fields[256]; size_t count; int in_value; uint64_t total; };

static void add(struct text *text, const char *at, size_t size) {
  if (text->size + size > text->room) {
    text->room = text->size + size > 2 * text->room ? text->size + size : 2 * text->room;
    text->bytes = realloc(text->bytes, text->room);
  }
  memcpy(text->bytes + text->size, at, size);
  text->size += size;
}

static void clear(struct text *text) {
  free(text->bytes);
  memset(text, 0, sizeof *text);
}

static struct message *of(http_parser *parser) { return parser->data; }

static int on_line(http_parser *parser, const char *at, size_t size) {
  add(&of(parser)->line, at, size);
  return 0;
}

static int on_name(http_parser *parser, const char *at, size_t size) {
  struct message *message = of(parser);
  if (message->in_value || message->count == 0) message->count += message->count == 0 ? 1 : 2;
  message->in_value = 0;
  add(&message->fields[message->count - 1], at, size);
  return 0;
}

static int on_value(http_parser *parser, const char *at, size_t size) {
  struct message *message = of(parser);
  message->in_value = 1;
  add(&message->fields[message->count], at, size);
  return 0;
}

static int on_body(http_parser *parser, const char *at, size_t size) {
  add(&of(parser)->body, at, size);
  return 0;
}

static int on_complete(http_parser *parser) {
  struct message *message = of(parser);
  message->total += (message->count + 1) / 2;
  clear(&message->line);
  clear(&message->body);
  for (size_t i = 0; i <= message->count; i++) clear(&message->fields[i]);
  message->count = 0;
  message->in_value = 0;
  return 0;
}

static uint64_t now(void) {
  struct timespec t;
  clock_gettime(CLOCK_MONOTONIC, &t);
  return (uint64_t)t.tv_sec * 1000000000u + (uint64_t)t.tv_nsec;
}

int main(int count, char **words) {
  if (count != 5) return 2;
  FILE *file = fopen(words[1], "rb");
  static char bytes[1 << 20];
  size_t size = fread(bytes, 1, sizeof bytes, file);
  enum http_parser_type type = strcmp(words[2], "request") == 0 ? HTTP_REQUEST : HTTP_RESPONSE;
  size_t piece = strtoul(words[3], NULL, 10);
  unsigned long times = strtoul(words[4], NULL, 10);
  http_parser_settings settings;
  http_parser_settings_init(&settings);
  settings.on_url = on_line;
  settings.on_status = on_line;
  settings.on_header_field = on_name;
  settings.on_header_value = on_value;
  settings.on_body = on_body;
  settings.on_message_complete = on_complete;
  static struct message message;
  http_parser parser;
  http_parser_init(&parser, type);
  parser.data = &message;
  uint64_t start = now();
  for (unsigned long i = 0; i < times; i++) {
    for (size_t at = 0; at < size; at += piece) {
      size_t part = size - at < piece ? size - at : piece;
      if (http_parser_execute(&parser, &settings, bytes + at, part) != part) return 1;
    }
  }
  printf("%llu %llu\n", (unsigned long long)(now() - start), (unsigned long long)message.total);
  return 0;
}
