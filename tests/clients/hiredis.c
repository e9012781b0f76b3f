/* hiredis: the word is the port. */
#include <hiredis/hiredis.h>
#include <stdio.h>
#include <stdlib.h>
#include <string.h>

static redisContext *client;

static void check(int is_so, const char *otherwise) {
    if (!is_so) {
        fprintf(stderr, "%s\n", otherwise);
        exit(1);
    }
}

static int is_text(redisReply *reply, const char *wanted, size_t length) {
    int same = reply && reply->str && reply->len == length && memcmp(reply->str, wanted, length) == 0;
    freeReplyObject(reply);
    return same;
}

static int is_number(redisReply *reply, long long wanted) {
    int same = reply && reply->type == REDIS_REPLY_INTEGER && reply->integer == wanted;
    freeReplyObject(reply);
    return same;
}

int main(int count, char **words) {
    check(count == 2, "the word is a port");
    client = redisConnect("127.0.0.1", atoi(words[1]));
    check(client && !client->err, "connect");
    check(is_text(redisCommand(client, "PING"), "PONG", 4), "PING");
    check(is_text(redisCommand(client, "SET key:0 hello"), "OK", 2), "SET");
    check(is_text(redisCommand(client, "GET key:0"), "hello", 5), "GET");

    for (int number = 0; number < 200; number++) redisAppendCommand(client, "SET key:%d value-%d", number, number);
    for (int number = 0; number < 200; number++) redisAppendCommand(client, "GET key:%d", number);
    for (int number = 0; number < 400; number++) {
        char wanted[32] = "OK";
        redisReply *reply = NULL;
        if (number >= 200) snprintf(wanted, sizeof wanted, "value-%d", number - 200);
        check(redisGetReply(client, (void **)&reply) == REDIS_OK && is_text(reply, wanted, strlen(wanted)), "pipeline");
    }

    size_t length = 4 << 20;
    char *large = malloc(length);
    for (size_t place = 0; place < length; place++) large[place] = (char)place;
    check(is_text(redisCommand(client, "SET key:7 %b", large, length), "OK", 2), "SET of a large value");
    check(is_text(redisCommand(client, "GET key:7"), large, length), "GET of a large value");
    check(is_text(redisCommand(client, "MSET key:1 a key:2 b"), "OK", 2), "MSET");
    redisReply *values = redisCommand(client, "MGET key:1 key:2 nothing");
    check(values && values->elements == 3 && !strcmp(values->element[1]->str, "b") && values->element[2]->type == REDIS_REPLY_NIL, "MGET");
    for (int wanted = 1; wanted <= 3; wanted++) check(is_number(redisCommand(client, "INCR counter"), wanted), "INCR");
    check(is_number(redisCommand(client, "DEL key:1 key:2 nothing"), 2), "DEL");
    redisReply *error = redisCommand(client, "INCR key:3");
    check(error && error->type == REDIS_REPLY_ERROR && strstr(error->str, "not an integer"), "INCR of a text");
    puts("ok");
    return 0;
}
