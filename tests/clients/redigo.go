// redigo: the word is the port.
package main

import (
	"bytes"
	"fmt"
	"log"
	"os"
	"strings"

	"github.com/gomodule/redigo/redis"
)

func check(isSo bool, otherwise string) {
	if !isSo {
		log.Fatal(otherwise)
	}
}

func main() {
	client, err := redis.Dial("tcp", "127.0.0.1:"+os.Args[1])
	check(err == nil, "dial")
	said, err := redis.String(client.Do("PING"))
	check(err == nil && said == "PONG", "PING")
	said, err = redis.String(client.Do("SET", "key:0", "hello"))
	check(err == nil && said == "OK", "SET")
	said, err = redis.String(client.Do("GET", "key:0"))
	check(err == nil && said == "hello", "GET")
	_, err = redis.String(client.Do("GET", "key:1"))
	check(err == redis.ErrNil, "GET of nothing")

	for number := 0; number < 200; number++ {
		client.Send("SET", fmt.Sprintf("key:%d", number), fmt.Sprintf("value %d", number))
	}
	for number := 0; number < 200; number++ {
		client.Send("GET", fmt.Sprintf("key:%d", number))
	}
	client.Flush()
	for number := 0; number < 400; number++ {
		said, err = redis.String(client.Receive())
		wanted := "OK"
		if number >= 200 {
			wanted = fmt.Sprintf("value %d", number-200)
		}
		check(err == nil && said == wanted, "pipeline")
	}

	large := bytes.Repeat([]byte("0123456789abcdef"), 1<<18)
	_, err = client.Do("SET", "key:7", large)
	check(err == nil, "SET of a large value")
	read, err := redis.Bytes(client.Do("GET", "key:7"))
	check(err == nil && bytes.Equal(read, large), "GET of a large value")
	_, err = client.Do("MSET", "key:1", "a", "key:2", "b")
	check(err == nil, "MSET")
	values, err := redis.ByteSlices(client.Do("MGET", "key:1", "key:2", "nothing"))
	check(err == nil && string(values[0]) == "a" && string(values[1]) == "b" && values[2] == nil, "MGET")
	for wanted := 1; wanted <= 3; wanted++ {
		found, err := redis.Int(client.Do("INCR", "counter"))
		check(err == nil && found == wanted, "INCR")
	}
	deleted, err := redis.Int(client.Do("DEL", "key:1", "key:2", "nothing"))
	check(err == nil && deleted == 2, "DEL")
	_, err = client.Do("INCR", "key:3")
	check(err != nil && strings.Contains(err.Error(), "not an integer"), "INCR of a text")
	fmt.Println("ok")
}
