# redis-rb: the word is the port.
require "redis"

def check(is_so, otherwise)
  abort otherwise unless is_so
end

client = Redis.new(host: "127.0.0.1", port: ARGV[0].to_i, timeout: 60)
check client.ping == "PONG", "PING"
check client.set("key:0", "hello") == "OK" && client.get("key:0") == "hello", "SET, GET"
check client.get("key:1").nil?, "GET of nothing"
check client.set("key:0", "other", nx: true) == false, "SET NX"

found = client.pipelined do |pipeline|
  200.times { |number| pipeline.set("key:#{number}", "value #{number}") }
  200.times { |number| pipeline.get("key:#{number}") }
end
check found == ["OK"] * 200 + (0...200).map { |number| "value #{number}" }, "pipeline"

large = "0123456789abcdef" * (1 << 18)
check client.set("key:7", large) == "OK" && client.get("key:7") == large, "a large value"
check client.mset("key:1", "a", "key:2", "b") == "OK", "MSET"
check client.mget("key:1", "key:2", "nothing") == ["a", "b", nil], "MGET"
check (1..3).map { client.incr("counter") } == [1, 2, 3], "INCR"
check client.del("key:1", "key:2", "nothing") == 2, "DEL"
begin
  client.incr("key:3")
  abort "no error"
rescue Redis::CommandError => error
  check error.message.include?("not an integer"), "INCR of a text"
end
puts "ok"
