// node-redis: the word is the port.
const assert = require("assert");
const redis = require("redis");

async function main() {
  const client = redis.createClient({ url: `redis://127.0.0.1:${process.argv[2]}` });
  await client.connect();
  assert.equal(await client.ping(), "PONG");
  assert.equal(await client.set("key:0", "hello"), "OK");
  assert.equal(await client.get("key:0"), "hello");
  assert.equal(await client.get("key:1"), null);
  assert.equal(await client.set("key:0", "other", { NX: true }), null);

  // commands of one turn of the loop go in one pipeline
  const numbers = [...Array(200).keys()];
  await Promise.all(numbers.map((it) => client.set(`key:${it}`, `value ${it}`)));
  const values = await Promise.all(numbers.map((it) => client.get(`key:${it}`)));
  assert.deepEqual(values, numbers.map((it) => `value ${it}`));

  const large = Buffer.alloc(4 << 20, "0123456789abcdef");
  await client.set("key:7", large);
  const read = await client.get(redis.commandOptions({ returnBuffers: true }), "key:7");
  assert(large.equals(read));
  await client.mSet({ "key:1": "a", "key:2": "b" });
  assert.deepEqual(await client.mGet(["key:1", "key:2", "nothing"]), ["a", "b", null]);
  for (const wanted of [1, 2, 3]) assert.equal(await client.incr("counter"), wanted);
  assert.equal(await client.del(["key:1", "key:2", "nothing"]), 2);
  await assert.rejects(client.incr("key:3"), /not an integer/);
  await client.quit();
  console.log("ok");
}

main();
