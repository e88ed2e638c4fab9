# A cart and a counter of pymemcache (Debian: python3-pymemcache) over a group that loses two processes on the way. It speaks to port 11211,
# where `cocytus_main serve < examples/client.toml` listens: that a client may let processes die, other settings leave off.

from pymemcache.client.base import Client

client = Client(("127.0.0.1", 11211), default_noreply=False)
print("set", client.set("cart:7", "3 apples"), client.set("count", "41"))
print("get", client.get("cart:7"), client.get_many(["count", "none"]))
print("add", client.add("cart:7", "x"), "replace", client.replace("cart:7", "4 apples"))
value, cas = client.gets("cart:7")
print("cas", client.cas("cart:7", "5 apples", cas), client.cas("cart:7", "6 apples", cas))
print("incr", client.incr("count", 1), "decr", client.decr("count", 2))
for process in (b"d0", b"p0"):
    print("lose", process, client._misc_cmd([b"cocytus_fail " + process + b" 0\r\n"], b"cocytus_fail", False))
print("get", client.get("cart:7"), client.get("count"))
print("append", client.append("cart:7", ", 1 pear"), client.get("cart:7"))
print("touch", client.touch("count", 60), "delete", client.delete("count"), client.get("count"))
print("version", client.version())
