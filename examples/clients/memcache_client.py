# What python-memcached does over HOST PORT (Debian: python3-memcache). A line for each: its name, and yes or no.

import sys
import time

import memcache

client = memcache.Client([f"{sys.argv[1]}:{sys.argv[2]}"], cache_cas=True, socket_timeout=5)
large = "0123456789" * 100_000
many = {f"pm:many:{at}": f"{at}" for at in range(100)}


def tried(name, call):
    try:
        print(name, "yes" if call() else "no", flush=True)
    except Exception as error:
        print(name, "no:", type(error).__name__, str(error).splitlines()[:1], flush=True)


# The library keeps the cas number that `gets` read; another client's set makes it old.
def cas():
    other = memcache.Client([f"{sys.argv[1]}:{sys.argv[2]}"])
    client.gets("pm:a")
    stored = client.cas("pm:a", "by cas")
    client.gets("pm:a")
    other.set("pm:a", "between")
    return stored and not client.cas("pm:a", "late") and client.get("pm:a") == "between"


def expiry():
    client.set("pm:short", "x", time=1)
    client.set("pm:kept", "x", time=1)
    client.touch("pm:kept", 60)
    time.sleep(2.1)
    return client.get("pm:short") is None and client.get("pm:kept") == "x"


client.delete_multi(["pm:a", "pm:b", "pm:n", "pm:none", *many])
tried("set", lambda: client.set("pm:a", "one"))
tried("get", lambda: client.get("pm:a") == "one" and client.get("pm:none") is None)
tried("add", lambda: client.add("pm:b", "two") and not client.add("pm:b", "three") and client.get("pm:b") == "two")
tried("replace", lambda: client.replace("pm:b", "four") and not client.replace("pm:none", "x"))
tried("append", lambda: client.append("pm:b", "+") and client.get("pm:b") == "four+")
tried("prepend", lambda: client.prepend("pm:b", "-") and client.get("pm:b") == "-four+")
tried("cas", cas)
tried("incr", lambda: client.set("pm:n", "41") and client.incr("pm:n") == 42 and client.incr("pm:none") is None)
tried("decr", lambda: client.decr("pm:n", 50) == 0)
tried("delete", lambda: client.delete("pm:b") and client.get("pm:b") is None)
tried("touch", lambda: client.touch("pm:a", 60))
tried("expiry", expiry)
tried("noreply", lambda: client.set("pm:b", "quiet", noreply=True) and client.get("pm:b") == "quiet")
tried("large", lambda: client.set("pm:large", large) and client.get("pm:large") == large)
tried("many", lambda: client.set_multi(many) == [] and client.get_multi(list(many)) == many)
tried("stats", lambda: client.get_stats()[0][1])
tried("flush_all", lambda: [client.flush_all(), client.get("pm:a") is None][1])
