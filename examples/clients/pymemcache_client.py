# What pymemcache does over HOST PORT (Debian: python3-pymemcache). A line for each: its name, and yes or no.

import sys
import time

from pymemcache.client.base import Client

client = Client((sys.argv[1], int(sys.argv[2])), default_noreply=False, timeout=5, connect_timeout=5)
large = bytes(range(256)) * 4000
many = {f"py:many:{at}": b"%d" % at for at in range(100)}


def tried(name, call):
    try:
        print(name, "yes" if call() else "no", flush=True)
    except Exception as error:
        print(name, "no:", type(error).__name__, str(error).splitlines()[:1], flush=True)


def cas():
    value, unique = client.gets("py:a")
    return client.cas("py:a", "by cas", unique) and client.cas("py:a", "late", unique) is False and client.get("py:a") == b"by cas"


def expiry():
    client.set("py:short", "x", expire=1)
    client.set("py:kept", "x", expire=1)
    client.touch("py:kept", 60)
    time.sleep(2.1)
    return client.get("py:short") is None and client.get("py:kept") == b"x"


client.delete_many(["py:a", "py:b", "py:n", "py:none", *many])
tried("set", lambda: client.set("py:a", "one"))
tried("get", lambda: client.get("py:a") == b"one" and client.get("py:none") is None)
tried("add", lambda: client.add("py:b", "two") and not client.add("py:b", "three") and client.get("py:b") == b"two")
tried("replace", lambda: client.replace("py:b", "four") and not client.replace("py:none", "x"))
tried("append", lambda: client.append("py:b", "+") and client.get("py:b") == b"four+")
tried("prepend", lambda: client.prepend("py:b", "-") and client.get("py:b") == b"-four+")
tried("cas", cas)
tried("incr", lambda: client.set("py:n", "41") and client.incr("py:n", 1) == 42 and client.incr("py:none", 1) is None)
tried("decr", lambda: client.decr("py:n", 50) == 0)
tried("delete", lambda: client.delete("py:b") and not client.delete("py:b"))
tried("touch", lambda: client.touch("py:a", 60) and not client.touch("py:none", 60))
tried("expiry", expiry)
tried("noreply", lambda: client.set("py:b", "quiet", noreply=True) and client.get("py:b") == b"quiet")
tried("large", lambda: client.set("py:large", large) and client.get("py:large") == large)
tried("many", lambda: client.set_many(many) == [] and client.get_many(list(many)) == many)
tried("version", lambda: client.version())
tried("stats", lambda: client.stats())
tried("flush_all", lambda: client.flush_all())
