# What pylibmc does over HOST PORT (Debian: python3-pylibmc, over libmemcached). A line for each: its name, and yes or no.

import sys
import time

import pylibmc

client = pylibmc.Client([f"{sys.argv[1]}:{sys.argv[2]}"], behaviors={"cas": True, "receive_timeout": 5_000_000})
large = bytes(range(256)) * 4000
many = {f"pl:many:{at}": b"%d" % at for at in range(100)}


def tried(name, call):
    try:
        print(name, "yes" if call() else "no", flush=True)
    except Exception as error:
        print(name, "no:", type(error).__name__, str(error).splitlines()[:1], flush=True)


def cas():
    value, unique = client.gets("pl:a")
    stored = client.cas("pl:a", b"by cas", unique)
    return stored and not client.cas("pl:a", b"late", unique) and client.get("pl:a") == b"by cas"


def is_missing(call):
    try:
        return call() is None
    except pylibmc.NotFound:
        return True


def expiry():
    client.set("pl:short", b"x", time=1)
    client.set("pl:kept", b"x", time=1)
    client.touch("pl:kept", 60)
    time.sleep(2.1)
    return client.get("pl:short") is None and client.get("pl:kept") == b"x"


client.delete_multi(["pl:a", "pl:b", "pl:n", "pl:none", *many])
tried("set", lambda: client.set("pl:a", b"one"))
tried("get", lambda: client.get("pl:a") == b"one" and client.get("pl:none") is None)
tried("add", lambda: client.add("pl:b", b"two") and not client.add("pl:b", b"three") and client.get("pl:b") == b"two")
tried("replace", lambda: client.replace("pl:b", b"four") and not client.replace("pl:none", b"x"))
tried("append", lambda: client.append("pl:b", b"+") and client.get("pl:b") == b"four+")
tried("prepend", lambda: client.prepend("pl:b", b"-") and client.get("pl:b") == b"-four+")
tried("cas", cas)
tried("incr", lambda: client.set("pl:n", 41) and client.incr("pl:n") == 42 and is_missing(lambda: client.incr("pl:none")))
tried("decr", lambda: client.decr("pl:n", 50) == 0)
tried("delete", lambda: client.delete("pl:b") and not client.delete("pl:b"))
tried("touch", lambda: client.touch("pl:a", 60))
tried("expiry", expiry)
tried("large", lambda: client.set("pl:large", large) and client.get("pl:large") == large)
tried("many", lambda: client.set_multi(many) == [] and client.get_multi(list(many)) == many)
tried("stats", lambda: client.get_stats()[0][1])
tried("flush_all", lambda: client.flush_all())
