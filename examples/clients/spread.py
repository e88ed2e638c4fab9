# How keys spread over servers behind a proxy, by pymemcache (Debian: python3-pymemcache): python3 spread.py PROXY:PORT SERVER:PORT..
# It sets 3,000 keys at the proxy, reads them back there, one by one and in hundreds, and asks each server which of them it has.

import sys
from collections import Counter

from pymemcache.client.base import Client

KEYS = [f"spread:{at}" for at in range(3000)]


def client(address):
    host, port = address.split(":")
    return Client((host, int(port)), default_noreply=False, timeout=5)


# What a call gives, or the error that it ends with.
def outcome(call):
    try:
        return call()
    except Exception as error:
        return f"{type(error).__name__} {error}"


proxy, *servers = [client(address) for address in sys.argv[1:]]
print("set", dict(Counter(outcome(lambda key=key: proxy.set(key, key)) for key in KEYS)))
print("get", dict(Counter("right" if (got := outcome(lambda key=key: proxy.get(key))) == key.encode() else got for key in KEYS)))
hundreds = [KEYS[at : at + 100] for at in range(0, len(KEYS), 100)]
print("get of a hundred", dict(Counter(str(got if isinstance(got := outcome(lambda keys=keys: proxy.get_many(keys)), str) else len(got)) for keys in hundreds)))
for address, server in zip(sys.argv[2:], servers):
    print(address, outcome(lambda: sum(len(server.get_many(keys)) for keys in hundreds)))
