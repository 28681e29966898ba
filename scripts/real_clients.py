"""What `scripts/real_clients` does through Python's clients of memcached: each call once, with its answer."""

import sys


def check(what, found, wanted):
    if found != wanted:
        sys.exit(f"{what}: {found!r}, wanted {wanted!r}")


def with_pymemcache(port):
    from pymemcache.client.base import Client

    client = Client(("127.0.0.1", port), default_noreply=False, timeout=10)
    check("set", client.set("a", b"one", expire=100, flags=7), True)
    check("get", client.get("a"), b"one")
    check("get of none", client.get("none"), None)
    value, unique = client.gets("a")
    check("gets", value, b"one")
    check("add where one is", client.add("a", b"x"), False)
    check("add", client.add("b", b"two"), True)
    check("replace", client.replace("b", b"three"), True)
    check("replace of none", client.replace("none", b"x"), False)
    check("append", client.append("b", b"+"), True)
    check("prepend", client.prepend("b", b"-"), True)
    check("get_many", client.get_many(["a", "b", "none"]), {"a": b"one", "b": b"-three+"})
    check("gets_many", client.gets_many(["a"]), {"a": (b"one", unique)})
    check("cas", client.cas("a", b"four", unique), True)
    check("cas that is late", client.cas("a", b"five", unique), False)
    check("cas of none", client.cas("none", b"five", unique), None)
    check("set of a number", client.set("n", b"41"), True)
    check("incr", client.incr("n", 1), 42)
    check("decr", client.decr("n", 50), 0)
    check("incr of none", client.incr("none", 1), None)
    check("touch", client.touch("a", 50), True)
    check("touch of none", client.touch("none", 50), False)
    check("set_many", client.set_many({f"k{i}": b"v" * i for i in range(64)}), [])
    check("get_many of many", len(client.get_many([f"k{i}" for i in range(64)])), 64)
    check("delete", client.delete("a"), True)
    check("delete of none", client.delete("a"), False)
    check("version", client.version(), b"eve-1")
    check("set without a reply", client.set("q", b"quiet", noreply=True), True)
    check("get after it", client.get("q"), b"quiet")
    large = bytes(range(256)) * 4096
    check("set of a large block", client.set("large", large), True)
    check("get of a large block", client.get("large") == large, True)
    client.quit()


def with_pylibmc(port):
    import pylibmc

    client = pylibmc.Client([f"127.0.0.1:{port}"], behaviors={"cas": True})
    check("set", client.set("pa", "one", time=100), True)
    check("get", client.get("pa"), "one")
    check("gets", client.gets("pa")[0], "one")
    unique = client.gets("pa")[1]
    check("cas", client.cas("pa", "two", unique), True)
    check("cas that is late", client.cas("pa", "three", unique), False)
    check("add where one is", client.add("pa", "x"), False)
    check("add", client.add("pb", b"three"), True)
    check("replace", client.replace("pb", b"four"), True)
    check("append", client.append("pb", b"+"), True)
    check("prepend", client.prepend("pb", b"-"), True)
    check("get_multi", client.get_multi(["pa", "pb", "none"]), {"pa": "two", "pb": b"-four+"})
    check("set_multi", client.set_multi({f"p{i}": i for i in range(64)}), [])
    check("get_multi of many", client.get_multi([f"p{i}" for i in range(64)]), {f"p{i}": i for i in range(64)})
    check("set of a number", client.set("pn", 41), True)
    check("incr", client.incr("pn"), 42)
    check("decr", client.decr("pn", 50), 0)
    check("touch", client.touch("pa", 50), True)
    check("delete", client.delete("pa"), True)
    check("delete of none", client.delete("pa"), False)
    client.disconnect_all()


def versions():
    import pylibmc
    import pymemcache

    print(f"pymemcache {pymemcache.__version__}")
    print(f"pylibmc {pylibmc.__version__} (libmemcached {pylibmc.libmemcached_version})")


if sys.argv[1] == "versions":
    versions()
elif sys.argv[1] == "pymemcache":
    with_pymemcache(int(sys.argv[2]))
else:
    with_pylibmc(int(sys.argv[2]))
