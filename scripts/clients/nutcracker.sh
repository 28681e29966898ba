#!/bin/sh
# twemproxy (nutcracker) in front of three servers, by ketama: nutcracker.sh PORT PORT PORT
work=$(mktemp -d)
chmod 755 "$work"
front=$((20000 + $$ % 20000))
cat > "$work/conf.yml" <<END
pool:
  listen: 127.0.0.1:$front
  hash: fnv1a_64
  distribution: ketama
  auto_eject_hosts: true
  server_failure_limit: 2
  server_retry_timeout: 2000
  timeout: 20000
  servers:
   - 127.0.0.1:$1:1 one
   - 127.0.0.1:$2:1 two
   - 127.0.0.1:$3:1 three
END
nutcracker -c "$work/conf.yml" -s $((front + 1)) -p "$work/pid" -v 4 -o "$work/log" &
proxy=$!
sleep 0.5
cd "$(dirname "$0")"
/usr/bin/python3 - "$front" <<'END'
from say import port, say
from pymemcache.client.base import Client

c = Client(("127.0.0.1", port), timeout=60, default_noreply=False)
say("set, get", lambda: (c.set("a", "1"), c.get("a")))
say("add twice", lambda: (c.add("lock", "1", expire=9), c.add("lock", "2", expire=9), c.delete("lock")))
say("incr", lambda: (c.set("n", "4"), c.incr("n", 1)))
say("touch", lambda: c.touch("a", 60))
say("set 400", lambda: sum(c.set(f"k{i}", str(i)) for i in range(400)))
for m in (64, 150, 200, 400):
    say(f"get_many {m}", lambda: len(c.get_many([f"k{i}" for i in range(m)])))
say("get after it", lambda: c.get("a"))
say("set with noreply, get", lambda: (c.set("q", "1", noreply=True), c.get("q")))
say("1 MB", lambda: (c.set("big", b"x" * 1000000), len(c.get("big"))))
say("2 MB", lambda: c.set("big", b"x" * 2000000))
say("get after it", lambda: c.get("a"))
say("version", lambda: c.version())
END
grep -i "eject\|close\|err" "$work/log" | sed 's/^[^a-z]*//' | head -5
kill $proxy
rm -r "$work"
