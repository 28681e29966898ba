#!/bin/sh
# Sessions of PHP in a server: sessions.sh PORT
cd "$(dirname "$0")"
port=$1
work=$(mktemp -d)
page() { id=$1; shift; printf '%s' "$how"; php "$@" session.php "$id" 2>&1 | tr '\n' ' '; echo; }
for more in "" "-d memcached.sess_binary_protocol=0"; do
    echo "php-memcached session $more"
    how=${more:+text: }
    how=${how:-binary: }
    for i in 1 2 3; do page "one$$${more:+text}" -d session.save_handler=memcached -d session.save_path="127.0.0.1:$port" $more; done
done
how=
echo "php-memcached, text: four pages at once, each holds the lock for half a second"
for i in 1 2 3 4; do php -d session.save_handler=memcached -d session.save_path="127.0.0.1:$port" -d memcached.sess_binary_protocol=0 session.php "two$$" 0.5 > "$work/$i" 2>&1 & done
wait
cat "$work"/* | sort; rm -r "$work"
echo "php-memcache session"
for i in 1 2 3; do page "three$$" -d session.save_handler=memcache -d session.save_path="tcp://127.0.0.1:$port"; done
echo "php-memcache session, two servers of the same, redundancy 2"
for i in 1 2; do page "four$$" -d session.save_handler=memcache -d session.save_path="tcp://127.0.0.1:$port" -d memcache.session_redundancy=2; done
